#!/usr/bin/env python3
"""Times the checker on whole runs, beside C programs written by hand that check the same data and report nothing.

For each case it prints the processor seconds of both, the least of some runs that alternate; their ratio, with the most that it should
be; and the checker's peak memory, with its limit. It ends with status 0 where every answer is right and no limit is passed."""
import argparse
import subprocess
import sys
import tempfile
from dataclasses import dataclass
from pathlib import Path

from cases import CASES, Case, turns, write

HERE = Path(__file__).resolve().parent
CHECKER = HERE.parent / "crates/checktestdata/out/checktestdata"


@dataclass
class Run:
    """One run: processor seconds, peak memory in MB, and whether it answered what it should."""

    seconds: float
    megabytes: float
    is_right: bool


def timed(by_hand: Path, words: list[str], data: Path, wanted: str) -> Run:
    """A run of a program below the launcher in C, since a child of Python would count Python's memory."""
    told = by_hand.with_name("told")
    with data.open("rb") as stdin:
        launched = subprocess.run([by_hand, "run", told, *words], stdin=stdin, capture_output=True, check=False)
    seconds, kilobytes, status = told.read_text().split()
    answer = (launched.stdout + launched.stderr).decode("latin-1").strip()
    return Run(float(seconds), int(kilobytes) / 1024, int(status) == 0 and answer == wanted)


def measure(case: Case, folder: Path, by_hand: Path, options: argparse.Namespace) -> bool:
    """Prints the line of a case; whether it is right and within its limits."""
    files = write(case, folder, options.scale)
    checker, plain = [], []
    extra = {"long-string": [str(files.program)], "arithmetic": [str(turns(options.scale))]}.get(case.name, [])
    for _ in range(options.runs):
        words = [str(options.checker), *files.options, str(files.program)]
        checker.append(timed(by_hand, words, files.data, "testdata ok!"))
        if case.most_ratio is not None:
            plain.append(timed(by_hand, [str(by_hand), case.name, *extra], files.data, "ok"))
    seconds = min(run.seconds for run in checker)
    megabytes = min(run.megabytes for run in checker)
    is_well = all(run.is_right for run in checker + plain) and megabytes <= case.most_megabytes
    times = f"{seconds:9.3f} {'':9} {'':7} {'':7}"
    if plain:
        ratio = seconds / max(min(run.seconds for run in plain), 1e-3)
        is_well = is_well and ratio <= case.most_ratio
        times = f"{seconds:9.3f} {min(run.seconds for run in plain):9.3f} {ratio:7.2f} {case.most_ratio:7.2f}"
    size = files.data.stat().st_size / 1e6
    mark = "" if is_well else "  <- short"
    print(f"{case.name:<12} {size:7.1f} {times} {megabytes:8.1f} {case.most_megabytes:8.1f}{mark}", flush=True)
    return is_well


def main() -> int:
    parser = argparse.ArgumentParser(description=__doc__, formatter_class=argparse.RawDescriptionHelpFormatter)
    parser.add_argument("--checker", type=Path, default=CHECKER)
    parser.add_argument("--folder", type=Path, default=Path(tempfile.gettempdir()) / "checktestdata-bench")
    parser.add_argument("--scale", type=float, default=1.0, help="1 for data of about a hundred megabytes")
    parser.add_argument("--only", default="", help="the cases whose names begin so")
    parser.add_argument("--runs", type=int, default=3)
    options = parser.parse_args()
    options.folder.mkdir(parents=True, exist_ok=True)
    by_hand = options.folder / "by_hand"
    subprocess.run(["cc", "-O2", "-o", by_hand, HERE / "by_hand.c"], check=True)
    heads = ("case", "MB", "checker", "by hand", "ratio", "most", "peak MB", "most")
    print("{:<12} {:>7} {:>9} {:>9} {:>7} {:>7} {:>8} {:>8}".format(*heads))
    folder = options.folder / f"scale-{options.scale:g}"
    chosen = [case for case in CASES if case.name.startswith(options.only)]
    return 0 if all([measure(case, folder, by_hand, options) for case in chosen]) else 1


if __name__ == "__main__":
    sys.exit(main())
