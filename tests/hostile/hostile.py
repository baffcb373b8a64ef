"""What the tests of hostile use share: they stand in a folder of their own, and use what the other tests do."""
from __future__ import annotations

import resource
import subprocess
import sys
import time
from collections.abc import Callable
from pathlib import Path

sys.path.insert(0, str(Path(__file__).resolve().parent.parent))
from companions import CHECKER, TOOLS, CompanionTest  # noqa: E402, F401
from results import TOP, run_unit_tests  # noqa: E402, F401

# How many seconds a companion may take to end, on a machine with much other work; and how many of a processor.
SOON = 60
OF_PROCESSOR = 10


def becomes_true(test: Callable[[], bool], seconds: float = SOON) -> bool:
    """Whether a test is true within so many seconds."""
    end = time.monotonic() + seconds
    while not test():
        if time.monotonic() > end:
            return False
        time.sleep(0.02)
    return True


class HostileTest(CompanionTest):
    """A companion that ends soon, whatever it is given, with status 2 and one line on standard error that has no traceback and no control character."""

    def put(self, files: dict[str, str | bytes]) -> None:
        """Writes files below the folder of the package `p`."""
        for name, text in files.items():
            path = self.folder / "p" / name
            path.parent.mkdir(parents=True, exist_ok=True)
            path.write_bytes(text if isinstance(text, bytes) else text.encode("utf-8", "surrogatepass"))

    def run_soon(self, *words: str) -> subprocess.CompletedProcess[bytes]:
        call = [str(TOOLS / self.tool), "--checker", str(CHECKER), *words]

        def limit() -> None:
            resource.setrlimit(resource.RLIMIT_CPU, (OF_PROCESSOR, OF_PROCESSOR))

        return subprocess.run(call, cwd=self.folder, stdin=subprocess.DEVNULL, capture_output=True, timeout=SOON, check=False, preexec_fn=limit)

    def assert_refused(self, told: str, *words: str) -> None:
        """That a companion refuses what it is given, with a line that has a text, behind the name of the companion."""
        ran = self.run_soon(*words)
        self.assertEqual(ran.returncode, 2, ran)
        lines = ran.stderr.decode("utf-8", "surrogateescape").split("\n")
        self.assertEqual(len(lines), 2, lines)
        self.assertTrue(lines[0].startswith(f"{self.tool}: "), lines)
        self.assertIn(told, lines[0])
        self.assertTrue(all(one.isprintable() or "\udc80" <= one <= "\udcff" for one in lines[0]), lines)
