"""A copy of this checkout as a stranger has it: without the toolchain, with nothing built, and with a stub for the C compiler. In place of each program
the stub makes a script that prints its words."""
import lzma
import os
import shutil
import signal
import subprocess
import tempfile
import time
import unittest
from pathlib import Path

from results import TOP

OUT_OF_TIME = 240
PROGRAMS = ["checktestdata", "ctd-lint"]
COMPILER = """#!/bin/sh -e
kind=program
while [ $# -gt 0 ]; do
    [ "$1" != -o ] || made=$2
    [ "$1" != -c ] || kind=object
    shift
done
# (an object file takes as long as the test wants, in a process of its own, as in a compiler)
[ "$kind" = program ] || sh -c "sleep ${COMPILER_SECONDS:-0}; exit 0"
printf '#!/bin/sh\\necho "compiled $*"\\nexit 0\\n' >"$made"
[ "$kind" = object ] || head -c "${PROGRAM_BYTES:-1}" /dev/zero >>"$made"
chmod +x "$made"
"""


def can_mount() -> bool:
    """Whether a process may have file systems of its own."""
    return shutil.which("unshare") is not None and subprocess.run(["unshare", "-rm", "true"], capture_output=True, check=False).returncode == 0


@unittest.skipIf(shutil.which("rt", path="/usr/bin:/bin"), "rt is in /usr/bin")
class Checkout(unittest.TestCase):
    @classmethod
    def setUpClass(cls) -> None:
        """Makes what each test copies: all that the programs are compiled from, and a packed file that is of these sources."""
        cls.sources = Path(cls.enterClassContext(tempfile.TemporaryDirectory()))
        for name in [*PROGRAMS, "HANDLES", "crates.txt", "scripts", "portable", "embed/checktestdata.h", *TOP.glob("crates/*/src")]:
            made = cls.sources / (TOP / name).relative_to(TOP)
            made.parent.mkdir(parents=True, exist_ok=True)
            shutil.copytree(TOP / name, made) if (TOP / name).is_dir() else shutil.copy2(TOP / name, made)
        packed = cls.sources / "portable/checktestdata.c.xz"
        packed.write_bytes(lzma.compress(b""))
        sums = subprocess.run([cls.sources / "portable/sums.sh"], capture_output=True, check=True).stdout
        packed.with_name("checktestdata.c.sums").write_bytes(sums)

    def setUp(self) -> None:
        self.scratch = Path(self.enterContext(tempfile.TemporaryDirectory()))
        self.temporary = self.scratch / "temporary"
        self.temporary.mkdir()
        compiler = self.scratch / "cc"
        compiler.write_text(COMPILER)
        compiler.chmod(0o755)
        outside = {name: value for name, value in os.environ.items() if name not in ["MAKEFLAGS", "MAKELEVEL", "MFLAGS", "PREFIX", "DESTDIR", "CDPATH"]}
        self.environment = {**outside, "PATH": "/usr/bin:/bin", "CC": str(compiler), "TMPDIR": str(self.temporary)}
        self.top = shutil.copytree(self.sources, self.scratch / "a copy")

    def run_there(self, *words: str | Path, top: Path | None = None, **variables: str) -> subprocess.CompletedProcess[str]:
        environment = {**self.environment, **variables}
        return subprocess.run(words, cwd=top or self.top, env=environment, capture_output=True, text=True, timeout=OUT_OF_TIME, check=False)

    def runs(self, *words: str | Path, **named: str | Path) -> None:
        """A call of a program is answered by the program."""
        ran = self.run_there(*words, "a", "b", **named)
        self.assertEqual((ran.returncode, ran.stdout), (0, "compiled a b\n"), ran)

    def has_no_verdict(self, ran: subprocess.CompletedProcess[str], name: str, text: str = "") -> None:
        """A call ends with 2, and with one line that has a text."""
        self.assertEqual((ran.returncode, ran.stdout), (2, ""), ran)
        self.assertRegex(ran.stderr, rf"\A{name}: [^\n]*{text}[^\n]*\n\Z")

    def leaves_nothing(self) -> None:
        """No file of a compiler is left."""
        made = [*self.temporary.rglob("*"), *(self.top / "out").glob("compiling*")]
        self.assertEqual(made, [])

    def interrupt(self, *words: str, sent: signal.Signals) -> int:
        """The status of a command, after a signal to it and all that it started, as a terminal sends it. Nothing that it started is left."""
        with subprocess.Popen(
            words,
            cwd=self.top,
            env={**self.environment, "COMPILER_SECONDS": "61.25"},
            stdin=subprocess.DEVNULL,
            stderr=subprocess.PIPE,
            start_new_session=True,
            # What starts in the background of a shell ignores interrupts, and under nohup the end of a terminal.
            preexec_fn=lambda: signal.signal(sent, signal.SIG_DFL),
        ) as started:
            assert started.stderr
            while self.sleeping() < 4:
                time.sleep(0.1)
            os.killpg(started.pid, sent)
            status = started.wait(OUT_OF_TIME)
        deadline = time.monotonic() + 5
        while self.sleeping() and time.monotonic() < deadline:
            time.sleep(0.1)
        self.assertEqual(self.sleeping(), 0)
        return status

    def sleeping(self) -> int:
        """How many of the stub's processes run."""
        running = subprocess.run(["ps", "-eo", "args"], capture_output=True, text=True, check=True).stdout
        return running.splitlines().count("sleep 61.25")
