"""./checktestdata and ./ctd-lint: whatever is in their way, they run the program or end with status 2."""
import shutil
import signal
import unittest
from concurrent.futures import ThreadPoolExecutor

from checkout import PROGRAMS, Checkout, can_mount


class Status(Checkout):
    def test_a_copy_elsewhere(self) -> None:
        for name in PROGRAMS:
            shutil.copy(self.top / name, self.scratch)
            self.has_no_verdict(self.run_there(self.scratch / name, "a"), name, "link to this file")

    def test_no_command_at_all(self) -> None:
        for name in PROGRAMS:
            self.assertEqual(self.run_there(f"./{name}", PATH="/none").returncode, 2)

    def test_a_link_elsewhere(self) -> None:
        (self.scratch / "link").symlink_to(self.top / "checktestdata")
        self.runs(self.scratch / "link")

    def test_by_the_shell(self) -> None:
        for shell in "sh", "bash", "dash":
            if shutil.which(shell, path="/usr/bin:/bin"):
                self.runs(shell, "checktestdata")

    def test_a_folder_that_ends_with_a_line_feed(self) -> None:
        for name in PROGRAMS:
            self.runs(f"./{name}", top=shutil.copytree(self.sources, self.scratch / f"{name}\n"))

    def test_a_program_that_cannot_be_run(self) -> None:
        self.runs("./checktestdata")
        program = self.top / "out/checktestdata"
        for text in "#!/none/interpreter\n", "\x7fELF\0\0\0\0" * 9:
            program.write_text(text)
            ran = self.run_there("./checktestdata", "a")
            self.assertEqual((ran.returncode, ran.stdout), (2, ""), ran)
            self.assertIn(str(program), ran.stderr)

    def test_a_program_that_is_none_is_compiled_anew(self) -> None:
        self.runs("./checktestdata")
        program = self.top / "out/checktestdata"
        program.write_bytes(b"")
        self.runs("./checktestdata")
        program.chmod(0o644)
        self.runs("./checktestdata")

    def test_a_compiler_that_fails(self) -> None:
        for name in PROGRAMS:
            self.assertEqual(self.run_there(f"./{name}", "a", CC="false").returncode, 2)
        self.leaves_nothing()

    def test_options_of_the_callers_shell(self) -> None:
        for options in "errexit", "nounset:pipefail:errexit", "posix":
            self.runs("./checktestdata", SHELLOPTS=options)
            (self.top / "out/checktestdata").write_text("#!/none/interpreter\n")
            self.assertEqual(self.run_there("./checktestdata", "a", SHELLOPTS=options).returncode, 2)
            shutil.rmtree(self.top / "out")

    def test_two_first_runs_at_once(self) -> None:
        self.environment["COMPILER_SECONDS"] = "1"
        with ThreadPoolExecutor() as pool:
            for started in [pool.submit(self.runs, "./checktestdata") for _ in range(2)]:
                started.result()
        self.leaves_nothing()

    def test_cdpath(self) -> None:
        (self.scratch / "portable").mkdir()
        for folders in ".", f"{self.scratch}":
            self.runs("./checktestdata", CDPATH=folders)
            shutil.rmtree(self.top / "out")


class FirstRun(Checkout):
    def test_an_interrupt_leaves_nothing(self) -> None:
        for sent in signal.SIGINT, signal.SIGTERM, signal.SIGHUP:
            self.assertNotIn(self.interrupt("./checktestdata", "a", sent=sent), [0, 1])
            self.leaves_nothing()
        self.runs("./checktestdata")

    @unittest.skipUnless(can_mount(), "no file system of its own can be mounted")
    def test_a_full_disk(self) -> None:
        script = """mkdir -p out && mount -t tmpfs -o size=64k none out
        PROGRAM_BYTES=100000 ./checktestdata a b 2>/dev/null; echo "status $?"; ls -A out
        mount -o remount,size=1m out && PROGRAM_BYTES=100000 ./checktestdata a b 2>/dev/null; echo "status $?" """
        ran = self.run_there("unshare", "-rm", "sh", "-c", script)
        self.assertEqual(ran.stdout, "status 2\ncompiled a b\nstatus 0\n", ran)

    @unittest.skipUnless(can_mount(), "no file system of its own can be mounted")
    def test_a_checkout_that_cannot_be_written(self) -> None:
        script = "mount --bind . . && mount -o remount,ro,bind . && cd . && ./checktestdata a"
        ran = self.run_there("unshare", "-rm", "sh", "-c", f"cd .. && cd '{self.top.name}' && {script}")
        self.has_no_verdict(ran, "checktestdata", "cannot write to")


class Sources(Checkout):
    """Sources that changed since the program was compiled are told, and the program runs."""

    def test_a_source_of_the_program(self) -> None:
        self.runs("./checktestdata")
        self.assertEqual(self.run_there("./checktestdata").stderr, "")
        with (self.top / "crates/ctd_tool/src/lib.rt").open("a") as source:
            source.write("// another\n")
        self.runs("./checktestdata")
        ran = self.run_there("./checktestdata")
        self.assertEqual(ran.stderr, "checktestdata: crates/ctd_tool/src/lib.rt is newer than the program that runs here: `make` builds it anew\n")

    def test_a_source_that_is_the_same_but_for_its_time(self) -> None:
        self.runs("./checktestdata")
        (self.top / "crates/ctd_tool/src/lib.rt").touch()
        self.assertEqual(self.run_there("./checktestdata").stderr, "")

    def test_a_source_of_another_program(self) -> None:
        self.runs("./ctd-lint")
        with (self.top / "crates/ctd_tool/src/lib.rt").open("a") as source:
            source.write("// another\n")
        self.assertEqual(self.run_there("./ctd-lint").stderr, "")
