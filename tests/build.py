#!/usr/bin/env python3
"""Tries the rules of the build on a copy of the repository in which crates are empty and a stub stands for the toolchain: it writes down which
crate it proves and makes an empty file. Then, with the toolchain, on a repository of one small program. The last line counts what passed and failed."""
import os
import shutil
import signal
import subprocess
import sys
import tempfile
import time
import unittest
from pathlib import Path

from results import TOP, run_unit_tests

OUT_OF_TIME = 60
PROGRAM = "crates/checktestdata/out/checktestdata"
LIBRARY = "crates/ctd_capi/out/build/libctd_capi.a"

STUB = """#!/usr/bin/env bash
[ "$2" != --help ] || { echo '  --statements'; exit; }
name= made=
words=("$@")
while [ $# -gt 0 ]; do
    case $1 in
        --crate-name) name=$2 ;;
        -o) made=$2 ;;
        --extern) [[ $2 != *=../* || -e ${2#*=} ]] || { echo "not made yet: $2"; exit 2; } ;;
    esac
    shift
done
echo "$name ${words[*]}" >>"$STUB_LOG"
[ "$name" != "${STUB_FAILS:-none}" ] || { echo "a contract of $name"; exit 1; }
sleep "${STUB_SECONDS:-0}" & wait
mkdir -p "$(dirname "$made")"
echo "#!/bin/sh" >"$made"
chmod +x "$made"
echo 'a line of the toolchain'
rests=
[ "$name" != "${STUB_RESTS:-none}" ] || rests=' foreign=low::getpid'
echo "logic=proved functions=1$rests sum=1"
"""


def libraries() -> dict[str, list[str]]:
    """The crates of crates.txt, each with those of them that it uses."""
    lines = [line.partition(":") for line in (TOP / "crates.txt").read_text().splitlines() if line]
    named = {left.split()[0]: right.split() for left, _, right in lines}
    return {crate: [library for library in used if library in named] for crate, used in named.items()}


def below(crate: str) -> set[str]:
    """The crates that a crate stands on, and itself."""
    return {crate}.union(*(below(library) for library in LIBRARIES[crate]))


LIBRARIES = libraries()


class Build(unittest.TestCase):
    def setUp(self) -> None:
        # The blank in the name shows what is not quoted.
        self.scratch = Path(self.enterContext(tempfile.TemporaryDirectory(prefix="a copy ")))
        self.top = self.scratch / "top"
        self.top.mkdir()
        (self.top / "portable").mkdir()
        for name in ["Makefile", "HANDLES", "crates.txt", "checktestdata", "ctd-lint", "portable/obstacle.sh"]:
            shutil.copy(TOP / name, self.top / name)
        shutil.copytree(TOP / "scripts", self.top / "scripts")
        for crate in LIBRARIES:
            (self.top / "crates" / crate / "src").mkdir(parents=True)
            root = "main.rt" if (TOP / "crates" / crate / "src/main.rt").exists() else "lib.rt"
            (self.top / "crates" / crate / "src" / root).touch()
        self.log = self.scratch / "log"
        self.kit = Path(self.enterContext(tempfile.TemporaryDirectory()))
        (self.kit / "bin").mkdir()
        for name, script in {"rattle": STUB, "rattle-link": STUB, "rt": f"#!/bin/sh\necho {self.kit}/guide\n"}.items():
            (self.kit / "bin" / name).write_text(script)
            (self.kit / "bin" / name).chmod(0o755)
        outside = {name: value for name, value in os.environ.items() if name not in ["MAKEFLAGS", "MAKELEVEL", "MFLAGS"]}
        self.environment = {**outside, "PATH": f"{self.kit}/bin:{os.environ['PATH']}", "STUB_LOG": str(self.log)}

    def proved(self) -> list[str]:
        """The crates that were proved since the last call of this, in their order."""
        lines = self.log.read_text().splitlines() if self.log.exists() else []
        self.log.unlink(missing_ok=True)
        return [line.split()[0] for line in lines if " build " in line]

    def run_in_copy(self, *words: str, **variables: str) -> subprocess.CompletedProcess[str]:
        environment = {**self.environment, **variables}
        return subprocess.run(words, cwd=self.top, env=environment, capture_output=True, text=True, timeout=OUT_OF_TIME, check=False)

    def build(self, **variables: str) -> subprocess.CompletedProcess[str]:
        return self.run_in_copy("make", "build", **variables)

    def test_each_crate_is_proved_once_and_after_those_below_it(self) -> None:
        ran = self.build()
        self.assertEqual((ran.returncode, ran.stdout), (0, ""), ran)
        self.assertNotIn("a line of the toolchain", ran.stderr)
        order = self.proved()
        self.assertEqual(sorted(order), sorted(set(order)))
        self.assertLessEqual(below("checktestdata"), set(order))
        for crate in order:
            self.assertLessEqual(below(crate), {*order[: order.index(crate) + 1]})
            self.assertIn(f"proving {crate}\n", ran.stderr)
            self.assertRegex(ran.stderr, f"proved {crate} in 0 min [0-9]+ s\n")

    def test_only_what_changed_is_proved_again_and_what_stands_on_it(self) -> None:
        self.build()
        everything = self.proved()
        self.assertEqual((self.build().returncode, self.proved()), (0, []))
        (self.top / "crates/ctd_loader/src/lib.rt").touch()
        self.build()
        self.assertEqual(set(self.proved()), {crate for crate in everything if "ctd_loader" in below(crate)})
        (self.top / "crates/test_tool/src/new.rt").touch()
        self.assertEqual((self.build().returncode, self.proved()), (0, []))

    def test_a_failure_ends_the_build(self) -> None:
        ran = self.build(STUB_FAILS="ctd_syntax")
        self.assertEqual(ran.returncode, 2)
        # Other crates may say something between the two lines.
        self.assertIn("a contract of ctd_syntax\n", ran.stderr)
        self.assertIn("could not prove ctd_syntax, after 0 min ", ran.stderr)
        self.assertEqual([crate for crate in self.proved() if "ctd_syntax" in below(crate)], ["ctd_syntax"])
        self.assertFalse((self.top / PROGRAM).exists())
        self.assertEqual((self.build().returncode, "ctd_token" in self.proved()), (0, False))

    def test_a_crate_that_rests_on_a_contract_of_c_is_not_proved(self) -> None:
        ran = self.build(STUB_RESTS="ctd_syntax")
        self.assertEqual(ran.returncode, 2)
        self.assertIn("the gate refuses what this proof rests on: foreign=low::getpid\n", ran.stderr)
        self.assertIn("could not prove ctd_syntax, after 0 min ", ran.stderr)
        self.assertFalse((self.top / "crates/ctd_syntax/out/build/ctd_syntax.rlib").exists())
        self.assertFalse((self.top / PROGRAM).exists())

    def test_the_first_use_builds(self) -> None:
        ran = self.run_in_copy("./checktestdata", "a", "b")
        self.assertEqual((ran.returncode, ran.stdout), (0, ""), ran)
        self.assertIn("checktestdata", self.proved())
        self.assertEqual(self.run_in_copy("./checktestdata", STUB_FAILS="ctd_token").returncode, 0)
        self.assertEqual((self.run_in_copy("./ctd-lint", STUB_FAILS="ctd_token").returncode, self.proved()), (0, []))

    def test_a_static_library_is_made_by_the_given_compiler(self) -> None:
        ran = self.run_in_copy("make", "-f", "scripts/crates.mk", LIBRARY, TOOLCHAIN="/another/compiler")
        self.assertEqual(ran.returncode, 0, ran)
        words = self.log.read_text().splitlines()
        self.assertIn("--crate-type staticlib --toolchain /another/compiler", words[-1])
        self.assertTrue(all("--statements" in line for line in words[:-1]), words)
        self.assertTrue((self.top / LIBRARY).exists())

    def test_another_system_has_an_object_file_of_its_own(self) -> None:
        made = "crates/checktestdata/out/build/checktestdata.aarch64-unknown-linux-gnu.o"
        ran = self.run_in_copy("make", "-f", "scripts/crates.mk", "TARGET=aarch64-unknown-linux-gnu", made)
        self.assertEqual(ran.returncode, 0, ran)
        words = self.log.read_text().splitlines()
        self.assertIn(" --target aarch64-unknown-linux-gnu ", words[-1])
        self.assertTrue(all("--target" not in line for line in words[:-1]), words)
        self.assertTrue((self.top / made).exists())

    def test_a_program_over_the_libraries_of_rt(self) -> None:
        made = "crates/checktestdata/out/build/checktestdata.o"
        ran = self.run_in_copy("make", "-f", "scripts/crates.mk", "LIBRARY_FOLDER=rlib", made)
        self.assertEqual(ran.returncode, 0, ran)
        self.assertIn(" ctd_tool=../../crates/ctd_tool/out/rlib/ctd_tool.rlib ", self.log.read_text().splitlines()[-1])
        self.assertFalse((self.top / "crates/ctd_tool/out/build/ctd_tool.rlib").exists())

    def test_the_module_of_a_program_stays(self) -> None:
        compiler = self.kit / "toolchain/bin/clang"
        compiler.parent.mkdir(parents=True)
        compiler.write_text("#!/bin/sh\necho compiled\n")
        compiler.chmod(0o755)
        compiler.with_name("llvm-ar").symlink_to("clang")
        (self.scratch / "module.bc").write_text("a module")
        folder = self.run_in_copy("scripts/toolchain.sh", "checktestdata").stdout.rstrip("\n")
        ran = self.run_in_copy(f"{folder}/bin/clang", "-c", str(self.scratch / "module.bc"))
        self.assertEqual((ran.returncode, ran.stdout), (0, "compiled\n"), ran)
        self.assertEqual((self.top / "crates/checktestdata/out/build/checktestdata.bc").read_text(), "a module")
        self.assertEqual(self.run_in_copy(f"{folder}/bin/llvm-ar").stdout, "compiled\n")
        self.assertEqual([path for path in self.top.rglob("*") if path.is_symlink()], [])

    def test_an_interrupt_ends_all(self) -> None:
        environment = {**self.environment, "STUB_SECONDS": "61"}
        with subprocess.Popen(
            ["make", "build"],
            cwd=self.top,
            env=environment,
            stderr=subprocess.PIPE,
            start_new_session=True,
            # What starts in the background of a shell ignores interrupts, and so would make.
            preexec_fn=lambda: signal.signal(signal.SIGINT, signal.SIG_DFL),
        ) as make:
            assert make.stderr
            self.assertRegex(make.stderr.readline(), b"proving ")
            while not self.log.exists():
                time.sleep(0.1)
            os.killpg(make.pid, signal.SIGINT)
            # Its end is that of all that write there.
            make.stderr.read()
            self.assertNotEqual(make.wait(OUT_OF_TIME), 0)
        running = subprocess.run(["ps", "-eo", "args"], capture_output=True, text=True, check=True).stdout
        self.assertNotIn(f"{self.kit}/bin/rattle build", running)


@unittest.skipUnless(shutil.which("rt"), "the toolchain is not there")
class Toolchain(unittest.TestCase):
    """A repository of one program, with the scripts of this one and its own toolchain."""

    def setUp(self) -> None:
        self.top = Path(self.enterContext(tempfile.TemporaryDirectory()))
        (self.top / ".git").mkdir()
        shutil.copytree(TOP / "scripts", self.top / "scripts")
        shutil.copy(TOP / "HANDLES", self.top)

    def add_crate(self, line: str, root: str, text: str) -> None:
        """A crate with its line of crates.txt."""
        with (self.top / "crates.txt").open("a") as crates:
            crates.write(f"{line}\n")
        source = self.top / "crates" / line.partition(":")[0] / "src" / root
        source.parent.mkdir(parents=True)
        source.write_text(f"#![tactic(auto)]\n\n{text}")

    def run_there(self, *words: str) -> subprocess.CompletedProcess[str]:
        return subprocess.run(words, cwd=self.top, capture_output=True, text=True, timeout=10 * OUT_OF_TIME, check=False)

    def test_the_gate_takes_a_tree_in_which_a_program_was_built(self) -> None:
        self.add_crate("small:", "main.rt", "fn main() {}\n")
        made = "crates/small/out/small"
        ran = self.run_there("make", "-f", "scripts/crates.mk", made)
        self.assertEqual((ran.returncode, (self.top / made).exists()), (0, True), ran)
        self.assertTrue((self.top / "crates/small/out/build/small.bc").exists())
        ran = self.run_there("rt", "ci")
        self.assertEqual((ran.returncode, ran.stdout.splitlines()[-1]), (0, "1 passed, 0 failed"), ran)

    def test_a_contract_of_c_is_not_proved(self) -> None:
        self.add_crate(
            "low:",
            "lib.rt",
            "ghost use Rattle.std.specs.Prelude.{pos, ◌≡◌};\n\nunsafe extern \"C\" {\n    safe fn getpid() -> i32\n"
            "        ensures is_five { result ≡ pos 5 };\n}\n\npub fn five() -> i32\n    ensures { result ≡ pos 5 }\n{\n    getpid()\n}\n",
        )
        library = "crates/low/out/build/low.rlib"
        ran = self.run_there("make", "-f", "scripts/crates.mk", library)
        self.assertIn("the gate refuses what this proof rests on: foreign=low::getpid\n", ran.stderr)
        self.assertEqual((ran.returncode, (self.top / library).exists()), (2, False))


if __name__ == "__main__":
    sys.exit(run_unit_tests("build"))
