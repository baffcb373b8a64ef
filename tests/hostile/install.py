"""make install, make lib and the Debian package: where they are put, and what a full disk leaves. Stubs stand for the programs and libraries."""
import os
import shutil
import stat
import subprocess
import tempfile
import unittest
from pathlib import Path

from checkout import OUT_OF_TIME, PROGRAMS, can_mount
from results import BUILT, TOP

INSTALLED = ["Makefile", "CHANGELOG.md", "HANDLES", "LICENSE-APACHE", "LICENSE-MIT", "NOTICE", "README.md", "SECURITY.md", "completions", "crates.txt", "docs"]
INSTALLED += ["editors", "embed", "examples", "man", "packaging", "scripts", "tools"]


class Stage(unittest.TestCase):
    """A copy of what is installed, beside programs that are made."""

    def setUp(self) -> None:
        self.scratch = Path(self.enterContext(tempfile.TemporaryDirectory()))
        self.top = self.scratch / "a copy"
        self.top.mkdir()
        for name in INSTALLED:
            made = self.top / name
            shutil.copytree(TOP / name, made, ignore=shutil.ignore_patterns("out", "__pycache__")) if (TOP / name).is_dir() else shutil.copy(TOP / name, made)
        (self.top / "crates").mkdir()
        self.made = self.scratch / "made"
        self.made.mkdir()
        for name in PROGRAMS:
            shutil.copy(BUILT, self.made / name)
        outside = {name: value for name, value in os.environ.items() if name not in ["MAKEFLAGS", "MAKELEVEL", "MFLAGS", "PREFIX", "DESTDIR", "CDPATH"]}
        self.environment = {**outside, "PATH": "/usr/bin:/bin"}

    def run_there(self, *words: str, **named: object) -> subprocess.CompletedProcess[str]:
        """A command in the copy; more words are those of subprocess.run."""
        settings = {"cwd": self.top, "env": self.environment, "capture_output": True, "text": True, "timeout": OUT_OF_TIME, "check": False, **named}
        return subprocess.run(words, **settings)

    def make(self, *words: str, goal: str = "install-built", **named: object) -> None:
        ran = self.run_there("make", "--silent", goal, f"BUILT={self.made}", "strip=", *words, **named)
        self.assertEqual((ran.returncode, ran.stdout, ran.stderr), (0, "", ""))


class Install(Stage):
    def has_all(self, prefix: Path) -> None:
        """In a prefix stands all that is installed, and it runs."""
        for name in "bin/checktestdata", "share/man/man1/ctd-lint.1", "share/vim/vimfiles/syntax/checktestdata.vim":
            self.assertTrue((prefix / name).is_file(), name)
        for kept, found in ("docs", "share/doc/checktestdata/docs"), ("examples", "share/doc/checktestdata/examples"), ("editors/vscode", "share/checktestdata/vscode"):
            self.assertEqual(*(sorted(path.relative_to(top) for path in top.rglob("*")) for top in (TOP / kept, prefix / found)))
        ran = self.run_there(str(prefix / "bin/ctd-show"), "--version")
        self.assertEqual(ran.returncode, 0, ran)

    def test_a_folder_of_this_one(self) -> None:
        before = {*self.top.rglob("*")}
        self.make("DESTDIR=stage")
        self.has_all(self.top / "stage/usr/local")
        made = {path.relative_to(self.top).parts[0] for path in {*self.top.rglob("*")} - before}
        self.assertEqual(made, {"stage"})
        self.make("DESTDIR=stage", goal="uninstall")
        self.assertEqual([path for path in (self.top / "stage").rglob("*") if not path.is_dir()], [])

    def test_a_prefix_that_is_no_full_path(self) -> None:
        self.make("PREFIX=stage")
        self.has_all(self.top / "stage")

    def test_names_that_the_shell_reads(self) -> None:
        prefix = self.scratch / """it's a "prefix" & |more|, (`x`);* ~"""
        self.make(f"PREFIX={prefix}")
        self.has_all(prefix)
        self.make(f"PREFIX={prefix}", goal="uninstall")
        self.assertEqual([path for path in prefix.rglob("*") if not path.is_dir()], [])

    def test_a_umask_that_lets_nobody_else_in(self) -> None:
        self.make(f"PREFIX={self.scratch}/prefix", umask=0o077)
        found = {path: stat.S_IMODE(path.lstat().st_mode) for path in (self.scratch / "prefix").rglob("*") if not path.is_symlink()}
        self.assertEqual({path: mode for path, mode in found.items() if mode & 0o055 != (0o055 if path.is_dir() else 0o044) and mode != 0o755}, {})

    def test_cdpath(self) -> None:
        self.environment["CDPATH"] = f".:{self.scratch}"
        self.make("DESTDIR=stage")
        self.has_all(self.top / "stage/usr/local")

    def test_the_library_below_a_name_that_the_shell_reads(self) -> None:
        for name in "libchecktestdata.a", "libchecktestdata.so.1":
            (self.top / "embed/out").mkdir(exist_ok=True)
            (self.top / "embed/out" / name).touch()
        prefix = self.scratch / "it's a & |prefix|"
        self.make("-o", "build-lib", f"PREFIX={prefix}", goal="lib", umask=0o077)
        settings = (prefix / "lib/pkgconfig/checktestdata.pc").read_text()
        self.assertIn(f"libdir={prefix}/lib\nincludedir={prefix}/include\nVersion: 1.0\n", settings)
        self.assertEqual(stat.S_IMODE((prefix / "lib/pkgconfig").stat().st_mode), 0o755)
        if shutil.which("pkg-config"):
            words = self.run_there("pkg-config", "--libs", "checktestdata", env={**self.environment, "PKG_CONFIG_PATH": f"{prefix}/lib/pkgconfig"})
            self.assertEqual(self.run_there("sh", "-c", f"printf '%s\\n' {words.stdout}").stdout, f"-L{prefix}/lib\n-lchecktestdata\n")


@unittest.skipUnless(shutil.which("dpkg-deb"), "dpkg-deb is not there")
@unittest.skipIf(shutil.which("rt", path="/usr/bin:/bin"), "rt is in /usr/bin")
class Package(Stage):
    def setUp(self) -> None:
        super().setUp()
        self.made.rename(self.top / "out")
        self.environment |= {"SOURCE_DATE_EPOCH": "1000000000", "OUT": str(self.scratch)}

    def test_a_maintainer_with_marks_of_sed(self) -> None:
        ran = self.run_there("packaging/deb.sh", "1.0", env={**self.environment, "DEBFULLNAME": r"A|B&C\1/D", "DEBEMAIL": "a@b.example"})
        self.assertEqual(ran.returncode, 0, ran)
        self.assertEqual(self.run_there("dpkg-deb", "--field", ran.stdout.strip(), "Maintainer").stdout, "A|B&C\\1/D <a@b.example>\n")

    def test_a_maintainer_of_two_lines(self) -> None:
        ran = self.run_there("packaging/deb.sh", "1.0", env={**self.environment, "DEBFULLNAME": "A\nDepends: everything\nB"})
        self.assertEqual((ran.returncode, list(self.scratch.glob("*.deb*"))), (1, []))

    @unittest.skipUnless(can_mount(), "no file system of its own can be mounted")
    def test_a_full_disk(self) -> None:
        full = self.scratch / "full"
        full.mkdir()
        script = f"mount -t tmpfs -o size=100k none '{full}' && packaging/deb.sh 1.0 2>/dev/null; echo $?; ls -A '{full}'"
        ran = self.run_there("unshare", "-rm", "sh", "-c", script, env={**self.environment, "OUT": str(full)})
        self.assertEqual(ran.stdout, "1\n", ran)
