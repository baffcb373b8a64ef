#!/usr/bin/env python3
"""Tests the libraries in embed/out, or in the folder that LIBRARIES names: the C example and the examples of docs/EMBEDDING.md, buffers of every
size, valgrind where it is there, and the Python module on the rows of tests/tables/, many files and many threads. The last line counts what passed
and failed."""
import ctypes.util
import doctest
import os
import re
import shutil
import subprocess
import sys
import tempfile
import unittest
from collections.abc import Iterator
from concurrent.futures import ThreadPoolExecutor
from pathlib import Path

TOP = Path(__file__).resolve().parent.parent
OUT = Path(os.environ.get("LIBRARIES", TOP / "embed" / "out"))
os.environ.setdefault("CHECKTESTDATA_LIBRARY", str(OUT / "libchecktestdata.so.1"))
sys.path[:0] = [str(TOP / "tests"), str(TOP / "embed" / "python")]
import checktestdata
import tables
from checktestdata import Edge, Place, Spot, Status

GUIDE = (TOP / "docs" / "EMBEDDING.md").read_text()
LIST = "INT(1,1000,n) NEWLINE REPI(i,n,SPACE) INT(0,9,a[i]) END NEWLINE"


def calls_of_rows(*files: str) -> Iterator[tuple[str, bytes, bytes, bytes, tuple[int, str]]]:
    """The rows of tests/tables/, or of these files there: the name, words, program, data, and the status and the message that are wanted."""
    for file in sorted((TOP / "tests" / "tables").glob("*.toml")):
        for name, row in tables.rows_of(file) if not files or file.stem in files else ():
            if row.fails:
                continue
            words = "\0".join(["checktestdata", *map(tables.unfolded, row.words), "--", "program", "testdata"]).encode()
            status, out, err = row.wanted()
            yield name, words, tables.bytes_of(row.program), tables.bytes_of(row.data), (status, (out + err).decode().removesuffix("\n"))


def compiled(source: Path, folder: str, kind: str) -> Path:
    """A C program with the static or the shared library."""
    program = Path(folder) / f"{source.stem}-{kind}"
    library = [str(OUT / "libchecktestdata.so.1"), f"-Wl,-rpath,{OUT}"] if kind == "shared" else [str(OUT / "libchecktestdata.a")]
    words = ["cc", "-std=c11", "-Wall", "-Wextra", "-Werror", "-pthread", "-I", str(TOP / "embed"), str(source), *library, "-o", str(program)]
    subprocess.run(words, check=True)
    return program


class CLibrary(unittest.TestCase):
    def setUp(self) -> None:
        self.folder = self.enterContext(tempfile.TemporaryDirectory())

    def test_the_example_of_the_guide(self) -> None:
        text, wanted = (re.search(rf"```{start}.*?```", GUIDE, re.DOTALL)[0].strip("`") for start in ("c\n", "\nstatus"))
        source = Path(self.folder) / "main.c"
        source.write_text(text.removeprefix("c\n"))
        for kind in ("static", "shared"):
            ran = subprocess.run([compiled(source, self.folder, kind)], capture_output=True, text=True, check=True)
            self.assertEqual(ran.stdout, wanted.removeprefix("\n"))

    def test_the_example_program_on_files(self) -> None:
        program, data = Path(self.folder) / "list.ctd", Path(self.folder) / "list.in"
        program.write_text(LIST)
        rows = [("2\n1 2\n", 0, "testdata ok!\n", ""), ("2\n1 x\n", 1, "line 2 column 3: expected an integer (program line 1 column 39)\n", "")]
        check = compiled(TOP / "embed" / "example" / "check.c", self.folder, "static")
        for text, status, out, err in rows:
            data.write_text(text)
            ran = subprocess.run([check, program, data], capture_output=True, text=True)
            self.assertEqual((ran.returncode, ran.stdout, ran.stderr), (status, out, err))
        program.write_text("NUMBER")
        ran = subprocess.run([check, program, data], capture_output=True, text=True)
        self.assertEqual((ran.returncode, ran.stdout, ran.stderr), (2, "", "checktestdata: program line 1 column 1: syntax error\n"))

    def test_buffers_and_threads(self) -> None:
        check = compiled(TOP / "embed" / "test_buffers.c", self.folder, "shared")
        self.assertEqual(subprocess.run([check], capture_output=True, text=True).stdout, "ok\n")

    @unittest.skipUnless(shutil.which("valgrind"), "valgrind is not there")
    def test_memory_by_valgrind(self) -> None:
        check = compiled(TOP / "embed" / "test_buffers.c", self.folder, "static")
        ran = subprocess.run(["valgrind", "-q", "--error-exitcode=9", "--leak-check=full", check], capture_output=True, text=True)
        self.assertEqual((ran.returncode, ran.stdout), (0, "ok\n"), ran.stderr)

    def test_only_the_documented_function_is_exported(self) -> None:
        named = subprocess.run(["nm", "-D", "--defined-only", OUT / "libchecktestdata.so.1"], capture_output=True, text=True, check=True)
        self.assertEqual([line.split()[-1] for line in named.stdout.splitlines()], ["checktestdata_run"])


@unittest.skipIf("LIBRARIES" in os.environ, "the libraries are not in embed/out")
class Prefix(unittest.TestCase):
    """What is installed in a prefix that is no folder of the system is found by the variables that the guide names."""

    @classmethod
    def setUpClass(cls) -> None:
        cls.prefix = Path(cls.enterClassContext(tempfile.TemporaryDirectory())) / "own"
        outside = {name: value for name, value in os.environ.items() if name not in ["MAKEFLAGS", "MAKELEVEL", "MFLAGS", "CHECKTESTDATA_LIBRARY"]}
        cls.environment = {**outside, "PREFIX": str(cls.prefix), "PYTHONDONTWRITEBYTECODE": "1"}
        subprocess.run(["make", "--silent", "-o", "build-lib", "lib", f"PREFIX={cls.prefix}"], cwd=TOP, env=cls.environment, check=True)

    def test_python(self) -> None:
        call = [sys.executable, "-c", "import checktestdata; print(checktestdata.__file__, checktestdata.check('', b'').message)"]
        environment = {**self.environment, "PYTHONPATH": f"{self.prefix}/share/checktestdata/python"}
        ran = subprocess.run(call, env=environment, cwd="/", capture_output=True, text=True)
        self.assertEqual((ran.stdout, ran.stderr), (f"{self.prefix}/share/checktestdata/python/checktestdata.py testdata ok!\n", ""))

    @unittest.skipUnless(shutil.which("pkg-config"), "pkg-config is not there")
    def test_c(self) -> None:
        text, wanted = (re.search(rf"```{start}.*?```", GUIDE, re.DOTALL)[0].strip("`") for start in ("c\n", "\nstatus"))
        command = re.search(r"`(cc main\.c [^`]*)`", GUIDE)[1]
        settings = re.search(r"```sh\n(export PKG_CONFIG_PATH.*?)```", GUIDE, re.DOTALL)[1]
        with tempfile.TemporaryDirectory() as folder:
            (Path(folder) / "main.c").write_text(text.removeprefix("c\n"))
            ran = subprocess.run(["bash", "-c", f"{settings}{command} && ./main"], cwd=folder, env=self.environment, capture_output=True, text=True)
        self.assertEqual((ran.stdout, ran.stderr), (wanted.removeprefix("\n"), ""))


class PythonModule(unittest.TestCase):
    def test_the_examples_of_the_guide(self) -> None:
        for text in re.findall(r"```python\n(.*?)```", GUIDE, re.DOTALL):
            test = doctest.DocTestParser().get_doctest(text, {"checktestdata": checktestdata}, "EMBEDDING.md", None, 0)
            self.assertEqual(doctest.DocTestRunner().run(test).failed, 0)
        self.assertEqual(doctest.testmod(checktestdata).failed, 0)

    def test_where_a_command_failed(self) -> None:
        result = checktestdata.check("INT(1,5) NEWLINE\n  INT(1,5) NEWLINE", b"3\n7\n")
        self.assertEqual((result.status, result.spot, result.place), (Status.REJECTED, Spot(2, 1), Place(2, 3)))
        result = checktestdata.check("SPACE", b"  ")
        self.assertEqual((result.status, result.spot, result.place), (Status.REJECTED, Spot(1, 2), Edge.END))

    def test_a_refused_program_has_a_place_alone(self) -> None:
        result = checktestdata.check("SPACE\nSPAC", b" ")
        self.assertEqual((result.status, result.spot, result.place), (Status.NO_VERDICT, None, Place(2, 1)))

    def test_accepted_data_have_no_spot(self) -> None:
        result = checktestdata.check(b"", b"")
        self.assertEqual((result.accepted, result.message, result.spot, result.place), (True, "testdata ok!", None, None))

    def test_presets(self) -> None:
        program = 'ASSERT(n==-3 && s=="a\\"\\\\\\n" && STRLEN(s)==4)'
        self.assertTrue(checktestdata.check(program, b"", presets={"n": -3, "s": 'a"\\\n'}).accepted)
        self.assertTrue(checktestdata.check("ASSERT(n==7)", b"", presets="n=7").accepted)
        self.assertEqual(checktestdata.check("", b"", presets="n=").message, "checktestdata: bad preset")
        with self.assertRaises(ValueError):
            checktestdata.check("", b"", presets="n=\0")

    def test_data_that_are_no_bytes(self) -> None:
        with self.assertRaisesRegex(TypeError, r'^the data must be bytes, and not str: write b"\.\.", or encode the text by \.encode\(\)$'):
            checktestdata.check("INT(1,10) NEWLINE", "5\n")
        with self.assertRaisesRegex(TypeError, "^the data must be bytes, and not NoneType$"):
            checktestdata.check("INT(1,10) NEWLINE", None)
        with self.assertRaisesRegex(TypeError, "^the program must be its text, as str or bytes, and not PosixPath$"):
            checktestdata.check(Path("program.ctd"), b"5\n")

    def test_arguments_of_other_types(self) -> None:
        for wrong in (
            {"data": bytearray(b"5\n")},
            {"program": 5},
            {"presets": None},
            {"presets": 5},
            {"presets": ["n"]},
            {"presets": {"n": None}},
            {"presets": {"n": 1.5}},
            {"presets": {5: 1}},
            {"max_steps": "9"},
            {"max_steps": 1.5},
            {"whitespace_ok": "no"},
        ):
            with self.subTest(wrong), self.assertRaises(TypeError):
                checktestdata.check(**{"program": "", "data": b"", **wrong})

    def test_texts_that_no_file_can_hold(self) -> None:
        for wrong in {"program": "\ud800"}, {"presets": "n=\ud800"}, {"presets": {"n": "\ud800"}}, {"presets": {"\ud800": 1}}:
            with self.subTest(wrong), self.assertRaisesRegex(ValueError, "^a lone surrogate in the (program|presets)$"):
                checktestdata.check(**{"program": "", "data": b"", **wrong})

    def test_numbers_past_every_limit(self) -> None:
        for number in 10**5000, -(10**5000), 1 << 64:
            self.assertEqual(checktestdata.check("", b"", max_steps=number).message, "checktestdata: bad step limit")
        for number in 10**5000, -(10**5000), 1 << 127:
            self.assertEqual(checktestdata.check("", b"", presets={"n": number}).message, "checktestdata: bad preset")

    def test_presets_of_no_entry(self) -> None:
        self.assertTrue(checktestdata.check("", b"", presets={}).accepted)

    def test_another_library(self) -> None:
        for path, words in (ctypes.util.find_library("c"), "is no library of checktestdata"), ("/none/library.so", "/none/library.so"):
            call = "import checktestdata\ntry: checktestdata.check('', b'')\nexcept OSError as error: print(error)"
            self.assertIn(words, self.answer_of(call, CHECKTESTDATA_LIBRARY=path))

    def test_a_thread_of_a_small_stack(self) -> None:
        call = """import checktestdata, threading
threading.stack_size(65536)
program = "ASSERT(" + "(" * 198 + "1" + ")" * 198 + "==1)"
caller = threading.Thread(target=lambda: print(checktestdata.check(program, b"").message))
caller.start()
caller.join()
print(threading.stack_size())"""
        self.assertEqual(self.answer_of(call), "testdata ok!\n65536\n")

    def answer_of(self, call: str, **variables: str) -> str:
        """What a program of Python writes that uses the module."""
        environment = {**os.environ, "PYTHONPATH": str(TOP / "embed/python"), "PYTHONDONTWRITEBYTECODE": "1", **variables}
        return subprocess.run([sys.executable, "-c", call], env=environment, capture_output=True, text=True, check=False).stdout

    def test_options(self) -> None:
        self.assertTrue(checktestdata.check("INT(0,9) SPACE INT(0,9) NEWLINE", b"  1 \t 2 \r\n  ", whitespace_ok=True).accepted)
        self.assertEqual(checktestdata.check("SPACE", b" ", max_steps=1).message, "checktestdata: line 1 column 2: step limit reached (program end)")
        self.assertEqual(checktestdata.check("", b"", max_steps=-1).message, "checktestdata: bad step limit")

    def test_five_hundred_files_by_threads(self) -> None:
        files = [f"{n}\n{' '.join(['7'] * n)}\n".encode() for n in range(1, 501)]
        with ThreadPoolExecutor(8) as pool:
            self.assertEqual({result.status for result in pool.map(lambda data: checktestdata.check(LIST, data), files)}, {Status.ACCEPTED})
            broken = [data[:-1] for data in files]
            self.assertEqual({result.status for result in pool.map(lambda data: checktestdata.check(LIST, data), broken)}, {Status.REJECTED})

    def test_the_rows_of_the_tables(self) -> None:
        for name, words, program, data, wanted in calls_of_rows():
            result = checktestdata._run(words, program, data)
            with self.subTest(name):
                self.assertEqual((result.status, result.message), wanted)

    def test_the_rows_in_the_stack_that_the_guide_names(self) -> None:
        """A call that needs more ends the process."""
        stack = int(re.search(r"(\d+) KiB of stack", GUIDE)[1]) * 1024
        self.assertLessEqual(stack, checktestdata._STACK_SIZE)
        call = f"""import ctypes, sys, threading
sys.path[:0] = {sys.path[:2]}
import checktestdata, test
run = checktestdata._library().checktestdata_run
out, err, lengths, statuses = ctypes.create_string_buffer(4096), ctypes.create_string_buffer(4096), checktestdata._Lengths(), []
calls = [(words, program, data, wanted[0]) for _, words, program, data, wanted in test.calls_of_rows("depths", "nests", "patterns", "hostile")]
def call():
    for words, program, data, _ in calls:
        texts = [words, len(words), program, len(program), data, len(data), out, 4096, err, 4096]
        statuses.append(run(*texts, ctypes.byref(lengths)))
threading.stack_size({stack})
caller = threading.Thread(target=call)
caller.start()
caller.join()
print(statuses == [wanted for *_, wanted in calls], len(calls) > 50)"""
        self.assertEqual(self.answer_of(call, PYTHONPATH=f"{TOP / 'embed'}", CHECKTESTDATA_LIBRARY=os.environ["CHECKTESTDATA_LIBRARY"]), "True True\n")


if __name__ == "__main__":
    ran = unittest.main(exit=False, verbosity=0).result
    failed = len(ran.failures) + len(ran.errors)
    for test, reason in ran.skipped:
        print(f"left out: {test}: {reason}")
    print(f"{ran.testsRun - failed - len(ran.skipped)} passed, {failed} failed")
    sys.exit(failed != 0)
