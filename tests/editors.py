#!/usr/bin/env python3
"""Tries what is installed for shells and editors: completions, man pages against the options that there are, Vim and TextMate files.

What needs a shell or an editor that is not there is left out, and said. The last line counts what passed and failed.
usage: tests/editors.py [PROGRAM]"""
from __future__ import annotations

import json
import os
import pty
import re
import select
import shutil
import subprocess
import sys
import tempfile
import time
import unittest
from collections.abc import Iterator
from pathlib import Path
from typing import Any

from results import TOP, checker_to_test, run_unit_tests

CHECKER = checker_to_test()
LINTER = TOP / "crates/ctd_lint/out/ctd_lint"
COMMANDS = ["checktestdata", "ctd-lint", "ctd-show", "ctd-cover", "ctd-mutate", "ctd-package", "ctd-validate", "ctd-language-server"]
OUT_OF_TIME = 20
# What is on the help and not offered: it is refused.
NOT_OFFERED = {"--generate"}

# A program with each kind of word, and what each part of it is for an editor.
SAMPLE = r"""REPI(i,n1,SPACE) STRING("a\n\101") END IF(UNIQUE(a)) ELSE
FLOAT 05 1.5 INT1 1END # END
STRING("two
lines") x"""


def path_of(command: str) -> Path:
    return {"checktestdata": CHECKER, "ctd-lint": LINTER}.get(command, TOP / "tools" / command)


def has(command: str) -> bool:
    return shutil.which(command) is not None


def has_vim() -> bool:
    return has("vim") and "+syntax" in subprocess.run(["vim", "--version"], capture_output=True, text=True, check=False).stdout


def long_options(command: str) -> set[str]:
    """The long options that the help of a command has."""
    shown = subprocess.run([path_of(command), "--help"], capture_output=True, text=True, check=True).stdout
    return set(re.findall(r"(?<![\w-])--[a-z][a-z-]*", shown)) - NOT_OFFERED | {"--help", "--version"}


def programs() -> list[Path]:
    return sorted((TOP / "examples").rglob("*.ctd"))


class Options(unittest.TestCase):
    """The options of a command are those of its man page and of its completions."""

    def test_completions(self) -> None:
        forms = {"bash": ("{}", r"(?<![\w-])--[a-z][a-z-]*"), "zsh": ("_{}", r"(?<![\w-])--[a-z][a-z-]*"), "fish": ("{}.fish", r"(?<=-l )[a-z-]+")}
        for command in COMMANDS:
            for shell, (name, form) in forms.items():
                with self.subTest(command=command, shell=shell):
                    text = (TOP / "completions" / shell / name.format(command)).read_text()
                    text = text.replace("ctd-mutate --kinds", "")
                    offered = {option if shell != "fish" else f"--{option}" for option in re.findall(form, text)}
                    self.assertEqual(offered, long_options(command))

    def test_man_pages(self) -> None:
        for command in COMMANDS:
            with self.subTest(command):
                text = (TOP / f"man/{command}.1").read_text()
                options = {f"--{name}" for name in re.findall(r"Fl Fl ([a-z][a-z-]*)", text)}
                self.assertEqual(options - NOT_OFFERED, long_options(command))


class Terminal:
    """A shell on a terminal of its own, with commands on its path that write their words to a file."""

    def __init__(self, folder: Path, call: list[str]) -> None:
        self.told = folder / "told"
        (folder / "bin").mkdir()
        for command in COMMANDS:
            kinds = f'[ "$1" = --kinds ] && exec {TOP}/tools/ctd-mutate --kinds\n' if command == "ctd-mutate" else ""
            script = f"#!/bin/sh\n{kinds}printf '%s\\n' \"$@\" >{self.told}.new && mv {self.told}.new {self.told}\n"
            (folder / "bin" / command).write_text(script)
            (folder / "bin" / command).chmod(0o755)
        files = folder / "files"
        files.mkdir()
        for name in ["program.ctd", "progress.txt", "data.in"]:
            (files / name).touch()
        (files / "package").mkdir()
        self.ours, theirs = pty.openpty()
        environment = {"PATH": f"{folder}/bin:{os.environ['PATH']}", "TERM": "dumb", "PS1": "READY> ", "HOME": str(folder), "LANG": "C.UTF-8"}
        self.process = subprocess.Popen(call, cwd=files, stdin=theirs, stdout=theirs, stderr=theirs, env=environment, start_new_session=True)
        os.close(theirs)

    def wait_for_prompt(self) -> None:
        """Waits until the shell asks for a command."""
        seen, end = b"", time.monotonic() + OUT_OF_TIME
        while not re.search(rb"READY> (\x1b\[\?2004h)?$", seen):
            if not select.select([self.ours], [], [], max(0.0, end - time.monotonic()))[0]:
                raise TimeoutError(seen)
            seen += os.read(self.ours, 4096)

    def type(self, text: str) -> None:
        os.write(self.ours, text.encode())

    def words_of(self, keys: str) -> list[str]:
        """The words that a command gets for which these keys were typed."""
        self.told.unlink(missing_ok=True)
        self.type(keys + "\n")
        self.wait_for_prompt()
        return self.told.read_text().splitlines() if self.told.exists() else []

    def close(self) -> None:
        self.process.kill()
        self.process.wait()
        os.close(self.ours)


class Completions(unittest.TestCase):
    """A tab completes an option, a program and data."""

    KEYS = [
        ("checktestdata --max\t5 pro\t da\t", ["--max-steps=5", "program.ctd", "data.in"]),
        ("checktestdata --white\t pro\t da\t", ["--whitespace-ok", "program.ctd", "data.in"]),
        ("ctd-lint --def\tn=5 pro\t pro\t", ["--define=n=5", "program.ctd", "program.ctd"]),
        ("ctd-lint --ig\tno-b\t pro\t", ["--ignore=no-bound", "program.ctd"]),
        ("ctd-lint --ignore unread,no-b\t pro\t", ["--ignore", "unread,no-bound", "program.ctd"]),
        ("ctd-show --gc\t pro\t data.in da\t", ["--gcc", "program.ctd", "data.in", "data.in"]),
        ("ctd-cover --tab\t pro\t data.in da\t", ["--table", "program.ctd", "data.in", "data.in"]),
        ("ctd-package --js\t --verb\t package", ["--json", "--verbose", "package"]),
        ("ctd-language-server --ver\t", ["--version"]),
        ("ctd-validate --feed\t package pro\t n=5", ["--feedback", "package", "program.ctd", "n=5"]),
        ("ctd-mutate --only trail\t pro\t da\t", ["--only", "trailing-space", "program.ctd", "data.in"]),
        ("ctd-mutate --only plus,trail\t pro\t da\t", ["--only", "plus,trailing-space", "program.ctd", "data.in"]),
        ("ctd-mutate --ignore plus,hu\t pro\t da\t", ["--ignore", "plus,huge", "program.ctd", "data.in"]),
        ("ctd-mutate --only=plus,trail\t pro\t da\t", ["--only=plus,trailing-space", "program.ctd", "data.in"]),
    ]

    def try_shell(self, call: list[str], first: str) -> None:
        with tempfile.TemporaryDirectory() as folder:
            terminal = Terminal(Path(folder), call)
            try:
                terminal.wait_for_prompt()
                terminal.type(first + "\n")
                terminal.wait_for_prompt()
                for keys, words in self.KEYS:
                    with self.subTest(keys):
                        self.assertEqual(terminal.words_of(keys), words)
            finally:
                terminal.close()

    @unittest.skipUnless(has("bash"), "bash is not there")
    def test_bash(self) -> None:
        sources = [f"source {TOP}/completions/bash/{command}" for command in COMMANDS]
        self.try_shell(["bash", "--noprofile", "--norc", "-i"], "; ".join(sources))

    @unittest.skipUnless(has("zsh"), "zsh is not there")
    def test_zsh(self) -> None:
        self.try_shell(["zsh", "-f", "-i"], f"fpath=({TOP}/completions/zsh $fpath); autoload -Uz compinit; compinit -u -D")

    @unittest.skipUnless(has("fish"), "fish is not there")
    def test_fish(self) -> None:
        with tempfile.TemporaryDirectory() as folder:
            for name in ["program.ctd", "progress.txt", "data.in"]:
                (Path(folder) / name).touch()
            (Path(folder) / "package").mkdir()
            for line, first in [
                ("checktestdata --max", "--max-steps"),
                ("checktestdata pro", "program.ctd"),
                ("checktestdata program.ctd da", "data.in"),
                ("checktestdata -w pro", "program.ctd"),
                ("ctd-lint --def", "--define"),
                ("ctd-lint pro", "program.ctd"),
                ("ctd-lint program.ctd pro", "program.ctd"),
                ("ctd-lint --ignore unread,no-b", "unread,no-bound"),
                ("ctd-show --gc", "--gcc"),
                ("ctd-show program.ctd data.in da", "data.in"),
                ("ctd-cover --tab", "--table"),
                ("ctd-cover program.ctd data.in da", "data.in"),
                ("ctd-package --js", "--json"),
                ("ctd-package pack", "package/"),
                ("ctd-language-server --ch", "--checker"),
                ("ctd-validate --feed", "--feedback"),
                ("ctd-validate pro", "program.ctd"),
                ("ctd-mutate --only trail", "trailing-space"),
                ("ctd-mutate --only plus,trail", "plus,trailing-space"),
                ("ctd-mutate --ignore=plus,trail", "--ignore=plus,trailing-space"),
            ]:
                with self.subTest(line):
                    command = line.split()[0]
                    script = f"source {TOP}/completions/fish/{command}.fish; complete -C '{line}'"
                    environment = {**os.environ, "HOME": folder, "PATH": f"{TOP}/tools:{os.environ['PATH']}"}
                    call = ["fish", "--no-config", "-c", script]
                    ran = subprocess.run(call, cwd=folder, env=environment, capture_output=True, text=True, timeout=OUT_OF_TIME, check=False)
                    self.assertEqual((ran.stdout.splitlines() or [""])[0].split("\t")[0], first, ran)


VIM_NAMES = r"""
edit %s
let names = []
for line in range(1, line('$'))
  for column in range(1, len(getline(line)))
    call add(names, [getline(line)[column - 1], synIDattr(synID(line, column, 1), 'name')])
  endfor
  call add(names, ["\n", ''])
endfor
"""


@unittest.skipUnless(has_vim(), "vim with syntax is not there")
class Vim(unittest.TestCase):
    def setUp(self) -> None:
        scratch = tempfile.TemporaryDirectory()
        self.addCleanup(scratch.cleanup)
        self.folder = Path(scratch.name)

    def run_vim(self, script: str, value: str) -> object:
        """What an expression gives behind a script."""
        ending = f"call writefile([json_encode({value})], '{self.folder}/value')\nqall!\n"
        (self.folder / "script.vim").write_text(f"filetype plugin on\nsyntax on\n{script}\n{ending}")
        call = ["vim", "-es", "-N", "-u", "NONE", "-i", "NONE", "--cmd", f"set runtimepath^={TOP}/editors/vim", "-S", f"{self.folder}/script.vim"]
        (self.folder / "bin").mkdir(exist_ok=True)
        for command in COMMANDS:
            (self.folder / "bin" / command).unlink(missing_ok=True)
            (self.folder / "bin" / command).symlink_to(path_of(command))
        environment = {**os.environ, "PATH": f"{self.folder}/bin:{os.environ['PATH']}"}
        subprocess.run(call, cwd=self.folder, env=environment, stdin=subprocess.DEVNULL, capture_output=True, timeout=OUT_OF_TIME, check=False)
        return json.loads((self.folder / "value").read_text())

    def groups(self, program: Path) -> list[list[str]]:
        """Each character of a program with the group of its highlighting."""
        names = self.run_vim(VIM_NAMES % program, "names")
        assert isinstance(names, list)
        return names

    def test_indent(self) -> None:
        """The examples get their own indent again, and a program with blocks in strings and comments that of its blocks."""
        odd = 'REP(2) # IF(\n    STRING("END")\nEND IF(ISEOF)\n    EOF\nELSE\n    REP(1) SPACE END NEWLINE\nEND\n'
        for text in [odd, *(program.read_text() for program in programs())]:
            (self.folder / "sample.ctd").write_text(re.sub("^ +", "", text, flags=re.MULTILINE))
            script = "filetype indent on\nedit sample.ctd\nset shiftwidth=4 expandtab\nnormal gg=G\n"
            self.assertEqual(self.run_vim(script, "getline(1, '$')"), text.splitlines())

    def test_a_sample(self) -> None:
        (self.folder / "sample.ctd").write_text(SAMPLE)
        names = self.groups(self.folder / "sample.ctd")
        self.assertEqual("".join(one for one, _ in names), SAMPLE + "\n")
        for part, group, which in [
            ("REPI", "ctdBlock", 0),
            ("i,", "ctdName", 0),
            ("n1", "ctdName", 0),
            ("SPACE", "ctdCommand", 0),
            ("STRING", "ctdCommand", 0),
            ('"a', "ctdString", 0),
            (r"\n", "ctdEscape", 0),
            (r"\101", "ctdEscape", 0),
            ("END", "ctdBlock", 0),
            ("IF", "ctdBranch", 0),
            ("UNIQUE", "ctdFunction", 0),
            ("ELSE", "ctdBranch", 0),
            ("FLOAT", "ctdUnknownWord", 0),
            ("05", "ctdWrongNumber", 0),
            ("1.5", "ctdWrongNumber", 0),
            ("INT", "ctdCommand", 0),
            ("1END", "ctdWrongNumber", 0),
            ("# END", "ctdComment", 0),
            ("lines", "ctdString", 0),
            ("x", "ctdName", 0),
        ]:
            with self.subTest(part):
                start = SAMPLE.rindex(part) if part == "x" else SAMPLE.index(part)
                found = {group_of for _, group_of in names[start : start + 1]}
                self.assertEqual(found, {group})

    def test_no_example_has_a_fault(self) -> None:
        for program in programs():
            with self.subTest(program.relative_to(TOP)):
                names = self.groups(program)
                self.assertEqual("".join(one for one, _ in names).rstrip("\n"), program.read_text("latin-1").rstrip("\n"))
                self.assertEqual([one for one, group in names if group in ("ctdUnknownWord", "ctdWrongNumber")], [])
                # Only blanks, commas and parentheses have no group.
                self.assertEqual({one for one, group in names if not group} - set(" \t\n,()[]"), set())

    def test_make_goes_to_the_fault(self) -> None:
        (self.folder / "a program.ctd").write_text("INT(1,9,n) NEWLINE\nREP(n) INT(1,9) NEWLINE END\n")
        (self.folder / "right.in").write_text("1\n1\n")
        (self.folder / "wrong.in").write_text("2\n1\n10\n")
        script = "edit a\\ program.ctd\nsilent make! right.in wrong.in\nsilent cc 1"
        value = "[&filetype, map(getqflist(), {_, one -> [bufname(one.bufnr), one.lnum, one.col, one.type, one.text]}), bufname('%'), line('.')]"
        wanted = ["wrong.in", 3, 1, "e", "value out of range (a program.ctd:2:8)"]
        self.assertEqual(self.run_vim(script, value), ["", [wanted], "wrong.in", 3])

    def test_make_on_a_program_that_is_refused(self) -> None:
        (self.folder / "open.ctd").write_text("INT(1,9,n) NEWLINE\nREP(n)\n")
        (self.folder / "right.in").write_text("1\n1\n")
        value = "[&filetype, map(getqflist(), {_, one -> [bufname(one.bufnr), one.lnum, one.col, one.type, one.text]})]"
        wanted = ["open.ctd", 3, 1, "e", "syntax error"]
        self.assertEqual(self.run_vim("edit open.ctd\nsilent make! right.in", value), ["checktestdata", [wanted]])


    def test_make_goes_to_the_findings(self) -> None:
        (self.folder / "a program.ctd").write_text('INT(0,9,n) INT(1,9,k) NEWLINE\nREP(n-1) ASSERT(UNIQUE(m)) END\n')
        script = "edit a\\ program.ctd\nunlet b:current_compiler\ncompiler ctd-lint\nsilent make!\nsilent cc 2"
        value = "[map(getqflist(), {_, one -> [bufname(one.bufnr), one.lnum, one.col, one.type, one.text]}), line('.')]"
        found, line = self.run_vim(script, value)
        self.assertEqual([one[:4] for one in found], [["a program.ctd", 1, 12, "n"], ["a program.ctd", 2, 10, "w"], ["a program.ctd", 2, 1, "r"]])
        self.assertEqual([one[4].split()[-1] for one in found], ["[unread]", "[no-value]", "[bad-count]"])
        self.assertEqual(line, 2)


class TextMate(unittest.TestCase):
    """The grammar is read by a small reader of such grammars; its patterns are within what all regular expressions share."""

    def setUp(self) -> None:
        self.extension = json.loads((TOP / "editors/vscode/package.json").read_text())
        path = self.extension["contributes"]["grammars"][0]["path"]
        self.grammar = json.loads((TOP / "editors/vscode" / path).read_text())

    def scopes(self, text: str) -> Iterator[tuple[str, str]]:
        """The parts of a text with their scopes; parts that no pattern takes have the empty one, or that of the string around them."""
        outer: dict[str, Any] | None = None
        for line in text.splitlines():
            at = 0
            while at < len(line):
                rules = [(rule.get("match") or rule["begin"], rule) for rule in (outer or self.grammar)["patterns"]]
                if outer is not None:
                    rules.insert(0, (outer["end"], None))
                matches = [(match, rule) for form, rule in rules if (match := re.compile(form).search(line, at))]
                name = "" if outer is None else outer["name"]
                if not matches:
                    yield line[at:], name
                    break
                match, rule = min(matches, key=lambda found: found[0].start())
                if match.start() > at:
                    yield line[at : match.start()], name
                yield match[0], rule["name"] if rule else name
                at = match.end()
                if rule is None or "begin" in rule:
                    outer = rule

    def test_a_sample(self) -> None:
        found = [(part, scope.removesuffix(".checktestdata")) for part, scope in self.scopes(SAMPLE) if part.strip()]
        for part in [
            ("REPI", "keyword.control"),
            ("n1", "variable.other"),
            (",", "punctuation.separator"),
            ("SPACE", "keyword.other.command"),
            ("a", "string.quoted.double"),
            (r"\n", "constant.character.escape"),
            (r"\101", "constant.character.escape"),
            ("UNIQUE", "support.function"),
            ("FLOAT", "invalid.illegal.word"),
            ("05", "invalid.illegal.number"),
            ("1.5", "invalid.illegal.number"),
            ("INT", "keyword.other.command"),
            ("1", "constant.numeric.integer"),
            ("1E", "invalid.illegal.number"),
            ("# END", "comment.line.number-sign"),
            ("lines", "string.quoted.double"),
            ("x", "variable.other"),
        ]:
            with self.subTest(part):
                self.assertIn(part, found)

    def test_the_matcher_finds_the_parts_of_a_finding(self) -> None:
        matchers = {matcher["name"]: matcher["pattern"] for matcher in self.extension["contributes"]["problemMatchers"]}
        pattern = matchers["ctd-lint"]
        for line, parts in [
            ("a b.ctd:2:13: warning: the string is empty [empty-string]", ("a b.ctd", "2", "13", "warning", "the string is empty", "empty-string")),
            ("a.ctd:2:1: risk: may divide by zero [division-by-zero]", ("a.ctd", "2", "1", "risk", "may divide by zero", "division-by-zero")),
            ("a.ctd:1:1: note: nothing reads this variable: n [unread]", ("a.ctd", "1", "1", "note", "nothing reads this variable: n", "unread")),
            ("a.ctd:3:7: risk: may overflow: n is 9 [overflow]", ("a.ctd", "3", "7", "risk", "may overflow: n is 9", "overflow")),
            ("a.ctd:1:6: error: syntax error", ("a.ctd", "1", "6", "error", "syntax error", None)),
        ]:
            with self.subTest(line):
                match = re.match(pattern["regexp"], line)
                assert match is not None
                self.assertEqual(tuple(match[pattern[part]] for part in ["file", "line", "column", "severity", "message", "code"]), parts)

    def test_the_matchers_of_lines_without_a_place(self) -> None:
        matchers = {matcher["name"]: matcher["pattern"] for matcher in self.extension["contributes"]["problemMatchers"]}
        for name, line, parts in [
            ("ctd-show-file", "a b.in: error: cannot read: No such file", ("a b.in", "error", "cannot read: No such file")),
            ("ctd-show-file", "a.in:2:1: error: expected a space (a.ctd:1:1)", None),
            ("ctd-lint-file", "a.ctd: error: cannot open", ("a.ctd", "error", "cannot open")),
            ("ctd-lint-file", "a.ctd: warning: the program does not mention: n [unknown-preset]", ("a.ctd", "warning", "the program does not mention: n")),
            ("ctd-lint-file", "a.ctd:1:1: note: nothing reads this variable: n [unread]", None),
            ("ctd-lint-file", "a.ctd: every data file gets a verdict", None),
        ]:
            with self.subTest(line):
                match = re.match(matchers[name]["regexp"], line)
                found = match and tuple(match[matchers[name][part]] for part in ["file", "severity", "message"])
                self.assertEqual((matchers[name]["kind"], found), ("file", parts))

    def test_no_key_of_the_extension_stands_twice(self) -> None:
        def once(pairs: list[tuple[str, Any]]) -> dict[str, Any]:
            self.assertEqual(len(pairs), len(dict(pairs)), pairs)
            return dict(pairs)

        json.loads((TOP / "editors/vscode/package.json").read_text(), object_pairs_hook=once)

    def test_no_example_has_a_fault(self) -> None:
        for program in programs():
            with self.subTest(program.relative_to(TOP)):
                parts = list(self.scopes(program.read_text("latin-1")))
                self.assertEqual([part for part, scope in parts if scope.startswith("invalid") or (not scope and part.strip())], [])

    def test_both_editors_know_the_words_of_the_language(self) -> None:
        language = (TOP / "docs/LANGUAGE.md").read_text()
        words = set(re.findall(r'"([A-Z]{2,})"', language[language.index("## Grammar") :]))
        vim = set(re.findall(r"[A-Z]{2,}", " ".join(re.findall(r"%\((.*?)\\\)", (TOP / "editors/vim/syntax/checktestdata.vim").read_text()))))
        grammar = {word for rule in self.grammar["patterns"] for words in re.findall(r"\(\?:([A-Z|]+)\)", rule.get("match", "")) for word in words.split("|")}
        self.assertLess({"SPACE", "REPI", "ISEOF"}, words)
        self.assertEqual((vim, grammar), (words, words))


if __name__ == "__main__":
    sys.exit(run_unit_tests("editors"))
