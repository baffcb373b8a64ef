"""Tests of ctd-language-server with editors: Neovim without a screen, and the extension for VS Code with stand-ins for what it calls;
tests/language_server.py runs them."""
from __future__ import annotations

import json
import os
import shutil
import subprocess
import sys
import unittest
import zipfile
from pathlib import Path
from typing import Any
from xml.etree import ElementTree

from language_client import CHECKER, NO_LIBRARY, OUT_OF_TIME, PYTHON, SERVER, Json, ServerTest
from language_client import tearDownModule  # noqa: F401
from markdown_blocks import blocks
from results import BUILT_LINTER, TOP

# What a user of Neovim does with n.ctd, step by step; each waits for what comes of it. SOURCES and STEPS stand for the folder
# of the sources, and for such steps.
FRAME = r"""
vim.opt.runtimepath:prepend('SOURCES/editors/vim')
vim.cmd('filetype plugin on')
dofile('init.lua')
local seen = {}
local function wait(what, done)
    if not vim.wait(20000, done, 20) then error('waited in vain for ' .. what) end
end
local function lines() return vim.api.nvim_buf_get_lines(0, 0, -1, true) end
local function cursor(line, column) vim.api.nvim_win_set_cursor(0, { line, column }) end
local function diagnostics(buffer)
    return vim.tbl_map(function(one) return { one.lnum, one.col, one.end_col, one.severity, one.message } end, vim.diagnostic.get(buffer))
end
local is_done, fault = pcall(function()
STEPS
end)
seen.fault = fault
vim.fn.writefile({ vim.fn.json_encode(seen) }, 'seen.json')
vim.cmd('qall!')
"""
WORK = r"""
    vim.cmd('edit n.ctd')
    wait('diagnostics', function() return #diagnostics(0) > 0 end)
    seen.at_first = diagnostics(0)
    cursor(3, 21)
    vim.cmd('normal! a)')
    wait('no errors', function() return #vim.diagnostic.get(0, { severity = vim.diagnostic.severity.ERROR }) == 0 end)
    vim.lsp.buf.definition()
    wait('the definition', function() return vim.api.nvim_win_get_cursor(0)[1] == 2 end)
    seen.definition = vim.api.nvim_win_get_cursor(0)
    vim.lsp.buf.rename('m')
    wait('the rename', function() return lines()[2]:find(',m%)') end)
    seen.renamed = lines()
    vim.lsp.buf.hover()
    wait('the hover', function() return #vim.api.nvim_list_wins() == 2 end)
    seen.hover = vim.api.nvim_buf_get_lines(vim.api.nvim_win_get_buf(vim.api.nvim_list_wins()[2]), 0, -1, true)
    vim.cmd('normal! GoASSERT(')
    cursor(4, 7)
    local where = vim.lsp.util.make_position_params()
    where.position.character = 7
    local answer = vim.lsp.buf_request_sync(0, 'textDocument/completion', where, 20000)
    seen.completions = vim.tbl_map(function(one) return one.word end, vim.lsp.util.text_document_completion_list_to_complete_items(answer[1].result, ''))
    vim.cmd('silent undo | silent write')
    vim.ui.select = function(choices, _, choose) choose(choices[1]) end
    vim.lsp.buf.code_action()
    local data = vim.uri_to_bufnr(vim.uri_from_fname(vim.fn.getcwd() .. '/wrong.in'))
    wait('faults in the data', function() return #diagnostics(data) > 0 end)
    vim.cmd('edit wrong.in')
    seen.data = diagnostics(data)
"""
LOOK = r"""
    vim.cmd('edit n.ctd')
    wait('diagnostics', function() return #diagnostics(0) > 0 end)
    seen.diagnostics = vim.tbl_map(function(one) return { one.lnum, one.severity, one.message } end, vim.diagnostic.get(0))
    cursor(2, 7)
    vim.lsp.buf.hover()
    wait('the hover', function() return #vim.api.nvim_list_wins() == 2 end)
    seen.hover = vim.api.nvim_buf_get_lines(vim.api.nvim_win_get_buf(vim.api.nvim_list_wins()[2]), 0, -1, true)
"""


@unittest.skipUnless(PYTHON, NO_LIBRARY)
@unittest.skipUnless(shutil.which("nvim"), "Neovim is not there")
class Neovim(ServerTest):
    """A real editor, with the lines that the documents give for it."""

    def setUp(self) -> None:
        super().setUp()
        self.write("bin/ctd-language-server", f'#!/bin/sh\nexec {PYTHON} {SERVER} --checker {CHECKER} "$@"\n').chmod(0o755)
        lines = [block.text() for block in blocks(TOP / "docs/INTEGRATION.md") if block.kind == "lua"]
        self.assertEqual(len(lines), 1)
        self.write("init.lua", lines[0])

    def run_neovim(self, steps: str) -> Json:
        """What was seen in some steps, and what the editor told the user as `told`."""
        self.write("steps.lua", FRAME.replace("SOURCES", str(TOP)).replace("STEPS", steps))
        home = {"HOME": str(self.folder), "XDG_STATE_HOME": str(self.folder), "PATH": f"{self.folder}/bin:{os.environ['PATH']}"}
        call = ["nvim", "--headless", "--clean", "-u", "steps.lua"]
        ran = subprocess.run(call, cwd=self.folder, env={**os.environ, **home}, capture_output=True, text=True, timeout=120, check=False)
        return {"told": ran.stderr, **json.loads((self.folder / "seen.json").read_text())}

    @unittest.skipUnless(BUILT_LINTER.is_file(), "ctd-lint is not there")
    def test_the_tutorial(self) -> None:
        tutorial = TOP / "docs/TUTORIAL.md"
        program = next(block for block in blocks(tutorial) if block.file == "misspelled.ctd")
        start = tutorial.read_text().partition("\n## In the editor\n")[0].count("\n")
        screen, hover = [block for block in blocks(tutorial) if block.number > start and block.kind == "text"][:2]
        self.write("n.ctd", program.text())
        seen = self.run_neovim(LOOK)
        shown = [f"    {number} {line}" for number, line in enumerate(program.lines, 1)]
        for line, severity, message in seen["diagnostics"]:
            shown[line] = " EWIH"[severity] + shown[line][1:] + f"     ■ {message}"
        self.assertEqual((seen["hover"], shown), (hover.lines, screen.lines))

    def test_what_a_user_does(self) -> None:
        # bytes: ü has 2, 😀 has 4; Neovim counts its columns in bytes, and so does the checker
        self.write("n.ctd", '# preset: top=5\nREGEX("[ü😀]*") INT(1,top,n) NEWLINE\nSTRING("ü😀") REP(n SPACE END\n')
        self.write("wrong.in", "ü😀66\n")
        seen = self.run_neovim(WORK)
        self.assertEqual((seen.get("fault"), seen["told"]), (None, "LSP[1][Warning] 1 file does not fit"))
        self.assertEqual(seen["at_first"], [[2, 23, 28, 1, "syntax error: expected , or ) or [ or an operator"]])
        self.assertEqual(seen["definition"], [2, 29])
        self.assertEqual(seen["renamed"], ["# preset: top=5", 'REGEX("[ü😀]*") INT(1,top,m) NEWLINE', 'STRING("ü😀") REP(m) SPACE END'])
        self.assertEqual(seen["hover"][0], "`m`: 1 to 5")
        self.assertEqual(set(seen["completions"]), {"MATCH", "ISEOF", "UNIQUE", "INARRAY", "STRLEN", "m", "top"})
        self.assertEqual(seen["data"], [[0, 6, 8, 1, "value out of range"]])


# VS Code and its library of clients, as far as the extension calls them: each call is kept, and written at the end.
STAND_INS = {
    "vscode/index.js": """
const calls = [];
const settings = { server: 'a server', presets: 'n=5' };
process.on('exit', () => console.log(JSON.stringify(calls)));
module.exports = {
    calls,
    commands: { registerCommand: (name, command) => { calls.push(['command', name]); module.exports.run = command; } },
    window: {
        showWarningMessage: text => calls.push(['warning', text]),
        activeTextEditor: { document: { uri: 'a program', save: () => { calls.push(['save']); return Promise.resolve(true); } } },
    },
    workspace: { getConfiguration: section => ({ get: name => settings[section === 'checktestdata' && name] }) },
};""",
    "vscode-languageclient/node.js": """
const { calls } = require('vscode');
exports.LanguageClient = class {
    constructor(id, name, server, client) {
        calls.push(['client', server, client]);
        this.code2ProtocolConverter = { asUri: uri => 'file:///' + uri };
    }
    start() { calls.push(['start']); return Promise.resolve(); }
    stop() { calls.push(['stop']); return Promise.resolve(); }
    sendRequest(method, value) { calls.push([method, value]); return Promise.resolve(); }
};""",
}
USE = """
const extension = require(process.argv[2]), vscode = require('vscode');
(async () => {
    await extension.activate({ subscriptions: [] });
    if (vscode.run) await vscode.run();
    await extension.deactivate();
})();
"""


@unittest.skipUnless(shutil.which("node"), "Node is not there")
class VisualStudioCode(ServerTest):
    """The extension, with stand-ins for what it calls."""

    EXTENSION = TOP / "editors/vscode"

    def calls(self, *stand_ins: str, extension: Path = EXTENSION) -> list[Any]:
        for name in stand_ins:
            self.write(f"modules/{name}", STAND_INS[name])
        script = self.write("use.js", USE)
        environment = {**os.environ, "NODE_PATH": str(self.folder / "modules")}
        ran = subprocess.run(["node", str(script), str(extension)], env=environment, capture_output=True, text=True, timeout=OUT_OF_TIME, check=False)
        self.assertEqual((ran.returncode, ran.stderr), (0, ""))
        calls = json.loads(ran.stdout)
        assert isinstance(calls, list)
        return calls

    def test_it_starts_the_server(self) -> None:
        client = {"documentSelector": [{"language": "checktestdata"}], "initializationOptions": {"presets": "n=5"}, "synchronize": {"configurationSection": "checktestdata"}}
        self.assertEqual(
            self.calls(*STAND_INS),
            [
                ["client", {"command": "a server"}, client],
                ["command", "checktestdata.checkData"],
                ["start"],
                ["save"],
                ["workspace/executeCommand", {"command": "ctd.checkData", "arguments": ["file:///a program"]}],
                ["stop"],
            ],
        )

    def test_one_file_of_it(self) -> None:
        """The .vsix, unpacked as VS Code does, is this extension, and names what VS Code looks for."""
        files = [self.folder / name for name in ("one.vsix", "two.vsix")]
        for file in files:
            subprocess.run([sys.executable, str(TOP / "packaging/vsix.py"), str(file)], check=True)
        self.assertEqual(files[0].read_bytes(), files[1].read_bytes())
        with zipfile.ZipFile(files[0]) as archive:
            archive.extractall(self.folder)
        manifest = ElementTree.parse(self.folder / "extension.vsixmanifest")
        space = "{http://schemas.microsoft.com/developer/vsx-schema/2011}"
        identity = manifest.find(f"{space}Metadata/{space}Identity")
        assert identity is not None
        self.assertEqual((identity.get("Id"), identity.get("Publisher"), identity.get("Version")), ("checktestdata", "nagdimot", "1.0.0"))
        assets = [asset.get("Path") for asset in manifest.iter(f"{space}Asset")]
        self.assertEqual(assets, ["extension/package.json"])
        types = ElementTree.parse(self.folder / "[Content_Types].xml").getroot()
        endings = {name.get("Extension") for name in types}
        self.assertLessEqual({path.suffix for path in (self.folder / "extension").rglob("*.*")}, endings)
        package = json.loads((self.folder / "extension/package.json").read_text())
        contributed = package["contributes"]
        for path in [package["main"], contributed["languages"][0]["configuration"], contributed["grammars"][0]["path"]]:
            self.assertTrue((self.folder / "extension" / path).is_file(), path)
        self.assertEqual(self.calls(*STAND_INS, extension=self.folder / "extension")[0][0], "client")

    def test_without_the_library(self) -> None:
        calls = self.calls("vscode/index.js")
        self.assertEqual([call[0] for call in calls], ["warning"])
        self.assertIn("vscode-languageclient is missing", calls[0][1])

    def test_what_it_says_of_itself(self) -> None:
        extension = json.loads((self.EXTENSION / "package.json").read_text())
        self.assertEqual((extension["main"], list(extension["dependencies"])), ("./extension.js", ["vscode-languageclient"]))
        self.assertEqual(extension["contributes"]["configuration"]["properties"]["checktestdata.server"]["default"], SERVER.name)
        self.assertEqual([one["command"] for one in extension["contributes"]["commands"]], ["checktestdata.checkData"])
