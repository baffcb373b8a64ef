// The editors: marks, highlighting, findings, and the keyboard.
import { expect } from "./tests.js";

// What stands in the box at the end of a text.
const BOX = "\u00a0";

export async function testMarks(page) {
  await page.set("program", "INT(1,5) NEWLINE\n  INT(1,5) NEWLINE");
  await page.set("data", "3\n7 8\n");
  expect("a rejected line", await page.check(), "line 2 column 1: value out of range (program line 2 column 3)\n");
  expect("the words at the fault", await page.faults(), [[["2", "INT"]], [["2", "7"]]]);
  const around = (id) => page.evaluate(`[document.getElementById("${id}-around").hidden, document.querySelector("#${id}-around").textContent.trim()]`);
  expect("the line of the data", await around("data"), [false, "Data, line 2 column 1 7 8"]);
  expect("the line of the program", await around("program"), [false, "Program, line 2 column 3 INT(1,5) NEWLINE"]);
  await page.evaluate(`document.querySelector("#data-around button").click()`);
  const cursor = await page.evaluate(`(({ line, ch }) => [line, ch, ${page.editor("data")}.hasFocus()])(${page.editor("data")}.getCursor())`);
  expect("a press on the line of the data goes there", cursor, [1, 0, true]);

  // Columns count bytes: the ü has two.
  await page.set("program", 'STRING("ü") INT(1,5) NEWLINE');
  await page.set("data", "ü9\n");
  expect("behind a letter of two bytes", await page.check(), "line 1 column 3: value out of range (program line 1 column 14)\n");
  expect("the words there", await page.faults(), [[["1", "INT"]], [["1", "9"]]]);

  await page.set("program", "INT(1,5) SPACE INT(1,5) NEWLINE");
  await page.set("data", "3\n");
  expect("a fault at the end of a line", await page.check(), "line 1 column 2: expected a space (program line 1 column 10)\n");
  expect("its marks", await page.faults(), [[["1", "SPACE"]], [["1", "↵"]]]);
  await page.set("data", "3 4\n");
  await page.set("program", "INT(1,5) SPACE INT(1,5) NEWLINE INT(1,5)");
  expect("a fault at the end of the data", await page.check(), "line 2 column 1: expected an integer (program line 1 column 33)\n");
  expect("its marks too", await page.faults(), [[["1", "INT"]], [["2", BOX]]]);
  expect("the end in the line of the data", await around("data"), [false, "Data, line 2 column 1 ‹end of text›"]);
}

// The end of a text is an empty box, which is there once, whatever points at it, and nothing that could be a word of the program.
export async function testEnd(page) {
  await page.set("program", "REP(3) INT(1,5) NEWLINE");
  const boxes = () => page.evaluate(`[...document.querySelectorAll("#program-side .end")].map((it) => it.textContent)`);
  await page.tab.wait(`document.querySelector("#program-side .end.error")`);
  expect("a finding at the end", await boxes(), [BOX]);
  expect("the check", await page.check(), "checktestdata: program line 1 column 24: syntax error\n");
  expect("a finding and a fault at the end", await boxes(), [BOX]);
  expect("it is marked as the fault", await page.evaluate(`document.querySelector("#program-side .end").matches(".fault.error")`), true);
  await page.set("data", "1\n");
  expect("without the fault", await page.evaluate(`document.querySelector("#program-side .end").matches(".error:not(.fault)")`), true);
  await page.set("program", "REP(3) INT(1,5) NEWLINE END");
  await page.tab.wait(`!document.querySelector("#findings li")`);
  expect("without a finding", await boxes(), []);
}

// Each text with the class that the page gives it; null for none.
const TOKENS = [
  ["REPI", "keyword"],
  ["INT", "builtin"],
  ["UNIQUE", "atom"],
  ["word", "variable"],
  ["120", "number"],
  ["007", "error"],
  ["FLOAT", "error"],
  ["REPX", "error"],
  ["<=", "operator"],
  ["\"text\"", "string"],
  ["# INT", "comment"],
  [",", null],
];

export async function testHighlighting(page) {
  await page.set("program", "INT(1,5)\nNEWLINE");
  const numbers = await page.evaluate(`[...document.querySelectorAll("#program-side .CodeMirror-gutter-wrapper")].map((it) => it.textContent)`);
  expect("lines have numbers", numbers, ["1", "2"]);
  for (const [text, wanted] of TOKENS) {
    await page.set("program", text);
    expect(`the class of ${text}`, await page.evaluate(`${page.editor("program")}.getTokenTypeAt({ line: 0, ch: 1 })`), wanted);
  }
  await page.set("program", '"a\\n\nINT" INT');
  const classes = await page.evaluate(`[[0, 3], [1, 1], [1, 7]].map(([line, ch]) => ${page.editor("program")}.getTokenTypeAt({ line, ch }))`);
  expect("an escape, a string of two lines, and what follows", classes, ["string-2", "string", "builtin"]);
}

const findings = (page) => page.evaluate(`[...document.querySelectorAll("#findings li")].map((it) => it.textContent)`);

export async function testFindings(page) {
  await page.set("program", "INT(1,5) NEWLINE\nSPACE(");
  await page.tab.wait(`document.querySelector("#findings li")`);
  const refusal = "error line 2 column 6 syntax error: expected a command or the end of the program";
  expect("a program that is refused, before any check", await findings(page), [refusal]);
  expect("it is marked", await page.evaluate(`document.querySelector("#program-side .error").textContent`), "(");
  await page.evaluate(`document.querySelector("#findings button").click()`);
  expect("a press goes there", await page.evaluate(`(({ line, ch }) => [line, ch])(${page.editor("program")}.getCursor())`), [1, 5]);
  await page.set("program", "INT(1,5) NEWLINE");
  await page.tab.wait(`!document.querySelector("#findings li")`);
  await page.set("program", "INT(1,5)\nSPACE INT(1,m)\nNEWLINE");
  await page.tab.wait(`document.querySelector("#findings li")`);
  const [finding] = await findings(page);
  expect("a name without a value", finding.startsWith("warning line 2 column 7 nothing gives this name a value"), true);
  expect("its command is marked", await page.evaluate(`document.querySelector("#program-side .warning").textContent`), "INT");
  await page.set("presets", "m=5");
  await page.tab.wait(`!document.querySelector("#findings li")`);
  await page.set("presets", "m=");
  await page.tab.wait(`document.querySelector("#findings li")`);
  expect("a preset that cannot be read", await findings(page), ["error bad preset: expected a number or a string or - behind m="]);
  await page.set("presets", "");
  await page.set("program", 'REGEX("^a$")');
  await page.tab.wait(`document.querySelector("#program-side .note.warning")`);
  expect("of a note and a warning the warning is marked", await page.evaluate(`getComputedStyle(document.querySelector("#program-side .note.warning")).textDecorationStyle`), "wavy");
  await page.set("program", "INT(1,5) NEWLINE");
  await page.tab.wait(`!document.querySelector("#findings li")`);
  const summary = () => page.evaluate(`lint.textContent`);
  expect("a program without findings", await summary(), "ctd-lint: no findings; every data file gets a verdict");
  await page.set("program", "INT(0,5,n) NEWLINE ASSERT(8/n>=1)");
  await page.tab.wait(`document.querySelector("#findings li")`);
  expect("a program that may stop", await summary(), "ctd-lint: 1 finding; places that may stop a run without a verdict: at most 1");
  await page.set("program", "INT(1,5) NEWLINE");
  await page.tab.wait(`!document.querySelector("#findings li")`);
  expect("nothing is marked in a right program", await page.evaluate(`document.querySelectorAll("#program-side .CodeMirror :is(.error, .warning, .note)").length`), 0);
}

// Programs, presets, what is said of their refusal behind the message of the checker, and what ctd-lint says, where that is something else.
const NO_PARTS = "a number has no fraction, no exponent and no leading zero";
const REFUSALS = [
  ["ASSERT(n)", "", "expected [ or a comparison or an operator"],
  ["# ü\nREP(3", "", "expected , or ) or an operator"],
  ["# ü\n REP(3)\nSPACE", "", "expected a command or END (REP of line 2 column 2 is open)", "expected a command or END"],
  ["REP(2) SPACE END IF(ISEOF) SPACE", "", "expected a command or ELSE or END (IF of line 1 column 18 is open)", "expected a command or ELSE or END"],
  ["SET(a[1,2]=3,b", "", "expected = or ["],
  ["INT(1.5,2)", "", "1.5 has a fraction, and numbers are whole here", NO_PARTS],
  ["INT(1,1e9)", "", "1e9 has an exponent: write 10^9", NO_PARTS],
  ["INT(1,20E3)", "", "20E3 has an exponent: write 20*10^3", NO_PARTS],
  ["INT(1,007)", "", "007 has a leading zero: write 7", NO_PARTS],
  ["FLOAT(1,2)", "", "numbers are whole here; REGEX reads others", "numbers are whole here, and REGEX reads others"],
  ['REGEX("(?=a)")', "", "there is no look-ahead and no look-behind", "look-around, including look-ahead and look-behind, is not supported at byte 1 of the pattern"],
  ['REGEX("(a)\\\\1")', "", "there are no back references", "backreferences are not supported at byte 4 of the pattern"],
  ["SPACE", "n=yes", "expected a number or a string or - behind n="],
  ["SPACE", "a[1=5", "expected , or ] behind a[1"],
  ["SPACE", "n=1 ,m=2", "there is a blank or a comment behind n=1"],
  ["SPACE", "n=1,", "expected a name behind n=1,"],
  ["SPACE", "n=ü", "unexpected byte behind n="],
  ["SPACE", "5", "expected a name at the start"],
  ["SPACE", "n=05", "05 has a leading zero: write 5"],
  // (nothing more is known of these)
  ["SPACE $", "", ""],
  ['STRING("a', "", ""],
];

export async function testRefusals(page) {
  for (const [program, presets, words, said = words] of REFUSALS) {
    await page.set("program", program);
    await page.set("presets", presets);
    await page.check();
    expect(`${program} ${presets}: behind the check`, await page.evaluate(`document.getElementById("words").textContent`), words);
    await page.tab.wait(`document.querySelector("#findings:not(.old) .error")`);
    const told = await page.evaluate(`document.querySelector("#findings li").textContent`);
    expect(`${program} ${presets}: as a finding`, said ? told.endsWith(`: ${said}`) : /(unexpected byte|unfinished string)$/.test(told), true);
  }
  await page.set("presets", "");
  // The words for what is wrong with a pattern are those of the browser.
  for (const pattern of ["(a", "[a", "*a", "(?i)(?s:a)(?P<x>b)(c"]) {
    await page.set("program", `REGEX("${pattern}")`);
    await page.check();
    expect(`the pattern ${pattern}: something is said`, await page.evaluate(`/^[a-z][a-z ]{8,}/.test(document.getElementById("words").textContent)`), true);
  }
  // A missing parenthesis is not called a missing END; a missing END is.
  for (const [program, isToldOf] of [["REP(3) SPACE IF(ISEOF", false], ["REP(3) SPACE", true]]) {
    await page.set("program", program);
    await page.tab.wait(`document.querySelector("#findings:not(.old) .error")`);
    expect(`${program}: a note on a missing END`, (await findings(page)).some((it) => it.endsWith("this command has no END")), isToldOf);
  }
}

export async function testKeyboard(page) {
  const { tab } = page;
  await page.set("program", "");
  await page.set("data", "");
  const focused = () => tab.evaluate(`document.activeElement.closest(".CodeMirror")?.closest("section").id ?? document.activeElement.id`);
  await page.evaluate(`${page.editor("program")}.focus()`);
  await tab.type("INT(1,5)");
  await tab.press("Enter");
  await tab.type("NEWLINE");
  await tab.press("Tab");
  expect("Tab leaves the program", await focused(), "data-file");
  await tab.press("Tab");
  expect("and comes to the data", await focused(), "data-side");
  await tab.type(" 5");
  await tab.press("Enter");
  await tab.press("Tab", 8);
  expect("Shift and Tab leave the data", await focused(), "data-file");
  await tab.press("Tab");
  await tab.press("Enter", 2);
  await page.waitForEnd();
  expect("what was typed", [await page.text("program"), await page.text("data")], ["INT(1,5)\nNEWLINE", " 5\n"]);
  expect("Ctrl and Enter check", await page.message(), "line 1 column 1: expected an integer (program line 1 column 1)\n");
  await page.evaluate("check.focus()");
  await tab.press("Enter");
  await page.waitForEnd();
  expect("the focus stays at Check", await focused(), "check");
  const reached = new Set();
  await page.evaluate("document.activeElement.blur(); document.querySelector('nav a').focus()");
  for (let turn = 0; turn < 30; turn++) {
    await tab.press("Tab");
    reached.add(await focused());
  }
  const wanted = ["examples", "link", "program-file", "program-side", "data-file", "data-side", "whitespace", "presets", "steps", "check", "stop"];
  expect("what Tab does not reach", wanted.filter((id) => !reached.has(id)), []);
  const unlabelled = `[...document.querySelectorAll("input, select, textarea, [contenteditable=true]")].filter((it) => it.offsetParent && !it.labels?.length && !it.ariaLabel).map((it) => it.id || it.outerHTML)`;
  expect("fields without a label", await tab.evaluate(unlabelled), []);
}
