// A verdict never stands beside a program, data or options that it is not about.
import { expect } from "./tests.js";

const NOTHING = [[], []];
const PROGRAM = "INT(1,5) NEWLINE\n";
const REJECTED = ["rejected", "✗ The data do not fit", "line 1 column 1: value out of range (program line 1 column 1)\n"];
const ACCEPTED = ["accepted", "✓ The data fit", "testdata ok!\n"];
// It runs until it is stopped.
const ENDLESS = "WHILE(1==1) REP(1000000) END END";

async function checkRejected(page) {
  await page.set("program", PROGRAM);
  await page.set("data", "7\n");
  await page.check();
  expect("a verdict", await page.answer(), REJECTED);
  expect("its places", await page.faults(), [[["1", "INT"]], [["1", "7"]]]);
}

async function expectStale(page, name) {
  const [state, words, message] = await page.answer();
  expect(`${name}: the verdict is one on other texts`, [state, words], ["stale", "Changed since this check"]);
  expect(`${name}: its message`, message, REJECTED[2]);
  expect(`${name}: its places are gone`, await page.faults(), NOTHING);
  const excerpts = await page.evaluate(`["data", "program"].map((id) => document.getElementById(id + "-around").hidden)`);
  expect(`${name}: its excerpts are gone`, excerpts, [true, true]);
}

export async function testStale(page) {
  const changes = {
    "a typed character of data": () => page.evaluate(`${page.editor("data")}.replaceSelection("1")`),
    "a typed character of the program": () => page.evaluate(`${page.editor("program")}.replaceSelection("#")`),
    "data that are pasted": () => page.paste("data", "3"),
    "a preset": () => page.set("presets", "n=1"),
    "the steps": () => page.set("steps", "5"),
    "the blanks": () => page.click("whitespace"),
    "an example": () => page.set("examples", "numbers: right.in, fits"),
    "a link": () => page.evaluate(`location.hash = "program=EOF"`),
    "a link to the same program": () => page.evaluate(`location.hash = "program=INT(1,5)+NEWLINE%0A&steps=7"`),
  };
  for (const [name, change] of Object.entries(changes)) {
    await page.open();
    await checkRejected(page);
    await change();
    if (name.startsWith("a link")) await page.tab.wait(`result.dataset.state === "stale"`);
    await expectStale(page, name);
  }
  await page.set("program", "EOF");
  await page.set("data", "");
  await page.check();
  expect("the next check", await page.answer(), ACCEPTED);
}

export async function testWhileItRuns(page) {
  await checkRejected(page);
  await page.set("program", ENDLESS);
  await page.click("check");
  expect("while a check runs", await page.answer(), ["checking", "Checking…", ""]);
  expect("while a check runs: no places", await page.faults(), NOTHING);
  await page.set("data", "3\n");
  expect("data that change meanwhile", (await page.answer())[0], "checking");
  await page.click("stop");
  expect("after Stop", await page.answer(), ["stopped", "Stopped. There is no verdict.", ""]);
  await page.set("data", "4\n");
  expect("data that change after Stop", await page.answer(), ["stopped", "Stopped. There is no verdict.", ""]);
  expect("Stop does nothing more", await page.evaluate(`document.getElementById("stop").ariaDisabled`), "true");

  await page.set("program", "NEWLINE");
  await page.set("data", "\n");
  const changed = `document.getElementById("check").click(); ${page.editor("data")}.setValue("5\\n"); result.dataset.state`;
  expect("a check of data that changed: it runs", await page.evaluate(changed), "checking");
  await page.waitForEnd();
  expect("a check of data that changed", await page.answer(), ["stale", "Changed since this check", "testdata ok!\n"]);
  await page.check();
  expect("and of the data as they are", await page.message(), "line 1 column 1: expected a newline (program line 1 column 1)\n");
}
