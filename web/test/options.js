// The options, and links that hold a program.
import fs from "node:fs";
import path from "node:path";
import { expect, web } from "./tests.js";

export async function testOptions(page) {
  await page.set("program", "INT(n,n) SPACE INT(0,9) NEWLINE");
  await page.set("data", "5 \t7 \n");
  await page.set("presets", "n=5");
  await page.click("whitespace");
  expect("presets and blanks", await page.check(), "testdata ok!\n");
  await page.set("steps", "2");
  const message = "checktestdata: line 1 column 4: step limit reached (program line 1 column 16)\n";
  expect("steps", await page.check(), message);
  expect("a run without a verdict", await page.answer(), ["no-verdict", "! No verdict", message]);
  expect("its places", await page.faults(), [[["1", "INT"]], [["1", "7"]]]);
}

// The link of docs/EMBEDDING.md opens its program and its preset.
export async function testLinkOfTheGuide(page) {
  const guide = fs.readFileSync(path.join(web, "..", "docs", "EMBEDDING.md"), "utf8");
  await page.open(/^index\.html#.*$/m.exec(guide)[0]);
  expect("the program of the guide's link", await page.text("program"), "INT(1,10) NEWLINE");
  expect("its preset", await page.evaluate("presets.value"), "n=5");
}

export async function testLink(page) {
  const program = 'STRING("ü &=#+%") EOF\n# two lines';
  await page.set("program", program);
  await page.set("steps", "7");
  await page.click("link");
  const link = await page.evaluate("location.href");
  await page.open(link.slice(page.address.length + 1));
  expect("the program of a link", await page.text("program"), program);
  expect("the steps of a link", await page.evaluate("steps.value"), "7");
}
