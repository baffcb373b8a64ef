// Files, and text that is pasted.
import fs from "node:fs";
import path from "node:path";
import { expect, out } from "./tests.js";

// Writes a file and chooses it, waits until the page has it, in the editor if that can hold it, and gives what takes the file away again.
async function choose(page, id, name, bytes, isText = false) {
  const file = path.join(out, name);
  fs.writeFileSync(file, bytes);
  await page.tab.choose(`${id}-file`, file);
  const line = `document.querySelector("#${id}-side .file")`;
  await page.tab.wait(`${line}.textContent.startsWith(${JSON.stringify(name)}) && ${line}.hidden === ${isText}`);
  return () => fs.rmSync(file);
}

const shown = (page, id) => page.evaluate(`document.querySelector("#${id}-side .file").hidden ? "text" : document.querySelector("#${id}-side .file span").textContent`);

export async function testFiles(page) {
  await page.set("program", "INT(1,9) NEWLINE");
  let remove = await choose(page, "data", "carriage_return.in", "5\r\n", true);
  remove();
  expect("a file of text is in the editor", [await shown(page, "data"), await page.text("data")], ["text", "5\r\n"]);
  await page.tab.wait(`document.querySelector("#data-side .about").textContent.includes("CR LF")`);
  expect("a file keeps its bytes", await page.check(), "line 1 column 2: expected a newline (program line 1 column 10)\n");
  expect("the carriage return is shown", await page.evaluate(`document.querySelector("#data-around mark").textContent`), "\\r");
  expect("the carriage return is marked", (await page.faults())[1], [["1", "␍"]]);

  await page.set("program", 'REGEX("(?-u)[^\\n]*") NEWLINE');
  remove = await choose(page, "data", "bytes.in", Buffer.from([0xff, 0x0a]));
  expect("a file that is no text", await shown(page, "data"), "bytes.in, 2 bytes, is checked as it is.");
  expect("the verdict before is one on other data", (await page.answer())[0], "stale");
  expect("it is checked", await page.check(), "testdata ok!\n");
  remove();
  await page.evaluate(`document.querySelector("#data-side .file button").click()`);
  expect("back to the text", [await shown(page, "data"), (await page.answer())[0]], ["text", "stale"]);

  await page.set("program", "REP(600000) INT(1,1) SPACE END NEWLINE");
  const line = "1 ".repeat(600_000);
  remove = await choose(page, "data", "long.in", `${line}\n`);
  expect("a long file", await shown(page, "data"), "long.in, 1200001 bytes, is checked as it is.");
  expect("it is checked too", await page.check(), "testdata ok!\n");
  remove();
  await page.check();
  expect("a file that is gone", (await page.answer())[0], "no-verdict");
  await page.evaluate(`document.querySelector("#data-side .file button").click()`);
  await page.set("data", "5");

  remove = await choose(page, "program", "bytes.ctd", Buffer.from([0x23, 0xff]));
  expect("a program that is no text", await shown(page, "program"), "bytes.ctd, 2 bytes, is checked as it is.");
  await page.click("link");
  expect("no link holds it", await page.evaluate("[copied.textContent, location.hash]"), ["a link cannot hold this file", ""]);
  remove();

  remove = await choose(page, "program", "one.ctd", "EOF", true);
  remove();
  expect("a file of a program", await page.text("program"), "EOF");
  expect("its check", await page.check(), "line 1 column 1: expected end of file (program line 1 column 1)\n");
}

export async function testPaste(page) {
  await page.set("program", "INT(1,9) NEWLINE INT(1,9) NEWLINE");
  await page.set("data", "");
  await page.paste("data", "5\r\n6\r\n");
  expect("pasted text gets line feeds", await page.text("data"), "5\n6\n");
  expect("and is checked so", await page.check(), "testdata ok!\n");
  const hint = await page.evaluate(`document.getElementById("data-hint").textContent`);
  expect("a hint says so", /line feed.*CR LF.*file/.test(hint), true);
  const near = await page.evaluate(`document.querySelector("#data-side").contains(document.getElementById("data-hint"))`);
  expect("it stands beside the data", near, true);
}
