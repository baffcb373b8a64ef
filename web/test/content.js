// What the page holds: the examples, the documents, and the checker, which answers the rows of tests/tables/ as the program does.
import { execFileSync } from "node:child_process";
import fs from "node:fs";
import path from "node:path";
import { expect, out, web } from "./tests.js";

// The page begins with an example and its verdict.
export async function testStart(page) {
  expect("the first example", await page.evaluate("examples.value"), "graph: loop.in, does not fit");
  const message = fs.readFileSync(path.join(web, "..", "examples", "graph", "loop.txt"), "utf8");
  expect("its verdict", await page.answer(), ["rejected", "✗ The data do not fit", message]);
}

// What may be marked in data that have no fault: blanks at the end of a line, tabs, and bytes that have no look of their own.
const MARKS_OF_DATA = ["cm-overlay", "cm-trailingspace", "cm-tab", "cm-invalidchar"];

// Data are not coloured, a program has no wrong word, and the lines of the fault are marked, those that the answer names, and no others.
async function expectMarks(page, name, answer) {
  const classes = (side) => page.evaluate(`[...new Set([...document.querySelectorAll("#${side}-side .CodeMirror-code [class*=cm-]")].flatMap((it) => [...it.classList]))].filter((it) => it.startsWith("cm-"))`);
  expect(`${name}: the marks in the data`, (await classes("data")).filter((it) => !MARKS_OF_DATA.includes(it)), []);
  const words = await classes("program");
  expect(`${name}: the program is coloured, and has no wrong word`, [words.includes("cm-builtin"), words.includes("cm-error")], [true, false]);
  const [spot, place] = [/^(?:checktestdata: )?line (\d+) /, /\(program line (\d+) /].map((form) => form.exec(answer)?.slice(1) ?? []);
  const lines = await page.evaluate(`["program", "data"].map((id) => [...document.querySelectorAll("#" + id + "-side .fault-line .CodeMirror-linenumber")].map((it) => it.textContent))`);
  expect(`${name}: the lines of the fault`, lines, [place, spot]);
}

export async function testExamples(page) {
  const groups = JSON.parse(execFileSync("python3", [path.join(web, "examples.py"), path.join(web, "..", "examples")]).toString());
  const folders = fs.readdirSync(path.join(web, "..", "examples"), { withFileTypes: true }).filter((it) => it.isDirectory());
  const labels = await page.evaluate(`[...document.querySelectorAll("#examples optgroup")].map((it) => it.label.split(":")[0])`);
  expect("a group for each example", [...labels].sort(), folders.map((it) => it.name).sort());
  expect("the first groups", labels.slice(0, 5), ["numbers", "list", "graph", "grids", "names"]);
  const count = groups.reduce((sum, { data }) => sum + data.length, 0);
  expect("data in the list", await page.evaluate(`document.querySelectorAll("#examples optgroup option").length`), count);
  for (const { data } of groups) {
    for (const { name, answer } of data) {
      await page.set("examples", name);
      expect(`${name} is shown as chosen`, await page.evaluate("examples.value"), name);
      expect(name, await page.check(), answer);
      await expectMarks(page, name, answer);
    }
  }
}

// Each link of the page and of its documents leads to a file of the page, and where it names a heading, to that. Nothing comes from elsewhere.
export async function testDocuments(page) {
  const documents = ["index.html", ...fs.readdirSync(path.join(out, "docs")).map((name) => `docs/${name}`)];
  const text = (name) => fs.readFileSync(path.join(out, name), "utf8");
  for (const name of documents) {
    for (const [, link] of text(name).matchAll(/(?:href|src)="([^"]*)"/g)) {
      if (/^(https:|data:)/.test(link)) continue;
      const [file, mark] = link.split("#");
      const target = path.normalize(file ? path.join(path.dirname(name), file) : name);
      const isThere = fs.existsSync(path.join(out, target)) && (!mark || mark.includes("=") || text(target).includes(` id="${mark}"`));
      expect(`${name}: ${link} is there`, isThere, true);
    }
  }
  const foreign = await page.evaluate(`performance.getEntriesByType("resource").map(({ name }) => name).filter((name) => !name.startsWith(location.origin) && !name.startsWith("data:"))`);
  expect("what comes from elsewhere", foreign, []);
  await page.tab.go(`${page.address}/docs/TUTORIAL.html`);
  await page.tab.wait(`document.querySelector(".opener a")`);
  const program = await page.evaluate(`document.querySelector(".language-ctd").textContent`);
  await page.evaluate(`document.querySelector(".opener a").click()`);
  await page.tab.wait(`document.querySelector("#program-side .CodeMirror")`);
  expect("a program of the tutorial opens in the page", await page.text("program"), program.trimEnd());
}

// Without the worker, since each row is short.
export async function testTables(page) {
  const text = execFileSync("python3", [path.join(web, "test", "rows.py")], { maxBuffer: 1 << 28 });
  const file = path.join(out, "rows.json");
  fs.writeFileSync(file, text);
  await page.evaluate(`document.head.append(Object.assign(document.createElement("script"), { type: "module", src: "/test/run_rows.js" }))`);
  await page.tab.wait(`document.documentElement.dataset.rows === "ready"`);
  fs.rmSync(file);
  const rows = JSON.parse(text.toString());
  for (let from = 0; from < rows.length; from += 100) {
    const part = rows.slice(from, from + 100);
    const answers = await page.evaluate(`runRows(${from}, ${from + 100})`);
    part.forEach(({ name, wanted, stops }, i) => {
      if (stops) expect(name, /step limit reached/.test(answers[i][2]), true);
      else expect(name, answers[i], wanted);
    });
  }
}
