// Runs rows of tests/tables/ in the page, without its worker, for the test of the page, which puts them into /rows.json: each has options, a program and
// data.
import { Checker } from "../checker.js";

const compiled = await WebAssembly.compile(await (await fetch("/checktestdata-library.wasm")).arrayBuffer());
const rows = await (await fetch("/rows.json")).json();
const bytes = (text) => Uint8Array.from(text, (it) => it.charCodeAt(0));

async function answer([options, program, data]) {
  const checker = await Checker.start(compiled);
  const { status, out, err } = checker.run(options, checker.copy(bytes(program)), checker.copy(bytes(data)));
  return [status, out, err];
}

// The answers to some of the rows.
window.runRows = async (from, to) => {
  const answers = [];
  for (const { row } of rows.slice(from, to)) answers.push(await answer(row));
  return answers;
};
document.documentElement.dataset.rows = "ready";
