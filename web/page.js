// The page: its fields, the worker that checks, and the examples.
import { Answer } from "./answer.js";
import { Field } from "./field.js";
import { Findings } from "./findings.js";
import { modules, startWorker } from "./engine.js";
import "./mode.js";
import examples from "made/examples.json";

const part = (id) => document.getElementById(id);
// What the page begins with, unless a link has a program.
const FIRST_EXAMPLE = "graph: loop.in, does not fit";

// The check that runs: its worker, and whether a text or an option changed since it began. Null where none runs.
let running = null;
// The worker that is asked for the values at the fault of the last check. Null where none is.
let asked = null;

const program = new Field(
  "program",
  { options: { mode: "checktestdata", screenReaderLabel: "Program", lineWrapping: true, matchBrackets: true, indentUnit: 4 } },
  () => {
    changed();
    findings.later();
  },
);
const data = new Field(
  "data",
  {
    // (without this CodeMirror takes the mode of programs, the first that was defined)
    options: { mode: null, screenReaderLabel: "Data", showTrailingSpace: true },
    // A line of data begins with no blanks of the line before.
    keys: { Enter: (editor) => editor.replaceSelection("\n") },
  },
  changed,
);
const answer = new Answer({ data, program });
const findings = new Findings(program, part("lint"), part("findings"), async () => ({
  module: await modules.linter,
  options: presetOption(),
  program: program.blob(),
}));

function changed() {
  part("examples").value = "";
  stopAsking();
  if (running) running.isStale = true;
  else answer.outdate();
}

function stopAsking() {
  asked?.terminate();
  asked = null;
  part("result").ariaBusy = "false";
}

function presetOption() {
  return part("presets").value ? [`--define=${part("presets").value}`] : [];
}

// The words of the command line for the options that are set.
function options() {
  const words = [...(part("whitespace").checked ? ["-w"] : []), ...presetOption()];
  if (part("steps").value) words.push(`--max-steps=${part("steps").value}`);
  return words;
}

function end() {
  running?.worker.terminate();
  running = null;
  part("stop").ariaDisabled = "true";
}

// Begins a check, in place of one that runs. `reveal` brings its answer in sight.
async function check(reveal) {
  end();
  stopAsking();
  part("stop").ariaDisabled = "false";
  answer.checking();
  reveal();
  const run = { worker: startWorker(), isStale: false };
  running = run;
  const job = { options: options(), program: program.blob(), data: data.blob(), module: await modules.checker };
  const finish = ({ error, ...shown }) => {
    end();
    if (error) answer.brokeOff(error);
    else answer.show(shown, run.isStale);
    reveal();
    if (!error && !run.isStale && shown.status !== 0) askForValues({ ...job, answer: shown.out + shown.err }, reveal);
  };
  run.worker.onmessage = (event) => finish(event.data);
  run.worker.onerror = (event) => finish({ error: event.message });
  run.worker.postMessage({ ...job, job: "check" });
}

// Asks for the values at a fault, and shows them, unless something changes before.
function askForValues(job, reveal) {
  const worker = startWorker();
  asked = worker;
  part("result").ariaBusy = "true";
  worker.onmessage = ({ data: told }) => {
    if (asked !== worker) return;
    stopAsking();
    if (!told || told.error) return;
    answer.explain(told);
    reveal();
  };
  worker.onerror = stopAsking;
  worker.postMessage({ ...job, job: "values" });
}

// Begins a check that the user asks for.
function checkNow() {
  check(() => answer.reveal());
}

// A link holds the program and the options behind its #, which a browser does not send anywhere.
function link() {
  const parts = new URLSearchParams({ program: program.text });
  for (const id of ["presets", "steps"]) if (part(id).value) parts.set(id, part(id).value);
  if (part("whitespace").checked) parts.set("whitespace", "1");
  return new URL(`#${parts}`, location.href).href;
}

// Opens what a link holds, and says whether it holds a program.
function openLink() {
  const parts = new URLSearchParams(location.hash.slice(1));
  if (!parts.has("program")) return false;
  program.set(parts.get("program"));
  for (const id of ["presets", "steps"]) part(id).value = parts.get(id) ?? "";
  part("whitespace").checked = parts.has("whitespace");
  changed();
  return true;
}

async function copyLink() {
  if (program.file) {
    part("copied").textContent = "a link cannot hold this file";
    return;
  }
  history.replaceState(null, "", link());
  const copied = await navigator.clipboard?.writeText(location.href).then(() => true, () => false);
  part("copied").textContent = copied ? "copied" : "the link stands in the address line";
}

// Lists the examples: a group for each program, with its data.
function listExamples() {
  for (const { title, data } of examples) {
    const group = document.createElement("optgroup");
    group.label = title;
    group.append(...data.map(({ name }) => new Option(name, name)));
    part("examples").append(group);
  }
  part("examples").onchange = () => showExample(part("examples").value);
}

function showExample(name) {
  for (const example of examples) {
    for (const { name: found, text } of example.data) {
      if (found !== name) continue;
      program.set(example.program);
      data.set(text);
      part("examples").value = name;
    }
  }
}

// A file that is dropped beside the editors does not leave the page.
function keepPage(event) {
  if (event.dataTransfer?.types.includes("Files")) event.preventDefault();
}

function listen() {
  part("check").onclick = checkNow;
  part("stop").onclick = () => {
    if (!running) return;
    end();
    answer.stopped();
  };
  part("link").onclick = copyLink;
  for (const id of ["whitespace", "presets", "steps"]) part(id).oninput = changed;
  part("presets").addEventListener("input", () => findings.later());
  document.addEventListener("keydown", (event) => {
    if (event.key === "Enter" && (event.ctrlKey || event.metaKey) && !part("check").disabled) checkNow();
  });
  for (const kind of ["dragover", "drop"]) document.addEventListener(kind, keepPage);
  window.onhashchange = openLink;
}

async function start() {
  data.editor.getInputField().setAttribute("aria-describedby", "data-hint");
  listen();
  listExamples();
  const isLink = openLink();
  if (!isLink) showExample(FIRST_EXAMPLE);
  try {
    await Promise.all(Object.values(modules));
  } catch (error) {
    answer.cannotRun(error.message);
    return;
  }
  part("check").disabled = false;
  answer.ready();
  findings.later();
  if (!isLink) check(() => {});
}

start();
