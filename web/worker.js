// Runs the checker or ctd-lint in the background. The page ends the worker to stop a check, and starts a new one for the next.
import { Checker, Linter } from "./checker.js";
import { excerpt, placesIn } from "./message.js";
import { offsetAt, textOf } from "./program.js";
import { wordsOfPresets, wordsOfRefusal } from "./refusals.js";
import { valuesAt } from "./values.js";

const DEFINE = "--define=";
const STEP_LIMIT = "step limit reached";
const MOST_STEPS = 2n ** 64n - 1n;
// Of longer programs and data, in bytes, no values are asked for.
const LONGEST = 2 ** 20;

// The presets of a command line.
function presetsIn(options) {
  return options.find((it) => it.startsWith(DEFINE))?.slice(DEFINE.length) ?? "";
}

// Reads a file or a Blob into the module's memory, a piece at a time.
async function load(instance, data) {
  const place = instance.reserve(data.size);
  const reader = data.stream().getReader();
  let offset = 0;
  for (;;) {
    const { done, value } = await reader.read();
    if (done) return place;
    instance.bytesAt(place.start + offset, value.length).set(value);
    offset += value.length;
  }
}

async function check({ module, options, program, data }) {
  const checker = await Checker.start(module);
  const [text, testdata] = [await load(checker, program), await load(checker, data)];
  const answer = checker.run(options, text, testdata);
  const { spot, place, message } = placesIn(answer.out + answer.err);
  const around = {
    data: spot && excerpt(checker.bytesAt(testdata.start, testdata.size), spot),
    program: place && excerpt(checker.bytesAt(text.start, text.size), place),
  };
  const words = spot ? "" : wordsOfRefusal(message, checker.bytesAt(text.start, text.size), place, presetsIn(options));
  return { ...answer, around, words, memory: checker.exports.memory.buffer.byteLength };
}

async function lint({ module, options, program }) {
  const linter = await Linter.start(module);
  const text = await load(linter, program);
  const { findings, remarks } = linter.findings(options, text);
  const refusal = findings.find(({ rank }) => rank === "error");
  // ctd-lint says more of a program, and nothing of presets.
  const words = refusal && !refusal.place ? wordsOfPresets(presetsIn(options)) : "";
  if (words) refusal.text += `: ${words}`;
  return { findings, remarks };
}

// The values of the variables where a check failed, whose answer is given; an empty text where there are none, or the program or the data are long.
async function values({ module, options, program, data, answer }) {
  const fault = placesIn(answer);
  if (!fault.spot || !fault.place || fault.message === STEP_LIMIT || Math.max(program.size, data.size) > LONGEST) return "";
  const [text, testdata] = await Promise.all([program, data].map(async (it) => new Uint8Array(await it.arrayBuffer())));
  const unlimited = [...options.filter((it) => !it.startsWith("--max-steps=")), `--max-steps=${MOST_STEPS}`];
  const run = async (copy) => {
    const checker = await Checker.start(module);
    const { out, err } = checker.run(unlimited, checker.copy(copy), checker.copy(testdata));
    return placesIn(out + err);
  };
  const shown = textOf(testdata);
  const number = /^-?[0-9]*/.exec(shown.slice(offsetAt(shown, fault.spot)))[0];
  return valuesAt(run, textOf(text), options, { ...fault, number });
}

const JOBS = { check, lint, values };

self.onmessage = ({ data }) =>
  JOBS[data.job](data).then(
    (answer) => self.postMessage(answer),
    (error) => self.postMessage({ error: error.message }),
  );
