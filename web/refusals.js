// Why a program or its presets are refused, in more words than the checker has (tools/ctd_refusals.py does the same for the companions).
import { NUMERAL, bytesOf, choices, offsetAt, readPresets, readProgram, textOf, tokensOf } from "./program.js";

const BLOCKS = ["REP", "REPI", "WHILE", "WHILEI", "IF"];
// Of longer programs, in bytes, nothing more is said.
const LONGEST = 2 ** 20;
// How much is shown of the presets before a fault.
const ROOM = 30;
// What JavaScript takes in a pattern and the checker does not.
const NOT_THERE = [
  [/\(\?<?[=!]/, "there is no look-ahead and no look-behind"],
  [/\\[1-9]/, "there are no back references"],
];

// What more there is to say of a program, in bytes, that is refused with a message and a place; an empty text where there is nothing.
export function wordsOfRefusal(message, bytes, place, presets) {
  if (message === "bad preset") return wordsOfPresets(presets);
  if (!place || bytes.length > LONGEST) return "";
  const text = textOf(bytes);
  const offset = offsetAt(text, place);
  if (message === "syntax error") return expectedWords(text);
  if (message === "not in this profile") return leftOut(text.slice(offset));
  if (message === "bad pattern") return patternFault(bytes, tokenAt(text, offset));
  return "";
}

// What could stand where a program has a syntax error, and which command is open where END could.
function expectedWords(text) {
  const { offset, expected } = readProgram(text);
  if (!expected?.length) return "";
  return choices(expected) + (expected.includes("END") ? openCommand(text, offset) : "");
}

function openCommand(text, offset) {
  const opened = [];
  for (const token of tokensOf(text)) {
    if (token.offset >= offset) break;
    if (BLOCKS.includes(token.symbol)) opened.push(token);
    else if (token.symbol === "END") opened.pop();
  }
  if (!opened.length) return "";
  const { symbol, offset: start } = opened.at(-1);
  const lines = text.slice(0, start).split("\n");
  return ` (${symbol} of line ${lines.length} column ${lines.at(-1).length + 1} is open)`;
}

// What is written at the start of a text that is no part of this profile, and what to write.
function leftOut(text) {
  const [written, digits, fraction, exponent] = /^([0-9]+)(\.[0-9]*)?(?:[eE]([-+]?[0-9]*))?/.exec(text) ?? [];
  if (!written) return "numbers are whole here; REGEX reads others";
  if (fraction !== undefined) return `${written} has a fraction, and numbers are whole here`;
  if (exponent === undefined) return `${written} has a leading zero: write ${BigInt(digits)}`;
  const factor = BigInt(digits) === 1n ? "" : `${BigInt(digits)}*`;
  return `${written} has an exponent${/^[0-9]+$/.test(exponent) ? `: write ${factor}10^${BigInt(exponent)}` : ""}`;
}

function tokenAt(text, offset) {
  for (const token of tokensOf(text)) if (token.offset === offset) return token;
  return null;
}

// What is wrong with the pattern in a string of a program, as far as JavaScript knows. Flags of the checker's patterns, which it does not know, are left out.
function patternFault(bytes, token) {
  if (!token) return "";
  const written = new TextDecoder().decode(bytes.subarray(token.offset + 1, token.end - 1));
  const pattern = written.replace(/\\(["\\]|\n)/g, (_, it) => it.trim());
  const missing = NOT_THERE.find(([form]) => form.test(pattern));
  if (missing) return missing[1];
  try {
    new RegExp(pattern.replace(/\(\?[a-zA-Z-]+\)/g, "").replace(/\(\?(?:[a-zA-Z-]+:|P?<)/g, (it) => (it.endsWith(":") ? "(?:" : "(?<")));
  } catch ({ message }) {
    const told = message.slice(message.lastIndexOf(": ") + 1).trim();
    return told[0].toLowerCase() + told.slice(1);
  }
  return "";
}

// What is wrong with a text of presets; an empty text where nothing is.
export function wordsOfPresets(presets) {
  const text = textOf(new TextEncoder().encode(presets));
  const tokens = [...tokensOf(text)];
  const behind = (told, offset) => {
    const before = new TextDecoder().decode(bytesOf(text.slice(0, offset)));
    return before ? `${told} behind ${before.length > ROOM ? "…" : ""}${before.slice(-ROOM)}` : `${told} at the start`;
  };
  const last = tokens.at(-1);
  if (!last.symbol) return behind(text[last.offset] === '"' ? "unfinished string" : "unexpected byte", last.offset);
  const numeral = tokens.find(({ symbol, offset }) => symbol === NUMERAL && /^(?:0[0-9]|[0-9]+[.eE])/.test(text.slice(offset)));
  if (numeral) return leftOut(text.slice(numeral.offset));
  const index = tokens.findIndex(({ offset }, i) => offset > (tokens[i - 1]?.end ?? 0));
  if (index >= 0) return behind("there is a blank or a comment", tokens[index - 1]?.end ?? 0);
  const { offset, expected } = readPresets(text);
  return expected ? behind(choices(expected).replace("the end of the program", "the end"), offset) : "";
}
