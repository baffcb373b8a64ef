// What a message of the checker says about places, and how they are shown.

// How many bytes are shown on each side of a mark.
const AROUND = 40;

// How a carriage return, a line feed and the end of a text are shown.
const CARRIAGE_RETURN = "\\r";
export const LINE_FEED = "↵";
const END = "‹end of text›";

// The ranks of findings, and what is said of the last command without an END in a program that is refused.
const RANKS = ["error", "warning", "risk", "note"];
const NO_END = "this command has no END";

// The spot in the data and the place in the program that an answer names, null where it names none; and the message, without them.
export function placesIn(answer) {
  const spot = /^(?:checktestdata: )?line (\d+) column (\d+): /.exec(answer);
  const place = /program line (\d+) column (\d+)/.exec(answer);
  const numbers = (found) => found && { line: Number(found[1]), column: Number(found[2]) };
  const message = answer.trimEnd().replace(/^checktestdata: /, "").replace(/^(?:program )?line \d+ column \d+: /, "").replace(/ \(program .*\)$/, "");
  return { spot: numbers(spot), place: numbers(place), message };
}

// What ctd-lint says with --json, and on standard error in lines `ctd-lint: TEXT`: the findings, each with its rank (error, warning, risk or note), its text,
// and its place, or null where it has none; and the remarks on the whole program. A line that is cut off is passed over.
export function findingsIn(out, err) {
  const errors = Array.from(err.matchAll(/^ctd-lint: (.*)$/gm), ([, text]) => ({ place: null, rank: "error", text }));
  const said = out.split("\n").slice(0, -1).map((line) => JSON.parse(line));
  const placeOf = ({ line, column }) => (line ? { line, column } : null);
  const findings = said.filter(({ rank }) => RANKS.includes(rank)).flatMap((it) => {
    const text = [it.text, it.name, it.reason].filter(Boolean).join(": ") + (it.kind ? ` [${it.kind}]` : "");
    const finding = { place: placeOf(it), rank: it.rank, text };
    return it.unclosed ? [finding, { place: placeOf(it.unclosed), rank: "note", text: NO_END }] : [finding];
  });
  return { findings: [...errors, ...findings], remarks: said.filter(({ rank }) => rank === "verdict").map(({ text }) => text) };
}

// The index of a column in the text of a line. Columns count bytes from 1, and a text has units of UTF-16.
export function columnIn(text, column) {
  const before = new TextEncoder().encode(text).subarray(0, column - 1);
  return new TextDecoder("utf-8", { ignoreBOM: true }).decode(before).length;
}

// The bytes around a line and column as text: what stands before the mark, at it and behind it.
export function excerpt(bytes, { line, column }) {
  let start = 0;
  for (let current = 1; current < line; current++) {
    const lineFeed = bytes.indexOf(10, start);
    if (lineFeed < 0) return null;
    start = lineFeed + 1;
  }
  const lineFeed = bytes.indexOf(10, start);
  const end = lineFeed < 0 ? bytes.length : lineFeed;
  const mark = Math.min(start + column - 1, end);
  const [first, last] = [Math.max(start, mark - AROUND), Math.min(end, mark + 1 + AROUND)];
  return {
    before: (first > start ? "…" : "") + visible(bytes.subarray(first, mark)),
    mark: mark < end ? visible(bytes.subarray(mark, mark + 1)) : lineFeed < 0 ? END : LINE_FEED,
    after: visible(bytes.subarray(Math.min(mark + 1, last), last)) + (last < end ? "…" : ""),
  };
}

// Bytes as text in which each byte can be seen.
function visible(bytes) {
  return Array.from(bytes, (byte) => {
    if (byte === 9) return "→";
    if (byte === 13) return CARRIAGE_RETURN;
    return byte >= 32 && byte < 127 ? String.fromCharCode(byte) : "·";
  }).join("");
}
