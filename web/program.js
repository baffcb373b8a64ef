// Programs and presets as trees, or what could stand where a text is none: by the tables that tools/ctd_program.py makes of the grammar. Texts have one
// character for each byte, so an offset counts bytes.
import language from "made/language.json";

export const NAME = "NAME";
export const NUMERAL = "NUMERAL";
export const TEXT = "TEXT";
const END = "the end of the text";
// A token, with the blanks and comments before it. A backslash and the byte behind it are never the closing quote of a string.
const PIECE =
  /(?:[ \t\r\n]+|#[^\n]*)*(?:(<=|>=|==|!=|&&|\|\||[()[\],=+\-*/%^!<>]|[A-Z]+)|([a-z][a-z0-9]*)|([0-9]+)|("[^"\\]*(?:\\[^][^"\\]*)*")|($)|([^]))/y;

export const bytesOf = (text) => Uint8Array.from(text, (it) => it.charCodeAt(0));

// Bytes as a text with one character for each.
export function textOf(bytes) {
  let text = "";
  for (let start = 0; start < bytes.length; start += 4096) text += String.fromCharCode(...bytes.subarray(start, start + 4096));
  return text;
}

// The offset of a line and a column in a text, both from 1.
export function offsetAt(text, { line, column }) {
  let start = 0;
  for (let current = 1; current < line; current++) start = text.indexOf("\n", start) + 1;
  return Math.min(start + column - 1, text.length);
}

export const isToken = (tree) => !tree.parts;

// The tokens of a text, with one for its end. One that is none has no symbol.
export function* tokensOf(text) {
  PIECE.lastIndex = 0;
  for (let found; (found = PIECE.exec(text)); ) {
    const [, spelled, name, numeral, string, end] = found;
    const token = spelled ?? name ?? numeral ?? string ?? end ?? found[6];
    const symbol = spelled ?? (name && NAME) ?? (numeral && NUMERAL) ?? (string && TEXT) ?? (end === "" ? END : undefined);
    const behind = PIECE.lastIndex;
    yield { symbol, offset: behind - token.length, end: behind };
    if (end === "" || !symbol) return;
    PIECE.lastIndex = behind;
  }
}

// Reads a text by the tables of a language: `trees`, or the `offset` at which none goes on, and what is `expected` there.
export function read(text, table) {
  const path = [0];
  const entries = [];
  for (const token of tokensOf(text)) {
    const before = [...path];
    while (table[path.at(-1)][0][token.symbol] === undefined) {
      const [symbol, length] = table[path.at(-1)][1][token.symbol] ?? [];
      if (!symbol) return { offset: token.offset, end: token.end, expected: token.symbol ? expectedBehind(before, table) : [] };
      if (length === 1) path.pop();
      else {
        path.length -= length;
        entries.push(entryOf(symbol, entries.splice(entries.length - length)));
      }
      path.push(table[path.at(-1)][0][symbol]);
    }
    path.push(table[path.at(-1)][0][token.symbol]);
    entries.push(token);
  }
  return { trees: entries[0] };
}

// What a symbol is that is spelled by several parts, or by none: a tree, or for what stands in braces the list of its parts.
function entryOf(symbol, [first = [], ...rest]) {
  const parts = Array.isArray(first) ? first : [first];
  for (const part of rest) parts.push(...[part].flat());
  return symbol.startsWith("{") ? parts : { symbol, parts, offset: parts[0].offset, end: parts.at(-1).end };
}

// The tokens that can stand behind what led through these states.
function expectedBehind(path, table) {
  const [shifts, reductions] = table[path.at(-1)];
  const symbols = Object.keys({ ...shifts, ...reductions }).filter((it) => it === END || !/^[a-z{]/.test(it));
  return symbols.filter((symbol) => takes([...path], symbol, table));
}

function takes(path, symbol, table) {
  while (table[path.at(-1)][0][symbol] === undefined) {
    const [made, length] = table[path.at(-1)][1][symbol] ?? [];
    if (!made) return false;
    path.length -= length;
    path.push(table[path.at(-1)][0][made]);
  }
  return true;
}

export const readProgram = (text) => read(text, language.program);
export const readPresets = (text) => read(text, language.presets);

// Tokens, in the words of the companions for what could stand somewhere.
export function choices(expected) {
  const rest = new Set(expected);
  const groups = [];
  for (const [title, tokens] of language.groups) {
    if (!tokens.every((it) => rest.has(it))) continue;
    for (const token of tokens) rest.delete(token);
    groups.push(title);
  }
  const order = (it) => (language.order.includes(it) ? language.order.indexOf(it) : language.order.length);
  const found = [...groups, ...[...rest].sort().map((it) => language.single[it] ?? it)].sort((one, other) => order(one) - order(other));
  return `expected ${found.join(" or ")}`;
}
