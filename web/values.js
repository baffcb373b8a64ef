// The values of the variables in a command that failed, asked of the checker by copies of the program, as ctd-show does (tools/ctd_values.py). A copy has
// questions where the command fails, each an ASSERT in a line of its own, so the place in the answer says which of them is false first.
import { NAME, NUMERAL, bytesOf, isToken, offsetAt, readProgram } from "./program.js";

const [LEAST, GREATEST] = [-(2n ** 127n), 2n ** 127n - 1n];
// How many runs a fault may take, how many bytes of a string and of a number in the data are shown, and how many values.
const MOST_RUNS = 300;
const STRING_ROOM = 40;
const MOST_VALUES = 8;
// With which numbers a value is compared at first, and with how many after that.
const POWERS = Array.from({ length: 122 }, (_, i) => 2n ** BigInt(i + 5)).flatMap((it) => [it, -it]);
const COARSE = [...new Set([...Array.from({ length: 533 }, (_, i) => BigInt(i - 20)), ...POWERS])].sort((one, other) => (one < other ? -1 : 1));
const ROUND = 1000n;
const SIGNS = ["<", ">", "<=", ">=", "==", "!="];
// Of which arguments a command sets the variable.
const TARGETS = { INT: [2], REGEX: [1], REPI: [0] };

// A copy ended at something else than a question, or at one that has no value.
class EndedOtherwise extends Error {}
class TooManyRuns extends Error {}

// What is told of a fault: a program and what was answered; an empty text where that is nothing. `check` runs a copy, in bytes, and gives its answer.
export async function valuesAt(check, text, options, answer) {
  const command = commandAt(readProgram(text).trees ?? [], offsetAt(text, answer.place));
  if (!command) return "";
  try {
    const told = await new Fault(check, text, options, command, answer).told();
    return told && `${answer.message}: ${told}`;
  } catch (fault) {
    if (fault instanceof EndedOtherwise || fault instanceof TooManyRuns) return "";
    throw fault;
  }
}

function commandAt(trees, offset) {
  for (const waiting = [...trees]; waiting.length; ) {
    const tree = waiting.pop();
    if (tree.symbol === "command" && tree.offset === offset) return tree;
    if (!isToken(tree) && tree.offset <= offset && offset < tree.end) waiting.push(...tree.parts);
  }
  return null;
}

const argumentsOf = ({ parts }) => parts.slice(2, parts.findIndex(({ symbol }) => symbol === ")")).filter(({ symbol }) => symbol !== "," && symbol !== "=");

// The variables that an expression or a test reads, each before those in its indices. An array as a whole is none.
function* variablesIn(tree) {
  if (isToken(tree)) {
    if (tree.symbol === NAME) yield tree;
    return;
  }
  if (tree.symbol === "variable") yield tree;
  const word = tree.parts[0].symbol;
  if (word === "UNIQUE") return;
  const parts = tree.symbol === "variable" ? tree.parts.slice(1) : word === "INARRAY" ? tree.parts.slice(0, 3) : tree.parts;
  for (const part of parts) yield* variablesIn(part);
}

function inParentheses(tree) {
  while (tree.parts?.length === 3 && tree.parts[0].symbol === "(") tree = tree.parts[1];
  return tree;
}

// The sides of a test with && or ||, those of a side with the same mark in its place.
function operandsOf(test) {
  return [test.parts[0], test.parts[2]].flatMap((part) => {
    const side = inParentheses(part);
    return side.symbol === test.symbol ? operandsOf(side) : [part];
  });
}

const isComparison = (tree) => tree.parts?.length === 3 && SIGNS.includes(tree.parts[1].symbol);
const isLiteral = (tree, source) => (isToken(tree) && tree.symbol !== NAME) || /^-\s*[0-9]+$/.test(source);

// A number as an expression; the least has no numeral of its own.
const numeral = (number) => (number === LEAST ? `(-${GREATEST}-1)` : number < 0n ? `(${number})` : `${number}`);
const literal = (value) => `"${Array.from(value, (it) => `\\${it.charCodeAt(0).toString(8).padStart(3, "0")}`).join("")}"`;

// A part of the program on one line, with this in place of blanks.
function shown(source, blank = "") {
  const text = source.replace(/("(?:[^"\\]|\\[^])*")|(?:[ \t\r\n]|#[^\n]*)+/g, (_, string) => string ?? blank);
  return new TextDecoder().decode(bytesOf(text)).replaceAll("\n", "\\n");
}

const ESCAPES = { '"': '\\"', "\\": "\\\\", "\n": "\\n", "\t": "\\t", "\r": "\\r" };

// A string in quotes, cut where it is long.
function quoted(value, length) {
  const escaped = Array.from(value, (it) => ESCAPES[it] ?? (it >= " " && it <= "~" ? it : `\\${it.charCodeAt(0).toString(8).padStart(3, "0")}`));
  return `"${escaped.join("")}"${length > value.length ? "…" : ""}`;
}

class Fault {
  constructor(check, text, options, command, { message, number }) {
    Object.assign(this, { check, text, command, message, number, runs: 0 });
    let prefix = 0;
    while ([text, ...options].some((it) => it.includes(`q${prefix}q`))) prefix++;
    this.counter = `q${prefix}q`;
    // What stands at the start of a copy and before its command, and the test that is true just where the command fails.
    this.start = this.before = this.condition = "";
  }

  source(tree) {
    return this.text.slice(tree.offset, tree.end);
  }

  async told() {
    const word = this.command.parts[0].symbol;
    if (word.startsWith("WHILE") || (word.startsWith("REP") && this.message !== "bad count")) return "";
    const given = argumentsOf(this.command);
    const variables = this.readVariables(word, ["IF", "REP"].includes(word) ? given.slice(0, 1) : given);
    if (word === "INT" && this.message === "value out of range") return this.toldOfRange(given, variables);
    if (this.message !== "assertion failed") return (await this.values(variables)).join(", ");
    this.condition = `!(${this.source(given[0])})`;
    return this.toldOfTest(given[0]);
  }

  // The variables that the command reads, each once; of one that it sets, those in its indices.
  readVariables(word, trees) {
    const isTarget = (index) => (word === "SET" ? index % 2 === 0 : word === "UNSET" || TARGETS[word]?.includes(index));
    const found = trees.flatMap((tree, index) => [...variablesIn(tree)].filter((it) => !(it === tree && isTarget(index))));
    return [...new Set(found.map((it) => this.source(it)))];
  }

  // The index of the first of these tests that is false where the command fails; that behind the last where all are true.
  async ask(tests) {
    if (!this.condition) await this.count();
    this.runs += 1;
    if (this.runs > MOST_RUNS) throw new TooManyRuns();
    const before = `${this.start}${this.text.slice(0, this.command.offset)}IF(0==0) ${this.before}IF(${this.condition})\n`;
    const questions = [...tests, "0!=0"].map((test) => `ASSERT(${test})\n`).join("");
    const { message, place } = await this.check(bytesOf(`${before}${questions}END\n${this.source(this.command)} END ${this.text.slice(this.command.end)}`));
    const index = place ? place.line - before.split("\n").length : -1;
    if (message !== "assertion failed" || index < 0 || index > tests.length) throw new EndedOtherwise(index < 0 ? "" : message);
    return index;
  }

  // Finds how often the command has run when it fails.
  async count() {
    this.start = `SET(${this.counter}=0) `;
    this.before = `SET(${this.counter}=${this.counter}+1) `;
    const runsSoOften = async (times) => {
      this.condition = `${this.counter}==${times}`;
      try {
        await this.ask([]);
        return true;
      } catch (fault) {
        if (fault instanceof EndedOtherwise) return false;
        throw fault;
      }
    };
    let [least, most] = [1, 2];
    while (await runsSoOften(most)) [least, most] = [most, most * 2];
    while (most - least > 1) {
      const middle = Math.floor((least + most) / 2);
      [least, most] = (await runsSoOften(middle)) ? [middle, most] : [least, middle];
    }
    this.condition = `${this.counter}==${least}`;
  }

  // The value of an expression that is a number between two others.
  async numberOf(expression, least = LEAST, greatest = GREATEST) {
    let steps = COARSE.filter((step) => least < step && step <= greatest);
    while (least < greatest) {
      const index = await this.ask(steps.map((step) => `${expression}>=${numeral(step)}`));
      if (index < steps.length) greatest = steps[index] - 1n;
      if (index > 0) least = steps[index - 1];
      const width = (greatest - least) / ROUND + 1n;
      steps = [];
      for (let step = least + 1n; step <= greatest; step += width) steps.push(step);
    }
    return least;
  }

  // The value of an expression as it is shown; null where it has none.
  async valueOf(expression) {
    try {
      return `${await this.numberOf(expression)}`;
    } catch (fault) {
      if (!(fault instanceof EndedOtherwise)) throw fault;
      if (fault.message !== "wrong type") return null;
    }
    const length = Number(await this.numberOf(`STRLEN(${expression})`, 0n));
    let value = "";
    while (value.length < Math.min(length, STRING_ROOM)) {
      const greater = Array.from({ length: 255 }, (_, i) => value + String.fromCharCode(i + 1));
      value += String.fromCharCode(await this.ask(greater.map((it) => `${expression}>=${literal(it)}`)));
    }
    return quoted(value, length);
  }

  // Expressions with their values, those that have one.
  async values(expressions) {
    const told = [];
    for (const expression of expressions.slice(0, MOST_VALUES)) {
      const value = await this.valueOf(expression);
      if (value !== null) told.push(`${shown(expression)} = ${value}`);
    }
    return expressions.length > MOST_VALUES ? [...told, `and ${expressions.length - MOST_VALUES} more`] : told;
  }

  // What is told of a test that is false: the values in the parts that make it so, and these parts as they are written.
  async toldOfTest(test) {
    const parts = await this.falseParts(test);
    const told = new Set();
    for (const part of parts) for (const one of await this.toldOfPart(part)) told.add(one);
    const written = parts.map((part) => shown(this.source(part), " ")).join(" || ");
    if (told.size) return [...told, `in ${written}`].join(", ");
    return parts.length && (isComparison(parts[0]) || this.conjuncts(test).length > 1) ? `${written} is false` : "";
  }

  // The sides of a test with &&, or the test itself.
  conjuncts(test) {
    const inner = inParentheses(test);
    return inner.symbol === "both" ? operandsOf(inner) : [test];
  }

  // The first side of && that is false, or of || all sides, in each the same.
  async falseParts(test) {
    const sides = this.conjuncts(test);
    if (sides.length > 1) {
      const index = await this.ask(sides.map((it) => this.source(it)));
      return index < sides.length ? this.falseParts(sides[index]) : [];
    }
    const inner = inParentheses(test);
    if (inner.symbol !== "test") return [inner];
    const parts = [];
    for (const side of operandsOf(inner)) parts.push(...(await this.falseParts(side)));
    return parts;
  }

  // The values of both sides of a comparison, and those of its variables.
  async toldOfPart(part) {
    const sides = isComparison(part) ? [part.parts[0], part.parts[2]] : [];
    const told = [];
    for (const side of sides) told.push(await this.side(side));
    const rest = this.readVariables("", [part]).filter((it) => !sides.some((side) => this.source(side) === it));
    return [...told.filter(Boolean), ...(await this.values(rest))];
  }

  // A side of a comparison with its value; an empty text for a literal, and where it has none.
  async side(tree) {
    const source = this.source(tree);
    if (isLiteral(tree, source)) return "";
    const value = await this.valueOf(tree.symbol === NAME || tree.symbol === "variable" ? source : `(${source})`);
    return value === null ? "" : `${shown(source)} = ${value}`;
  }

  // The number in the data, the bounds, and the variables of both.
  async toldOfRange([low, high], variables) {
    const bounds = [await this.bound(low), await this.bound(high)];
    const number = this.number.length > STRING_ROOM ? `${this.number.slice(0, STRING_ROOM)}…` : this.number;
    const rest = variables.filter((it) => it !== this.source(low) && it !== this.source(high));
    return [`${number}; bounds ${bounds.join(" .. ")}`, ...(await this.values(rest))].join(", ");
  }

  async bound(tree) {
    const source = this.source(tree);
    if (tree.symbol === NUMERAL) return source;
    const value = await this.numberOf(`(${source})`);
    return isLiteral(tree, source) ? `${value}` : `${shown(source)} = ${value}`;
  }
}
