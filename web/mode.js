// The highlighting of programs: a mode of CodeMirror that is made of the grammar for VS Code.
import grammar from "made/grammar.json";
import CodeMirror from "./editor.js";

// The class of CodeMirror for the first words of a name in the grammar. A name without one has no colour.
const CLASSES = {
  "comment": "comment",
  "string": "string",
  "constant.character.escape": "string-2",
  "keyword.control": "keyword",
  "keyword.other": "builtin",
  "support.function": "atom",
  "invalid.illegal": "error",
  "variable": "variable",
  "constant.numeric": "number",
  "keyword.operator": "operator",
};

function classOf(name) {
  const found = Object.keys(CLASSES).find((start) => name.startsWith(`${start}.`));
  return found ? CLASSES[found] : null;
}

// The states of a simple mode for the patterns of a grammar: `start`, and one for each pattern that has a begin and an end.
function statesOf(patterns) {
  const states = { start: [], meta: { lineComment: "#" } };
  for (const { name, match, begin, end, patterns: inner = [] } of patterns) {
    const token = classOf(name);
    if (match) {
      states.start.push({ regex: new RegExp(match), token });
      continue;
    }
    states.start.push({ regex: new RegExp(begin), token, next: name });
    states[name] = [
      ...inner.map((it) => ({ regex: new RegExp(it.match), token: classOf(it.name) })),
      { regex: new RegExp(end), token, next: "start" },
      { regex: /./, token },
    ];
  }
  return states;
}

CodeMirror.defineSimpleMode("checktestdata", statesOf(grammar.patterns));
