// The answer of the page. A verdict is shown as such only while the program, the data and the options are those that were checked.
import { placesIn } from "./message.js";

// For each status of the checker the state of the answer, and the words above its message.
const VERDICTS = [
  ["accepted", "✓ The data fit"],
  ["rejected", "✗ The data do not fit"],
  ["no-verdict", "! No verdict"],
];
const STALE = "Changed since this check";

const part = (id) => document.getElementById(id);

export class Answer {
  constructor(fields) {
    this.fields = fields;
    for (const name of Object.keys(fields)) {
      part(`${name}-around`).querySelector("button").onclick = () => fields[name].goTo(this.places[name]);
    }
  }

  // Shows a state that has no verdict, with its words.
  #clear(state, words) {
    part("result").dataset.state = state;
    part("verdict").textContent = words;
    for (const id of ["answer", "words", "cost"]) part(id).textContent = "";
    this.#clearPlaces();
  }

  #clearPlaces() {
    for (const [name, field] of Object.entries(this.fields)) {
      part(`${name}-around`).hidden = true;
      field.clearFault();
    }
  }

  ready() {
    this.#clear("none", "Nothing is checked yet.");
  }

  cannotRun(reason) {
    this.#clear("no-verdict", `This browser cannot run the checker: ${reason}`);
  }

  checking() {
    this.#clear("checking", "Checking…");
  }

  stopped() {
    this.#clear("stopped", "Stopped. There is no verdict.");
  }

  brokeOff(reason) {
    this.#clear("no-verdict", `! The checker broke off: ${reason}`);
  }

  // Shows what the checker answered. `isStale` says that the texts or the options changed while it ran.
  show({ status, out, err, words, milliseconds, memory, around }, isStale) {
    const message = out + err;
    this.#clear(...VERDICTS[status]);
    part("answer").textContent = message;
    part("words").textContent = words;
    part("cost").textContent = `status ${status}, ${milliseconds.toFixed(1)} ms, ${Math.round(memory / 2 ** 20)} MiB of memory`;
    if (isStale) this.outdate();
    else this.#showPlaces(placesIn(message), around);
  }

  // Shows more words about a fault.
  explain(words) {
    part("words").textContent = words;
  }

  // Says of a verdict that it is one on other texts or options.
  outdate() {
    if (!["accepted", "rejected", "no-verdict"].includes(part("result").dataset.state)) return;
    part("result").dataset.state = "stale";
    part("verdict").textContent = STALE;
    this.#clearPlaces();
  }

  #showPlaces(places, around) {
    this.places = { data: places.spot, program: places.place };
    for (const [name, field] of Object.entries(this.fields)) {
      const place = this.places[name];
      if (!place) continue;
      part(`${name}-around`).querySelector("button").disabled = Boolean(field.file);
      this.#showAround(name, place, around[name]);
      field.markFault(place);
    }
  }

  // Shows the bytes around a place, with a mark.
  #showAround(name, { line, column }, around) {
    if (!around) return;
    const shown = part(`${name}-around`);
    const mark = document.createElement("mark");
    mark.textContent = around.mark;
    shown.querySelector("span").textContent = `line ${line} column ${column}`;
    const before = name === "program" ? around.before.trimStart() : around.before;
    shown.querySelector("code").replaceChildren(before, mark, around.after);
    shown.hidden = false;
  }

  // Brings the answer in sight.
  reveal() {
    part("result").scrollIntoView({ block: "nearest" });
  }
}
