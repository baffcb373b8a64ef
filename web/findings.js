// What can be said of the program without data, under its editor and in it, a moment after each change.
import { startWorker } from "./engine.js";

const PAUSE = 300; // milliseconds
const MOST = 50;

function count(number) {
  return number === 0 ? "no findings" : number === 1 ? "1 finding" : `${number} findings`;
}

export class Findings {
  // `summary` is the element for what is said of all, and `list` that of the findings; `job` gives what the worker needs, with the program as it is now.
  constructor(field, summary, list, job) {
    this.field = field;
    this.summary = summary;
    this.list = list;
    this.job = job;
    this.marks = [];
    this.worker = null;
    this.isAsked = false;
  }

  // Looks at the program once nothing has changed for a moment.
  later() {
    for (const part of [this.summary, this.list]) part.classList.add("old");
    clearTimeout(this.timer);
    this.timer = setTimeout(() => this.#look(), PAUSE);
  }

  // One look at a time: a change during a look asks for the next.
  async #look() {
    this.isAsked = true;
    if (this.isLooking) return;
    this.isLooking = true;
    while (this.isAsked) {
      this.isAsked = false;
      const answer = await this.#ask();
      if (!this.isAsked) this.#show(answer);
    }
    this.isLooking = false;
  }

  async #ask() {
    this.worker ??= startWorker();
    const brokeOff = (reason) => ({ findings: [{ place: null, rank: "error", text: `ctd-lint broke off: ${reason}` }], remarks: [] });
    try {
      const job = await this.job();
      return await new Promise((done) => {
        this.worker.onmessage = ({ data }) => done(data.error ? brokeOff(data.error) : data);
        this.worker.onerror = ({ message }) => done(brokeOff(message));
        this.worker.postMessage({ ...job, job: "lint" });
      });
    } catch (error) {
      return brokeOff(error.message);
    }
  }

  #show({ findings, remarks }) {
    for (const mark of this.marks.splice(0)) mark.clear();
    for (const part of [this.summary, this.list]) part.classList.remove("old");
    this.summary.textContent = `ctd-lint: ${[count(findings.length), ...remarks].join("; ")}`;
    const lines = findings.slice(0, MOST).map((finding) => this.#line(finding));
    if (findings.length > MOST) {
      const rest = document.createElement("li");
      rest.textContent = `and ${findings.length - MOST} more`;
      lines.push(rest);
    }
    this.list.replaceChildren(...lines);
    if (this.field.file) return;
    for (const { place, rank, text } of findings) {
      if (place) this.marks.push(this.field.mark(place, rank, text));
    }
  }

  #line({ place, rank, text }) {
    const line = document.createElement("li");
    const name = document.createElement("strong");
    name.className = rank;
    name.textContent = rank;
    line.append(name, " ");
    if (place) {
      const button = document.createElement("button");
      button.type = "button";
      button.textContent = `line ${place.line} column ${place.column}`;
      button.onclick = () => this.field.goTo(place);
      line.append(button, " ");
    }
    line.append(text);
    return line;
  }
}
