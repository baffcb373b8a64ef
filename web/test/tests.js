// What the tests of the page share: counts, and what a user does and sees.
import path from "node:path";

export const web = path.join(path.dirname(new URL(import.meta.url).pathname), "..");
export const out = path.join(web, "out");
export const modules = path.join(web, "..", "out", "wasm");
export const counts = { passed: 0, failed: 0 };

export function expect(name, actual, wanted) {
  const [got, want] = [JSON.stringify(actual), JSON.stringify(wanted)];
  if (got === want) counts.passed += 1;
  else {
    counts.failed += 1;
    console.log(`${name}: ${got}, not ${want}`);
  }
}

// The page in a tab.
export class Page {
  constructor(tab, address) {
    this.tab = tab;
    this.address = address;
  }

  // Opens an address below that of the page, and waits for the checker, and for the check with which the page begins.
  async open(rest = "index.html") {
    await this.tab.go("about:blank");
    await this.tab.go(`${this.address}/${rest}`);
    await this.tab.wait(`document.getElementById("check") && !check.disabled && result.dataset.state !== "checking"`);
  }

  evaluate(expression) {
    return this.tab.evaluate(expression);
  }

  editor(id) {
    return `document.querySelector("#${id}-side .CodeMirror").CodeMirror`;
  }

  // Sets the text of an editor, or the value of another field.
  async set(id, text) {
    const [field, value] = [`document.getElementById(${JSON.stringify(id)})`, JSON.stringify(text)];
    if (id === "program" || id === "data") await this.evaluate(`${this.editor(id)}.setValue(${value})`);
    else await this.evaluate(`${field}.value = ${value}, ["input", "change"].forEach((kind) => ${field}.dispatchEvent(new Event(kind)))`);
  }

  text(id) {
    return this.evaluate(`${this.editor(id)}.getValue()`);
  }

  click(id) {
    return this.evaluate(`document.getElementById("${id}").click()`);
  }

  // The state of the answer, the words above it, and its message.
  answer() {
    return this.evaluate(`[result.dataset.state, verdict.textContent, document.getElementById("answer").textContent]`);
  }

  async message() {
    return (await this.answer())[2];
  }

  waitForEnd() {
    return this.tab.wait(`document.getElementById("stop").ariaDisabled === "true" && !["checking", "none"].includes(result.dataset.state)`);
  }

  // Presses Check, and gives the message that the page then shows.
  async check() {
    await this.click("check");
    await this.waitForEnd();
    return this.message();
  }

  // What is marked as the place of a fault: in the program and in the data the number of each line and the text.
  faults() {
    return this.evaluate(`["program", "data"].map((id) => [...document.querySelectorAll("#" + id + "-side .fault-line")].map((line) =>
      [line.querySelector(".CodeMirror-linenumber").textContent, [...line.querySelectorAll(".fault")].map((it) => it.textContent).join("")]))`);
  }

  // Whether a part of the page is in sight whole.
  isInSight(id) {
    return this.evaluate(`(({ top, bottom }) => top >= 0 && bottom <= innerHeight)(document.getElementById("${id}").getBoundingClientRect())`);
  }

  // Pastes a text into an editor.
  paste(id, text) {
    return this.evaluate(`{
      const clipboardData = new DataTransfer();
      clipboardData.setData("text/plain", ${JSON.stringify(text)});
      const input = ${this.editor(id)}.getInputField();
      input.focus();
      input.dispatchEvent(new ClipboardEvent("paste", { clipboardData, bubbles: true, cancelable: true }));
    }`);
  }
}
