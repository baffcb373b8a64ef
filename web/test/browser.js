// A headless Chromium that is asked over a pipe, what all browsers have, and a server for the page. No package is needed.
import { spawn } from "node:child_process";
import fs from "node:fs";
import http from "node:http";
import os from "node:os";
import path from "node:path";

const TYPES = { ".html": "text/html", ".css": "text/css", ".js": "text/javascript", ".json": "application/json", ".wasm": "application/wasm" };

// Serves the files of some folders to this machine, and gives the address. Of two files with one name that of the first folder counts.
export function serve(...folders) {
  const server = http.createServer((request, response) => {
    const name = path.normalize(new URL(request.url, "http://localhost").pathname);
    const file = folders.map((folder) => path.join(folder, name === "/" ? "index.html" : name)).find((it) => fs.existsSync(it));
    if (!file) return response.writeHead(404).end();
    response.writeHead(200, { "content-type": TYPES[path.extname(file)] ?? "text/plain" }).end(fs.readFileSync(file));
  });
  return new Promise((done) =>
    server.listen(0, "127.0.0.1", () => done({ address: `http://127.0.0.1:${server.address().port}`, close: () => server.close() })),
  );
}

// A tab of a browser, which can `evaluate`.
export class AnyTab {
  // Waits until an expression is true in the page.
  async wait(expression) {
    for (let turn = 0; turn < 2400; turn++) {
      if (await this.evaluate(`Boolean(${expression})`)) return;
      await new Promise((done) => setTimeout(done, 50));
    }
    throw new Error(`waited too long for ${expression}`);
  }
}

// One tab of a new Chromium. $CHROMIUM is the program.
export class Tab extends AnyTab {
  static async open() {
    const tab = new Tab();
    const { targetId } = await tab.#send("Target.createTarget", { url: "about:blank" });
    tab.session = (await tab.#send("Target.attachToTarget", { targetId, flatten: true })).sessionId;
    for (const domain of ["Page", "Runtime", "Log"]) await tab.ask(`${domain}.enable`);
    return tab;
  }

  constructor() {
    super();
    this.home = fs.mkdtempSync(path.join(os.tmpdir(), "chromium-"));
    this.waiting = new Map();
    this.count = 0;
    // What the page reported as wrong.
    this.errors = [];
    const words = ["--headless=new", "--no-sandbox", "--disable-gpu", "--remote-debugging-pipe", `--user-data-dir=${this.home}`];
    this.child = spawn(process.env.CHROMIUM ?? "chromium", words, { stdio: ["ignore", "ignore", "ignore", "pipe", "pipe"] });
    process.on("exit", () => this.child.kill());
    this.child.on("error", (error) => {
      console.error(`no browser: ${error.message}`);
      process.exit(1);
    });
    let held = "";
    this.child.stdio[4].on("data", (bytes) => {
      const messages = (held + bytes).split("\0");
      held = messages.pop();
      for (const message of messages.map((text) => JSON.parse(text))) this.#receive(message);
    });
  }

  #receive(message) {
    if (message.method === "Runtime.exceptionThrown") this.errors.push(message.params.exceptionDetails.exception?.description);
    if (message.method === "Log.entryAdded" && message.params.entry.level === "error") this.errors.push(message.params.entry.text);
    const { done, failed } = this.waiting.get(message.id) ?? {};
    this.waiting.delete(message.id);
    if (message.error) failed?.(new Error(message.error.message));
    else done?.(message.result);
  }

  #send(method, params = {}, sessionId = undefined) {
    this.count += 1;
    const id = this.count;
    return new Promise((done, failed) => {
      this.waiting.set(id, { done, failed });
      this.child.stdio[3].write(JSON.stringify({ id, method, params, sessionId }) + "\0");
    });
  }

  ask(method, params = {}) {
    return this.#send(method, params, this.session);
  }

  // The value of an expression in the page.
  async evaluate(expression) {
    const { result, exceptionDetails } = await this.ask("Runtime.evaluate", { expression, awaitPromise: true, returnByValue: true });
    if (exceptionDetails) throw new Error(exceptionDetails.exception?.description ?? exceptionDetails.text);
    return result.value;
  }

  go(url) {
    return this.ask("Page.navigate", { url });
  }

  // Types a key, with Shift (8), Ctrl (2) or none held.
  async press(key, modifiers = 0) {
    const codes = { Tab: 9, Enter: 13 };
    const text = key === "Enter" && !modifiers ? { text: "\r" } : {};
    const event = { key, code: key, modifiers, windowsVirtualKeyCode: codes[key], ...text };
    await this.ask("Input.dispatchKeyEvent", { type: text.text ? "keyDown" : "rawKeyDown", ...event });
    await this.ask("Input.dispatchKeyEvent", { type: "keyUp", ...event });
  }

  // Types a text.
  type(text) {
    return this.ask("Input.insertText", { text });
  }

  // Chooses a file for the field with an id.
  async choose(id, file) {
    const { root } = await this.ask("DOM.getDocument");
    const { nodeId } = await this.ask("DOM.querySelector", { nodeId: root.nodeId, selector: `#${id}` });
    await this.ask("DOM.setFileInputFiles", { files: [file], nodeId });
  }

  async screenshot(file) {
    const { data } = await this.ask("Page.captureScreenshot", { format: "png" });
    fs.writeFileSync(file, Buffer.from(data, "base64"));
  }

  close() {
    return new Promise((done) => {
      this.child.on("exit", () => {
        fs.rmSync(this.home, { recursive: true, force: true });
        done();
      });
      this.#send("Browser.close").catch(() => {});
    });
  }
}
