// A headless Firefox that is asked by its protocol for tests, Marionette.
import { spawn } from "node:child_process";
import fs from "node:fs";
import net from "node:net";
import os from "node:os";
import path from "node:path";
import { AnyTab } from "./browser.js";

const OUT_OF_TIME = 600_000; // milliseconds

// A port on which nothing listens.
function freePort() {
  const server = net.createServer();
  return new Promise((done) => server.listen(0, "127.0.0.1", () => {
    const { port } = server.address();
    server.close(() => done(port));
  }));
}

// One tab of a new browser. $FIREFOX is the program.
export class FirefoxTab extends AnyTab {
  // The tab, or null where there is no Firefox.
  static async open() {
    const tab = new FirefoxTab();
    const port = await freePort();
    if (!(await tab.#start(port))) return null;
    await tab.#connect(port);
    await tab.#send("WebDriver:NewSession", { capabilities: { alwaysMatch: {} } });
    await tab.#send("WebDriver:SetTimeouts", { script: OUT_OF_TIME });
    return tab;
  }

  #start(port) {
    this.home = fs.mkdtempSync(path.join(os.tmpdir(), "firefox-"));
    fs.writeFileSync(path.join(this.home, "user.js"), `user_pref("marionette.port", ${port});\n`);
    const words = ["--headless", "--marionette", "--no-remote", "--profile", this.home];
    this.child = spawn(process.env.FIREFOX ?? "firefox-esr", words, { stdio: "ignore", env: { ...process.env, HOME: this.home } });
    process.on("exit", () => this.child.kill());
    return new Promise((done) => this.child.on("spawn", () => done(true)).on("error", () => done(false)));
  }

  // Waits until the browser listens. A message is the length of its JSON, a colon and that.
  async #connect(port) {
    for (let turn = 0; turn < 600 && !this.socket; turn++) {
      const socket = net.connect(port, "127.0.0.1");
      this.socket = await new Promise((done) => socket.on("connect", () => done(socket)).on("error", () => done(null)));
      if (!this.socket) await new Promise((done) => setTimeout(done, 100));
    }
    if (!this.socket) throw new Error("Firefox does not listen");
    this.held = Buffer.alloc(0);
    this.waiting = new Map();
    this.count = 0;
    this.socket.on("data", (bytes) => this.#receive(bytes));
  }

  #receive(bytes) {
    this.held = Buffer.concat([this.held, bytes]);
    for (;;) {
      const colon = this.held.indexOf(":");
      const end = colon + 1 + Number(this.held.subarray(0, colon).toString());
      if (colon < 0 || this.held.length < end) return;
      const message = JSON.parse(this.held.subarray(colon + 1, end).toString());
      this.held = this.held.subarray(end);
      if (Array.isArray(message)) this.#answer(message);
    }
  }

  #answer([, id, error, result]) {
    const { done, failed } = this.waiting.get(id);
    this.waiting.delete(id);
    if (error) failed(new Error(error.message));
    else done(result);
  }

  #send(command, parameters) {
    this.count += 1;
    const text = JSON.stringify([0, this.count, command, parameters]);
    return new Promise((done, failed) => {
      this.waiting.set(this.count, { done, failed });
      this.socket.write(`${Buffer.byteLength(text)}:${text}`);
    });
  }

  go(url) {
    return this.#send("WebDriver:Navigate", { url });
  }

  // The value of an expression in the page, which may not be several statements.
  async evaluate(expression) {
    const script = `const [done] = arguments; (async () => (${expression}))().then((value) => done({ value }), (error) => done({ error: String(error) }));`;
    const { value: answer } = await this.#send("WebDriver:ExecuteAsyncScript", { script, args: [], sandbox: null });
    if (answer.error) throw new Error(answer.error);
    return answer.value;
  }

  close() {
    return new Promise((done) => {
      this.child.on("exit", () => {
        fs.rmSync(this.home, { recursive: true, force: true });
        done();
      });
      this.#send("Marionette:Quit", { flags: ["eForceQuit"] }).catch(() => {});
    });
  }
}
