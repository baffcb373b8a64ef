// One of the two texts of the page: an editor, and a file that stands in its place where the editor cannot hold it.
import CodeMirror from "./editor.js";
import { LINE_FEED, columnIn } from "./message.js";

// What stands in the box at the end of a text: nothing that could be read as a part of it.
const NOTHING = "\u00a0";

// Files with more bytes are checked but not shown.
const LONGEST = 2 ** 20;

// The text of a file, or null where the editor cannot hold it.
async function textOf(file) {
  if (file.size > LONGEST) return null;
  try {
    return new TextDecoder("utf-8", { fatal: true, ignoreBOM: true }).decode(await file.arrayBuffer());
  } catch {
    return null;
  }
}

// What counts of a text: its bytes and lines, and how it ends.
function summary(text) {
  const size = new TextEncoder().encode(text).length;
  const lines = text.split("\n").length - (text.endsWith("\n") || text === "" ? 1 : 0);
  const parts = [`${lines} ${lines === 1 ? "line" : "lines"}`, `${size} ${size === 1 ? "byte" : "bytes"}`];
  if (text !== "" && !text.endsWith("\n")) parts.push("no line feed at the end");
  if (text.includes("\r\n")) parts.push("lines end with CR LF");
  return parts.join(", ");
}

// Gives each line that the user brings in a line feed alone, as a text area does.
function useLineFeeds(_, change) {
  if (!change.update || change.origin === "setValue") return;
  const text = change.text.join("\n");
  if (text.includes("\r")) change.update(null, null, text.replace(/\r\n?/g, "\n").split("\n"));
}

export class Field {
  // `id` is that of a text area, which the editor replaces; `onChange` is called after each change of the bytes.
  constructor(id, settings, onChange) {
    const area = document.getElementById(id);
    this.side = area.closest("section");
    this.onChange = onChange;
    this.file = null;
    this.marks = [];
    this.editor = CodeMirror.fromTextArea(area, {
      lineNumbers: true,
      lineSeparator: "\n",
      theme: "page",
      viewportMargin: 50,
      // The key leaves the field, as it does in a text area.
      extraKeys: { Tab: false, "Shift-Tab": false, ...settings.keys },
      ...settings.options,
    });
    this.editor.on("beforeChange", useLineFeeds);
    this.editor.on("change", () => this.#edited());
    this.editor.on("drop", (_, event) => this.#drop(event));
    this.side.querySelector("h2 label").onclick = () => this.editor.focus();
    this.side.querySelector(".file button").onclick = () => this.#setFile(null);
    new ResizeObserver(() => this.editor.refresh()).observe(this.editor.getWrapperElement());
    this.chooser = this.side.querySelector("input[type=file]");
    this.chooser.onchange = () => this.chooser.files[0] && this.open(this.chooser.files[0]);
    this.#tell();
  }

  get text() {
    return this.editor.getValue();
  }

  // The bytes as they are now.
  blob() {
    return this.file ?? new Blob([this.text]);
  }

  set(text) {
    this.file = null;
    this.editor.setValue(text);
    this.#showFile();
  }

  // Takes the bytes of a file. The editor gets them where it can hold them; until then, and else, the file itself is checked.
  async open(file) {
    this.#setFile(file);
    const text = await textOf(file);
    if (text === null || this.file !== file) return;
    this.isQuiet = true;
    this.set(text);
    this.isQuiet = false;
  }

  #setFile(file) {
    this.file = file;
    this.#showFile();
    this.onChange();
  }

  #showFile() {
    const line = this.side.querySelector(".file");
    line.hidden = !this.file;
    this.editor.getWrapperElement().hidden = Boolean(this.file);
    this.side.querySelector(".about").hidden = Boolean(this.file);
    if (this.file) line.firstElementChild.textContent = `${this.file.name}, ${this.file.size} bytes, is checked as it is.`;
    else this.editor.refresh();
    // So that the same file can be chosen again.
    this.chooser.value = "";
  }

  #drop(event) {
    const file = event.dataTransfer?.files[0];
    if (!file) return;
    event.preventDefault();
    this.open(file);
  }

  #edited() {
    clearTimeout(this.telling);
    this.telling = setTimeout(() => this.#tell(), 150);
    if (!this.isQuiet) this.onChange();
  }

  #tell() {
    this.side.querySelector(".about").textContent = summary(this.text);
  }

  // Where the editor has a place of a message: a line and a column that counts bytes.
  #position({ line, column }) {
    const at = Math.min(line - 1, this.editor.lastLine());
    return { line: at, ch: columnIn(this.editor.getLine(at), column) };
  }

  // The word at a position: of a program a token, of data what stands between blanks, or one blank.
  #endOfWord({ line, ch }) {
    if (this.editor.getOption("mode")) return this.editor.getTokenAt({ line, ch: ch + 1 }).end;
    return ch + /^(?:[^\s\x00-\x1f]+|[^])/u.exec(this.editor.getLine(line).slice(ch))[0].length;
  }

  // Marks the word at a place with a class and a text, and gives what clears it.
  mark(place, className, title = "") {
    const from = this.#position(place);
    if (from.ch < this.editor.getLine(from.line).length) {
      const to = { line: from.line, ch: this.#endOfWord(from) };
      return this.editor.markText(from, to, { className, attributes: { title } });
    }
    return this.#markEnd(from, className, title);
  }

  // Marks the end of a line or of the text, with a box there. All marks of one place share their box.
  #markEnd(from, className, title) {
    const bookmark = this.editor.findMarksAt(from).find(({ box }) => box) ?? this.#boxAt(from);
    const mark = { className, title };
    const show = () => {
      bookmark.box.className = ["end", ...bookmark.marks.map((it) => it.className)].join(" ");
      bookmark.box.title = bookmark.marks.map((it) => it.title).filter(Boolean).join("\n");
    };
    bookmark.marks.push(mark);
    show();
    const clear = () => {
      bookmark.marks.splice(bookmark.marks.indexOf(mark), 1);
      if (bookmark.marks.length) show();
      else bookmark.clear();
    };
    return { clear };
  }

  #boxAt(from) {
    const box = document.createElement("span");
    const isEnd = from.line === this.editor.lastLine();
    box.textContent = isEnd ? NOTHING : LINE_FEED;
    if (isEnd) box.ariaLabel = "end of the text";
    return Object.assign(this.editor.setBookmark(from, { widget: box, insertLeft: true }), { box, marks: [] });
  }

  // Marks the place of a fault with its line, and shows it in the editor without moving the page.
  markFault(place) {
    if (this.file) return;
    const { line } = this.#position(place);
    const handle = this.editor.addLineClass(line, "wrap", "fault-line");
    this.marks.push(this.mark(place, "fault"), { clear: () => this.editor.removeLineClass(handle, "wrap", "fault-line") });
    this.show(place);
  }

  clearFault() {
    for (const mark of this.marks.splice(0)) mark.clear();
  }

  show(place) {
    const { left, top } = this.editor.charCoords(this.#position(place), "local");
    const { clientWidth, clientHeight } = this.editor.getScrollInfo();
    this.editor.scrollTo(left < clientWidth * 0.9 ? 0 : left - clientWidth / 2, top - clientHeight / 2);
  }

  // Puts the cursor at a place.
  goTo(place) {
    if (this.file) return;
    this.editor.setCursor(this.#position(place));
    this.editor.focus();
  }
}
