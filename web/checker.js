// The checker and ctd-lint as WebAssembly modules, for a page, a worker and Node.
import { findingsIn } from "./message.js";

// Room for the texts of an answer, in bytes. A message of the checker has a few hundred, the help some two thousand; ctd-lint says up to a line of each
// command.
const TEXT_SIZE = 1 << 16;
const LINES_SIZE = 1 << 24;

// An address of the modules has 32 bits.
const MEMORY = 2 ** 32;

// One instance of a module, which is the library of embed/checktestdata.h. Its memory only grows, so each run takes a new one.
class Instance {
  static async start(module) {
    const { exports } = await WebAssembly.instantiate(module, {});
    exports._initialize();
    return new this(exports);
  }

  constructor(exports) {
    this.exports = exports;
  }

  // Reserves some bytes of the module's memory.
  reserve(size) {
    const start = size < MEMORY ? this.exports.malloc(size || 1) >>> 0 : 0;
    if (start === 0) throw new Error(`there is no memory for ${size} bytes`);
    return { start, size };
  }

  // The bytes at a place in the memory. The view is valid until the memory grows.
  bytesAt(start, size) {
    return new Uint8Array(this.exports.memory.buffer, start, size);
  }

  // Copies bytes into the memory.
  copy(bytes) {
    const place = this.reserve(bytes.length);
    this.bytesAt(place.start, place.size).set(bytes);
    return place;
  }

  // Runs the program of the module on the words of a command line and on bytes in the memory: the status and both texts.
  call(words, program, testdata, outSize = TEXT_SIZE) {
    const texts = [outSize, TEXT_SIZE].map((size) => this.reserve(size));
    const lengths = this.reserve(8);
    const places = [this.copy(new TextEncoder().encode(words.join("\0"))), program, testdata, ...texts];
    const status = this.exports.checktestdata_run(...places.flatMap(({ start, size }) => [start, size]), lengths.start);
    const sizes = new Uint32Array(this.bytesAt(lengths.start, 8).slice().buffer);
    const [out, err] = texts.map(({ start, size }, i) => this.#text(start, Math.min(sizes[i], size)));
    return { status, out, err };
  }

  #text(start, size) {
    return new TextDecoder().decode(this.bytesAt(start, size).slice());
  }
}

export class Checker extends Instance {
  // Checks data against a program, both in the memory. `options` are words of the command line, such as ["-w", "-D", "n=5"].
  run(options, program, testdata) {
    const began = performance.now();
    const answer = this.call(["checktestdata", ...options, "--", "program", "testdata"], program, testdata);
    return { ...answer, milliseconds: performance.now() - began };
  }
}

export class Linter extends Instance {
  // What ctd-lint says of a program in the memory, and of the verdicts that data get.
  findings(options, program) {
    const { out, err } = this.call(["ctd-lint", "--json", ...options, "--", "program"], program, this.reserve(0), LINES_SIZE);
    return findingsIn(out, err);
  }
}
