#!/usr/bin/env node
// Runs a program, by Node and its WASI: the WebAssembly module beside this file that has this file's name, with the words, files, streams and status of
// the call.
"use strict";
process.emitWarning = () => {}; // that WASI is an experiment of Node
const fs = require("node:fs");
const path = require("node:path");
const v8 = require("node:v8");
const { WASI } = require("node:wasi");

const NO_VERDICT = 2;
const name = path.basename(__filename);

// Node 20 breaks off in some calls of WASI once the memory has grown, if V8 calls them without an object for each.
v8.setFlagsFromString("--no-turbo-fast-api-calls");
const wasi = new WASI({
  version: "preview1",
  args: [name, ...process.argv.slice(2)],
  env: { PWD: process.cwd() },
  preopens: { "/": "/" },
  returnOnExit: true,
});
const module_ = new WebAssembly.Module(fs.readFileSync(`${__filename}.wasm`));
try {
  process.exitCode = wasi.start(new WebAssembly.Instance(module_, wasi.getImportObject()));
} catch (error) {
  // A stack that is full, for one.
  process.stderr.write(`${name}: the program broke off: ${error.message}\n`);
  process.exitCode = NO_VERDICT;
}
