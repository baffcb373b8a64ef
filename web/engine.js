// What runs behind the page: the two modules and the worker, which are in the page, so that it also works from a folder.
import checker from "made/checktestdata.wasm.gz";
import linter from "made/ctd-lint.wasm.gz";
import worker from "made/worker.txt";

async function compile(zipped) {
  const bytes = new Blob([zipped]).stream().pipeThrough(new DecompressionStream("gzip"));
  return WebAssembly.compile(await new Response(bytes).arrayBuffer());
}

// The compiled modules, each a promise.
export const modules = { checker: compile(checker), linter: compile(linter) };

const address = URL.createObjectURL(new Blob([worker], { type: "text/javascript" }));

export function startWorker() {
  return new Worker(address);
}
