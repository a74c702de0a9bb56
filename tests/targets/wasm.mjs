// The test of the wasm32 module in node: the module as it is delivered, and calls.c as a second module that calls its functions and stands
// in its memory, above what it uses itself. Usage: node wasm.mjs nosingginger.wasm calls.wasm cases.bin
// Without cases.bin it prints the best time of open all on the two boards of speed.c, in nanoseconds.
import { readFileSync } from "node:fs";

const [library, calls, data] = process.argv.slice(2).map((file) => readFileSync(file));
const PAGE = 65536;

const module = new WebAssembly.Module(library);
const imports = WebAssembly.Module.imports(module);
if (imports.length !== 0) throw new Error(`the module wants ${imports.map((i) => i.name).join(", ")}`);
const { exports } = new WebAssembly.Instance(module);
const memory = exports.memory;

let at = 0;
const written = [];
const environment = {
  ...exports,
  take(place, length) {
    if (at + length > data.length) throw new Error("the data is cut short");
    new Uint8Array(memory.buffer, place >>> 0, length).set(data.subarray(at, (at += length)));
  },
  say(place, length) {
    written.push(Buffer.from(new Uint8Array(memory.buffer, place >>> 0, length).slice()));
  },
};

// calls.c begins at 1 MiB (see tests/run-targets) and has some MiB for itself.
const begin = 1 << 20;
if (exports.__heap_base.value > begin) throw new Error("the module's own memory reaches above 1 MiB");
memory.grow((8 << 20) / PAGE - memory.buffer.byteLength / PAGE);

const test = new WebAssembly.Instance(new WebAssembly.Module(calls), { env: environment }).exports;

function best(positions, width, times) {
  let least = Infinity;
  test.deal_timed(6, positions, width, 1);
  for (let i = 0; i < times; i++) {
    const began = process.hrtime.bigint();
    if (test.open_timed() !== 0) throw new Error("the table is refused");
    least = Math.min(least, Number(process.hrtime.bigint() - began));
  }
  return least;
}

if (data) {
  process.exitCode = test.test();
  process.stdout.write(Buffer.concat(written));
} else {
  console.log(best(72, 36, 2000), best(16384, 256, 200));
}
