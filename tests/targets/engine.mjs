// engine.mjs LINEBOX.wasm TESTS.wasm: calls `run` of the tests' module, to which the box's own module gives the calls and its
// memory; the exit status is what `run` returns. The tests keep to the part of the memory that is linked for them, from 1 MB on.
import { readFileSync, writeSync } from "node:fs";

const [box, tests] = process.argv.slice(2).map((path) => new WebAssembly.Module(readFileSync(path)));
const env = new WebAssembly.Instance(box).exports;
if (env.__heap_base.value > 1 << 20) throw new Error("the box's module needs more than 1 MB");
env.memory.grow(256 - env.memory.buffer.byteLength / 65536);
const engine = { write: (at, n) => writeSync(1, new Uint8Array(env.memory.buffer, at, n)) };
process.exit(new WebAssembly.Instance(tests, { env, engine }).exports.run());
