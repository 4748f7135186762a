// node tests/wasm.js MODULE TRACE: makes the calls of a trace (tests/calls.c) again of the WebAssembly, and compares answers, values and all that was
// lent, with the bytes around it.
"use strict";
const fs = require("fs");

const [modulePath, tracePath] = process.argv.slice(2);
const trace = fs.readFileSync(tracePath);
const instance = new WebAssembly.Instance(new WebAssembly.Module(fs.readFileSync(modulePath)), {});
const { memory, __heap_base } = instance.exports;
const GUARD = 64;
const FILL = 0xa5;

let at = 0;
const number = () => {
  const n = trace.readBigUInt64LE(at);
  at += 8;
  return n;
};
const bytes = (length) => {
  const part = trace.subarray(at, at + length);
  at += length;
  return part;
};

// A call as it was written down.
function nextCall() {
  const name = bytes(Number(number())).toString();
  const args = [];
  for (let left = Number(number()); left > 0; left--) {
    const [kind, size, count] = [Number(number()), Number(number()), number()];
    const length = kind === 0 ? 0 : size * Number(count);
    args.push({ kind, count, before: bytes(length), after: bytes(length) });
  }
  return { name, args, answer: number() };
}

// Lays what is lent out in memory, each part between guards, and gives the words of the call.
function lay(args) {
  let free = __heap_base.value + GUARD;
  const words = [];
  for (const arg of args) {
    if (arg.kind === 0) {
      words.push(arg.count);
      continue;
    }
    free = (free + 15) & ~15;
    const end = free + arg.before.length + GUARD;
    if (end + GUARD > memory.buffer.byteLength) memory.grow(Math.ceil((end + GUARD - memory.buffer.byteLength) / 65536));
    const room = new Uint8Array(memory.buffer);
    room.fill(FILL, free - GUARD, end);
    room.set(arg.before, free);
    arg.place = free;
    words.push(free);
    if (arg.kind === 1) words.push(arg.count);
    free = end + GUARD;
  }
  return words;
}

// Whether what was lent is as the trace has it, and nothing beside it was written.
function kept(args) {
  const room = Buffer.from(memory.buffer);
  const guard = Buffer.alloc(GUARD, FILL);
  return args.every(
    ({ kind, place, after }) =>
      kind === 0 ||
      (room.subarray(place, place + after.length).equals(after) &&
        room.subarray(place - GUARD, place).equals(guard) &&
        room.subarray(place + after.length, place + after.length + GUARD).equals(guard)),
  );
}

const seen = new Map();
let calls = 0;
while (at < trace.length) {
  const { name, args, answer } = nextCall();
  const said = BigInt.asUintN(64, instance.exports[name](...lay(args)));
  if (said !== answer || !kept(args)) {
    console.log(`wasm: call ${calls}, ${name}: answers ${said}, and the native library ${answer}; lent lists ${kept(args) ? "the same" : "differ"}`);
    process.exit(1);
  }
  seen.set(`${name} ${answer}`, (seen.get(`${name} ${answer}`) || 0) + 1);
  calls++;
}
// The functions over a scenario in pieces keep a struct of their own; tests/library.c and the page's tests call them.
const ELSEWHERE = ["sejjekoru_link_begin", "sejjekoru_link_piece", "sejjekoru_link_end"];
const functions = Object.keys(instance.exports).filter((name) => name.startsWith("sejjekoru_") && !ELSEWHERE.includes(name));
const never = functions.filter((name) => ![...seen.keys()].some((key) => key.startsWith(`${name} `)));
console.log(`wasm: ${calls} calls of ${functions.length - never.length} functions answered as by the native library; ${seen.size} kinds of answer`);
if (never.length > 0) console.log(`wasm: never called: ${never.join(" ")}`);
process.exit(never.length > 0 ? 1 : 0);
