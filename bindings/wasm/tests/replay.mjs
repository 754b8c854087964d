#!/usr/bin/env node
// Makes the calls of a trace (trace.py) of the module, and compares everything that they write or return
// with what the native library did.
//
//   replay.mjs LAYOUT_MJS IIM_WASM TRACE [EVERY]
//
// Some calls of each function, and every EVERYth call, are made again with each request for memory
// refused in turn. It prints one JSON object.
import { readFileSync } from "node:fs";
import { pathToFileURL } from "node:url";

const [layout, wasm, trace, every = "37"] = process.argv.slice(2);
const { CONSTANTS, FUNCTIONS, STRUCTS } = await import(pathToFileURL(layout));
const lib = (await WebAssembly.instantiate(readFileSync(wasm))).instance.exports;
const NAMES = Object.keys(FUNCTIONS), FILL = 0xaa, ROOM = 1 << 22, FIRST = 60;
const NUMBERS = { uint8_t: ["readUInt8", 1], bool: ["readUInt8", 1], int: ["readInt32LE", 4], uint32_t: ["readUInt32LE", 4], uint64_t: ["readBigUInt64LE", 8], size_t: ["readBigUInt64LE", 8] };
const file = readFileSync(trace);
const base = Number(lib.__heap_base.value), SLOTS = 3;
const handle = (slot) => base + 16 * slot;
const counts = Object.fromEntries(NAMES.map((name) => [name, 0]));
const refused = Object.fromEntries(NAMES.map((name) => [name, 0]));
let at = 0, differ = 0, again = 0, bad = 0;
const differences = [];

function number(kind) {
  const [method, size] = NUMBERS[kind];
  at += size;
  return file[method](at - size);
}

function take(count) {
  at += count;
  return file.subarray(at - count, at);
}

/** Reads the arguments of the next call: its words, what is put into memory, and what may be written. */
function readCall(name) {
  let free = base + 16 * SLOTS;
  const place = (count) => { const found = (free + 15) & ~15; free = found + count; return found; };
  const words = [], puts = [], outs = [], kinds = FUNCTIONS[name].parameters;
  const put = (octets) => { const to = place(octets.length); puts.push([to, octets]); words.push(BigInt(to)); return to; };
  for (let nth = 0; nth < kinds.length; nth++) {
    const [way, of] = kinds[nth].split(" "), hasLength = kinds[nth + 1] === "size_t";
    if (!of) words.push(number(way));
    else if (of === "iim_unpacker") { const slot = number("uint8_t"); words.push(BigInt(handle(slot))); outs.push({ slot }); }
    else if (way === "word") words.push(number("uint64_t"));
    else if (way === "value") put(take(STRUCTS[of].size));
    else if (of === "iim_so_far") outs.push({ to: put(take(STRUCTS[of].size)), length: STRUCTS[of].size });
    else if (way === "in") {
      const octets = take(number("uint32_t"));
      put(octets);
      if (hasLength) { words.push(BigInt(octets.length)); nth++; }
    } else {
      const count = hasLength ? number("uint32_t") : 1, length = count * (STRUCTS[of]?.size ?? 1);
      outs.push({ to: put(new Uint8Array(length).fill(FILL)), length });
      if (hasLength) { words.push(BigInt(count)); nth++; }
    }
  }
  if (free > base + ROOM) throw new Error("the arguments need more room");
  return { name, words, puts, outs };
}

/** Reads what the native library wrote and returned. */
function readResult({ name, outs }) {
  const wanted = outs.map((out) => (out.slot === undefined ? take(number("uint32_t")) : take(2)));
  const { result } = FUNCTIONS[name];
  return { wanted, value: result === "void" ? null : number(result) };
}

/** Makes a call, and returns what it returned. */
function make({ name, words, puts }) {
  const octets = new Uint8Array(lib.memory.buffer);
  for (const [to, from] of puts) octets.set(from, to);
  return lib[name](...words);
}

/** Returns what is in memory in place of an output: without the fill at its end, as the trace has it. */
function written(out) {
  const memory = Buffer.from(lib.memory.buffer);
  if (out.slot !== undefined) return Buffer.from([memory.readBigUInt64LE(handle(out.slot)) ? 1 : 0, memory[handle(out.slot) + 8]]);
  let end = out.length;
  while (end && memory[out.to + end - 1] === FILL) end--;
  return memory.subarray(out.to, out.to + end);
}

function isEqual(call, got, { wanted, value }) {
  const result = value === null ? null : typeof got === "bigint" ? BigInt.asUintN(64, got) : FUNCTIONS[call.name].result === "int" ? got : got >>> 0;
  return result === value && call.outs.every((out, nth) => Buffer.compare(written(out), wanted[nth]) === 0);
}

const openHandles = () => Array.from({ length: SLOTS }, (_, slot) => new Uint8Array(lib.memory.buffer)[handle(slot) + 8]).some((each) => each);

/** Makes a call with its first, second, .. request refused, until it has all that it requests. */
function refuse(call, result) {
  const before = Buffer.from(lib.memory.buffer.slice(base, base + 16 * SLOTS));
  for (let granted = 0n; granted < 5_000n; granted++) {
    lib.iim_heap_grants(granted);
    const got = make(call);
    lib.iim_heap_grants(0xffff_ffff_ffff_ffffn);
    again++;
    if (isEqual(call, got, result)) return true;
    const last = call.outs.at(-1);
    const status = FUNCTIONS[call.name].result === "uint8_t" ? got : new Uint8Array(lib.memory.buffer)[last.to];
    if (status === CONSTANTS.IIM_NO_MEMORY) refused[call.name]++;
    else if (bad++ < 5) differences.push(`${call.name} with ${granted} requests granted: status ${status}`);
    if (!before.equals(Buffer.from(lib.memory.buffer).subarray(base, base + 16 * SLOTS))) bad++;
  }
  return false;
}

if (!lib.iim_heap_from(BigInt(base + ROOM))) throw new Error("no memory");
for (let nth = 0; at < file.length; nth++) {
  const begin = at, call = readCall(NAMES[file[at++]]), result = readResult(call);
  counts[call.name]++;
  const isRefused = counts[call.name] <= FIRST || nth % Number(every) === 0;
  const isSame = isRefused ? refuse(call, result) : isEqual(call, make(call), result);
  if (!isSame && differ++ < 5) differences.push(`${call.name} at ${begin} of the trace`);
  if (!openHandles() && lib.iim_heap_out() !== 0n) {
    bad++;
    differences.push(`${call.name} leaves memory allocated`);
    break;
  }
}
const calls = Object.values(counts).reduce((sum, count) => sum + count, 0);
console.log(JSON.stringify({ calls, differ, again, bad, counts, refused, differences, memory: lib.memory.buffer.byteLength }));
