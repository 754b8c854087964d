// Reads, checks, audits, packs and explains envelopes of the Information Interchange Model. See README.md.
import { BAD_PACKING, EMPTY, Library, PART, REFUSED, TRUNCATED, WIRE } from "./core.mjs";
import { IimError, MemoryError, RefusedError, ScriptError, TicketError, TruncatedError } from "./errors.mjs";
import { Envelope, Receiver as LibraryReceiver, refusedError } from "./receiver.mjs";
import { explanation } from "./explain/case.mjs";
import { VERSION } from "./layout.mjs";

export { Envelope, IimError, MemoryError, RefusedError, ScriptError, TicketError, TruncatedError, VERSION, WIRE };

/** Loads the module that is beside this file. */
async function load() {
  const source = new URL("./iim.wasm", import.meta.url);
  if (source.protocol === "file:") {
    const { readFile } = await import("node:fs/promises");
    return WebAssembly.instantiate(await readFile(source));
  }
  return WebAssembly.instantiate(await (await fetch(source)).arrayBuffer());
}

const library = new Library((await load()).instance.exports);

/** The number of bytes of the module's memory. It grows with the limits, and not with the input. */
export const memoryBytes = () => library.memoryBytes;

/** Returns the length of the envelope at the beginning of bytes. Throws RefusedError. */
export function check(octets, { limits = WIRE } = {}) {
  const receiver = new Receiver({ limits });
  for (let from = 0; from < octets.length; from += PART) {
    const { envelopes: [first], refusal } = receiver.feed(octets.subarray(from, from + PART));
    if (first) return first.length;
    if (refusal) throw refusal;
  }
  throw receiver.end() ?? refusedError(library, library.end(EMPTY, 0, limits), 1, 0, EMPTY);
}

/** Receives envelopes from chunks of any length. */
export class Receiver extends LibraryReceiver {
  constructor(options = {}) { super(library, options); }

  /** Returns the receiver that `save` has saved. */
  static resume(saved, options = {}) {
    return LibraryReceiver.resumeWith(library, saved, (limits) => new Receiver({ ...options, limits }));
  }
}

/** Yields the chunks of a source, in parts of at most PART bytes. */
async function* parts(source) {
  const reader = typeof source?.getReader === "function" ? source.getReader() : null;
  const chunks = reader ? streamed(reader) : source instanceof Uint8Array ? [source] : source;
  for await (const chunk of chunks) {
    for (let from = 0; from < chunk.length; from += PART) yield chunk.subarray(from, from + PART);
  }
}

/** Yields the chunks of a ReadableStream, and cancels it if the caller stops. */
async function* streamed(reader) {
  let isDone = false;
  try {
    for (;;) {
      const { done, value } = await reader.read();
      isDone = done;
      if (done) return;
      yield value;
    }
  } finally {
    if (!isDone) await reader.cancel().catch(() => undefined);
    reader.releaseLock();
  }
}

/** Yields the envelopes of a source. Throws RefusedError at the first invalid byte. */
export async function* read(source, options = {}) {
  const receiver = new Receiver(options);
  for await (const part of parts(source)) {
    const { envelopes, refusal } = receiver.feed(part);
    yield* envelopes;
    if (refusal) throw refusal;
  }
  const refusal = receiver.end();
  if (refusal) throw refusal;
}

/** Returns an instant for an audit. */
function instant(now) {
  const milliseconds = now instanceof Date ? now.getTime() : now;
  const second = Math.floor(milliseconds / 1_000);
  if (!Number.isSafeInteger(second) || second < -377_705_023_201 || second >= 253_402_207_200) throw new RangeError(`${now} is not an instant`);
  return { second, nanosecond: Math.round(milliseconds - second * 1_000) * 1_000_000 };
}

/** Yields a row for each envelope of a source. Throws RefusedError at the first invalid byte. */
export async function* audit(source, { now = Date.now(), limits = WIRE } = {}) {
  const state = library.newAudit(), moment = instant(now);
  let nth = 1;
  for await (const part of parts(source)) {
    const before = { ...state }, found = library.auditAll(state, part, moment, limits);
    nth += found.rows.length;
    yield* found.rows;
    if (found.status === REFUSED) throw refusedError(library, found, nth, found.at, library.beforeRefusal(before, found, part, limits));
  }
  const answer = library.endAudit(state, limits);
  if (answer.status === TRUNCATED) throw refusedError(library, answer, nth, answer.at, state.ticket);
}

/** Returns the envelope of a script. Throws ScriptError. */
export function pack(script, { subfile = 0, unknown = false, maximum = null } = {}) {
  const octets = typeof script === "string" ? new TextEncoder().encode(script) : script;
  if (BigInt(subfile) < 0n || BigInt(maximum ?? 0) < 0n) throw new RangeError("a size is negative");
  const found = library.pack(octets, { subfile, unknown, maximum });
  if (found.status === REFUSED) throw new ScriptError(found.octet, found.cause, library.causeName(found.cause) ?? "");
  if (found.status === BAD_PACKING) throw new RangeError("the options exclude one another, or a size is too large");
  return found.octets;
}

/** Explains a file: what its envelopes have, and why one is refused. `source` has bytes, or reads them. */
export function explain(source, { limits = WIRE, encoding = null, wanted = null, all = true } = {}) {
  const file = source instanceof Uint8Array ? { size: source.length, take: (at, count) => source.subarray(at, at + count) } : source;
  return explanation(library, file, { limits, encoding, wanted, all });
}

/** Returns what the tables state of a dataset, or null. */
export function dataset(record, number) {
  const row = library.row(record, number);
  return row && { ...row, name: library.datasetName(record, number) };
}
