// The worker of the page: reads files with the library, and returns explanations of them.
import { EMPTY, Library, PART, REFUSED, WIRE } from "../package/core.mjs";
import { Receiver } from "../package/receiver.mjs";
import { ENCODINGS, choose, textOf } from "../package/explain/charsets.mjs";
import { Listing, explanation, verdictOf } from "../package/explain/case.mjs";
import { latin, plain } from "../package/explain/words.mjs";

const EVERY = 100;
const COLUMNS = "envelope,at,octets,service,number,date_sent,priority,size,subfiles,announced,counted,age,copy,release,expires";
let library = null, current = null;
const files = new Map();

/** A file of the browser that is read at any offset. */
class Opened {
  #file; #reader = new FileReaderSync(); #begin = 0; #kept = EMPTY;

  constructor(file) {
    this.#file = file;
    this.size = file.size;
  }

  take(at, count) {
    const end = Math.min(this.size, at + count);
    if (at >= end) return EMPTY;
    if (at < this.#begin || end > this.#begin + this.#kept.length) {
      this.#begin = at;
      this.#kept = new Uint8Array(this.#reader.readAsArrayBuffer(this.#file.slice(at, Math.max(end, Math.min(this.size, at + PART)))));
      if (this.#kept.length < end - at) throw new Error("the file became shorter while it was read");
    }
    return this.#kept.subarray(at - this.#begin, end - this.#begin);
  }
}

/** Returns a function that posts the progress of reading, at most ten times a second. */
function reporter(id, size) {
  let last = performance.now();
  return (at, count) => {
    const now = performance.now();
    if (now - last < EVERY) return;
    last = now;
    postMessage({ kind: "progress", id, part: size ? at / size : 1, count });
  };
}

/** Reads a file, and returns its verdict. */
function readFile({ id, file }) {
  const opened = new Opened(file), listing = new Listing(library, opened, WIRE, { report: reporter(id, file.size) });
  files.set(id, { file, refusal: listing.refusal !== null });
  current = { id, opened, listing };
  return { kind: "read", id, verdict: verdictOf(listing), isRefused: listing.refusal !== null, isEmpty: file.size === 0, count: listing.count };
}

/** Returns the explanation of a file. */
function explain({ id, encoding, wanted }) {
  if (current?.id !== id) readFile({ id, file: files.get(id).file });
  const { opened, listing } = current, all = wanted === null;
  const explained = explanation(library, opened, { limits: WIRE, encoding: encoding || null, wanted, all, listing });
  return { kind: "explained", id, explained, around: around(opened, listing), bytes: explained.shown.map((each) => bytesOf(opened, each)) };
}

/** Returns the bytes of an envelope that are shown, and those after them if a byte is refused. */
function bytesOf(opened, { at, octets, items }) {
  const last = items.at(-1), end = Math.max(octets, last ? last.at + last.octets : 0);
  const parts = items.map((item) => [item.at, Math.min(item.octets, item.kind === "dataset" && item.dataset[0] !== 8 ? 1_024 : item.octets)]);
  const low = Math.min(end, 98_304), high = Math.max(low, end - 16_384);
  return { first: opened.take(at, low).slice(), from: high, last: opened.take(at + high, end - high).slice(), parts };
}

/** Returns rows of the bytes around the refused one. */
function around(opened, { refusal }) {
  if (!refusal) return null;
  const mark = refusal.at + refusal.octet, begin = Math.max(0, Math.floor(mark / 16) - 3) * 16, rows = [];
  for (let row = begin; row < Math.min(opened.size + 1, mark + 32); row += 16) {
    const octets = opened.take(row, 16);
    rows.push({ row, octets: Array.from(octets), text: plain(octets) });
  }
  return { mark, rows, ends: refusal.isTruncated };
}

const cell = (value) => {
  const text = value === null ? "" : String(value), safe = /^[=+\-@\t\r]/.test(text) && typeof value === "string" ? `'${text}` : text;
  return /[",\r\n]/.test(safe) ? `"${safe.replaceAll('"', '""')}"` : safe;
};

/** Returns the audit of a file as CSV. */
function auditAsCsv({ id }) {
  const { file } = files.get(id), parts = [`${COLUMNS}\r\n`], opened = new Opened(file), now = { second: Math.floor(Date.now() / 1_000), nanosecond: 0 };
  const state = library.newAudit(), report = reporter(id, file.size);
  let nth = 0, lines = [], at = 0, found = { status: null };
  for (; at < file.size && found.status !== REFUSED; at += PART) {
    found = library.auditAll(state, opened.take(at, PART), now, WIRE);
    for (const row of found.rows) {
      const values = [++nth, row.at, row.length, latin(row.service), latin(row.number), latin(row.dateSent), row.priority, row.size, row.subfiles, row.announced, row.counted, row.age, row.copy, row.release, row.expires];
      lines.push(values.map(cell).join(","));
    }
    if (lines.length > 10_000 || at + PART >= file.size) { parts.push(new Blob(lines.map((line) => `${line}\r\n`))); lines = []; }
    report(at, nth);
  }
  parts.push(new Blob(lines.map((line) => `${line}\r\n`)));
  return { kind: "made", id, name: `${file.name}.audit.csv`, blob: new Blob(parts, { type: "text/csv" }) };
}

/** Returns an envelope as an object for JSON. */
function asJson(envelope, given) {
  const { datasets, header, sizes, story } = envelope;
  const text = [...datasets.map((each) => each.data), story].reduce((all, part) => [...all, ...part.subarray(0, 2_048)], []);
  const { name } = choose(given, envelope.first(1, 90), Uint8Array.from(text));
  const of = (octets) => textOf(octets, name);
  return {
    envelope: envelope.nth, at: envelope.at, length: envelope.length, encoding: name,
    fields: datasets.map((each) => ({ dataset: `${each.record}:${String(each.number).padStart(2, "0")}`, name: library.datasetName(each.record, each.number), text: of(each.data), octets: latin(each.data) })),
    header: Object.fromEntries(["source", "number", "priority", "category", "words", "info", "trailer"].map((part) => [part, of(header[part])])),
    sizes: Object.fromEntries(Object.entries(sizes).map(([key, value]) => [key, value === null ? null : Number(value)])),
    story: of(story),
  };
}

/** Returns the envelopes of a file as lines of JSON. */
function envelopesAsJson({ id, encoding }) {
  const { file } = files.get(id), opened = new Opened(file), receiver = new Receiver(library, { collectStory: true }), parts = [], report = reporter(id, file.size);
  let refusal = null;
  for (let at = 0; at < file.size && !refusal; at += PART) {
    const fed = receiver.feed(opened.take(at, PART));
    refusal = fed.refusal;
    parts.push(new Blob(fed.envelopes.map((each) => `${JSON.stringify(asJson(each, encoding || null))}\n`)));
    report(at, receiver.nth - 1);
  }
  return { kind: "made", id, name: `${file.name}.jsonl`, blob: new Blob(parts, { type: "application/jsonl" }) };
}

const TASKS = { read: readFile, explain, csv: auditAsCsv, json: envelopesAsJson };

self.onmessage = async ({ data }) => {
  try {
    if (data.kind === "start") {
      library = new Library((await WebAssembly.instantiate(data.wasm)).instance.exports);
      for (const [id, file] of data.files) files.set(id, { file });
      postMessage({ kind: "ready", encodings: ENCODINGS });
    } else postMessage(TASKS[data.kind](data));
  } catch (fault) {
    postMessage({ kind: "failed", id: data.id, text: fault.name === "NotReadableError" ? "The file cannot be read." : String(fault.message ?? fault) });
  }
};
