// The functions of iim.h as methods, over a WebAssembly module. Nothing persists in the module from one
// call to the next: the arguments are copied into its memory, from __heap_base on, the heap begins after
// them, and the results are copied out. No call passes more than PART bytes of input.
import { CONSTANTS, STRUCTS, VERSION } from "./layout.mjs";
import { MemoryError, TicketError } from "./errors.mjs";

const CODES = CONSTANTS;
export const [DONE, MORE, REFUSED, TRUNCATED] = [CODES.IIM_DONE, CODES.IIM_MORE, CODES.IIM_REFUSED, CODES.IIM_TRUNCATED];
export const [SHORT, BAD_PACKING] = [CODES.IIM_SHORT, CODES.IIM_BAD_PACKING];
export const EMPTY = new Uint8Array(0);
export const WIRE = Object.freeze({ octets: 65_536, fields: 512 });
/** The most bytes of input that one call passes to the module. */
export const PART = 262_144;
const NAME = 128, ROWS = 256;
const BEGUN = ["nothing", "tag", "data", "end"];
const COPY = ["free", "held", "expired"];
const size = (name) => STRUCTS[name].size;
const ANSWER = STRUCTS.iim_answer.members;

/** Returns limits as the module takes them, both numbers in one word. */
export function limitsWord({ octets, fields }) {
  for (const limit of [octets, fields]) {
    if (!Number.isInteger(limit) || limit < 1 || limit > 0x7fff_ffff) throw new RangeError(`the limit ${limit} is invalid`);
  }
  return BigInt.asUintN(64, BigInt(octets) | (BigInt(fields) << 32n));
}

/** Returns the greatest length of a ticket within limits. */
const ticketMax = ({ octets, fields }) => octets + 6 * fields + 256;

/** Returns a number of the module if it is exact as a number of JavaScript. */
function exact(value) {
  if (value > BigInt(Number.MAX_SAFE_INTEGER)) throw new RangeError(`${value} is not exact`);
  return Number(value);
}

export class Library {
  #lib; #base; #view; #octets; #row = new Map(); #names = new Map();

  /** Takes the exports of an instance of iim.wasm. */
  constructor(exports) {
    this.#lib = exports;
    this.#base = Number(exports.__heap_base.value);
    if (exports.iim_version() !== VERSION) throw new Error("iim.wasm is of another release than this package");
  }

  /** The number of bytes of the module's memory. */
  get memoryBytes() { return this.#lib.memory.buffer.byteLength; }

  // ---- Memory

  /** Returns the addresses of buffers of these sizes. The heap begins after them. */
  #places(...counts) {
    let at = this.#base;
    const places = counts.map((count) => { const place = (at + 15) & ~15; at = place + count; return place; });
    if (at > 0x7fff_0000 || !this.#lib.iim_heap_from(BigInt(at))) throw new MemoryError();
    this.#look();
    return places;
  }

  /** Looks at the memory again, which may have grown. */
  #look() {
    if (this.#octets?.buffer !== this.#lib.memory.buffer) {
      this.#octets = new Uint8Array(this.#lib.memory.buffer);
      this.#view = new DataView(this.#lib.memory.buffer);
    }
  }

  #slice(at, count) { return this.#octets.slice(at, at + count); }

  /** Returns the members of a struct in memory. A span is a slice of `of`. */
  #struct(name, at, of = EMPTY) {
    const found = {};
    for (const [member, [offset, kind, count]] of Object.entries(STRUCTS[name].members)) {
      const place = at + offset;
      if (count) found[member] = this.#slice(place, count);
      else if (kind === "iim_span") {
        const from = Number(this.#view.getBigUint64(place, true));
        found[member] = of.slice(from, from + Number(this.#view.getBigUint64(place + 8, true)));
      } else if (kind === "bool") found[member] = this.#octets[place] !== 0;
      else if (kind === "uint8_t") found[member] = this.#octets[place];
      else if (kind === "uint32_t") found[member] = this.#view.getUint32(place, true);
      else if (kind === "int64_t") found[member] = this.#view.getBigInt64(place, true);
      else if (kind in STRUCTS) found[member] = this.#struct(kind, place, of);
      else found[member] = this.#view.getBigUint64(place, true);
    }
    return found;
  }

  /** Returns the answer of a call. Throws if memory could not be allocated or a ticket is invalid. */
  #answer(at) {
    this.#look();
    const octet = (name) => this.#octets[at + ANSWER[name][0]];
    const count = (name) => exact(this.#view.getBigUint64(at + ANSWER[name][0], true));
    const status = octet("status");
    if (status === CODES.IIM_NO_MEMORY) throw new MemoryError();
    if (status === CODES.IIM_BAD_TICKET) throw new TicketError(octet("cause"), this.causeName(octet("cause")) ?? "");
    return {
      status, layer: octet("layer"), cause: octet("cause"), rec: octet("rec"), set: octet("set"),
      octet: count("octet"), used: count("used"), written: count("written"), ticket: count("ticket"),
    };
  }

  // ---- Envelopes

  /** Checks the envelope at the beginning of at most PART bytes. */
  check(octets, limits) {
    const [answer, at] = this.#places(size("iim_answer"), octets.length);
    this.#octets.set(octets, at);
    this.#lib.iim_check(limitsWord(limits), BigInt(at), BigInt(octets.length), BigInt(answer));
    return this.#answer(answer);
  }

  /**
   * Feeds at most PART bytes. Returns an answer for each envelope that ends in them and for their end.
   * Each has the offset in the bytes at which it began, the text and the next ticket.
   */
  feedAll(ticket, at, piece, limits, isOne = false) {
    const most = ticketMax(limits), word = limitsWord(limits);
    const [answer, before, after, text, fed] = this.#places(size("iim_answer"), most, most, piece.length, piece.length);
    if (ticket.length > most) throw new TicketError(100, this.causeName(100));
    this.#octets.set(ticket, before);
    this.#octets.set(piece, fed);
    const answers = [];
    let used = 0, length = ticket.length;
    do {
      const rest = BigInt(piece.length - used);
      this.#lib.iim_feed(word, BigInt(before), BigInt(length), BigInt(at), BigInt(fed + used), rest, BigInt(text), rest, BigInt(after), BigInt(most), BigInt(answer));
      const found = this.#answer(answer);
      const from = used;
      const next = found.status === DONE || found.status === MORE ? this.#slice(after, found.ticket) : EMPTY;
      used += found.used;
      answers.push({ ...found, from, text: this.#slice(text, found.written), next });
      length = at = 0;
      if (found.status !== DONE || isOne) break;
    } while (used < piece.length);
    return answers;
  }

  /** Feeds at most PART bytes, up to the end of an envelope. */
  feed(ticket, at, piece, limits) { return this.feedAll(ticket, at, piece, limits, true)[0]; }

  /** Returns how far bytes are valid after a ticket, and whether an envelope ends with them. */
  tries(ticket, at, piece, limits) {
    let reach = at;
    for (let from = 0; ; from += PART) {
      const fed = this.feed(ticket, reach, piece.subarray(from, from + PART), limits);
      if (fed.status !== MORE) return [fed.octet, fed.status === DONE];
      [ticket, reach] = [fed.next, fed.octet];
      if (from + PART >= piece.length) return [reach, false];
    }
  }

  /** Returns what it means that the input ends after a ticket. */
  end(ticket, at, limits) {
    const [answer, before] = this.#places(size("iim_answer"), ticket.length);
    this.#octets.set(ticket, before);
    this.#lib.iim_end(limitsWord(limits), BigInt(before), BigInt(ticket.length), BigInt(at), BigInt(answer));
    return this.#answer(answer);
  }

  // ---- Tickets

  /** Calls a reader of a ticket, and returns the struct that it writes. */
  #read(name, ticket, call) {
    const [answer, to, before] = this.#places(size("iim_answer"), size(name), ticket.length);
    this.#octets.set(ticket, before);
    call(BigInt(before), BigInt(ticket.length), BigInt(to), BigInt(answer));
    this.#answer(answer);
    return this.#struct(name, to, ticket);
  }

  /** Returns the datasets of records 1 and 2 that are complete, in the order received. */
  fields(ticket) {
    const most = Math.ceil(ticket.length / 6) + 1, row = size("iim_dataset");
    const [answer, to, before] = this.#places(size("iim_answer"), most * row, ticket.length);
    this.#octets.set(ticket, before);
    this.#lib.iim_fields(BigInt(before), BigInt(ticket.length), 0n, BigInt(to), BigInt(most), BigInt(answer));
    const { written } = this.#answer(answer);
    return Array.from({ length: written }, (_, nth) => {
      const { rec, set, data } = this.#struct("iim_dataset", to + nth * row, ticket);
      return { record: rec, number: set, data };
    });
  }

  /** Returns the header and the trailer of the message. */
  header(ticket) { return this.#read("iim_message", ticket, this.#lib.iim_header); }

  /** Returns the sizes of the object; each that was not received is null. */
  sizes(ticket) {
    const found = this.#read("iim_object", ticket, this.#lib.iim_sizes);
    const of = (name) => (found[`has_${name}`] ? found[name] : null);
    return { mode: of("mode"), subfile: of("subfile"), announced: of("announced"), maximum: of("maximum"), subfiles: found.subfiles, total: found.octets };
  }

  /** Returns the values of the bytes that are accepted next. */
  next(ticket, limits) {
    const { bits } = this.#read("iim_octet_set", ticket, (...words) => this.#lib.iim_next(limitsWord(limits), ...words));
    return Array.from({ length: 256 }, (_, octet) => octet).filter((octet) => bits[octet >> 3] & (1 << (octet & 7)));
  }

  /** Returns the position within the envelope. */
  place(ticket, at) {
    const found = this.#read("iim_begun", ticket, (before, count, to, answer) => this.#lib.iim_place(before, count, BigInt(at), to, answer));
    const isData = BEGUN[found.kind] === "data";
    return {
      begun: BEGUN[found.kind], record: found.section, number: isData ? found.set : null, size: isData ? exact(found.count) : null,
      first: exact(found.first), came: exact(found.came), left: isData ? exact(found.left) : null,
      part: found.part, counter: found.counter, flag: found.flag,
    };
  }

  // ---- Packing and audits

  /** Packs the envelope of a script, and returns the answer and the envelope. */
  pack(script, { subfile = 0n, unknown = false, maximum = null } = {}, room = 2 * script.length + 4_096) {
    const [answer, packing, from, out] = this.#places(size("iim_answer"), size("iim_packing"), script.length, room);
    const { members } = STRUCTS.iim_packing;
    this.#octets.fill(0, packing, packing + size("iim_packing"));
    this.#view.setBigUint64(packing + members.subfile[0], BigInt(subfile), true);
    this.#octets[packing + members.unknown[0]] = unknown ? 1 : 0;
    this.#octets[packing + members.has_max[0]] = maximum === null ? 0 : 1;
    this.#view.setBigUint64(packing + members.max[0], BigInt(maximum ?? 0), true);
    this.#octets.set(script, from);
    this.#lib.iim_pack(BigInt(packing), BigInt(from), BigInt(script.length), BigInt(out), BigInt(room), BigInt(answer));
    const found = this.#answer(answer);
    if (found.status === SHORT) return this.pack(script, { subfile, unknown, maximum }, found.written);
    return { ...found, octets: found.status === DONE ? this.#slice(out, found.written) : EMPTY };
  }

  /**
   * Audits at most PART bytes. Returns the rows of the envelopes that end in them, and the answer for
   * the last of these bytes. `state` has the ticket and the counts beside it, and is changed.
   */
  auditAll(state, piece, now, limits) {
    const most = ticketMax(limits), word = limitsWord(limits), row = size("iim_audit_row"), { members } = STRUCTS.iim_instant;
    const sizes = [size("iim_answer"), size("iim_instant"), size("iim_so_far"), most, most, row * ROWS, piece.length];
    const [answer, instant, soFar, before, after, rows, fed] = this.#places(...sizes);
    this.#view.setBigInt64(instant + members.second[0], BigInt(now.second), true);
    this.#view.setUint32(instant + members.nanosecond[0], now.nanosecond, true);
    this.#octets.set(state.soFar, soFar);
    this.#octets.set(state.ticket, before);
    this.#octets.set(piece, fed);
    const all = [];
    for (let used = 0, length = state.ticket.length; ; ) {
      this.#lib.iim_audit(word, BigInt(before), BigInt(length), BigInt(soFar), BigInt(fed + used), BigInt(piece.length - used), BigInt(instant), BigInt(rows), BigInt(ROWS), BigInt(after), BigInt(most), BigInt(answer));
      const found = this.#answer(answer), goes = found.status === DONE || found.status === MORE;
      used += found.used;
      const ticket = goes ? this.#slice(after, found.ticket) : EMPTY;
      if (goes || found.status === REFUSED) for (let nth = 0; nth < found.written; nth++) all.push(this.#auditRow(rows + row * nth));
      if (found.status === DONE) {
        this.#octets.set(ticket, before);
        length = ticket.length;
        continue;
      }
      const at = Number(this.#view.getBigUint64(soFar + STRUCTS.iim_so_far.members.at[0], true));
      Object.assign(state, { ticket, soFar: this.#slice(soFar, size("iim_so_far")) });
      return { ...found, used, at, rows: all };
    }
  }

  /** Returns the state before an audit. */
  newAudit() { return { ticket: EMPTY, soFar: new Uint8Array(size("iim_so_far")) }; }

  /** Returns the length of the envelope in progress in an audit, and its offset in the input. */
  #inAudit({ soFar }) {
    const view = new DataView(soFar.buffer, soFar.byteOffset), { at, octets } = STRUCTS.iim_so_far.members;
    return { begin: exact(view.getBigUint64(at[0], true)), length: exact(view.getBigUint64(octets[0], true)) };
  }

  /** Returns what it means that the input of an audit ends. */
  endAudit(state, limits) {
    const { begin, length } = this.#inAudit(state);
    return { ...(length ? this.end(state.ticket, length, limits) : { status: DONE }), at: begin };
  }

  /** Returns the ticket of the state before the byte that an audit has refused in some bytes. */
  beforeRefusal(before, found, part, limits) {
    const { begin, length } = this.#inAudit(before);
    const isFirst = begin === found.at;
    const from = isFirst ? 0 : found.at - begin - length, at = isFirst ? length : 0;
    return this.feed(isFirst ? before.ticket : EMPTY, at, part.subarray(from, from + found.octet - at), limits).next;
  }

  #auditRow(at) {
    const found = this.#struct("iim_audit_row", at);
    return {
      at: exact(found.at), length: exact(found.octets), service: found.service.slice(0, found.service_octets),
      number: found.number, dateSent: found.date_sent, priority: found.priority ? String.fromCharCode(found.priority) : null,
      size: exact(found.size), subfiles: exact(found.subfiles), announced: exact(found.announced), counted: exact(found.counted),
      age: found.has_age ? Number(found.age) : null, copy: COPY[found.copy],
      release: found.has_release ? Number(found.release.second) : null, expires: found.has_expires ? Number(found.expires.second) : null,
    };
  }

  // ---- Tables and names

  /** Returns the row of a dataset in the tables, or null. */
  row(record, number) {
    const key = record * 256 + number;
    if (!this.#row.has(key)) {
      const [rule] = this.#places(size("iim_rule"));
      const found = this.#lib.iim_row(record, number, BigInt(rule)) !== 0;
      this.#look();
      const { min, max, kind, duty, repeats } = this.#struct("iim_rule", rule);
      this.#row.set(key, found ? { least: min, greatest: max, kind, duty, repeats } : null);
    }
    return this.#row.get(key);
  }

  /** Checks whether bytes are a valid value of a dataset. */
  admits(record, number, octets) {
    const [at] = this.#places(octets.length);
    this.#octets.set(octets, at);
    return this.#lib.iim_admits(record, number, BigInt(at), BigInt(octets.length)) !== 0;
  }

  /** Returns the name that a function writes, or null. */
  #name(what, ...numbers) {
    const key = `${what} ${numbers}`;
    if (!this.#names.has(key)) {
      const [out] = this.#places(NAME);
      const count = Number(this.#lib[what](...numbers, BigInt(out), BigInt(NAME)));
      this.#look();
      this.#names.set(key, count ? String.fromCharCode(...this.#octets.subarray(out, out + count)) : null);
    }
    return this.#names.get(key);
  }

  causeName(cause) { return this.#name("iim_cause_name", cause); }
  causeText(cause) { return this.#name("iim_cause_text", cause); }
  layerName(layer) { return this.#name("iim_layer_name", layer); }
  datasetName(record, number) { return this.#name("iim_dataset_name", record, number); }
}
