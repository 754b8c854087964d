// Receives envelopes from chunks of input.
import { DONE, EMPTY, MORE, PART, REFUSED, TRUNCATED, WIRE, limitsWord } from "./core.mjs";
import { RefusedError, TicketError, TruncatedError } from "./errors.mjs";

// The form of a saved receiver, which the Python package has, too: a name, numbers with the high byte
// first, the ticket, the text, and a CRC-32 of all that.
const NAME = [0x49, 0x49, 0x4d, 0x52, 1], NUMBERS = 48, CRC = 4;
const TABLE = Uint32Array.from({ length: 256 }, (_, n) => {
  for (let bit = 0; bit < 8; bit++) n = n & 1 ? (n >>> 1) ^ 0xedb88320 : n >>> 1;
  return n;
});

function crc32(octets) {
  let crc = ~0;
  for (const octet of octets) crc = TABLE[(crc ^ octet) & 255] ^ (crc >>> 8);
  return ~crc >>> 0;
}

/** Returns the bytes of chunks, one after another. */
export function joined(parts) {
  if (parts.length === 1) return parts[0];
  const all = new Uint8Array(parts.reduce((sum, part) => sum + part.length, 0));
  let at = 0;
  for (const part of parts) { all.set(part, at); at += part.length; }
  return all;
}

/** A complete envelope. */
export class Envelope {
  #library;

  constructor(library, nth, at, length, ticket, story) {
    this.#library = library;
    Object.assign(this, { nth, at, length, ticket, story });
  }

  /** The datasets of records 1 and 2, in the order received. */
  get datasets() { return this.#library.fields(this.ticket); }
  /** The header and the trailer of the message. */
  get header() { return this.#library.header(this.ticket); }
  /** The sizes of the object. */
  get sizes() { return this.#library.sizes(this.ticket); }

  /** Returns the data of the first dataset with these numbers, or null. */
  first(record, number) { return this.datasets.find((each) => each.record === record && each.number === number)?.data ?? null; }
}

/** Returns the error for an answer of the library. */
export function refusedError(library, answer, nth, at, ticket) {
  const { rec: record, set: number, octet, cause } = answer;
  const dataset = `${record}:${String(number).padStart(2, "0")}`;
  const names = { layer: library.layerName(answer.layer) ?? "", causeName: library.causeName(cause) ?? "", causeText: library.causeText(cause) ?? "" };
  const Refusal = answer.status === TRUNCATED ? TruncatedError : RefusedError;
  return new Refusal({ nth, at, octet, record, number, dataset, cause, ...names }, ticket, ticket.length ? library.fields(ticket) : []);
}

export class Receiver {
  #library; #limits; #ticket = EMPTY; #octets = 0; #failed = false; #parts = [];

  constructor(library, { limits = WIRE, collectStory = false, onText = null } = {}) {
    limitsWord(limits);
    this.#library = library;
    this.#limits = limits;
    Object.assign(this, { nth: 1, at: 0, collectStory, onText });
  }

  /** The offset in the input of the next byte. */
  get offset() { return this.at + this.#octets; }
  get limits() { return this.#limits; }

  /** Consumes a chunk of any length. Returns the envelopes that end in it, and the refusal of a byte, or null. */
  feed(chunk) {
    if (!(chunk instanceof Uint8Array)) throw new TypeError("a chunk is a Uint8Array");
    this.#requireState();
    const envelopes = [];
    for (let from = 0; from < chunk.length; from += PART) {
      const refusal = this.#feedPart(chunk.subarray(from, from + PART), envelopes);
      if (refusal) return { envelopes, refusal };
    }
    return { envelopes, refusal: null };
  }

  #requireState() {
    if (this.#failed) throw new Error("a byte was refused before: the receiver has no state");
  }

  #feedPart(part, envelopes) {
    for (const answer of this.#library.feedAll(this.#ticket, this.#octets, part, this.#limits)) {
      if (answer.text.length) {
        this.onText?.(answer.text, this.nth);
        if (this.collectStory) this.#parts.push(answer.text);
      }
      if (answer.status === REFUSED) return this.#refused(answer, part);
      if (answer.status === MORE) {
        [this.#ticket, this.#octets] = [answer.next, answer.octet];
        return null;
      }
      if (answer.status !== DONE) throw new Error(`unexpected status ${answer.status}`);
      envelopes.push(new Envelope(this.#library, this.nth, this.at, answer.octet, answer.next, this.#takeStory()));
      [this.nth, this.at, this.#ticket, this.#octets] = [this.nth + 1, this.at + answer.octet, EMPTY, 0];
    }
    return null;
  }

  #takeStory() {
    const story = this.collectStory ? joined(this.#parts.length ? this.#parts : [EMPTY]) : null;
    this.#parts = [];
    return story;
  }

  /** Returns the refusal of a byte, with the ticket of the state before it. */
  #refused(answer, part) {
    this.#failed = true;
    const count = answer.octet - this.#octets;
    const before = this.#library.feed(this.#ticket, this.#octets, part.slice(answer.from, answer.from + count), this.#limits);
    return refusedError(this.#library, answer, this.nth, this.at, before.next);
  }

  /** Ends the input. Returns null, or a TruncatedError if an envelope is incomplete. */
  end() {
    this.#requireState();
    if (this.#octets === 0) return null;
    const answer = this.#library.end(this.#ticket, this.#octets, this.#limits);
    return answer.status === TRUNCATED ? refusedError(this.#library, answer, this.nth, this.at, this.#ticket) : null;
  }

  /** Returns the receiver as bytes, from which `Receiver.resume` continues. */
  save() {
    this.#requireState();
    const story = joined(this.#parts.length ? this.#parts : [EMPTY]);
    const saved = new Uint8Array(NAME.length + NUMBERS + this.#ticket.length + story.length + CRC);
    const view = new DataView(saved.buffer);
    saved.set(NAME);
    [this.nth, this.at, this.#octets].forEach((value, n) => view.setBigUint64(NAME.length + 8 * n, BigInt(value)));
    view.setUint32(NAME.length + 24, this.#limits.octets);
    view.setUint32(NAME.length + 28, this.#limits.fields);
    view.setBigUint64(NAME.length + 32, BigInt(this.#ticket.length));
    view.setBigUint64(NAME.length + 40, BigInt(story.length));
    saved.set(this.#ticket, NAME.length + NUMBERS);
    saved.set(story, NAME.length + NUMBERS + this.#ticket.length);
    view.setUint32(saved.length - CRC, crc32(saved.subarray(0, saved.length - CRC)));
    return saved;
  }

  /** Returns the receiver that `save` has saved, here or in the Python package. */
  static resumeWith(library, saved, make) {
    const wrong = new TicketError(0, "these bytes are no saved receiver, or they were changed");
    if (saved.length < NAME.length + NUMBERS + CRC || NAME.some((octet, n) => saved[n] !== octet)) throw wrong;
    const view = new DataView(saved.buffer, saved.byteOffset, saved.length);
    if (view.getUint32(saved.length - CRC) !== crc32(saved.subarray(0, saved.length - CRC))) throw wrong;
    const number = (n) => Number(view.getBigUint64(NAME.length + 8 * n));
    const [ticket, story, begin] = [number(4), number(5), NAME.length + NUMBERS];
    if (saved.length !== begin + ticket + story + CRC) throw wrong;
    const limits = { octets: view.getUint32(NAME.length + 24), fields: view.getUint32(NAME.length + 28) };
    const receiver = make(limits);
    Object.assign(receiver, { nth: number(0), at: number(1) });
    receiver.#octets = number(2);
    receiver.#ticket = saved.slice(begin, begin + ticket);
    if (story) receiver.#parts.push(saved.slice(begin + ticket, begin + ticket + story));
    if (ticket) library.feed(receiver.#ticket, receiver.#octets, EMPTY, limits);
    return receiver;
  }
}
