// Splits the valid part of an envelope into items: bindings/python/src/iim/explain/walk.py.
import { DONE, EMPTY, MORE } from "../core.mjs";
import { BLOCK, HEAD, STAYS, STEPS, TAIL, TEXT_OCTETS } from "./tables.mjs";
import { hexes, integer, isText, shown, titled, valueInWords } from "./words.mjs";

const TEXT = 9, LF = 10, CR = 13, ETX = 3;
const SINGLE = ["SOH", "STX", "ETX", "EOT", "SP"], FILLED = ["gap", "filler"];

/** A state within an envelope, all of whose bytes so far are valid. */
export class State {
  constructor(library, limits, ticket = EMPTY, octets = 0) {
    Object.assign(this, { library, limits, ticket, octets, isEnded: false });
  }

  /** Consumes bytes, up to the end of the envelope. */
  feed(octets) {
    const fed = this.library.feed(this.ticket, this.octets, octets, this.limits);
    if (fed.status !== DONE && fed.status !== MORE) throw new Error("these bytes were valid before");
    Object.assign(this, { ticket: fed.next, octets: fed.octet, isEnded: fed.status === DONE });
  }

  /** Returns the ticket, also before the first byte. */
  here() {
    if (!this.ticket.length) this.ticket = this.library.feed(EMPTY, this.octets, EMPTY, this.limits).next;
    return this.ticket;
  }

  place() { return this.library.place(this.here(), this.octets); }
  next() { return this.library.next(this.ticket, this.limits); }
  tries(octets) { return this.library.tries(this.ticket, this.octets, octets, this.limits); }
}

function item(at, length, kind, label, value, more = {}) {
  return { at, length, kind, label, value, record: 0, number: null, head: 0, size: null, text: null, textSize: 0, ...more };
}

/** Returns a number, as a bigint only if it is not exact as a number. */
const exact = (value) => (value > BigInt(Number.MAX_SAFE_INTEGER) ? value : Number(value));

/** Returns the count in a tag, or null if the tag is incomplete. */
function countOf(tag) {
  if (tag.length < 5) return null;
  const standard = (tag[3] << 8) | tag[4];
  if (standard < 0x8000) return standard;
  return tag.length === 5 + (standard & 0x7fff) ? exact(integer(tag.subarray(5))) : null;
}

/** Returns the number of CR at the end of a line. */
function returnsOf(line) {
  let count = 0;
  while (count < line.length && line[line.length - 1 - count] === CR) count++;
  return count;
}

/** The items of the envelope at an offset of a file. `end` is its length, or the offset of the rejected byte. */
export class Walk {
  #file; #begin; #end; #state;

  constructor(library, file, at, end, limits) {
    [this.#file, this.#begin, this.#end] = [file, at, end];
    this.#state = new State(library, limits);
    this.library = library;
    this.items = [];
    this.places = [[0, EMPTY]];
    this.gap = [end, end];
    this.#add(Math.min(end, HEAD));
    if (this.octets < end) {
      this.#skip(Math.max(this.octets, end - TAIL));
      this.#add(end);
    }
  }

  get octets() { return this.#state.octets; }
  /** The ticket of the complete envelope, or null. */
  get ticket() { return this.#state.isEnded ? this.#state.ticket : null; }

  take(at, count) { return this.#file.take(this.#begin + at, count); }
  #go(count) { this.#state.feed(this.take(this.octets, count)); }

  /** Consumes the bytes up to an offset, without items. */
  #skip(to) {
    const begin = this.octets;
    while (this.octets < to) this.#go(Math.min(BLOCK, to - this.octets));
    this.places.push([this.octets, this.#state.here()]);
    this.gap = [begin, to];
  }

  /** Adds the items of the datasets up to an offset. */
  #add(to) {
    while (this.octets < to && !this.#state.isEnded) {
      const place = this.#state.place();
      if (place.begun === "data") this.#data(place.record, place.number, to, item(this.octets, 0, "dataset", "", ""));
      else this.#dataset(to, this.octets - place.came);
    }
  }

  #dataset(to, at) {
    this.#go(Math.min(Math.max(at + 5 - this.octets, 1), to - this.octets));
    let place = this.#placeNow();
    while (place.begun === "tag" && this.octets < to) {
      this.#go(1);
      place = this.#placeNow();
    }
    if (place.begun === "tag") return this.#cutTag(at);
    const head = this.octets - at, [record, number] = this.take(at + 1, 2), { library } = this;
    const count = place.begun === "data" ? place.size ?? 0 : 0;
    const more = { record, number, head, size: count, textSize: count };
    let value = "";
    if (record !== 8) {
      value = valueInWords(library, record, number, this.take(at + head, Math.min(count, 81)), count);
      if (isText(library, record, number)) more.text = this.take(at + head, Math.min(count, TEXT_OCTETS)).slice();
    }
    this.#data(record, number, to, item(at, head + count, "dataset", titled(library, record, number), value, more));
  }

  #placeNow() { return this.#state.isEnded ? { begun: "end", part: 0 } : this.#state.place(); }

  /** Adds the item of an incomplete tag. If a byte is rejected, it is the last of the tag. */
  #cutTag(at) {
    const tag = this.take(at, 13).slice(0, this.#end + 1 - at), number = tag[2] ?? null, record = tag[1] ?? 0;
    const label = tag.length > 1 ? titled(this.library, record, number) : "a tag";
    this.items.push(item(at, tag.length, "dataset", label, "", { record, number, head: tag.length, size: countOf(tag) }));
  }

  /** Adds the item of a dataset, and consumes its data. */
  #data(record, number, to, found) {
    let end = Math.min(to, found.at + found.length);
    if (!found.label) {
      // (the dataset begins in the gap)
      end = Math.min(to, this.octets + (this.#placeNow().left ?? 0));
      found = item(this.octets, end - this.octets, "dataset", `${titled(this.library, record, number)}, continued`, "", { record, number });
    }
    this.items.push(found);
    if (record === 8) this.#message(end);
    while (this.octets < end && !this.#state.isEnded) this.#go(Math.min(BLOCK, end - this.octets));
  }

  /** Adds the items of the parts of the message up to an offset. */
  #message(to) {
    let part = this.#state.place().part;
    while (this.octets < to) {
      if (part === TEXT && this.#line(to)) continue;
      const [at, before] = [this.octets, part];
      this.#go(1);
      part = this.#state.place().part;
      this.#part(at, (part === before ? STAYS : STEPS)[part]);
    }
  }

  /** Adds a byte of a part to the item of that part, or as a new item. */
  #part(at, label) {
    const last = this.items.at(-1);
    if (last.kind === "part" && last.label === label && last.at + last.length === at && label !== "SP") at = this.items.pop().at;
    const octets = this.take(at, this.octets - at);
    const value = SINGLE.includes(label) ? "" : FILLED.includes(label) ? hexes(octets) : shown(octets, 64);
    const text = value && !FILLED.includes(label) ? octets.slice(0, TEXT_OCTETS) : null;
    this.items.push(item(at, this.octets - at, "part", label, value, { text, textSize: octets.length }));
  }

  /** Adds the item of the next line of the text. Returns false if the next byte is not part of a line. */
  #line(to) {
    const octets = this.take(this.octets, Math.min(BLOCK, to - this.octets));
    const found = octets.findIndex((octet) => octet === LF || octet === ETX);
    const line = octets.slice(0, found < 0 ? octets.length : octets[found] === LF ? found + 1 : found);
    if (!line.length) return false;
    const isComplete = line.at(-1) === LF;
    const returns = isComplete ? returnsOf(line.subarray(0, line.length - 1)) : 0;
    const label = `line${isComplete ? `, ${[...Array(returns).fill("CR"), ""].join(" ").trim()} LF`.replace("  ", " ") : ""}`;
    const at = this.octets, body = isComplete ? line.slice(0, line.length - 1 - returns) : line;
    this.#go(line.length);
    this.items.push(item(at, line.length, "line", label, shown(body, 64), { text: body.slice(0, TEXT_OCTETS), textSize: body.length }));
    return true;
  }
}
