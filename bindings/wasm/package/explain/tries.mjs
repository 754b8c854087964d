// Finds the bytes accepted at a rejected byte, and the single-byte fixes: tries.py of iim.explain. Each
// result was tried: the changed bytes were passed to the library in the state before the change.
import { DONE, PART } from "../core.mjs";
import { BLOCK, CLASSES, FURTHER, HEADS, NEAR, NEAR_OF_MESSAGE, OF_NUMBERS, SHORT } from "./tables.mjs";
import { State } from "./walk.mjs";
import { DATE, PART_DATE, TEXT_KINDS, TIME } from "./words.mjs";

const REST = BLOCK;
const range = (from, to) => Array.from({ length: Math.max(0, to - from) }, (_, nth) => from + nth);
const singly = (values) => values.map((value) => [value]);
const SINGLY = singly(range(0, 256));
const DIGITS = singly(range(48, 58));
// The bytes that can be valid in a tag, by their offset in it.
const IN_HEAD = [singly([0x1c]), singly([1, 2, 7, 8, 9]), SINGLY, SINGLY.slice(0, 129), SINGLY];
const IN_VALUE = { [DATE]: DIGITS, [PART_DATE]: DIGITS, [TIME]: [...DIGITS, [43], [45]] };
const bitsOf = (value) => value.toString(2).replaceAll("0", "").length;
const isSame = (a, b) => a.size === b.size && [...a].every((each) => b.has(each));

export class Tries {
  #short; #rest = [-1, null]; #near; #fixes = null;

  constructor(library, file, refusal, walk, limits) {
    Object.assign(this, { library, file, refusal, walk, limits, at: refusal.at, octet: refusal.octet, ends: refusal.isTruncated });
    this.datasets = walk.items.filter((item) => item.kind === "dataset");
    this.#short = this.octet <= SHORT ? this.take(0, this.octet + REST).slice() : null;
    this.#near = new State(library, limits);
    const before = this.before(this.octet);
    this.place = before.place();
    this.accepted = before.next();
    this.here = this.place.begun === "tag" || this.place.begun === "data" ? this.datasets.at(-1) : null;
    this.begin = this.#token();
  }

  take(octet, count) { return this.file.take(this.at + octet, count); }

  /** Returns the state before a byte that is not after the rejected one. */
  before(octet) {
    let near = this.#near;
    if (near.octets > octet || near.octets === 0) {
      const [at, ticket] = this.walk.places.filter(([reached]) => reached <= octet).at(-1);
      near = new State(this.library, this.limits, ticket, at);
    }
    while (near.octets < octet) near.feed(this.take(near.octets, Math.min(BLOCK, octet - near.octets)));
    return (this.#near = near);
  }

  /** Replaces `cut` bytes at an offset, and returns up to which offset the result is valid, and whether it is an envelope. */
  edited(octet, cut, put) {
    let reach, isWhole;
    if (this.#short) {
      const octets = new Uint8Array(this.#short.length - cut + put.length);
      octets.set(this.#short.subarray(0, octet));
      octets.set(put, octet);
      octets.set(this.#short.subarray(octet + cut), octet + put.length);
      [reach, isWhole] = this.ofWhole(octets);
    } else {
      const rest = this.#restFrom(octet + cut), octets = new Uint8Array(put.length + rest.length);
      octets.set(put);
      octets.set(rest, put.length);
      [reach, isWhole] = this.before(octet).tries(octets);
    }
    return [reach >= octet + put.length ? reach + cut - put.length : octet, isWhole];
  }

  #restFrom(octet) {
    if (this.#rest[0] !== octet) this.#rest = [octet, this.take(octet, REST).slice()];
    return this.#rest[1];
  }

  /** Returns the size of the valid prefix of bytes, and whether it is an envelope. */
  ofWhole(octets) {
    const answer = this.library.check(octets.subarray(0, PART), this.limits);
    return [answer.octet, answer.status === DONE];
  }

  /** Returns the offset of the first byte of the rejected token. */
  #token() {
    const isInMessage = this.#isInMessage() && this.place.begun === "data";
    return this.here === null || isInMessage ? this.octet : this.place.first;
  }

  #isInMessage() { return ["message", "story"].includes(this.refusal.layer); }

  /** Returns the offsets of the bytes that are changed. */
  #candidates() {
    const at = this.octet, near = this.#isInMessage() ? NEAR_OF_MESSAGE : NEAR;
    const found = new Set([...range(this.begin, at + 1), ...range(Math.max(0, at - near), at + 1)]);
    const add = (from, to) => range(from, to).forEach((octet) => found.add(octet));
    for (const item of this.datasets.slice(-3)) add(item.at, item.at + item.head);
    for (const item of this.datasets) if (item.record === 7 && this.refusal.layer === "object") add(item.at, item.at + item.length);
    if (OF_NUMBERS.includes(this.refusal.cause)) for (const item of this.datasets.slice(-HEADS)) add(item.at + 2, item.at + item.head);
    return [...found].filter((octet) => octet <= at && at - octet < REST).sort((a, b) => a - b);
  }

  /** The results of changing each byte, by its offset. */
  get fixes() { return (this.#fixes ??= this.ends ? this.#fixesOfEnd() : this.#fixesOfByte()); }

  #fixesOfByte() {
    const found = this.#candidates().map((octet) => [octet, this.#tryValues(octet, this.#groups(octet))]);
    return new Map(found.filter(([, fix]) => fix.taken.size));
  }

  #fixesOfEnd() {
    const { here } = this;
    const octets = here && here.number !== null ? range(here.at, Math.min(here.at + here.head, this.octet)) : [];
    const found = octets.map((octet) => [octet, this.#tryValues(octet, SINGLY)]);
    return new Map(found.filter(([, fix]) => fix.whole.size));
  }

  /** Returns the groups of values that are tried at an offset. The others of a group are tried if its first is accepted. */
  #groups(octet) {
    if (octet === this.octet) return singly(this.accepted);
    const item = this.datasets.findLast((each) => each.at <= octet && octet < each.at + each.length);
    if (!item || item.number === null) return SINGLY;
    if (octet < item.at + item.head) return this.#groupsOfHead(item, Math.min(octet - item.at, IN_HEAD.length - 1));
    const rule = this.library.row(item.record, item.number);
    if (item.record === 8 || (rule && TEXT_KINDS.includes(rule.kind))) return CLASSES;
    if (rule && IN_VALUE[rule.kind]) return IN_VALUE[rule.kind];
    return item === this.here || item.record === 7 ? SINGLY : [range(0, 256)];
  }

  #groupsOfHead(item, nth) {
    if (nth === 2) {
      const isNamed = (value) => this.library.datasetName(item.record, value) !== null;
      const all = range(0, 256);
      return [...singly(all.filter(isNamed)), all.filter((value) => !isNamed(value))];
    }
    if (nth < 3 || item.head !== 5 || this.datasets.slice(-3).includes(item)) return IN_HEAD[nth];
    const [shift, kept] = nth === 3 ? [256, this.take(item.at + 4, 1)[0]] : [1, this.take(item.at + 3, 1)[0] * 256];
    const octets = this.#restFrom(item.at + item.head);
    return IN_HEAD[nth].filter(([value]) => octets[value * shift + kept] === 0x1c);
  }

  #tryValues(octet, groups) {
    const [now] = this.take(octet, 1), taken = new Set(), whole = new Set();
    let far = 0;
    for (const values of groups) {
      for (const value of values) {
        if (value === now) continue;
        const [reach, isWhole] = this.edited(octet, 1, [value]);
        if (!(reach > this.octet || isWhole)) break;
        taken.add(value);
        if (isWhole) whole.add(value);
        far = Math.max(far, reach);
      }
    }
    return { taken, whole, far };
  }

  /** Returns the changes of one byte to report, the likeliest first. */
  reportedFixes() {
    const some = [...this.fixes.values()].some((fix) => fix.whole.size), reported = [];
    for (const [octet, fix] of this.fixes) {
      const octets = some ? fix.whole : fix.taken;
      if (!octets.size || (!some && fix.far <= this.octet + FURTHER && octet !== this.octet)) continue;
      const last = reported.at(-1), order = this.#order(octet, octets);
      const isNext = last && last.last === octet - 1 && isSame(last.octets, octets) && (some || last.far === fix.far);
      if (isNext && `${last.order}` === `${order}`) last.last = octet;
      else reported.push({ order, first: octet, last: octet, octets, whole: some, far: fix.far });
    }
    return reported.sort((a, b) => a.order[0] - b.order[0] || a.order[1] - b.order[1] || b.first - a.first);
  }

  /** Returns the sort key of a change: a changed bit is likelier than a byte, and that than a dataset number. */
  #order(octet, octets) {
    const [now] = this.take(octet, 1);
    const isNumber = this.datasets.some((item) => octet === item.at + 2);
    const bits = Math.min(...[...octets].map((value) => bitsOf(now ^ value)));
    return [isNumber ? 2 : bits === 1 ? 0 : 1, this.begin <= octet && octet <= this.octet ? 0 : 1];
  }
}
