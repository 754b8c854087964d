// Explains a file of envelopes, in the form of `iim-explain --json`: case.py and as_json.py of iim.explain.
import { EMPTY, PART, REFUSED, TRUNCATED } from "../core.mjs";
import { refusedError } from "../receiver.mjs";
import { choose, textOf } from "./charsets.mjs";
import { askFor, findingsOf, likelyReason } from "./reasons.mjs";
import { sections } from "./sections.mjs";
import { LISTED, WHOLE } from "./tables.mjs";
import { Tries } from "./tries.mjs";
import { Walk } from "./walk.mjs";
import { counted, instantInWords, number, shown } from "./words.mjs";

const FORM = 1;
const NOW = { second: 0, nanosecond: 0 };
const text = new TextEncoder();

/** Lists the envelopes of a file: those at both ends, and the refused one. */
export class Listing {
  constructor(library, file, limits, { wanted = null, report = null, onRow = null } = {}) {
    Object.assign(this, { library, file, limits, wanted, onRow, count: 0, first: [], last: [], refusal: null });
    const state = library.newAudit();
    for (let at = 0; at < file.size && !this.refusal && this.count !== wanted; at += PART) {
      this.#part(state, file.take(at, PART));
      report?.(Math.min(at + PART, file.size), this.count);
    }
    if (!this.refusal && this.count !== wanted) this.#end(state);
    if (this.refusal) {
      const { nth, at, octet, datasets } = this.refusal;
      const first = (record, set) => datasets.find((each) => each.record === record && each.number === set)?.data ?? null;
      const found = { nth, at, length: octet, id: [first(1, 30), first(1, 40), first(1, 70)] };
      (this.first.length < LISTED ? this.first : this.last).push(found);
    }
  }

  #part(state, piece) {
    const before = { ...state }, found = this.library.auditAll(state, piece, NOW, this.limits);
    for (const row of found.rows) {
      if (this.count === this.wanted) return;
      this.count++;
      this.onRow?.(row);
      const listed = { nth: this.count, at: row.at, length: row.length, id: [row.service, row.number, row.dateSent] };
      if (this.first.length < LISTED) this.first.push(listed);
      else this.last.push(listed);
      if (this.last.length > 2 * LISTED) this.last.splice(0, LISTED);
    }
    if (found.status === REFUSED && this.count !== this.wanted) {
      const ticket = this.library.beforeRefusal(before, found, piece, this.limits);
      this.#refuse(found, found.at, ticket);
    }
    this.last = this.last.slice(-LISTED);
  }

  #end(state) {
    const answer = this.library.endAudit(state, this.limits);
    if (answer.status === TRUNCATED) this.#refuse(answer, answer.at, state.ticket);
  }

  #refuse(answer, at, ticket) {
    this.refusal = refusedError(this.library, answer, this.count + 1, at, ticket);
    this.refusal.isTruncated = answer.status === TRUNCATED;
  }

  get listed() { return [...this.first, ...this.last]; }
}

/** An envelope that is shown byte by byte. */
export class Whole {
  constructor(library, file, found, refusal, limits, encoding) {
    Object.assign(this, { library, found, refusal });
    this.walk = new Walk(library, file, found.at, found.length, limits);
    this.tries = refusal ? new Tries(library, file, refusal, this.walk, limits) : null;
    this.ticket = this.walk.ticket ?? refusal?.ticket ?? EMPTY;
    this.datasets = this.ticket.length ? library.fields(this.ticket) : [];
    this.encoding = choose(encoding, this.first(1, 90), this.#text());
  }

  first(record, set) { return this.datasets.find((each) => each.record === record && each.number === set)?.data ?? null; }

  /** Returns the bytes of all texts, one per line. */
  #text() {
    const parts = this.walk.items.filter((item) => item.text !== null).map((item) => item.text);
    const all = new Uint8Array(parts.reduce((sum, part) => sum + part.length + 1, 0)).fill(10);
    let at = 0;
    for (const part of parts) { all.set(part, at); at += part.length + 1; }
    return all.subarray(0, Math.max(0, all.length - 1));
  }

  /** Yields sentences on the sizes of the object, and on whether they agree. */
  *sizes() {
    const sizes = this.ticket.length ? this.library.sizes(this.ticket) : { subfile: null }, last = this.walk.items.at(-1);
    if (!last || (![7, 8, 9].includes(last.record) && !sizes.subfile)) return;
    const announced = sizes.announced === null ? "no size is announced" : `${number(sizes.announced)} announced (7:90)`;
    const most = sizes.maximum === null ? "" : `, at most ${number(sizes.maximum)} (7:95)`;
    const total = `${counted(sizes.total, "octet")} in ${counted(sizes.subfiles, "subfile")}`;
    yield `Sizes: ${announced}${most}; ${total} of at most ${number(sizes.subfile ?? 0)} (7:20).`;
    if (!this.refusal) yield "They agree, and 9:10 confirms them.";
    else if (sizes.announced !== null && sizes.announced !== sizes.total && [24, 25].includes(this.refusal.cause)) {
      const difference = sizes.announced - sizes.total;
      yield `The received and the announced size differ by ${number(difference < 0n ? -difference : difference)}.`;
    }
  }

  /** Yields sentences on when it was sent and when its copy may be used. */
  *instants() {
    const all = [
      ["Sent", this.first(1, 70), this.first(1, 80)],
      ["Released at", this.first(2, 30), this.first(2, 35) ?? text.encode("000000+0000")],
      ["Expires after", this.first(2, 37), this.first(2, 38) ?? text.encode("235959+0000")],
    ];
    for (const [what, date, time] of all) {
      const instant = instantInWords(date, time);
      if (instant) yield `${what} ${instant}.`;
    }
  }

  asJson() {
    const { found, encoding, walk } = this;
    const items = walk.items.map((item) => this.#itemAsJson(item));
    return { envelope: found.nth, at: found.at, octets: found.length, encoding, items, notes: [...this.instants(), ...this.sizes()] };
  }

  #itemAsJson(item) {
    const made = { at: item.at, octets: item.length, kind: item.kind, label: item.label, value: item.value };
    if (item.kind === "dataset") Object.assign(made, { dataset: [item.record, item.number], count: item.size });
    if (item.text !== null) Object.assign(made, { text: textOf(item.text, this.encoding.name), text_octets: item.textSize });
    if (this.tries && item === this.tries.here) made.is_refused = true;
    return made;
  }
}

/** Returns the numbers of the envelopes to show: the wanted and the refused one, or those at the ends. */
function selected(listing, wanted, all) {
  const { listed, refusal } = listing;
  if (wanted !== null || !all) return listed.filter((found) => found.nth === wanted || found.nth === refusal?.nth);
  return listed.length <= 2 * WHOLE ? listed : [...listed.slice(0, WHOLE), ...listed.slice(-WHOLE)];
}

/** Returns a summary of a file that was read, in a few words. */
export function verdictOf({ file, count, refusal, wanted }) {
  if (!file.size) return "no octets";
  const accepted = `${counted(file.size, "octet")}, ${counted(count, "envelope")} accepted`;
  if (!refusal) return accepted + (count === wanted ? ", and read no further" : "");
  return `${accepted}, envelope ${number(refusal.nth)} refused`;
}

function refusedAsJson(library, refusal, tries, reason, findings) {
  return {
    envelope: refusal.nth, at: refusal.at, octet: refusal.octet, octet_in_file: refusal.octetInInput, ends_early: refusal.isTruncated,
    layer: refusal.layer, dataset: refusal.dataset, name: library.datasetName(refusal.record, refusal.number),
    cause: refusal.cause, cause_name: refusal.causeName, meaning: refusal.causeText,
    reason: reason.reason, advice: reason.advice || null, accepted_next: tries.accepted,
    fixes: findings.map(({ text, isWhole, fix }) => ({
      kind: "single byte", text, accepts_envelope: isWhole,
      single: { first: fix.first, last: fix.last, values: [...fix.octets].sort((a, b) => a - b) },
    })),
  };
}

/** Returns the explanation of a file as an object. `listing` has its envelopes, if they were read before. */
export function explanation(library, file, { limits, encoding, wanted, all, report = null, listing = null }) {
  listing ??= new Listing(library, file, limits, { wanted, report });
  const { listed, refusal } = listing, found = { file, all, findings: [], reason: { reason: "", advice: "" }, ask: "" };
  const wholes = selected(listing, wanted, all).map((each) => new Whole(library, file, each, refusal?.nth === each.nth ? refusal : null, limits, encoding));
  found.refused = wholes.find((whole) => whole.tries) ?? null;
  if (found.refused) {
    found.findings = findingsOf(found.refused.tries);
    found.reason = likelyReason(found.refused.tries, found.findings);
    found.ask = askFor(listed.at(-1).id, listed.at(-2)?.id ?? null);
  }
  return {
    form: FORM, size: file.size, verdict: verdictOf(listing), accepted: listing.count,
    refused: found.refused ? refusedAsJson(library, refusal, found.refused.tries, found.reason, found.findings) : null,
    sections: sections(found), ask: found.ask || null,
    envelopes: listed.map((each) => ({
      envelope: each.nth, at: each.at, octets: each.length, id: each.id.map((part) => (part ? shown(part) : null)), is_refused: each.nth === refusal?.nth,
    })),
    envelopes_left_out: listed.length ? listed.at(-1).nth - listed.length : 0,
    shown: wholes.map((whole) => whole.asJson()),
  };
}
