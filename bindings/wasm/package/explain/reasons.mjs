// Chooses the likely reason of a refusal, and what to do: reasons.py of iim.explain. Transfers and
// conversions, which iim-explain undoes on a trial, are not tried here.
import { CAUSES, MANDATORY, OBJECTS, OF_KINDS, OF_PARTS, OF_TEXTS, PARTS } from "./tables.mjs";
import { counted, integer, name, number, shown, titled } from "./words.mjs";
import { fixInWords } from "./sections.mjs";

const reasonOf = (reason, advice) => ({ reason, advice });
const BIT = 3, BYTE = 6, OTHER = 7;

/** Returns the single-byte fixes as findings, the best first. */
export function findingsOf(tries) {
  const found = tries.reportedFixes().filter((fix) => !keepsBadValue(tries, fix)).map((fix) => ({
    likelihood: [BIT, BYTE, OTHER][fix.order[0]], fix, text: fixInWords(tries, fix), isWhole: fix.whole,
    reason: fix.order[0] === 0 ? "one bit was changed" : "", advice: fix.order[0] === 0 ? "transfer the file again" : "",
  }));
  const key = (each) => [each.isWhole ? 0 : 1, each.likelihood, each.isWhole ? 0 : -each.fix.far];
  return found.sort((a, b) => key(a).map((value, nth) => value - key(b)[nth]).find((value) => value) ?? 0);
}

/** Checks whether a change would keep a rejected value under another dataset number. */
function keepsBadValue({ here, refusal, datasets }, fix) {
  if (![13, 15, 16].includes(refusal.cause) || !here || here.number === null || fix.first !== here.at + 2) return false;
  const had = datasets.slice(0, -1).map((item) => `${item.record} ${item.number ?? 0}`);
  const lacking = MANDATORY.filter(([record, dataset]) => record === here.record && !had.includes(`${record} ${dataset}`)).map(([, dataset]) => dataset);
  return ![...fix.octets].every((value) => lacking.includes(value));
}

/** Returns the likely reason of a refusal, and what to do. */
export function likelyReason(tries, findings) {
  const best = findings.find((each) => each.isWhole) ?? (findings[0]?.likelihood < OTHER ? findings[0] : null);
  const own = ownReason(tries);
  const [reason, advice] = CAUSES[tries.refusal.cause];
  if (best?.reason && !(best.likelihood === BIT && own)) return reasonOf(best.reason, best.advice || own?.advice || advice);
  if (own) return own;
  if (tries.refusal.cause === 1 && tries.take(0, 1)[0] !== 0x1c && !tries.octet && !tries.at) {
    return reasonOf("the file is not IIM, and its first octets are of no kind that is known here", "find out what the file is, and where it comes from");
  }
  return reasonOf(reason, advice);
}

function ownReason(tries) {
  if (tries.ends) return reasonOf("the transfer was interrupted, or the file is still being written", "wait until it is complete, or transfer the file again");
  return OF_CAUSES[tries.refusal.cause]?.(tries) ?? null;
}

function ofValue({ library, refusal }) {
  const rule = library.row(refusal.record, refusal.number);
  if (!rule) return null;
  const found = rule.kind >= 1 && rule.kind < 4 ? OF_TEXTS : OF_KINDS[rule.kind];
  return found ? reasonOf(...found) : null;
}

function ofCount({ library, here, refusal }) {
  const rule = library.row(refusal.record, refusal.number);
  if (!rule || !here || here.size === null) return null;
  const title = titled(library, refusal.record, refusal.number), counts = `it counts ${number(here.size)}`;
  if (BigInt(here.size) > rule.greatest) return reasonOf(`${title} is too long: ${counts}; at most ${number(rule.greatest)}, or its count is damaged`, "ask the sender to shorten the value");
  return reasonOf(`${title} is too short: ${counts}; at least ${number(rule.least)}, or its count is damaged`, "ask the sender to complete the value");
}

function ofFormat(tries) {
  const { here } = tries;
  if (!here?.size) return null;
  const value = integer(tries.take(here.at + here.head, Number(here.size)));
  const named = value in OBJECTS ? `, ${OBJECTS[value]}` : "";
  return reasonOf(`1:20 is ${number(value)}${named}: the object is no IPTC 7901 message, which is 2`, "use a reader for that format; the object is not a wire story");
}

function ofRecord({ datasets, refusal: { record } }) {
  const before = datasets.at(-2)?.record ?? 0;
  if (record >= 3 && record <= 6) return reasonOf(`record ${record} is not supported, and must not be there`, "ask the sender for the wire copy without that record");
  const missing = [1, 2, 7, 8, 9].filter((each) => before < each && each < record);
  return missing.length ? reasonOf(`record ${missing.join(" and ")} is missing`, "check which records the sender writes") : null;
}

function ofMissing({ library, refusal }) {
  const missing = titled(library, refusal.record, refusal.number);
  return reasonOf(`the sender omits ${missing}`, `ask the sender to set ${missing}`);
}

function ofMessage(tries) {
  const part = OF_PARTS[tries.place.part];
  if (part === undefined) return null;
  const now = name(tries.take(tries.octet, 1)[0]);
  return reasonOf(`${now} is not accepted there: this part of the message is ${part}`, "compare with the parts of a message in `format.md`");
}

function ofUnfinished({ place }) {
  return reasonOf(`the object ends in ${PARTS[place.part]}: ETX (03) or EOT (04) is missing`, "check whether the last subfile is there");
}

function ofSizes({ library, here, refusal }) {
  const sizes = library.sizes(refusal.ticket), { cause } = refusal, [, advice] = CAUSES[cause];
  if (cause === 24 && sizes.announced !== null) {
    return reasonOf(`a subfile is missing, or octets of the object: ${counted(sizes.announced - sizes.total, "octet")} fewer than 7:90 announces`, advice);
  }
  if (cause === 24 || !here || here.size === null) return null;
  const size = BigInt(here.size) + (cause === 22 ? 0n : sizes.total), what = cause === 22 ? "a subfile" : "the object";
  const limits = cause === 22 ? [["7:20", sizes.subfile]] : [["7:90", sizes.announced], ["7:95", sizes.maximum]];
  const found = limits.find(([, most]) => most !== null && (cause === 22 || size > most));
  return found ? reasonOf(`${what} has ${number(size)} octets, and ${found[0]} allows ${number(found[1])}`, advice) : null;
}

const OF_CAUSES = {
  10: ofRecord, 13: ofCount, 14: ofMissing, 15: ofValue, 16: ofFormat, 22: ofSizes, 23: ofSizes, 24: ofSizes, 30: ofMessage, 32: ofUnfinished,
};

/** Returns the sentence on which envelope to ask for again. */
export function askFor([service, nr, date], previous) {
  if (!service && !nr) {
    if (previous) return `Ask for the envelope after ${previous.map((part) => (part ? shown(part) : "?")).join(" ")} again.`;
    return "Ask the sender for this file again.";
  }
  const sender = service?.length ? shown(service) : "the sender", which = nr?.length ? shown(nr) : "this envelope";
  return `Ask ${sender} for ${which}${date?.length ? ` of ${shown(date)}` : ""} again.`;
}
