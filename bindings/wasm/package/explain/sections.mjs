// Explains a refusal: where it is, why, what to do, and which bytes are accepted: sections.py of iim.explain.
import { BLOCK, CHANGES, EMPTY_FILE, KINDS, NOTE, OF_ROW, PARTS, PARTS_OF_TAG, ROW } from "./tables.mjs";
import { TEXT_KINDS, TIME, counted, fitted, hexes, integer, name, names, number, shown, titled } from "./words.mjs";

/** Returns the sections that explain a refusal or an empty file. */
export function sections(found) {
  const of = (title, lines) => ({ title, lines: [...lines] });
  if (!found.file.size) return [of("Empty file", [EMPTY_FILE])];
  const { tries } = found.refused ?? {};
  if (!tries) return [];
  return [
    of("Where", where(tries)), of("Why", why(found, tries)), of("What to do", whatToDo(found)),
    of(tries.ends ? "Bytes accepted next" : "Bytes accepted there", accepted(tries)), of("Note", [NOTE]),
  ];
}

function* where(tries) {
  const { octet: at, here, refusal, library, datasets } = tries, inFile = refusal.octetInInput;
  const what = tries.ends ? "The file ends after octet" : "Octet", hexadecimal = inFile.toString(16).toUpperCase();
  yield `${what} ${number(at)} of envelope ${number(refusal.nth)}, which is octet ${number(inFile)} of the file (hexadecimal ${hexadecimal}).`;
  if (!here) {
    const last = datasets.at(-1), before = last ? `, after ${titled(library, last.record, last.number)}` : "";
    yield `It is between datasets${before}, where a tag must begin.`;
    return;
  }
  const size = here.size === null ? "its count is incomplete" : `it has ${counted(here.size, "octet")} of data`;
  const isInData = tries.place.begun === "data", received = at - here.at - (isInData ? here.head : 0);
  const named = here.number === null ? "a dataset whose number was not received" : here.label;
  yield `It is in ${named}, which begins at ${number(here.at)}; ${size}.`;
  yield `That is in its ${isInData ? "data" : "head"}, after ${counted(received, "octet")} of it.`;
  if ((isInData && here.record === 8) || refusal.cause === 32) {
    yield `In the message: ${PARTS[tries.place.part]}.`;
    yield ROW.map((part, nth) => (nth === OF_ROW[tries.place.part] ? `>${part}<` : part)).join(" ");
  }
}

function* why(found, tries) {
  const { here, refusal, library } = tries, { cause } = refusal, means = library.causeText(cause) ?? "";
  const on = `on ${titled(library, refusal.record, refusal.number)}, layer ${refusal.layer}`;
  yield `${means.slice(0, 1).toUpperCase()}${means.slice(1)}. (Cause ${cause} ${refusal.causeName} ${on}.)`;
  const rule = library.row(refusal.record, refusal.number), hasSize = here && here.size !== null;
  if (cause === 13 && rule && hasSize) {
    const valid = rule.least < rule.greatest ? `sizes are ${number(rule.least)} to ${number(rule.greatest)}` : `size is ${number(rule.least)}`;
    yield `Its count is ${number(here.size)}; the valid ${valid}.`;
  }
  if ((cause === 13 || cause === 15) && rule && hasSize) yield* valueAtFault(tries, rule);
  if (refusal.layer === "object") yield* found.refused.sizes();
  if (cause === 25 && here?.size) yield `9:10 confirms ${number(integer(tries.take(tries.begin, Number(here.size))))}.`;
  if (cause === 50 || cause === 51) yield overLimit(tries);
  yield `Likely reason: ${found.reason.reason}.`;
}

function overLimit({ datasets, limits, refusal }) {
  const items = datasets.filter((item) => (item.record === 1 || item.record === 2) && item.size !== null);
  const octets = items.reduce((sum, item) => sum + Number(item.size), 0);
  if (refusal.cause === 50) return `With it, records 1 and 2 have ${number(octets)} octets of data; at most ${number(limits.octets)}.`;
  return `With it, records 1 and 2 have ${number(items.length)} datasets; at most ${number(limits.fields)}.`;
}

function* valueAtFault(tries, rule) {
  const { here, library, refusal } = tries;
  const begin = here.at + here.head, value = tries.take(begin, Math.min(Number(here.size), BLOCK));
  if (!value.length) return;
  const raw = hexes(value.subarray(0, 16)) + (here.size > 16 ? " ..." : "");
  yield `It must be ${KINDS[rule.kind]}. It is ${raw}, '${fitted(shown(value, 24), 60)}'.`;
  if (refusal.cause !== 15 || !TEXT_KINDS.includes(rule.kind) || here.number === null) return;
  const isValid = (octet) => library.admits(here.record, here.number, new Uint8Array(Math.max(1, Number(rule.least))).fill(octet));
  const valid = new Map([...new Set(value)].map((octet) => [octet, isValid(octet)]));
  const bad = Array.from(value, (octet, nth) => (valid.get(octet) ? null : `octet ${number(begin + nth)} (${name(octet)})`)).filter(Boolean);
  if (bad.length) yield `Invalid: ${bad.slice(0, 6).join(", ")}${bad.length > 6 ? ` and ${counted(bad.length - 6, "other")}` : ""}.`;
}

function* whatToDo({ reason, findings, ask, all }) {
  if (reason.advice) yield `First: ${reason.advice}.`;
  const first = all ? findings : findings.slice(0, CHANGES);
  for (const [nth, each] of first.entries()) yield `${nth + 1}. ${each.text}`;
  if (findings.length > first.length) yield `These are ${first.length} of ${findings.length}: --all prints all.`;
  yield ask;
}

const present = (tries, octet) => ` (now ${name(tries.take(octet, 1)[0], isRaw(tries, octet))})`;

function* accepted(tries) {
  yield `At octet ${number(tries.octet)}${tries.ends ? "" : present(tries, tries.octet)}: ${inPlace(tries, tries.octet, tries.accepted)}.`;
  if (!tries.accepted.length) yield "So the error is before it.";
  const whole = tries.fixes.get(tries.octet)?.whole;
  if (whole?.size && whole.size === tries.accepted.length && tries.accepted.every((octet) => whole.has(octet))) {
    yield `With ${whole.size > 1 ? "any of these" : "it"} the envelope is accepted.`;
  }
}

/** Returns a sentence on a single-byte change. */
export function fixInWords(tries, { first, last, octets, whole, far }) {
  const which = first === last ? `Octet ${number(first)}${present(tries, first)}` : `One of the octets ${number(first)} to ${number(last)}`;
  return `${which} as ${inPlace(tries, first, [...octets])}: ${whole ? "the envelope is accepted" : `it is valid up to octet ${number(far)}`}.`;
}

/** Checks whether a byte is part of a tag or of a binary number. */
function isRaw({ datasets, library }, octet) {
  const item = datasets.findLast((each) => each.at <= octet && octet < each.at + each.length);
  if (!item || octet < item.at + item.head) return true;
  const rule = item.number === null ? null : library.row(item.record, item.number);
  return item.record !== 8 && rule !== null && rule.kind > TIME;
}

/** Returns the bytes that are accepted at an offset, in words, and their meaning in a tag. */
function inPlace(tries, octet, octets) {
  const named = names(octets, isRaw(tries, octet));
  const item = tries.datasets.findLast((each) => each.at <= octet && octet < each.at + each.head);
  if (!item || !octets.length) return named;
  const nth = octet - item.at;
  if (nth === 2) return inNumber(tries.library, item, named, octets);
  if (nth === 4 && item.head === 5) {
    const counts = octets.map((value) => tries.take(octet - 1, 1)[0] * 256 + value).sort((a, b) => a - b);
    const of = counts.length > 3 ? `${number(counts[0])} to ${number(counts.at(-1))}` : counts.map(number).join(" or ");
    return `${named}, a count of ${of} for ${item.label}`;
  }
  return `${named}, ${PARTS_OF_TAG[Math.min(nth, 3)]} of the dataset at ${number(item.at)}`;
}

function inNumber(library, item, named, octets) {
  const isNamed = [...octets].sort((a, b) => a - b).filter((value) => library.datasetName(item.record, value));
  const titles = isNamed.map((value) => titled(library, item.record, value));
  const first = titles.slice(0, 3).join(", ") + (octets.length > Math.min(3, titles.length) ? " or others" : "");
  if (octets.length > 8) return `one of ${octets.length} other numbers${titles.length ? `, such as ${first}` : ""}`;
  return titles.length ? `${named}, dataset ${first}` : named;
}
