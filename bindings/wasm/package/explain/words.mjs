// Writes bytes, datasets and their values as text: bindings/python/src/iim/explain/words.py.
import { FORMATS, MODES, MONTHS, NAMED, PRIORITIES } from "./tables.mjs";
import { encodingOf } from "./charsets.mjs";

export const [TEXT_KINDS, DATE, PART_DATE, TIME, BINARY, OCTETS, MODE] = [[1, 2, 3, 4, 5], 6, 7, 8, 9, 10, 11];
const NUMBERS = [BINARY, MODE, 12, 13];

export const hex = (octet) => octet.toString(16).toUpperCase().padStart(2, "0");
export const hexes = (octets) => Array.from(octets, hex).join(" ");
export const number = (value) => value.toLocaleString("en-US");
export const counted = (value, what) => `${number(value)} ${what}${value == 1 ? "" : "s"}`;
export const latin = (octets) => Array.from(octets, (octet) => String.fromCharCode(octet)).join("");
export const integer = (octets) => octets.reduce((sum, octet) => sum * 256n + BigInt(octet), 0n);
const isPrintable = (octet) => octet >= 32 && octet < 127;

/** Returns at most `most` bytes as text, with the escapes of the command. */
export function shown(octets, most = 40) {
  const text = Array.from(octets.subarray(0, most), (octet) => (isPrintable(octet) && octet !== 92 ? String.fromCharCode(octet) : `\\x${hex(octet)}`));
  return text.join("") + (octets.length > most ? "..." : "");
}

/** Returns bytes as text of one column each. */
export const plain = (octets) => Array.from(octets, (octet) => (isPrintable(octet) ? String.fromCharCode(octet) : ".")).join("");

/** Returns an ASCII text in at most `most` columns. */
export function fitted(text, most) {
  return text.length <= most ? text : `${text.slice(0, most - 3).replace(/\\(x[0-9A-F]?)?$/, "")}...`;
}

/** Returns the name of a byte. A raw one, of a tag or a binary number, is hexadecimal. */
export function name(octet, raw = false) {
  if (raw) return hex(octet);
  return NAMED[octet] ?? (octet > 32 && octet < 127 ? `'${String.fromCharCode(octet)}'` : hex(octet));
}

/** Returns the ranges of consecutive values, by first and last value. */
function runs(octets) {
  const spans = [];
  for (const octet of [...octets].sort((a, b) => a - b)) {
    if (spans.at(-1)?.[1] === octet - 1) spans.at(-1)[1] = octet;
    else spans.push([octet, octet]);
  }
  return spans;
}

function span([low, high], raw) {
  if (high - low < 3) return Array.from({ length: high - low + 1 }, (_, nth) => name(low + nth, raw));
  if (low >= 48 && high <= 57 && !raw) return [`the digits ${low - 48} to ${high - 48}`];
  return [`octets ${hex(low)} to ${hex(high)}`];
}

const FAMILIES = [["a digit", 48, 57], ["a capital letter", 65, 90], ["a small letter", 97, 122]];

/** Returns the names of a set of bytes. */
export function names(octets, raw = false) {
  const has = new Set(octets);
  if (!has.size) return "no octet";
  if (has.size > 240) {
    const others = Array.from({ length: 256 }, (_, octet) => octet).filter((octet) => !has.has(octet));
    return `any octet${others.length ? ` except ${names(others, raw)}` : ""}`;
  }
  let spans = runs(has);
  const isThere = (low, high) => spans.some((each) => each[0] === low && each[1] === high);
  const letters = isThere(65, 90) && isThere(97, 122), parts = [];
  for (const [what, low, high] of FAMILIES) {
    if (raw || !isThere(low, high)) continue;
    spans = spans.filter((each) => each[0] !== low || each[1] !== high);
    parts.push(letters && low > 57 ? "a letter" : what);
  }
  const all = [...new Set(parts), ...spans.flatMap((each) => span(each, raw))];
  return all.length > 1 ? `${all.slice(0, -1).join(", ")} or ${all.at(-1)}` : all[0];
}

/** Returns the numbers and the name of a dataset. */
export function titled(library, record, dataset) {
  if (dataset === null) return `${record}:?`;
  const unnamed = record === 1 || record === 2 ? "(not interpreted)" : "";
  return `${record}:${String(dataset).padStart(2, "0")} ${library.datasetName(record, dataset) ?? unnamed}`.trim();
}

function dateInWords(text) {
  const [year, month, day] = [text.slice(0, 4), text.slice(4, 6), text.slice(6)].map(Number);
  if (day && !month) return `day ${day} of an unknown month, ${year}`;
  return [...(day ? [day] : []), ...(month ? [MONTHS[month - 1]] : []), year].join(" ");
}

function timeInWords(text) {
  const where = text[6] === "+" ? "ahead of" : "behind";
  const offset = text.slice(7) === "0000" ? "universal time" : `${text.slice(7, 9)}:${text.slice(9)} ${where} universal time`;
  return `${text.slice(0, 2)}:${text.slice(2, 4)}:${text.slice(4, 6)}, ${offset}`;
}

/** Returns the instant of a valid date and time, or null. */
export function instantInWords(date, time) {
  if (!date || !time) return null;
  const [day, clock] = [latin(date), latin(time)];
  const part = (text, from, to) => Number(text.slice(from, to));
  const instant = new Date(0);
  instant.setUTCFullYear(part(day, 0, 4), part(day, 4, 6) - 1, part(day, 6, 8));
  instant.setUTCHours(part(clock, 0, 2), part(clock, 2, 4), part(clock, 4, 6));
  const minutes = 60 * part(clock, 7, 9) + part(clock, 9, 11);
  instant.setTime(instant.getTime() + (clock[6] === "-" ? minutes : -minutes) * 60_000);
  const year = instant.getUTCFullYear();
  return year < 1 || year > 9_999 ? null : `${instant.toISOString().slice(0, 19)}Z`;
}

/** Checks whether the value of a dataset is text. */
export function isText(library, record, dataset) {
  const kind = library.row(record, dataset)?.kind ?? 0;
  return kind >= 1 && kind < 5;
}

function numberInWords(library, record, dataset, octets, kind) {
  const value = integer(octets), meanings = record === 1 && dataset === 20 ? FORMATS : kind === MODE ? MODES : {};
  return number(value) + (value in meanings ? `, ${meanings[value]}` : "");
}

/** Returns the value of a dataset, of which these are the first bytes, as text. */
export function valueInWords(library, record, dataset, octets, count) {
  const kind = (library.datasetName(record, dataset) && library.row(record, dataset)?.kind) || OCTETS;
  const isValid = count === octets.length && library.admits(record, dataset, octets);
  if (isValid && (kind === DATE || kind === PART_DATE)) return dateInWords(latin(octets));
  if (isValid && kind === TIME) return timeInWords(latin(octets));
  if (isValid && NUMBERS.includes(kind)) return numberInWords(library, record, dataset, octets, kind);
  if (isValid && ((record === 1 && dataset === 60) || (record === 2 && dataset === 10))) {
    const digit = Number(latin(octets));
    return `${digit}${digit in PRIORITIES ? `, ${PRIORITIES[digit]}` : ""}`;
  }
  const declared = record === 1 && dataset === 90 ? encodingOf(octets) : null;
  if (declared) return `${shown(octets, 64)}, ${declared}`;
  if (NUMBERS.includes(kind)) return hexes(octets.subarray(0, 13)) + (count > 13 ? " ..." : "");
  return shown(octets, 64);
}
