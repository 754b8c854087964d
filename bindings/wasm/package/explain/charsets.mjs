// Decodes the text of an envelope: bindings/python/src/iim/explain/charsets.py.
import { ASCII_SETS, CHARACTERS, LABELS, OF_94_BY_94, OF_96, OTHERS } from "./tables.mjs";

const latin = (octets) => Array.from(octets, (octet) => String.fromCharCode(octet)).join("");
const escapeOf = (octet) => `\\x${octet.toString(16).toUpperCase().padStart(2, "0")}`;
const NONE = "\ufffd";

/** The encodings that a reader may choose. */
export const ENCODINGS = ["utf-8", ...Object.keys(CHARACTERS), ...Object.keys(OF_94_BY_94).map((final) => OF_94_BY_94[final])];

/** Returns the encoding that the value of 1:90 declares, or null if it is not in the table. */
export function encodingOf(designations) {
  let found = null;
  for (let rest = latin(designations); rest; ) {
    const match = /^\x1b([\x20-\x2f]*)([\x30-\x7e])/.exec(rest);
    if (!match) return null;
    const [all, between, last] = match, final = last.charCodeAt(0);
    if (between.startsWith("%")) found = OTHERS[between.slice(1) + last] ?? null;
    else if (["-", ".", "/"].includes(between)) found = OF_96[final] ?? null;
    else if (["$)", "$*", "$+"].includes(between)) found = OF_94_BY_94[final] ?? null;
    else if (between === "(" && ASCII_SETS.includes(final)) found ??= "ascii";
    else return null;
    if (!found) return null;
    rest = rest.slice(all.length);
  }
  return found;
}

/** Returns the size of the character at an offset of UTF-8, below 0 if these bytes are invalid. */
function sizeOfCharacter(octets, at) {
  const first = octets[at];
  if (first < 0x80) return 1;
  const size = first >= 0xc2 && first <= 0xdf ? 2 : (first & 0xf0) === 0xe0 ? 3 : first >= 0xf0 && first <= 0xf4 ? 4 : 0;
  if (!size) return -1;
  const low = first === 0xe0 ? 0xa0 : first === 0xf0 ? 0x90 : 0x80, high = first === 0xed ? 0x9f : first === 0xf4 ? 0x8f : 0xbf;
  for (let nth = 1; nth < size; nth++) {
    const next = octets[at + nth];
    if (next === undefined || next < (nth === 1 ? low : 0x80) || next > (nth === 1 ? high : 0xbf)) return -nth;
  }
  return size;
}

/** Yields the texts of bytes of UTF-8, and whether each was decoded. */
function* partsOfUtf8(octets) {
  const decoder = new TextDecoder("utf-8", { ignoreBOM: true });
  for (let at = 0, from = 0; from < octets.length; from = at) {
    let size;
    while (at < octets.length && (size = sizeOfCharacter(octets, at)) > 0) at += size;
    if (at > from) yield [decoder.decode(octets.subarray(from, at)), true];
    if (at < octets.length) yield [Array.from(octets.subarray(at, (at -= size)), escapeOf).join(""), false];
  }
}

function* partsOfSingle(octets, table) {
  for (const octet of octets) {
    const character = octet < 128 ? String.fromCharCode(octet) : table[octet - 128];
    yield character === NONE ? [escapeOf(octet), false] : [character, true];
  }
}

/** Yields the texts of bytes of two or three bytes a character, and whether each was decoded. */
function* partsOfDouble(octets, label) {
  const decoder = new TextDecoder(label, { fatal: true });
  for (let at = 0; at < octets.length; ) {
    let size = octets[at] < 128 ? 1 : 2, text = null;
    for (; size <= 3 && text === null; size++) {
      try { text = decoder.decode(octets.subarray(at, at + size)); } catch { if (octets[at] < 128 || at + size >= octets.length) break; }
    }
    yield text === null ? [escapeOf(octets[at]), false] : [text, true];
    at += text === null ? 1 : size - 1;
  }
}

/** Returns bytes as texts, each with whether it was decoded: others are escapes. */
export function partsOf(octets, name) {
  if (name === "utf-8") return [...partsOfUtf8(octets)];
  if (CHARACTERS[name]) return [...partsOfSingle(octets, CHARACTERS[name])];
  return [...partsOfDouble(octets, LABELS[name] ?? name)];
}

export const textOf = (octets, name) => partsOf(octets, name).map(([text]) => text).join("");

/** Returns the likely encoding of text that does not declare one. */
function guessOf(text) {
  for (let at = 0; at < text.length; ) {
    const size = sizeOfCharacter(text, at);
    // (an incomplete last character is left out)
    if (size < 0 && at - size < text.length) return text.some((octet) => octet >= 0x80 && octet < 0xa0) ? "cp1252" : "iso8859-1";
    at += Math.abs(size);
  }
  return text.some((octet) => octet >= 0x80) ? "utf-8" : "ascii";
}

/** Chooses the encoding of the text of an envelope. */
export function choose(given, designations, text) {
  if (given) return { name: given, source: "given" };
  const declared = designations?.length ? encodingOf(designations) : null;
  return declared ? { name: declared, source: "declared" } : { name: guessOf(text), source: "guessed" };
}

/** Returns a text with escapes for characters that are invisible or would reorder others. */
export function safe(text) {
  return text.replace(/[^ \P{C}]|[^ \P{Z}]|\\/gu, (each) => {
    const code = each.codePointAt(0).toString(16).toUpperCase();
    return code.length <= 2 ? `\\x${code.padStart(2, "0")}` : code.length <= 4 ? `\\u${code.padStart(4, "0")}` : `\\U${code.padStart(8, "0")}`;
  });
}
