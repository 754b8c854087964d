// types.mjs IIM_WASM: prints the imports, sections and types of the exports of a module as JSON.
import { readFileSync } from "node:fs";
const octets = readFileSync(process.argv[2]);
const module = await WebAssembly.compile(octets);
let at = 0;
const number = () => { let value = 0, shift = 0, octet; do { octet = octets[at++]; value |= (octet & 127) << shift; shift += 7; } while (octet > 127); return value; };
const sections = {};
for (at = 8; at < octets.length; ) { const id = octets[at++], size = number(); sections[id] = [at, at + size]; at += size; }
const vector = (read) => Array.from({ length: number() }, read);
const kinds = { 0x7f: "i32", 0x7e: "i64" };
at = sections[1][0];
const types = vector(() => { at++; return [vector(() => kinds[octets[at++]]), vector(() => kinds[octets[at++]])]; });
at = sections[3][0];
const functions = vector(number);
at = sections[7][0];
const exports = {};
vector(() => { const length = number(), name = octets.toString("latin1", at, at + length); at += length; const kind = octets[at++], index = number(); exports[name] = kind === 0 ? types[functions[index]] : null; });
console.log(JSON.stringify({ imports: WebAssembly.Module.imports(module), sections: Object.keys(sections), exports }));
