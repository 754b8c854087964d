// Tests of the package, as it is installed. SAMPLES is the directory of the samples.
import assert from "node:assert/strict";
import { readFileSync, readdirSync } from "node:fs";
import { join } from "node:path";
import { test } from "node:test";
import * as iim from "iim";

const SAMPLES = process.env.SAMPLES;
const sample = (name) => new Uint8Array(readFileSync(join(SAMPLES, name)));
const latin = (octets) => Buffer.from(octets).toString("latin1");

/** The lines that `iimwire check` prints of each sample, by samples/README.md. */
function rows() {
  const text = readFileSync(join(SAMPLES, "README.md"), "utf8");
  return [...text.matchAll(/^\| `([\w/.]+\.iim)` \|.*\| (`\d.*`) \|$/gm)].map(([, name, lines]) => [name, [...lines.matchAll(/`(.*?)`/g)].map((each) => each[1])]);
}

function* chunks(octets, size) {
  for (let at = 0; at < octets.length; at += size) yield octets.subarray(at, at + size);
}

async function lines(source) {
  const found = [];
  try {
    for await (const { nth, length } of iim.read(source)) found.push(`${nth} accepted ${length} octets`);
  } catch (error) {
    if (!(error instanceof iim.RefusedError)) throw error;
    found.push(error.message);
  }
  return found;
}

test("reads each sample as its page states, in chunks of any length", async () => {
  assert.ok(rows().length > 35);
  for (const [name, expected] of rows()) {
    for (const size of [1, 7, 65_536]) {
      if (size > 1 || sample(name).length < 20_000) assert.deepEqual(await lines(chunks(sample(name), size)), expected, `${name} by ${size}`);
    }
  }
});

test("has a row for each sample", () => {
  const names = ["", "damaged"].flatMap((folder) => readdirSync(join(SAMPLES, folder)).filter((name) => name.endsWith(".iim")).map((name) => join(folder, name)));
  assert.deepEqual(rows().map(([name]) => name).sort(), names.sort());
});

test("reads web streams, and cancels them if the caller stops", async () => {
  let cancelled = false;
  const stream = () => new ReadableStream({
    pull(controller) { controller.enqueue(sample("stream.iim")); },
    cancel() { cancelled = true; },
  });
  let count = 0;
  for await (const { nth } of iim.read(stream())) if ((count = nth) === 5) break;
  assert.deepEqual([count, cancelled], [5, true]);
  assert.deepEqual(await lines(new Blob([sample("stream.iim")]).stream()), ["1 accepted 114 octets", "2 accepted 246 octets"]);
});

test("checks bytes, and throws errors with fields", () => {
  assert.equal(iim.check(sample("story.iim")), 246);
  assert.throws(() => iim.check(sample("damaged/bad_value.iim")), (error) => {
    assert.ok(error instanceof iim.RefusedError && error instanceof iim.IimError && error instanceof Error);
    const { name, nth, at, octet, octetInInput, layer, dataset, record, number, cause, causeName } = error;
    assert.deepEqual({ name, nth, at, octet, octetInInput, layer, dataset, record, number, cause, causeName }, {
      name: "RefusedError", nth: 1, at: 0, octet: 54, octetInInput: 54, layer: "record", dataset: "1:70", record: 1, number: 70, cause: 15, causeName: "BadValue",
    });
    return true;
  });
  assert.throws(() => iim.check(sample("damaged/truncated.iim")), iim.TruncatedError);
  assert.throws(() => iim.check(new Uint8Array()), /^TruncatedError: 1 refused at octet 0 by layer dataset on 0:00, cause 3 Truncated$/);
  assert.throws(() => iim.check(sample("story.iim"), { limits: { octets: 0, fields: 1 } }), RangeError);
  assert.throws(() => iim.check(sample("story.iim"), { limits: { octets: 65_536, fields: 2 } }), { cause: 51 });
});

test("counts envelopes and offsets after an envelope", async () => {
  const octets = Buffer.concat([sample("stream.iim"), sample("damaged/bad_value.iim")]);
  for (const size of [1, 100, 1_000]) {
    const receiver = new iim.Receiver();
    let refusal = null, ended = [];
    for (const chunk of chunks(new Uint8Array(octets), size)) {
      const fed = receiver.feed(chunk);
      ended.push(...fed.envelopes.map(({ nth, at, length }) => [nth, at, length]));
      if ((refusal = fed.refusal)) break;
    }
    assert.deepEqual(ended, [[1, 0, 114], [2, 114, 246]]);
    assert.deepEqual([refusal.nth, refusal.at, refusal.octet, refusal.octetInInput], [3, 360, 54, 414]);
    assert.equal(latin(refusal.datasets.at(-1).data), "00000001");
    assert.throws(() => receiver.feed(octets.subarray(0, 1)), /refused before/);
  }
});

test("returns the datasets, the header, the sizes and the story", async () => {
  const parts = [], found = [];
  for await (const envelope of iim.read(chunks(sample("story.iim"), 5), { collectStory: true, onText: (text) => parts.push(...text) })) found.push(envelope);
  const [{ datasets, header, sizes, story, first }] = found;
  assert.ok(datasets.some((each) => each.record === 2 && each.number === 105 && latin(each.data) === latin(found[0].first(2, 105))));
  assert.equal(found[0].first(2, 7), null);
  assert.equal(typeof first, "function");
  assert.ok(header.part === 11 && header.source.length > 0);
  assert.equal(sizes.total, sizes.announced);
  assert.equal(latin(story), latin(Uint8Array.from(parts)));
  assert.ok(latin(sample("story.iim")).includes(latin(story).split("\n")[0]));
});

test("saves a receiver at each byte, and continues in another", () => {
  const octets = sample("stream.iim");
  for (let at = 0; at <= octets.length; at++) {
    const before = new iim.Receiver({ limits: { octets: 60_000, fields: 500 }, collectStory: true });
    const ended = before.feed(octets.subarray(0, at)).envelopes;
    const saved = before.save(), after = iim.Receiver.resume(saved);
    assert.deepEqual([after.offset, after.nth, after.limits], [at, before.nth, { octets: 60_000, fields: 500 }]);
    assert.deepEqual(after.save(), saved);
    ended.push(...after.feed(octets.subarray(at)).envelopes);
    assert.deepEqual(ended.map(({ nth, at: begin, length }) => [nth, begin, length]), [[1, 0, 114], [2, 114, 246]]);
  }
});

test("rejects saved bytes that were changed", () => {
  const receiver = new iim.Receiver();
  receiver.feed(sample("story.iim").subarray(0, 200));
  const saved = receiver.save();
  for (let at = 0; at < saved.length; at++) {
    const changed = saved.slice();
    changed[at] ^= 1;
    assert.throws(() => iim.Receiver.resume(changed), iim.TicketError);
    assert.throws(() => iim.Receiver.resume(saved.subarray(0, at)), iim.TicketError);
  }
});

test("audits a stream as samples/README.md has it", async () => {
  const found = [];
  for await (const row of iim.audit(chunks(sample("audit.iim"), 11), { now: new Date("2024-03-01T12:00:00Z") })) found.push(row);
  assert.deepEqual(found.map(({ at, length }) => [at, length]), [[0, 136], [136, 246], [382, 114]]);
  assert.ok(found.every(({ dateSent, number }) => dateSent.length === 8 && number.length === 8));
  const refused = async (octets) => { for await (const row of iim.audit(chunks(octets, 50))) assert.ok(row); };
  const broken = new Uint8Array([...sample("stream.iim"), ...sample("damaged/bad_value.iim")]);
  await assert.rejects(refused(broken), (error) => error.nth === 3 && error.octetInInput === 414 && latin(error.datasets.at(-1).data) === "00000001");
  await assert.rejects(refused(sample("stream.iim").subarray(0, 300)), (error) => error instanceof iim.TruncatedError && error.nth === 2 && error.octet === 186);
  await assert.rejects(iim.audit([], { now: NaN }).next(), RangeError);
});

test("packs scripts as the command does", () => {
  for (const name of ["smallest", "story"]) assert.deepEqual(iim.pack(sample(`${name}.script`)), sample(`${name}.iim`));
  assert.deepEqual(iim.pack(sample("story.script"), { subfile: 7 }).length, sample("subfiles.iim").length);
  assert.equal(iim.check(iim.pack(sample("story.script"), { unknown: true, maximum: 10_000n })) > 0, true);
  assert.throws(() => iim.pack("no script\n"), (error) => error instanceof iim.ScriptError && error.line === 1 && error.cause > 0);
  assert.throws(() => iim.pack(sample("story.script"), { maximum: 5 }), RangeError);
  assert.throws(() => iim.pack(sample("story.script"), { subfile: -1 }), RangeError);
});

test("bounds its memory, whatever the length of the input", async () => {
  const octets = sample("stream.iim"), piece = new Uint8Array(octets.length * 4_000);
  for (let at = 0; at < piece.length; at += octets.length) piece.set(octets, at);
  let count = 0;
  for await (const { nth } of iim.read([piece, piece, piece])) count = nth;
  assert.equal(count, 24_000);
  assert.ok(iim.memoryBytes() < 8_000_000, `${iim.memoryBytes()} bytes`);
});

test("explains a refusal", () => {
  const explained = iim.explain(sample("damaged/bad_value.iim"));
  assert.equal(explained.refused.octet, 54);
  assert.ok(explained.refused.fixes.length > 0 && explained.refused.fixes.every(({ single }) => single.values.length));
  for (const { single, accepts_envelope: isWhole } of explained.refused.fixes) {
    const octets = sample("damaged/bad_value.iim").slice();
    octets[single.first] = single.values[0];
    if (isWhole) assert.equal(iim.check(octets), octets.length);
  }
  assert.deepEqual(iim.explain(sample("story.iim")).refused, null);
  assert.equal(iim.dataset(2, 105).name, "Headline");
  assert.equal(iim.dataset(3, 1), null);
});

test("rejects arguments of other types", () => {
  assert.throws(() => new iim.Receiver().feed("text"), TypeError);
  assert.throws(() => new iim.Receiver({ limits: { octets: 1.5, fields: 1 } }), RangeError);
});
