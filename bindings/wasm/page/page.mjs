// The page: passes files to its worker, and shows what the worker returns.
const ITEMS = 1_500, TOGETHER = 64, LISTED_FILES = 500;
const $ = (id) => document.getElementById(id);
const number = (value) => value.toLocaleString("en-US");
const hex = (octet) => octet.toString(16).toUpperCase().padStart(2, "0");
const FIRST = ["Empty file", "Where", "Why", "What to do"];

function make(tag, properties = {}, ...children) {
  const made = document.createElement(tag);
  for (const [name, value] of Object.entries(properties)) {
    if (name in made) made[name] = value;
    else made.setAttribute(name, value);
  }
  made.append(...children);
  return made;
}

// ---- The worker

const source = URL.createObjectURL(new Blob([$("worker").textContent], { type: "text/javascript" }));
const wasm = Uint8Array.from(atob($("wasm").textContent), (each) => each.charCodeAt(0));
const read = new Map();
let worker, waiting = [], count = 0, shown = null;

function start() {
  worker?.terminate();
  worker = new Worker(source);
  worker.onmessage = ({ data }) => (data.kind === "progress" ? progress(data) : waiting.shift()?.(data));
  return ask({ kind: "start", wasm, files: [...read].map(([id, { file }]) => [id, file]) });
}

/** Sends a request to the worker, and returns its reply. */
function ask(request) {
  return new Promise((resolve) => {
    waiting.push(resolve);
    worker.postMessage(request);
  });
}

function progress({ part, count: envelopes }) {
  $("progress").value = part;
  say(`Reading: ${Math.floor(100 * part)} of 100 parts, ${number(envelopes)} envelopes so far.`);
}

function say(text, kind = "") {
  $("status").textContent = text;
  $("status").className = `verdict ${kind}`;
}

/** Runs a task while the progress and the button that cancels it are shown. */
async function busy(task) {
  $("work").hidden = false;
  $("progress").value = 0;
  document.body.dataset.state = "busy";
  const reply = await task();
  $("work").hidden = true;
  document.body.dataset.state = reply?.kind ?? "cancelled";
  if (reply?.kind === "failed") say(reply.text, "bad");
  return reply;
}

async function cancel() {
  const left = waiting;
  waiting = [];
  await start();
  left.forEach((resolve) => resolve({ kind: "cancelled" }));
  say("Cancelled.");
}

// ---- Files

/** Reads files one after another, and shows the first. */
async function readAll(files) {
  let first = null;
  for (const file of files) {
    const id = ++count;
    read.set(id, { file });
    const reply = await busy(() => ask({ kind: "read", id, file }));
    if (reply.kind === "cancelled") return;
    read.set(id, { file, reply });
    first ??= id;
    if (reply.kind === "read") say(reply.verdict, reply.isRefused ? "bad" : "good");
    list();
  }
  if (first !== null && read.get(first).reply.kind === "read") await show(first);
}

function list() {
  $("list").hidden = read.size < 2;
  const rows = [...read].filter(([, each]) => each.reply).slice(-LISTED_FILES).map(([id, { file, reply }]) => {
    const open = make("button", { type: "button", textContent: file.name, onclick: () => show(id) });
    const verdict = reply.kind === "read" ? reply.verdict : reply.text;
    return make("tr", {}, make("th", { scope: "row" }, open), make("td", { textContent: verdict, className: reply.isRefused ? "bad" : "good" }));
  });
  $("rows").replaceChildren(tableOf(["File", "Result"], rows));
}

function tableOf(names, rows) {
  const head = make("tr", {}, ...names.map((name) => make("th", { scope: "col", textContent: name })));
  return make("div", { className: "wide" }, make("table", {}, make("thead", {}, head), make("tbody", {}, ...rows)));
}

/** Shows the explanation of a file. `wanted` is the number of an envelope, or null. */
async function show(id, wanted = null) {
  const reply = await busy(() => ask({ kind: "explain", id, wanted, encoding: $("encoding").value }));
  if (reply.kind !== "explained") return;
  shown = { id, wanted };
  const { explained, around, bytes } = reply, { file } = read.get(id);
  say(`${file.name}: ${explained.verdict}`, explained.refused ? "bad" : "good");
  document.title = `${file.name}: iim`;
  const of = (isFirst) => explained.sections.filter((each) => FIRST.includes(each.title) === isFirst).map(card);
  const parts = [of(true), around ? bytesAround(around) : null, envelopes(id, explained), of(false)];
  const laidOut = (cards) => (Array.isArray(cards) ? (cards.length ? make("section", { className: "told" }, ...cards) : "") : cards ?? "");
  $("result").replaceChildren(make("h2", { textContent: file.name, className: "vh" }), ...parts.map(laidOut), buttons(id), ...explained.shown.map((each, nth) => article(each, bytes[nth], explained)));
  document.body.dataset.shown = `${id} ${wanted ?? ""}`;
}

function card({ title, lines }) {
  const isItem = (line) => /^\d+\. /.test(line), items = lines.filter(isItem).map((line) => make("li", { textContent: line.replace(/^\d+\. /, "") }));
  const texts = lines.filter((line) => !isItem(line)).map((line) => make("p", { textContent: line, className: line.startsWith("Ask ") ? "ask" : "" }));
  const at = texts.length && lines[0].startsWith("First:") ? 1 : 0;
  return make("div", {}, make("h2", { textContent: title }), ...texts.slice(0, at), ...(items.length ? [make("ol", { className: "fixes" }, ...items)] : []), ...texts.slice(at));
}

function bytesAround({ mark, rows, ends }) {
  const pre = make("pre", { className: "around" });
  for (const { row, octets, text } of rows) {
    pre.append(make("b", { textContent: row.toString(16).toUpperCase().padStart(8, "0") }));
    octets.forEach((octet, nth) => pre.append(" ", row + nth === mark ? make("mark", { textContent: hex(octet) }) : hex(octet)));
    pre.append(`${"   ".repeat(16 - octets.length)}  ${text}\n`);
  }
  if (ends) pre.append("(the file ends here)");
  return make("section", {}, make("h2", { textContent: "Bytes around the error" }), pre);
}

function envelopes(id, { envelopes: listed, envelopes_left_out: left }) {
  if (listed.length < 2) return null;
  const rows = listed.map((each, nth) => {
    const open = make("button", { type: "button", textContent: number(each.envelope), onclick: () => show(id, each.envelope) });
    open.setAttribute("aria-label", `Show envelope ${each.envelope}`);
    const gap = nth && listed[nth - 1].envelope + 1 < each.envelope ? `${number(left)} envelopes before this one are not listed. ` : "";
    const cells = [number(each.at), number(each.octets), each.id.map((part) => part ?? "?").join(" "), gap + (each.is_refused ? "refused" : "accepted")];
    return make("tr", {}, make("th", { scope: "row" }, open), ...cells.map((text) => make("td", { textContent: text })));
  });
  return make("section", {}, make("h2", { textContent: "Envelopes" }), tableOf(["Envelope", "At octet", "Octets", "Identifier", "Result"], rows));
}

function buttons(id) {
  const save = async (kind) => {
    const reply = await busy(() => ask({ kind, id, encoding: $("encoding").value }));
    if (reply.kind !== "made") return;
    const url = URL.createObjectURL(reply.blob);
    make("a", { href: url, download: reply.name }).click();
    setTimeout(() => URL.revokeObjectURL(url), 60_000);
    say(`${reply.name}: ${number(reply.blob.size)} octets.`);
  };
  const button = (text, kind) => make("button", { type: "button", textContent: text, onclick: () => save(kind) });
  return make("div", { className: "buttons" }, button("Save the audit as CSV", "csv"), button("Save the envelopes as JSON", "json"), make("button", { type: "button", textContent: "Print", onclick: () => print() }));
}

// ---- An envelope

function article(each, bytes, { refused }) {
  const title = `Envelope ${number(each.envelope)}, at octet ${number(each.at)}${refused?.envelope === each.envelope ? ", refused" : ""}`;
  const items = each.items.length > 2 * ITEMS ? [...each.items.slice(0, ITEMS), ...each.items.slice(-ITEMS)] : each.items, parts = [];
  for (let from = 0; from < items.length; from += TOGETHER) parts.push(part(items.slice(from, from + TOGETHER), bytes, each, refused));
  const notes = [`Text is shown in ${each.encoding.name}, ${each.encoding.source === "given" ? "as chosen above" : each.encoding.source === "declared" ? "as 1:90 declares it" : "a guess, since 1:90 does not declare it"}.`, ...each.notes];
  const lines = each.items.filter((item) => item.kind === "line").map((item) => item.text);
  const story = lines.length ? [make("h3", { textContent: "Story" }), make("pre", { className: "story", tabIndex: 0, role: "region", ariaLabel: "Story", textContent: lines.join("\n") })] : [];
  return make("article", {}, make("h2", { textContent: title }), ...parts, ...story, make("div", { className: "notes" }, ...notes.map((note) => make("p", { textContent: note }))));
}

/** Returns the bytes of some items, and beside them what they are. */
function part(items, { first, from, last }, { at: base }, refused) {
  const pre = make("pre", { ariaLabel: "Bytes" }), list = make("ol", {});
  const byteAt = (at) => (at < first.length ? first[at] : at >= from ? last[at - from] : undefined);
  const begin = items[0].at, end = Math.max(...items.map((item) => item.at + item.octets)), owner = new Map();
  items.forEach((item, nth) => { for (let at = item.at; at < Math.min(item.at + item.octets, item.at + 4_096); at++) owner.set(at, nth); });
  for (let row = begin - ((base + begin) % 16); row < Math.min(end, begin + 8_192); row += 16) pre.append(rowOf(row, begin, end, base, owner, byteAt, refused));
  items.forEach((item, nth) => list.append(itemOf(item, nth)));
  const made = make("div", { className: "part" }, pre, list);
  const light = (event, isOn) => { const key = event.target.closest("li")?.dataset.key; if (key) pre.querySelectorAll(`[data-key="${key}"]`).forEach((cell) => cell.classList.toggle("lit", isOn)); };
  for (const [name, isOn] of [["mouseover", true], ["mouseout", false], ["focusin", true], ["focusout", false]]) list.addEventListener(name, (event) => light(event, isOn));
  return made;
}

function rowOf(row, begin, end, base, owner, byteAt, refused) {
  const made = make("i", {}, make("b", { textContent: Math.max(0, base + row).toString(16).toUpperCase().padStart(8, "0") }));
  const mark = refused && refused.at === base && !refused.ends_early ? refused.octet : -1;
  let text = "", run = null;
  for (let at = row; at < row + 16; at++) {
    const octet = at >= begin && at < end ? byteAt(at) : undefined, key = owner.get(at);
    text += octet === undefined ? " " : octet >= 32 && octet < 127 ? String.fromCharCode(octet) : ".";
    const cell = octet === undefined ? "  " : hex(octet);
    if (at === mark && octet !== undefined) { made.append(" ", make("mark", { textContent: cell })); run = null; continue; }
    if (!run || run.dataset.key !== String(key)) { run = make("span"); run.dataset.key = key; made.append(run); }
    run.append(` ${cell}`);
  }
  made.append(`  ${text}`);
  return made;
}

function itemOf(item, nth) {
  const size = item.count === undefined || item.count === null ? "" : `, ${number(item.count)} octets`, value = item.text ?? item.value;
  const made = make("li", { className: item.kind === "dataset" ? "" : "inner", tabIndex: 0 }, make("small", { textContent: number(item.at) }), make("span", { textContent: item.label + size }), make("bdi", { textContent: value.length > 256 ? `${value.slice(0, 256)}...` : value }));
  made.dataset.key = nth;
  if (item.is_refused) made.append(make("strong", { className: "here", textContent: "here" }));
  return made;
}

// ---- What the reader does

/** Returns the files of what was dropped, those in folders included. */
async function dropped({ items, files }) {
  const entries = [...items].map((item) => item.webkitGetAsEntry?.()).filter(Boolean), found = [];
  if (!entries.some((entry) => entry.isDirectory)) return [...files];
  while (entries.length) {
    const entry = entries.shift();
    if (entry.isFile) found.push(await new Promise((resolve, reject) => entry.file(resolve, reject)));
    else {
      const reader = entry.createReader();
      for (let batch; (batch = await new Promise((resolve, reject) => reader.readEntries(resolve, reject))).length; ) entries.push(...batch);
    }
  }
  return found;
}

function pasted() {
  const digits = $("hex").value.replace(/0x|[\s,:]/gi, "");
  if (!/^([0-9a-f]{2})+$/i.test(digits)) return say("That is not hexadecimal: each byte must have two digits.", "bad");
  const octets = Uint8Array.from(digits.match(/../g), (pair) => parseInt(pair, 16));
  return readAll([new File([octets], "pasted bytes")]);
}

for (const id of ["files", "folder"]) $(id).onchange = ({ target }) => { readAll([...target.files]); };
$("paste").onclick = pasted;
$("cancel").onclick = cancel;
$("encoding").onchange = () => shown && show(shown.id, shown.wanted);
addEventListener("dragover", (event) => { event.preventDefault(); document.body.classList.add("over"); });
addEventListener("dragleave", () => document.body.classList.remove("over"));
addEventListener("drop", async (event) => {
  event.preventDefault();
  document.body.classList.remove("over");
  readAll(await dropped(event.dataTransfer));
});
start().then(({ kind, encodings, text }) => {
  document.body.dataset.state = kind;
  if (kind !== "ready") return say(text, "bad");
  $("encoding").append(...encodings.map((name) => make("option", { value: name, textContent: name })));
});
