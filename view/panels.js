"use strict";
// The panels next to the list: what a record says at the selected line.

const link = (onclick, text, title = "") => el("button", { className: "link", onclick, title }, text);
const goTo = line => (line >= 0 ? link(() => select(line), line + 1) : "not in the record");
const toWord = (word, text) => link(() => showWord(word), text, sourceText(word));
const say = (...parts) => el("p", {}, ...parts);
const heading = text => el("h2", {}, text);

/** A table of rows of cells. A row may have a class, as `is`. */
function table(rows) {
  const row = cells => el("tr", { className: cells.is ?? "" }, ...cells.map(cell => el("td", {}, cell)));
  return el("table", {}, ...rows.map(row));
}
const marked = (cells, is) => Object.assign(cells, { is });

/** The name of a word, and the peer and line of its last write. */
function sourceText(word) {
  const from = ui.t.source(word, ui.pick);
  return `${wordFor(ui.t, NONE, word)}: ${from < 0 ? "never written" : `peer ${ui.t.owner[from]}, line ${from + 1}`}`;
}

function showWord(word) {
  ui.word = word;
  if (ui.tab !== "bytes") ui.tab = "word";
  drawSide();
}

/** The line's place: in the file, in its act, in its call; the source of what it read. */
function aboutParts(t, i) {
  const call = t.call(i), act = t.actOf(i), word = t.wordOf[i];
  const parts = [say(`Line ${i + 1} of the history, ${i + 1 + t.linesBefore} of the file.`)];
  if (act) parts.push(say("In the act ", el("code", {}, act.text.slice(0, 60)), `, line ${act.fileLine} of the file.`));
  if (call) {
    const queued = call.act >= 0 ? `, queued by line ${t.act(call.act).fileLine} of the file` : "";
    const cut = call.isWhole ? "" : ", cut";
    parts.push(say(`In a call ${call.name} of peer ${call.peer}, from `, goTo(call.first), " to ", goTo(call.last), `${cut}${queued}.`));
  }
  if (t.kinds[i] === K.r && word >= 0 && !t.running) {
    const from = t.writes.last(word, i);
    if (from < 0) parts.push(say("No line before writes this word."));
    else parts.push(say(`Peer ${t.owner[from]} wrote this word at `, goTo(from), `: ${wordName(t, word).show(t.values[from])}.`));
  }
  if (t.running) parts.push(say(`A running record has no common order. This is the part of peer ${t.partOf(i).peer}.`));
  if (ui.differs !== NONE && i === Math.min(ui.differs, t.count - 1)) parts.push(...answerParts(ui.answer));
  return parts;
}

/** An answer of `ivshm replay`, with the lines found and due if tools/difference wrote it. */
function answerParts(answer) {
  const [first, law = "", head = "", ...lines] = answer.split("\n"), found = head.indexOf("found"), due = head.indexOf("due");
  const cells = line => marked([line.slice(1, found), line.slice(found, due), line.slice(due)], line[0] === ">" ? "differs" : "");
  const rows = lines.filter(line => /^[> ] *\d/.test(line)).map(cells);
  return [
    say(el("b", { className: "bad" }, "ivshm replay: "), el("code", {}, first), law.replace(/.*`:/, ":")),
    ...(rows.length ? [table([["line", "found", "due"], ...rows])] : []),
  ];
}

function ringParts(t, i, p) {
  const L = t.layout, { index, used, inFlight, event, own, back, frames } = t.rings(p, i);
  const rows = frames.slice(0, 48).map(one => {
    const cells = [one.position, toWord(one.word, one.entry)], d = one.descriptor;
    if (d < 0) return [...cells, "no such descriptor"];
    return [...cells, toWord(d, one.address), toWord(d + 2, one.length), toWord(d + 3, one.flags), el("code", {}, one.hex.slice(0, 24))];
  });
  const words = [toWord(own + L.avail, `available index ${index}`), ", ", toWord(back + L.used, `used index ${used}`)];
  if (t.version > 1) words.push(", ", toWord(back + L.availEvent, `available event ${event}`));
  const parts = [heading(`Frames of peer ${p} to peer ${1 - p}`), say(...words, `, ${inFlight} in flight`)];
  if (inFlight > L.size) parts.push(say(`More than the queue's ${L.size}: the entries are not shown.`));
  if (rows.length) parts.push(table([["position", "entry", "address", "length", "flags", "bytes"], ...rows]));
  if (frames.length > 48) parts.push(say(`and ${frames.length - 48} more`));
  return parts;
}

function ringsPanel(t, i) {
  const states = t.honest.map((_, p) => {
    const state = t.state(p, i), mark = state && el("b", { className: `state ${stateClass(state.value)}` }, stateName(state.value));
    return [`peer ${p}`, ...(state ? [mark, state.line < 0 ? "" : goTo(state.line)] : ["not in this part"])];
  });
  return [heading("States"), table(states), ...(t.layout ? [0, 1] : []).flatMap(p => ringParts(t, i, p))];
}

function bytesPanel(t, i) {
  const since = t.call(i)?.first ?? i, L = t.layout, { section } = t.place(Math.max(0, ui.word)), from = ui.bytesFrom & ~3, text = [];
  const jump = ([name, word]) => el("button", { onclick: () => showWord((ui.bytesFrom = word)) }, name);
  const fields = L && section >= 0 ? [["descriptors", 0], ["available", L.avail], ["used", L.used], ["data", L.data]] : [];
  for (let w = from; w < from + 144 && w < t.words; w++) {
    const at = t.source(w, i), value = at < 0 ? 0 : t.values[at], bytes = littleBytes(value).replace(/..(?!$)/g, "$& ");
    const one = toWord(w, bytes);
    one.classList.add(at === i && at >= 0 ? "now" : at >= since ? "call" : value ? "set" : "zero");
    if (w === ui.word) one.classList.add("word");
    text.push(w % 4 ? "  " : `${w === from ? "" : "\n"}${String(w).padStart(8)}  `, one);
  }
  const key = ["now", "call"].map((is, k) => el("span", { className: is }, ["at this line", "in this call"][k]));
  return [
    say(...[["States", 0], ...t.honest.map((_, p) => [`section ${p}`, t.base(p)])].map(jump)),
    say(...fields.map(([name, at]) => jump([name, t.base(section) + at]))),
    el("p", { className: "bytes" }, "word, then its bytes in the order of memory: ", key[0], " ", key[1]),
    el("pre", { className: "bytes" }, ...text),
  ];
}

function wordPanel(t, i) {
  const word = ui.word, around = (lines, line) => lines.slice(Math.max(0, countUpTo(lines, line) - 14), countUpTo(lines, line) + 14);
  if (word < 0) return [say("Select a line that reads or writes a word.")];
  const { name, section, show } = wordName(t, word), value = t.value(word, i), from = t.source(word, i);
  const writes = t.writes.of(word), reads = t.reads.of(word);
  const lines = around([...around(writes, i), ...around(reads, i)].sort((a, b) => a - b), i);
  const does = line => (t.kinds[line] === K.r ? "reads" : t.kinds[line] === K.x ? "is reset" : "writes");
  const rows = lines.map(line => marked([goTo(line), `peer ${t.owner[line]}`, does(line), show(t.values[line])], line === i ? "pick" : ""));
  const inSection = section >= 0 ? `, ${t.place(word).at} of the section` : "";
  return [
    heading(section >= 0 ? `${name} of section ${section}` : name),
    say(`Word ${word} of the region${inSection}: ${counted(writes.length, "write")}, ${counted(reads.length, "read")}.`),
    say("Here: ", el("b", {}, show(value)), ` (${value}, ${value.toString(16).padStart(8, "0")}h), from `, goTo(from)),
    table(rows),
  ];
}

/** Lines of 16 bytes, in hexadecimal and as characters. */
const hexRows = hex => (hex.match(/.{1,32}/g) ?? []).map((row, k) => {
  const codes = row.match(/../g).map(byte => parseInt(byte, 16)), place = (16 * k).toString(16).padStart(4, "0");
  const characters = codes.map(c => (c > 31 && c < 127 ? String.fromCharCode(c) : ".")).join("");
  return `${place} ${row.replace(/../g, " $&").padEnd(48)}  ${characters}`;
});

function framePanel(t, i) {
  const before = Math.max(...[t.accepted, t.delivered].map(lines => lines[countUpTo(lines, i) - 1] ?? NONE));
  const f = (ui.frame ??= t.frameAt.get(before) ?? null);
  if (!f) return [say("No frame up to this line.")];
  const offer = t.call(f.accept), poll = t.call(f.deliver), k = t.frames.indexOf(f), hex = t.fields(f.accept >= 0 ? f.accept : f.deliver)[2] ?? "";
  let look = f.deliver;
  while (look >= 0 && !(t.call(look) === poll && t.kinds[look] === K.look)) look = look > poll?.first ? look - 1 : NONE;
  const show = (one, text) => el("button", { disabled: !one, onclick: () => select(one.accept >= 0 ? one.accept : one.deliver) }, text);
  const life = { "offer begins": offer?.first ?? NONE, "index written": t.kinds[f.accept - 1] === K.w ? f.accept - 1 : NONE, accepted: f.accept,
    "poll looks": look, delivered: f.deliver, returned: f.back, reclaimed: f.reclaim };
  return [
    heading(`Frame ${f.number} of session ${f.session}, peer ${f.sender} to peer ${1 - f.sender}, ${counted(hex.length / 2, "byte")}`),
    say(show(t.frames[k - 1], "frame before"), " ", show(t.frames[k + 1], "next frame")),
    table(Object.entries(life).map(([name, line]) => [name, goTo(line)])),
    heading("Fields"), table(frameFields(hex)), heading("Bytes"), el("pre", {}, hexRows(hex).slice(0, 100).join("\n")),
  ];
}

const PANELS = { rings: ringsPanel, bytes: bytesPanel, word: wordPanel, frame: framePanel };
function drawSide() {
  $("raw").textContent = ui.t.line(ui.pick).slice(0, 400);
  $("about").replaceChildren(...aboutParts(ui.t, ui.pick));
  for (const tab of Object.keys(PANELS)) $(tab).setAttribute("aria-selected", tab === ui.tab);
  $("panel").replaceChildren(...PANELS[ui.tab](ui.t, ui.pick));
}
