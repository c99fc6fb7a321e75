"use strict";
// node view/test_records.js PROGRAM CHART RECORD..: what the reader and the words say of lawful
// records, against the proved programs. Expected values come from them, and none from the page.
const fs = require("fs"), path = require("path");
const { execFileSync } = require("child_process");
const { Trace, K, countUpTo, littleBytes } = require("./reader.js");
const { describe } = require("./words.js");

const [program, chart, ...files] = process.argv.slice(2);
const run = (name, words, input) => execFileSync(name, words, { input, maxBuffer: 1 << 30, stdio: ["pipe", "pipe", "inherit"] });
const counts = { words: 0, reads: 0, frames: 0, rings: 0 };
const faults = [];
const check = (what, isSo) => isSo || faults.push(what);

/** The words of each line are those of `ivshm_chart --text`, but for rows of several lines. */
function words(t, name) {
  for (let from = 1; from <= t.count;) {
    const page = run(chart, ["--text", from, t.count], t.bytes).toString(), left = /^([\d,]+) more lines/m.exec(page);
    from = 1 + t.count - (left ? left[1].replace(/,/g, "") : 0);
    for (const row of page.split("\n")) {
      const found = /^[> ] *(\d+) {2}(.*)$/.exec(row);
      if (!found) continue;
      const i = found[1] - 1, peer = Math.min(t.owner[i], 7), own = found[2].slice(42 * peer).replace(/^./, "").trim();
      const text = own.replace(/ +\|.*$/, "").replace(/ (->|<-) \d+$/, "");
      if (/^(idle, .* turns|.* words cleared|storm, .*)$/.test(text)) continue;
      // the words of the data area of version 3 are another matter (see wordName)
      if (t.version === 3 && /^(frame|data)/.test(text)) continue;
      counts.words++;
      check(`${name}, line ${i + 1}: ${describe(t, i).text}, where the chart has ${text}`, describe(t, i).text === text);
    }
  }
}

/** Each read has the value of the write that the page names as its source. */
function reads(t, name) {
  for (let i = 0; i < t.count; i++) {
    if (t.kinds[i] !== K.r) continue;
    counts.reads++;
    check(`${name}, line ${i + 1}: another value than its source`, t.value(t.wordOf[i], i) === t.values[i]);
  }
}

/** The frames that P delivered are those of `capture P`, and those that they are joined with. */
function frames(t, name) {
  for (const p of [0, 1]) {
    const file = run(program, ["capture", p], t.bytes), packets = [];
    for (let at = 24; at < file.length; at += 16 + file.readUInt32LE(at + 8)) {
      packets.push([file.readUInt32LE(at) * 1e6 + file.readUInt32LE(at + 4) - 1, file.subarray(at + 16, at + 16 + file.readUInt32LE(at + 8)).toString("hex")]);
    }
    const mine = t.frames.filter(frame => frame.sender === 1 - p && frame.deliver >= 0).sort((a, b) => a.deliver - b.deliver);
    check(`${name}: ${mine.length} frames of peer ${p}, captured ${packets.length}`, mine.length === packets.length);
    mine.forEach(({ deliver, accept }, k) => {
      counts.frames++;
      const hex = t.fields(deliver)[2];
      check(`${name}, line ${deliver + 1}: not the packet of capture`, packets[k]?.[0] === deliver && packets[k][1] === hex);
      check(`${name}, line ${deliver + 1}: joined with no such frame`, t.honest[1 - p] ? accept >= 0 && accept < deliver && t.fields(accept)[2] === hex : accept < 0);
    });
  }
}

/** States and rings after the last line are those of `ivshm dump` for that region. */
function rings(t, name) {
  const end = t.count - 1, image = Buffer.alloc(32 + 4 * t.words);
  image.write("IVSHMIMG");
  [t.peers, t.tableBytes, t.commonBytes, 0, t.outBytes, 0].forEach((value, k) => image.writeUInt32LE(value, 8 + 4 * k));
  for (let word = 0; word < t.words; word++) image.write(littleBytes(t.value(word, end)), 32 + 4 * word, "hex");
  const due = run(program, ["dump"], image).toString().split("\n").filter(line => /^(state|section|frame|bad)/.test(line));
  const mine = t.honest.map((_, p) => `state ${p} ${t.state(p, end).value}`);
  for (const p of [0, 1]) {
    const { index, used, inFlight, frames: inRing } = t.rings(p, end);
    mine.push(`section ${p} ${index} ${used}`);
    if (inFlight > t.layout.size) mine.push(`bad ${index} AvailIndex ${index}`);
    for (const one of inRing) mine.push(`frame ${one.position} ${one.entry} ${one.address} ${one.length} ${one.hex}`);
  }
  // the page has the values of a descriptor that a poll refuses, and no word for what is wrong
  for (const [k, line] of due.entries()) {
    counts.rings++;
    const [is, position, , value] = line.split(" "), shown = (mine[k] ?? "").split(" ");
    check(`${name}: ${mine[k]}, where dump has ${line}`, mine[k] === line || (is === "bad" && shown[1] === position && (shown.includes(value) || line.includes("Flags"))));
  }
}

for (const file of files) {
  const t = new Trace(fs.readFileSync(file)), name = path.basename(file);
  check(`${name}: ${t.faults}`, t.faults.length === 0);
  if (!t.running) reads(t, name);
  if (t.running || t.ports) continue;
  words(t, name);
  frames(t, name);
  rings(t, name);
  check(`${name}: the acts end at line ${t.actsUpTo}`, t.actsUpTo === t.count && countUpTo(t.actLine, t.count - 1) > 0);
}
console.log(...faults.slice(0, 20).map(fault => `view: ${fault}\n`));
console.log(`view: of ${files.length} records ${Object.entries(counts).map(([name, n]) => `${n} ${name}`).join(", ")} compared, ${faults.length} faults`);
process.exit(faults.length || !files.length ? 1 : 0);
