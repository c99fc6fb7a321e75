"use strict";
// Reads a record into arrays with an entry for each history line, and finds its calls, acts, frames
// and words (docs/FORMATS.md). This part needs no page: node runs it too. It judges nothing.

const KINDS = [
  "bad", "r", "w", "denied", "s", "d", "i", "lost", "x", "idle", "cr", "cw", "mr", "mw", "tr", "tw",
  "saw", "reclaim", "look", "full", "done", "over", "down", "accept", "deliver", "return", "refuse",
  "session", "publish", "none", "got", "again", "peer", "turns", "finished", "spent",
];
const K = Object.fromEntries(KINDS.map((word, i) => [word, i]));
const NONE = -1;
const NO_PEER = 255;
const LONGEST = 1 << 28; // bytes of a record, for which the arrays take about 1.5 GB

/** A table by kind: 1 for these kinds. */
const kindSet = text => {
  const set = new Uint8Array(KINDS.length);
  for (const word of text.split(" ")) set[K[word]] = 1;
  return set;
};
const ONE_VALUE = kindSet("s saw look reclaim publish d i lost");
const INTERRUPTS = kindSet("i lost");
const MARKS = kindSet("saw reclaim look full done over accept deliver return refuse session publish none got again");
const ENDS = kindSet("full done over down publish none got again");
const WORK = kindSet("s accept deliver refuse session publish got again");
const TROUBLE = kindSet("x refuse denied lost bad");
const OF_FRAMES = kindSet("s x refuse denied lost bad accept publish deliver got session return reclaim");
const QUEUED = new Set(["tick", "offer", "poll", "stop", "publish", "sample"]), NO_STEP = new Set(["auto", "storm", "lose"]);

const hash = word => [...word].reduce((h, c) => (h * 33 + c.charCodeAt(0)) | 0, 0);
const HASHES = KINDS.map(hash), KIND_AT = new Uint8Array(256); // no two words have the same low byte
HASHES.forEach((h, kind) => (KIND_AT[h & 255] = kind));
const latin = new TextDecoder("latin1");
const up64 = x => Math.ceil(x / 64) * 64;

/** The number of entries of an ascending list that are at most `line`. */
function countUpTo(list, line, from = 0, to = list.length) {
  while (from < to) {
    const mid = (from + to) >>> 1;
    if (list[mid] <= line) from = mid + 1;
    else to = mid;
  }
  return from;
}

/** The lines of some kinds by word, ascending. */
class WordIndex {
  constructor(t, wanted) {
    this.start = new Int32Array(t.words + 1);
    const isOne = i => t.wordOf[i] >= 0 && wanted[t.kinds[i]];
    for (let i = 0; i < t.count; i++) if (isOne(i)) this.start[t.wordOf[i] + 1]++;
    for (let w = 0; w < t.words; w++) this.start[w + 1] += this.start[w];
    const next = this.start.slice(0, t.words);
    this.lines = new Int32Array(this.start[t.words]);
    for (let i = 0; i < t.count; i++) if (isOne(i)) this.lines[next[t.wordOf[i]]++] = i;
  }
  of(word) {
    return this.lines.subarray(this.start[word], this.start[word + 1]);
  }
  /** The last of the word's lines up to `line`, or NONE. */
  last(word, line) {
    const at = countUpTo(this.lines, line, this.start[word], this.start[word + 1]);
    return at > this.start[word] ? this.lines[at - 1] : NONE;
  }
}

/** The fields of a section (docs/LAYOUT.md), in words from its start, or in bytes if named so. */
function layoutOf(out, mtu, version) {
  let size = 0;
  for (let n = 64; n <= 4096; n *= 2) if (up64(up64(18 * n + 6) + 6 + 8 * n) * 8 < out) size = n;
  if (!size) return null;
  const usedBytes = up64(18 * size + 6), dataBytes = up64(usedBytes + 6 + 8 * size), slot = up64(18 + mtu);
  return {
    size, avail: 4 * size, entries: 4 * size + 1, usedEvent: 4 * size + 1 + size / 2,
    used: usedBytes / 4, elements: usedBytes / 4 + 1, availEvent: usedBytes / 4 + 1 + 2 * size,
    data: dataBytes / 4, dataBytes, slot,
    slots: version < 3 ? Math.min(size, Math.floor((out - dataBytes) / slot)) : 0,
  };
}

const littleBytes = v => [v, v >>> 8, v >>> 16, v >>> 24].map(b => (b & 255).toString(16).padStart(2, "0")).join("");

class Trace {
  /** Reads a whole record. Throws an Error with a sentence if the text is none. */
  constructor(bytes) {
    this.bytes = bytes;
    this.faults = [];
    if (bytes.length > LONGEST) throw new Error(`The record has more than ${LONGEST} bytes: cut it, or use ivshm_chart.`);
    this.readHead();
    this.readLines();
    this.writes = new WordIndex(this, kindSet("w s x"));
    this.reads = new WordIndex(this, kindSet("r"));
    this.findCalls();
    this.findFrames();
  }

  text(from, to) {
    return latin.decode(this.bytes.subarray(from, to));
  }
  line(i) {
    return this.text(this.starts[i], this.starts[i + 1] - 1);
  }
  fields(i) {
    return this.line(i).split(" ");
  }

  /** The line of text at a byte, without its newline. */
  textAt(at) {
    const end = this.bytes.indexOf(10, at);
    if (end < 0) throw new Error("The record ends inside its scenario.");
    return this.text(at, end);
  }

  readHead() {
    let at = 0;
    this.linesBefore = 0;
    const next = () => {
      const line = this.textAt(at);
      at += line.length + 1;
      this.linesBefore++;
      return line;
    };
    const first = this.bytes.indexOf(10) < 0 ? "" : next();
    if (!["record 1", "record 2", "run 1", "run 2", "portrecord 1"].includes(first)) {
      throw new Error("This is no record: its first line is none of `record 1`, `record 2`, `run 1`, `run 2`, `portrecord 1`.");
    }
    const head = { table: 4096, common: 0 }, kinds = {};
    for (let line = next(); line !== "begin"; line = next()) {
      const [key, value, kind] = line.split(" ");
      if (key === "peer") kinds[value] = kind;
      else head[key] = parseInt(value, 10) || 0;
    }
    const { peers, table, common, out } = head, words = (table + common + peers * out) / 4;
    if (!(peers >= 2 && peers <= 8 && words <= 1 << 22 && [table, common, out].every(size => size >= 0 && size % 4096 === 0))) {
      throw new Error("The head of the scenario gives no region of 2 to 8 peers.");
    }
    Object.assign(this, { first, running: first.startsWith("run"), ports: first.startsWith("port") });
    Object.assign(this, { peers, words, mtu: head.mtu, version: head.ivshm, message: head.message });
    Object.assign(this, { tableBytes: table, commonBytes: common, outBytes: out });
    this.honest = Array.from({ length: peers }, (_, p) => kinds[p] === "honest");
    this.layout = this.ports ? null : layoutOf(out, head.mtu, head.ivshm);
    this.actAt = [at];
    while (next() !== "end") this.actAt.push(at);
    this.actAt.pop();
    this.historyAt = at;
    this.actsFrom = this.linesBefore - this.actAt.length;
  }

  readLines() {
    const { bytes } = this, total = bytes.length;
    let at = this.historyAt, i = 0, end = NONE, room = 1;
    for (let k = at; k < total; k++) if (bytes[k] === 10) room++;
    const starts = new Uint32Array(room), kinds = (this.kinds = new Uint8Array(room)), owner = (this.owner = new Uint8Array(room));
    const wordOf = (this.wordOf = new Int32Array(room).fill(NONE)), values = (this.values = new Uint32Array(room));
    const number = () => {
      let n = 0;
      for (let c = bytes[++at]; c > 32; c = bytes[++at]) n = n * 10 + c - 48;
      return n;
    };
    this.parts = [];
    for (let part = NO_PEER; i < room - 1; i++) {
      starts[i] = at;
      let h = 0, c, peer = part, word = NONE;
      for (; (c = bytes[at]) > 32; at++) h = (h * 33 + c) | 0;
      const kind = HASHES[KIND_AT[h & 255]] === h ? KIND_AT[h & 255] : K.bad;
      if (!kind && this.text(starts[i], at + 1) === "end ") {
        end = number();
        break;
      }
      if (c === 32 && kind && kind !== K.turns) {
        peer = Math.min(number(), NO_PEER);
        if (kind === K.peer) this.parts.push({ line: i, peer: (part = peer) });
        if (kind === K.r || kind === K.w || kind === K.denied) word = number();
        if (kind === K.r || kind === K.w || ONE_VALUE[kind]) values[i] = number();
        if (kind === K.s || kind === K.x) word = peer;
      }
      if (bytes[at] !== 10) at = bytes.indexOf(10, at);
      at++;
      kinds[i] = kind && (peer < this.peers || this.running) ? kind : K.bad;
      owner[i] = peer < this.peers ? peer : NO_PEER;
      if (word < this.words) wordOf[i] = word;
    }
    if (end === NONE) starts[i] = at;
    this.count = i;
    this.starts = starts.subarray(0, i + 1);
    if (end === NONE) this.faults.push("The record has no line `end COUNT`.");
    else if (end !== i) this.faults.push(`The record says ${end} lines and has ${i}.`);
    const bad = kinds.subarray(0, i).indexOf(K.bad);
    if (bad >= 0) this.faults.push(`Line ${bad + 1} has no form.`);
  }

  base(peer) {
    return (this.tableBytes + this.commonBytes + peer * this.outBytes) / 4;
  }

  /** The place of a word: its part of the region, the section's peer or NONE, its number there. */
  place(word) {
    const table = this.tableBytes / 4, first = this.base(0);
    if (word < table) return { part: "table", section: NONE, at: word };
    if (word < first) return { part: "common", section: NONE, at: word - table };
    const section = Math.floor((word - first) * 4 / this.outBytes);
    return { part: "section", section, at: word - this.base(section) };
  }

  /**
   * Walks the acts and the steps of the history together. Finds the first line of each act, and the
   * calls, with the call of each line. If the lines don't follow the acts, as in a record that is
   * not lawful, the rest has calls by guess and no acts. A running record has no acts either.
   */
  findCalls() {
    const { kinds, owner, count } = this, open = [], queued = this.honest.map(() => []);
    let at = 0, isLost = this.running;
    this.calls = [];
    this.callOf = new Int32Array(count).fill(NONE);
    this.callsOf = this.honest.map(() => []);
    this.actLine = [];
    const put = (call, i) => {
      this.callOf[i] = call.id;
      call.last = i;
      call.size++;
      if (WORK[kinds[i]]) call.isQuiet = false;
    };
    const begin = p => {
      const act = queued[p]?.shift() ?? NONE;
      open[p] = { id: this.calls.length, peer: p, first: at, last: at, size: 0, name: this.callName(at, act), act, isQuiet: true };
      this.calls.push(open[p]);
      this.callsOf[p].push(open[p]);
    };
    /** Takes the lines of one step: its access, the interrupts after it, its marks. */
    const step = isCall => {
      const p = owner[at], isIdle = kinds[at] === K.idle;
      if (isCall && !isIdle && !open[p]) begin(p);
      const call = isCall && !isIdle ? open[p] : null;
      if (call) put(call, at);
      if (kinds[at] === K.x && queued[p]) queued[p] = [];
      if (kinds[at] === K.x || kinds[at] === K.down) open[p] = null;
      let most = kinds[at] === K.d ? 1 : kinds[at] === K.s || kinds[at] === K.x ? this.peers - 1 : 0;
      for (at++; at < count && INTERRUPTS[kinds[at]] && most > 0; most--) at++;
      for (; at < count && MARKS[kinds[at]] && owner[at] === p; at++) {
        if (call) put(call, at);
        if (ENDS[kinds[at]] || this.ports) open[p] = null;
      }
    };
    for (let a = 0; a < this.actAt.length && !isLost; a++) {
      const [word, peer, steps] = this.textAt(this.actAt[a]).split(" ");
      this.actLine.push(at);
      if (word === "auto") delete queued[peer]; // its offers are a list, and it chooses its calls
      if (QUEUED.has(word)) queued[peer]?.push(a);
      if (QUEUED.has(word) || NO_STEP.has(word)) continue;
      if (word === "again" && kinds[at] !== K.i) {
        // the step before took its line, as it may take up to one of each other peer
        for (let b = a; b > a - this.peers && this.textAt(this.actAt[b] ?? 0).startsWith("again"); b--) this.actLine[b]--;
        continue;
      }
      const isCall = word === "turn" && this.isLink(+peer);
      for (let k = word === "turn" ? +steps : 1; k > 0 && at < count && !isLost; k--) {
        isLost = owner[at] !== +peer;
        if (!isLost) step(isCall);
      }
    }
    this.actsUpTo = at;
    while (at < count) {
      if (INTERRUPTS[kinds[at]] || kinds[at] >= K.peer) at++;
      else step(this.isLink(owner[at]) && kinds[at] !== K.x);
    }
    for (const call of this.calls) {
      call.isWhole = this.ports || ENDS[kinds[call.last]] === 1;
      call.isQuiet &&= call.isWhole;
    }
    this.firsts = this.callsOf.map(calls => calls.map(call => call.first));
  }

  /** Whether the peer makes calls. */
  isLink(peer) {
    return this.honest[peer] === true && (this.ports || peer < 2);
  }

  /** The name of a call, by its act or else by its first line. */
  callName(i, act) {
    if (act !== NONE) return this.textAt(this.actAt[act]).split(" ")[0];
    const p = this.owner[i], word = this.wordOf[i], kind = this.kinds[i];
    if (this.ports) return kind === K.w || kind === K.publish ? "publish" : "sample";
    if (kind === K.s) return "stop";
    if (kind !== K.r || !this.layout) return "call";
    const at = word - this.base(1 - p);
    return word === 1 - p ? "tick" : at === this.layout.used ? "offer" : at === this.layout.avail ? "poll" : "call";
  }

  /** The call of a line, or undefined. */
  call(i) {
    return this.calls[this.callOf[i]];
  }

  /** The act of a line and its line of the file, or null. */
  actOf(i) {
    const a = i < this.actsUpTo ? countUpTo(this.actLine, i) - 1 : NONE;
    return a < 0 ? null : this.act(a);
  }
  act(a) {
    return { text: this.textAt(this.actAt[a]), fileLine: this.actsFrom + a };
  }

  /**
   * Joins what was accepted and delivered by session and number. The line `s P 2` opens a session
   * of P. The session of the other end is known from the order of lines, or from the mark `session`
   * in a running record.
   */
  findFrames() {
    const { kinds, owner, values } = this, sent = new Map(), deliveries = [];
    const peers = Array.from({ length: this.peers }, () => ({ opened: 0, other: 0, got: 0, freed: 0, last: null, lines: [] }));
    const sentBy = (p, session) => {
      const key = 8 * session + p;
      if (!sent.has(key)) sent.set(key, []);
      return sent.get(key);
    };
    const frame = (sender, session, number, accept) => ({ sender, session, number, accept, deliver: NONE, back: NONE, reclaim: NONE });
    Object.assign(this, { frames: [], accepted: [], delivered: [], trouble: [] });
    for (let i = 0; i < this.count; i++) {
      const kind = kinds[i], p = peers[owner[i]], value = values[i];
      if (!OF_FRAMES[kind]) continue;
      if (kind === K.accept || kind === K.publish) this.accepted.push(i);
      if (kind === K.deliver || kind === K.got) this.delivered.push(i);
      if (TROUBLE[kind]) this.trouble.push(i);
      if (!p) continue;
      if (kind === K.s || kind === K.x) p.lines.push(i);
      if (kind === K.s && value === 2) Object.assign(p, { opened: p.opened + 1, freed: 0 });
      if (kind === K.s && value === 3 && !this.running && owner[i] < 2) Object.assign(p, { other: peers[1 - owner[i]].opened, got: 0 });
      if (kind === K.session && this.running) Object.assign(p, { other: +this.fields(i)[3], got: 0 });
      if (kind === K.accept) {
        const list = sentBy(owner[i], p.opened);
        list.push(frame(owner[i], p.opened, list.length, i));
        this.frames.push(list.at(-1));
      } else if (kind === K.deliver) {
        p.last = { line: i, by: owner[i], session: p.other, number: p.got++, back: NONE };
        deliveries.push(p.last);
      } else if (kind === K.return && p.last) p.last.back = i;
      else if (kind === K.reclaim) {
        const list = sentBy(owner[i], p.opened), end = Math.min(list.length, p.freed + value);
        while (p.freed < end) list[p.freed++].reclaim = i;
      }
    }
    for (const { line, by, session, number, back } of deliveries) {
      let one = this.honest[1 - by] ? sentBy(1 - by, session)[number] : undefined;
      if (!one) this.frames.push((one = frame(1 - by, session, number, NONE)));
      one.deliver = line;
      one.back = back;
    }
    this.frameAt = new Map();
    for (const one of this.frames) for (const line of [one.accept, one.deliver]) if (line >= 0) this.frameAt.set(line, one);
    this.stateLines = peers.map(p => p.lines);
  }

  /** The part of a running record that has the line. */
  partOf(line) {
    return this.parts[countUpTo(this.parts.map(part => part.line), line) - 1] ?? { line: 0, peer: NONE };
  }

  /**
   * The line that says what a word holds after `line`, or NONE: the last write. In a running
   * record, which has no common order, that is the last access of the same part.
   */
  source(word, line) {
    const written = this.writes.last(word, line);
    if (!this.running) return written;
    const last = Math.max(written, this.reads.last(word, line));
    return last >= this.partOf(line).line ? last : NONE;
  }
  value(word, line) {
    const at = this.source(word, line);
    return at === NONE ? 0 : this.values[at];
  }

  /** The State of a peer after a line and the line that set it, or null if no line can say. */
  state(peer, line) {
    if (this.ports || (this.running && this.partOf(line).peer !== peer)) return null;
    const lines = this.stateLines[peer], n = countUpTo(lines, line);
    return n ? { value: this.values[lines[n - 1]], line: lines[n - 1] } : { value: 0, line: NONE };
  }

  /** The open call of a peer at a line, or undefined. */
  openCall(peer, line) {
    const call = this.callsOf[peer][countUpTo(this.firsts[peer], line) - 1];
    return call?.last >= line ? call : undefined;
  }

  /** The frames that a peer has in flight after a line, each with the words of its descriptor. */
  rings(peer, line) {
    const L = this.layout, own = this.base(peer), back = this.base(1 - peer), value = word => this.value(word, line);
    const index = value(own + L.avail) >>> 16, used = value(back + L.used) >>> 16, inFlight = (index - used) & 0xffff;
    const event = value(back + L.availEvent) & 0xffff, frames = [];
    for (let k = 0; inFlight <= L.size && k < inFlight; k++) {
      const position = (used + k) & 0xffff, slot = position % L.size, word = own + L.entries + (slot >> 1);
      const entry = slot & 1 ? value(word) >>> 16 : value(word) & 0xffff;
      const one = { position, entry, word, descriptor: NONE, address: 0n, length: 0, flags: 0, hex: "" };
      if (entry < L.size) {
        const d = (one.descriptor = own + 4 * entry);
        one.address = (BigInt(value(d + 1)) << 32n) + BigInt(value(d));
        one.length = value(d + 2);
        one.flags = value(d + 3) & 0xffff;
        const at = Number(one.address);
        if (at % 4 === 0 && at + one.length <= this.outBytes) {
          for (let w = 0; 4 * w < one.length; w++) one.hex += littleBytes(value(own + at / 4 + w));
          one.hex = one.hex.slice(0, 2 * one.length);
        }
      }
      frames.push(one);
    }
    return { index, used, inFlight, event, own, back, frames };
  }

  /** The lines that have all terms of a search: `p0`, `kind:accept`, `word:1280`, or a text. */
  search(query) {
    const texts = [], hits = [];
    let peer = NONE, word = NONE, kinds = null;
    for (const term of query.trim().split(/\s+/)) {
      const found = /^(?:p(\d)|word:(\d+)|kind:(.+))$/.exec(term) ?? [];
      if (found[1]) peer = +found[1];
      else if (found[2]) word = +found[2];
      else if (found[3]) kinds = kindSet(found[3].split(",").filter(kind => kind in K).join(" ") || "bad");
      else texts.push(term);
    }
    const has = texts.length ? this.linesWith(texts[0]) : null;
    for (let i = 0; i < this.count; i++) {
      if ((peer >= 0 && this.owner[i] !== peer) || (word >= 0 && this.wordOf[i] !== word)) continue;
      if ((kinds && !kinds[this.kinds[i]]) || (has && !has[i])) continue;
      if (texts.length < 2 || texts.every(text => this.line(i).includes(text))) hits.push(i);
    }
    return hits;
  }

  /** Marks the lines that contain a text. */
  linesWith(text) {
    const { starts } = this, found = new Uint8Array(this.count), all = this.text(starts[0], starts[this.count]);
    for (let at = all.indexOf(text); at >= 0;) {
      const line = countUpTo(starts, starts[0] + at) - 1;
      found[line] = 1;
      at = all.indexOf(text, starts[line + 1] - starts[0]);
    }
    return found;
  }
}

if (typeof module === "object") module.exports = { Trace, K, NONE, NO_PEER, countUpTo, littleBytes, kindSet };
