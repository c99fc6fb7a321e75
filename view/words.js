"use strict";
// The words for what a record has: names of words, texts of lines and calls, fields of frames. This
// part needs no page. `ivshm_chart` has the same words for the same lines.
if (typeof require === "function") Object.assign(globalThis, require("./reader.js"));

const STATES = ["RESET", "INIT", "READY", "RUN"];
const stateClass = value => STATES[Math.min(value, 3)].toLowerCase();
const stateName = value => (value > 3 ? `${value} as RUN` : `${value} ${STATES[value]}`);
const hex2 = n => n.toString(16).padStart(2, "0");
const counted = (n, one, many = one + "s") => `${n.toLocaleString("en")} ${n === 1 ? one : many}`;
const indexText = v => (v & 0xffff ? `${v >>> 16}, flags ${v & 0xffff}` : String(v >>> 16));

/** The name of a word of a section with rings, and the text of a value there. */
function ringWord(L, at) {
  if (at < L.avail) return [`descriptor ${at >> 2} ${["address low", "address high", "length", "flags"][at & 3]}`];
  if (at === L.avail) return ["available index", indexText];
  if (at < L.usedEvent) return [`entry ${2 * (at - L.entries)}, ${2 * (at - L.entries) + 1}`, v => `${v & 0xffff}, ${v >>> 16}`];
  if (at === L.usedEvent) return ["used event"];
  if (at === L.used) return ["used index", indexText];
  const element = at - L.elements;
  if (element >= 0 && at < L.availEvent) return [`used element ${element >> 1} ${element & 1 ? "length" : "id"}`];
  if (at === L.availEvent) return ["available event"];
  if (at < L.data) return [`free word ${at}`];
  const byte = 4 * at - L.dataBytes, slot = Math.floor(byte / L.slot);
  // a frame of version 3 has no slot, so its words have no name before its descriptor is read
  if (L.slots === 0) return [`data byte ${byte}`, littleBytes];
  return [slot < L.slots ? `frame ${slot} word ${(byte - slot * L.slot) / 4}` : `data word ${at - L.data}`, littleBytes];
}

/** The same of a section of sampling ports, whose messages have up to 4 * `quarter` bytes. */
function portWord(quarter, at) {
  if (at === 0 || at > 2 + 2 * quarter) return [at ? `word ${at}` : "sequence"];
  const buffer = at <= 1 + quarter ? 0 : 1, word = at - 1 - buffer * (1 + quarter);
  return word ? [`buffer ${buffer} word ${word - 1}`, littleBytes] : [`buffer ${buffer} length`];
}

/** The name of a word of the region, its section's peer or NONE, and the text of a value there. */
function wordName(t, word) {
  const { part, section, at } = t.place(word);
  if (part === "table") return { name: at < t.peers ? `state of ${at}` : `table word ${at}`, section, show: String };
  if (part === "common") return { name: `common word ${at}`, section, show: String };
  const [name, show = String] = t.ports ? portWord(t.message / 4, at) : t.layout ? ringWord(t.layout, at) : [`word ${at}`];
  return { name, section, show };
}

/** The name of a word for a peer, with the section's peer if that is another one. */
function wordFor(t, peer, word) {
  if (word < 0) return "a word outside of the region";
  const { name, section } = wordName(t, word);
  return section >= 0 && section !== peer ? `${name} of ${section}` : name;
}

const frameWords = hex => `${hex.length / 2} bytes ${hex.slice(0, 12)}${hex.length > 12 ? ".." : ""}`;
const REGISTERS = { 0: " ID", 4: " Maximum Peers", 8: " Interrupt Control", 12: " Doorbell", 16: " State" };

/** A history line in words, and the class of its text. */
function describe(t, i) {
  const line = t.line(i), f = line.split(" "), p = t.owner[i], word = t.wordOf[i];
  const sign = f[0].endsWith("r") ? ":" : " =", access = f[0].endsWith("r") ? "read" : "write";
  switch (f[0]) {
    case "r": case "w": {
      const value = word < 0 ? f[3] : wordName(t, word).show(t.values[i]);
      return { is: access, text: `${wordFor(t, p, word)}${sign} ${value}` };
    }
    case "denied": return { is: "bad", text: `denied: ${wordFor(t, p, word)}` };
    case "s": return { is: "set", text: `State = ${stateName(+f[2])}` };
    case "x": return { is: "bad", text: "device reset" };
    case "d": return { is: "bell", text: `rings ${f[2] === f[1] ? "itself" : f[2]}, vector ${f[3]}` };
    case "i": return { is: "irq", text: `interrupt, vector ${f[2]}` };
    case "lost": return { is: "bad", text: `lost interrupt, vector ${f[2]}` };
    case "idle": return { is: "mark", text: "idle, 1 turn" };
    case "cr": case "cw": return { is: access, text: `config ${f[2]}, ${counted(+f[3], "byte")}${sign} ${f[4]}` };
    case "mr": case "mw": return { is: access, text: `register ${f[2]}${REGISTERS[f[2]] ?? ""}${sign} ${f[3]}` };
    case "tr": case "tw": return { is: access, text: `MSI-X ${f[2]}${sign} ${f[3]}` };
    case "saw": return { is: "mark", text: `saw ${stateName(+f[2])}` };
    case "reclaim": return { is: "mark", text: `finds ${f[2]} returned` };
    case "look": return { is: "mark", text: `finds ${f[2]} new` };
    case "full": case "over": case "done": case "finished": case "spent": return { is: "mark", text: f[0] };
    case "down": return { is: "mark", text: "not in RUN" };
    case "return": return { is: "mark", text: "returned one" };
    case "accept": case "deliver": return { is: "frame", text: `${f[0]}s ${frameWords(f[2] ?? "")}` };
    case "refuse": return { is: "bad", text: `refuses ${f[2]} ${f[3]}` };
    case "session": return { is: "mark", text: `session ${f[2]} with ${f[3]}` };
    case "publish": return { is: "frame", text: `published message ${f[2]}` };
    case "got": return { is: "frame", text: `got message ${f[3]} of ${f[2]}: ${f[4]}` };
    case "again": return { is: "mark", text: `sequence of ${f[2]} went from ${f[3]} to ${f[4]}` };
    case "none": return { is: "mark", text: `${f[2]} has published nothing` };
    case "peer": return { is: "frame", text: `the part of peer ${f[1]}` };
    case "turns": return { is: "mark", text: counted(+f[1], "turn") };
    default: return { is: "bad", text: `no form: ${line}` };
  }
}

const RESULTS = kindSet("accept deliver got publish refuse full s denied");

/** A folded call in words: its name, what came of it, and its lines. */
function describeCall(t, call) {
  let result = null, more = 0;
  for (let i = call.first; i <= call.last; i++) {
    if (t.callOf[i] !== call.id || !RESULTS[t.kinds[i]]) continue;
    if (result === null || t.kinds[i] === K.refuse) result = describe(t, i);
    else if (t.kinds[i] === K.deliver) more++;
  }
  const text = (result ? `: ${result.text}` : "") + (more ? ` and ${more} more` : "") + (call.isWhole ? "" : ", cut");
  return { is: call.isWhole ? result?.is ?? "mark" : "bad", text: `${call.name}${text}, ${counted(call.size, "line")}`, fold: true };
}

/** Lines that found nothing in words, by peer: the numbers of calls by name, and of idle turns. */
function describeQuiet(t, lines) {
  const counts = {};
  for (const i of lines) {
    const call = t.call(i), name = call?.name ?? "idle", its = (counts[t.owner[i]] ??= {});
    if (!call || call.first === i) its[name] = (its[name] ?? 0) + 1;
  }
  const text = ({ idle, ...calls }) => {
    const names = Object.entries(calls).map(([name, n]) => counted(n, name));
    return [...(names.length ? [`${names.join(", ")}: found nothing`] : []), ...(idle ? [`idle, ${counted(idle, "turn")}`] : [])].join("; ");
  };
  return Object.fromEntries(Object.entries(counts).map(([peer, its]) => [peer, { is: "mark", text: text(its), fold: true }]));
}

const TYPES = { 0x800: "IPv4", 0x806: "ARP", 0x86dd: "IPv6", 0x8100: "VLAN", 0x88b5: "experimental" };
const PROTOCOLS = { 1: "ICMP", 6: "TCP", 17: "UDP" };

/** The fields of a frame as far as its bytes go: Ethernet, VLAN, ARP, IPv4, and ports or ICMP. */
function frameFields(hex) {
  const b = (hex.match(/../g) ?? []).map(byte => parseInt(byte, 16)), u16 = at => b[at] << 8 | b[at + 1];
  const mac = at => b.slice(at, at + 6).map(hex2).join(":"), ip = at => b.slice(at, at + 4).join(".");
  if (b.length < 14) return [["too short", counted(b.length, "byte")]];
  const rows = [["destination", mac(0) + (b[0] & 1 ? " (group)" : "")], ["source", mac(6)]];
  let type = u16(12), at = 14;
  if (type === 0x8100 && b.length >= 18) {
    rows.push(["VLAN", `${u16(14) & 0xfff}, priority ${b[14] >> 5}`]);
    type = u16(16);
    at = 18;
  }
  rows.push(["type", `${type.toString(16).padStart(4, "0")}h ${TYPES[type] ?? ""}`]);
  const rest = b.length - at;
  if (type === 0x806 && rest >= 28) {
    rows.push(["ARP", { 1: "request", 2: "reply" }[u16(at + 6)] ?? `operation ${u16(at + 6)}`]);
    rows.push(["sender", `${mac(at + 8)} ${ip(at + 14)}`], ["target", `${mac(at + 18)} ${ip(at + 24)}`]);
  } else if (type === 0x800 && rest >= 20) {
    const protocol = b[at + 9], body = at + (b[at] & 15) * 4;
    rows.push(["IPv4", `${ip(at + 12)} to ${ip(at + 16)}, ${u16(at + 2)} bytes, TTL ${b[at + 8]}`]);
    rows.push(["protocol", `${protocol} ${PROTOCOLS[protocol] ?? ""}`]);
    if ((protocol === 6 || protocol === 17) && b.length >= body + 4) rows.push(["ports", `${u16(body)} to ${u16(body + 2)}`]);
    if (protocol === 1 && b.length > body) rows.push(["ICMP", { 0: "echo reply", 8: "echo request" }[b[body]] ?? `type ${b[body]}`]);
  } else if (TYPES[type] && rest < 20 && type !== 0x88b5) rows.push([TYPES[type], `cut: ${counted(rest, "byte")}`]);
  return rows;
}

if (typeof module === "object") {
  module.exports = { describe, describeCall, describeQuiet, wordName, wordFor, frameFields, stateName, stateClass, counted, hex2 };
}
