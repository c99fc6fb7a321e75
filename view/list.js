"use strict";
// The list of lines with a lane for each peer, and the strip of the whole record. Text of a record
// enters the page as text nodes and properties only.

const $ = id => document.getElementById(id);
const ROW = 20, HEAD = 22, LEFT = 76, STRIP = 84;
const TALLEST = 8e6; // browsers lay out no taller element, so beyond it the scroll bar is scaled
const ui = { t: null, pick: 0, top: 0, rows: null, open: null, hits: null, only: false, tab: "rings",
  word: NONE, frame: null, bytesFrom: 0, answer: "", differs: NONE, trail: [] };
const quietTexts = new Map();

/** An element with these properties and children. */
function el(tag, properties, ...children) {
  const one = Object.assign(document.createElement(tag), properties);
  one.append(...children);
  return one;
}
function svg(tag, attributes, ...children) {
  const one = document.createElementNS("http://www.w3.org/2000/svg", tag);
  for (const [name, value] of Object.entries(attributes)) one.setAttribute(name, value);
  one.append(...children);
  return one;
}

/** Whether a line found nothing: an idle turn, or a line of such a call. */
function isQuiet(i) {
  return ui.t.call(i)?.isQuiet ?? ui.t.kinds[i] === K.idle;
}

/**
 * Makes the rows, each given by its first line. A folded call is one row. So are the lines that
 * found nothing up to the next row, unless that run is open.
 */
function makeRows() {
  const t = ui.t, rows = new Int32Array(t.count);
  let n = 0, run = NONE;
  for (let i = 0; i < t.count; i++) {
    const call = t.call(i), quiet = call ? call.isQuiet : t.kinds[i] === K.idle;
    if (quiet ? run !== NONE && !ui.open.has(run) : call?.isFolded && call.first !== i) continue;
    if (!quiet) run = NONE;
    else if (run === NONE) run = i;
    rows[n++] = i;
  }
  ui.rows = ui.only && ui.hits ? ui.hits : rows.slice(0, n);
  ui.strip = null;
  quietTexts.clear();
  $("spacer").style.height = `${Math.min(ui.rows.length * ROW, TALLEST)}px`;
}
/** The line itself, or the first one of a folded call that has it. */
const shownLine = line => (isFolded(ui.t.call(line)) ? ui.t.call(line).first : line);
const rowOf = line => Math.max(0, countUpTo(ui.rows, shownLine(line)) - 1);
const pageRows = () => Math.max(1, Math.floor(($("list").clientHeight - HEAD) / ROW));
const lastTop = () => Math.max(0, ui.rows.length - pageRows());
const rowEnd = row => ui.rows[row + 1] ?? ui.t.count;

/** The lines of a row that found nothing, or null if the row is another one. */
function quietLines(row) {
  const first = ui.rows[row], end = rowEnd(row), lines = [];
  if (ui.only || ui.open.has(first) || end === first + 1 || !isQuiet(first)) return null;
  for (let i = first; i < end; i++) if (isQuiet(i)) lines.push(i);
  return lines.length > 1 ? lines : null;
}
const isFolded = call => !ui.only && call?.isFolded && call.size > 1 && !call.isQuiet;

/** The words of a row by peer. */
function rowTexts(row) {
  const t = ui.t, i = ui.rows[row], call = t.call(i);
  if (!quietTexts.has(i)) {
    const lines = quietLines(row);
    quietTexts.set(i, lines && describeQuiet(t, lines));
  }
  if (quietTexts.get(i)) return quietTexts.get(i);
  const words = isFolded(call) ? describeCall(t, call) : describe(t, i);
  if (!words.fold && call?.first === i && !ui.only) words.call = call.name;
  return { [t.owner[i] < t.peers ? t.owner[i] : 0]: words };
}

function laneElement(row, peer, words) {
  const t = ui.t, i = ui.rows[row], state = t.state(peer, i), call = ui.only ? null : t.openCall(peer, i);
  let is = `lane ${state ? stateClass(state.value) : ""} ${t.honest[peer] ? "" : "hostile"}`;
  if (call && !isFolded(call) && !words?.fold && call.size > 1 && (!call.isQuiet || call === t.call(i))) {
    is += ` in${call.first === i ? " first" : ""}${call.last < rowEnd(row) ? " last" : ""}${call.isWhole ? "" : " cut"}`;
  }
  const lane = el("div", { className: is });
  if (!words) return lane;
  if (words.call) lane.append(el("i", {}, words.call));
  lane.append(el("span", { className: words.is + (words.fold ? " fold" : ""), title: words.text }, words.text));
  return lane;
}

function drawList() {
  const t = ui.t, top = Math.floor(ui.top), end = Math.min(ui.rows.length, top + pageRows() + 1);
  const pick = rowOf(ui.pick), differs = ui.differs === NONE ? NONE : rowOf(ui.differs), hits = ui.only ? null : ui.hits;
  const columns = `${LEFT}px ${t.honest.map((_, p) => (t.ports || p < 2 ? "minmax(0, 3fr)" : "minmax(0, 1fr)")).join(" ")}`;
  const heads = t.honest.map((honest, p) => el("div", { className: "lane" }, `peer ${p}, ${honest ? "honest" : "hostile"}`));
  const rows = [el("div", { className: "row head" }, el("span", { className: "no" }, "line"), ...heads)];
  for (let row = top; row < end; row++) {
    const i = ui.rows[row], texts = rowTexts(row), isHit = hits && hits[countUpTo(hits, rowEnd(row) - 1) - 1] >= i;
    const is = `row${isHit ? " hit" : ""}${row === pick ? " pick" : ""}${row === differs ? " differs" : ""}`;
    const set = { className: is, id: `line${i + 1}`, onclick: () => select(i, { jump: false }), ondblclick: () => toggleFold(i) };
    const lanes = t.honest.map((_, p) => laneElement(row, p, texts[p]));
    rows.push(el("div", set, el("span", { className: "no" }, i + 1), ...lanes));
  }
  for (const row of rows) row.style.gridTemplateColumns = columns;
  $("pane").style.height = `${$("list").clientHeight}px`;
  $("rows").style.minWidth = `${t.honest.reduce((width, _, p) => width + (t.ports || p < 2 ? 270 : 190), LEFT)}px`;
  $("rows").replaceChildren(...rows);
  drawArrows(top, end, rows);
}

const arrowHead = (id, is, size) => svg("marker", { id, class: is, viewBox: "0 0 8 8", refX: 7, refY: 4, markerWidth: size, markerHeight: size,
  markerUnits: "userSpaceOnUse", orient: "auto" }, svg("path", { d: "M0 0L8 4L0 8z" }));

/**
 * The arrows of doorbells and of frames, from lane to lane. A running record has none, as it has no
 * order of the lines of two peers.
 */
function drawArrows(top, end, rows) {
  const t = ui.t, shapes = [arrowHead("tip", "", 9), arrowHead("big", "big", 15)], lane = p => rows[0].children[p + 1];
  const left = p => lane(p).offsetLeft, right = p => left(p) + lane(p).offsetWidth, y = row => (row - top) * ROW + ROW / 2;
  for (let row = top; row < end && !t.running; row++) {
    const text = rows[row - top + 1].querySelector(".bell"), p = t.owner[ui.rows[row]], target = t.values[ui.rows[row]];
    if (!text || target >= t.peers || target === p) continue;
    const isRight = target > p, to = isRight ? left(target) - 2 : right(target) - 60;
    const from = left(p) + (isRight ? text.offsetLeft + text.offsetWidth + 16 : 2);
    shapes.push(svg("path", { class: "bell", d: `M${from} ${y(row)}H${to}`, "marker-end": "url(#tip)" }));
  }
  const inside = lines => lines.slice(countUpTo(lines, ui.rows[top] - 1), countUpTo(lines, rowEnd(end - 1) - 1));
  const frames = new Set([...inside(t.accepted), ...inside(t.delivered)].map(line => t.frameAt.get(line)));
  const near = line => y(Math.max(top - 2, Math.min(end + 1, rowOf(line))));
  for (const frame of frames) {
    if (!frame || t.running || frame.accept < 0 || frame.deliver < 0) continue;
    const turn = left(1) - 12 - (frame.number % 5) * 7, isRight = frame.sender === 0;
    const d = `M${isRight ? turn - 14 : left(1) - 1} ${near(frame.accept)}H${turn}V${near(frame.deliver)}H${isRight ? left(1) - 1 : turn - 26}`;
    shapes.push(svg("path", { class: `frame${frame === ui.frame ? " pick" : ""}`, d, "marker-end": "url(#big)" }));
  }
  $("over").replaceChildren(...shapes);
}

/** The strip: States and frames over all rows, with the window of the list in it. */
function drawStrip() {
  const t = ui.t, width = $("strip").clientWidth - LEFT, n = ui.rows.length;
  if (ui.strip !== width) {
    ui.strip = width;
    const lineAt = x => ui.rows[Math.floor(x / width * n)] ?? t.count, shapes = [];
    const label = (y, text) => shapes.push(svg("text", { x: 8, y }, text));
    for (let p = 0; p < Math.min(t.peers, 3); p++) {
      label(14 + 14 * p, `peer ${p}`);
      for (let x = 0, from = 0, is = null; x <= width; x++) {
        const state = x < width && n ? t.state(p, lineAt(x)) : null, now = state && stateClass(state.value);
        if (now === is) continue;
        if (is) shapes.push(svg("rect", { class: `state ${is}`, x: LEFT + from, y: 4 + 14 * p, width: x - from, height: 11 }));
        [from, is] = [x, now];
      }
    }
    /** A bar where the list has lines, as tall as `tall` says of their number. */
    const bars = (is, of, y, tall) => {
      const lines = Int32Array.from(of, shownLine).sort(), before = x => countUpTo(lines, lineAt(x) - 1);
      const counts = Array.from({ length: width }, (_, x) => before(x + 1) - before(x)), most = Math.max(...counts);
      shapes.push(svg("path", { class: is, d: counts.map((v, x) => (v ? `M${LEFT + x} ${y}v-${tall(v / most)}` : "")).join("") }));
    };
    label(61, "accepted");
    bars("frame", t.accepted, 61, part => 2 + 13 * part);
    label(78, "delivered");
    bars("bell", t.delivered, 78, part => 2 + 13 * part);
    bars("bad", ui.differs === NONE ? t.trouble : [...t.trouble, ui.differs], STRIP, () => STRIP);
    bars("hit", ui.hits ?? [], STRIP, () => 5);
    $("strip").replaceChildren(...shapes, svg("rect", { id: "window", y: 1, height: STRIP - 3 }));
  }
  $("window").setAttribute("x", LEFT + ui.top / n * width);
  $("window").setAttribute("width", Math.max(3, Math.min(pageRows(), n) / n * width));
}
