"use strict";
// What the user does: opens a record, selects, searches, folds, scrolls.

const LONG_CALL = 400; // lines, from which a call is folded at first
let isDue = false, isOurScroll = false;
function schedule() {
  if (isDue) return;
  isDue = true;
  requestAnimationFrame(() => {
    isDue = false;
    if (!ui.t) return;
    drawList();
    drawStrip();
  });
}

function setTop(top) {
  const list = $("list"), room = list.scrollHeight - list.clientHeight;
  ui.top = Math.max(0, Math.min(lastTop(), top));
  const at = lastTop() ? Math.round(ui.top / lastTop() * room) : 0;
  isOurScroll = at !== list.scrollTop;
  list.scrollTop = at;
  schedule();
}

/** Selects a line, and shows it if it is folded away. */
function select(line, { jump = true, remember = true } = {}) {
  const t = ui.t;
  if (!t.count) return;
  line = Math.max(0, Math.min(t.count - 1, line));
  if (remember && line !== ui.pick) ui.trail.push(ui.pick);
  if (!ui.only && ui.rows[rowOf(line)] !== line) {
    if (isQuiet(line)) ui.open.add(ui.rows[rowOf(line)]);
    else t.call(line).isFolded = false;
    makeRows();
  }
  ui.pick = line;
  if (t.wordOf[line] >= 0) ui.word = t.wordOf[line];
  if (t.wordOf[line] >= 0) ui.bytesFrom = Math.max(0, (ui.word & ~3) - 48);
  ui.frame = t.frameAt.get(line) ?? ui.frame;
  const row = rowOf(line);
  if (jump && (row < ui.top || row >= ui.top + pageRows())) setTop(row - (pageRows() >> 1));
  schedule();
  drawSide();
}

/** Folds or unfolds the row of a line: its call, or the lines that found nothing. */
function toggleFold(line) {
  const call = ui.t.call(line);
  if (isQuiet(line)) {
    let run = rowOf(line);
    while (run > 0 && !ui.open.has(ui.rows[run]) && isQuiet(ui.rows[run - 1])) run--;
    const first = ui.rows[run];
    if (!ui.open.delete(first)) ui.open.add(first);
    ui.pick = first;
  } else if (call) {
    call.isFolded = !call.isFolded;
    ui.pick = call.first;
  }
  makeRows();
  select(ui.pick);
}
function foldAll() {
  ui.isAllFolded = !ui.isAllFolded;
  for (const call of ui.t.calls) call.isFolded = ui.isAllFolded || call.size > LONG_CALL;
  ui.open.clear();
  makeRows();
  ui.pick = ui.rows[rowOf(ui.pick)] ?? 0;
  setTop(rowOf(ui.pick) - (pageRows() >> 1));
  select(ui.pick, { remember: false });
}

/** Marks the line that an answer of `ivshm replay`, or of tools/difference, names. */
function setAnswer(answer) {
  const found = /^differs (\d+) \w+/.exec(answer);
  Object.assign(ui, { answer, differs: found ? found[1] - 1 : NONE, strip: null });
  $("answer").value = answer.split("\n")[0];
  if (found) select(ui.differs);
  schedule();
}

function search(query) {
  ui.query = query;
  ui.hits = query.trim() ? ui.t.search(query) : null;
  $("hits").textContent = ui.hits ? counted(ui.hits.length, "line") : "";
  makeRows();
  setTop(rowOf(ui.pick) - (pageRows() >> 1));
}
function nextHit(step) {
  if (!ui.hits?.length) return;
  const n = countUpTo(ui.hits, ui.pick), isAt = n > 0 && ui.hits[n - 1] === ui.pick;
  select(ui.hits.at(step > 0 ? n % ui.hits.length : n - (isAt ? 2 : 1)));
}

/** The other end of a frame, or NONE. */
function otherEnd(line) {
  const frame = ui.t.frameAt.get(line);
  return !frame ? NONE : line === frame.accept ? frame.deliver : frame.accept;
}
function otherCall(step) {
  const firsts = ui.t.firsts[ui.t.owner[ui.pick]] ?? [], n = countUpTo(firsts, ui.pick);
  const at = step > 0 ? n : n - (firsts[n - 1] === ui.pick ? 2 : 1);
  if (at >= 0 && at < firsts.length) select(firsts[at]);
}
const goIf = line => line >= 0 && select(line);
const move = rows => select(ui.rows[Math.max(0, Math.min(ui.rows.length - 1, rowOf(ui.pick) + rows))], { remember: Math.abs(rows) > 1 });

const KEYS = {
  ArrowDown: () => move(1), ArrowUp: () => move(-1), PageDown: () => move(pageRows() - 1), PageUp: () => move(1 - pageRows()),
  Home: () => move(-Infinity), End: () => move(Infinity), "[": () => otherCall(-1), "]": () => otherCall(1),
  g: () => $("goto").focus(), "/": () => $("query").focus(), n: () => nextHit(1), N: () => nextHit(-1),
  f: () => toggleFold(ui.pick), F: foldAll, "?": () => $("keys").showModal(),
  w: () => ui.word >= 0 && goIf(ui.t.writes.last(ui.word, ui.pick - 1)), m: () => goIf(otherEnd(ui.pick)),
  Backspace: () => ui.trail.length && select(ui.trail.pop(), { remember: false }),
};
Object.keys(PANELS).forEach((tab, k) => {
  KEYS[k + 1] = $(tab).onclick = () => {
    ui.tab = tab;
    drawSide();
  };
});
document.addEventListener("keydown", e => {
  if (!ui.t || e.ctrlKey || e.metaKey || e.altKey || $("keys").open) return;
  if (/INPUT|SELECT/.test(e.target.tagName)) {
    if (e.key === "Escape") $("list").focus();
  } else if (KEYS[e.key]) {
    e.preventDefault();
    KEYS[e.key]();
  }
});

$("list").addEventListener("wheel", e => {
  if (Math.abs(e.deltaX) > Math.abs(e.deltaY)) return;
  e.preventDefault();
  setTop(ui.top + (e.deltaMode ? e.deltaY * 3 : e.deltaY / ROW));
}, { passive: false });
$("list").onscroll = () => {
  const list = $("list"), room = list.scrollHeight - list.clientHeight;
  if (!isOurScroll) ui.top = room ? list.scrollTop / room * lastTop() : 0;
  isOurScroll = false;
  schedule();
};
$("strip").onclick = e => {
  const part = (e.offsetX - LEFT) / ($("strip").clientWidth - LEFT);
  select(ui.rows[Math.floor(Math.max(0, Math.min(0.9999, part)) * ui.rows.length)]);
};
$("goto").onchange = e => goIf(parseInt(e.target.value, 10) - 1);
$("query").onkeydown = e => {
  if (e.key !== "Enter") return;
  if (ui.query !== e.target.value) search(e.target.value);
  nextHit(e.shiftKey ? -1 : 1);
};
$("preset").onchange = e => {
  $("query").value = e.target.value;
  search(e.target.value);
};
$("only").onclick = () => {
  ui.only = !ui.only;
  $("only").setAttribute("aria-pressed", ui.only);
  search($("query").value);
};
$("next").onclick = () => nextHit(1);
$("prev").onclick = () => nextHit(-1);
$("fold").onclick = foldAll;
$("help").onclick = KEYS["?"];
$("answer").onchange = e => setAnswer(e.target.value);
$("scheme").onclick = () => {
  const { style } = document.documentElement, isAtFirst = matchMedia("(prefers-color-scheme: dark)").matches;
  style.colorScheme = (style.colorScheme ? style.colorScheme === "dark" : isAtFirst) ? "light" : "dark";
};
$("open").onclick = () => $("file").click();
$("file").onchange = e => openFile(e.target.files[0]);
addEventListener("resize", schedule);
addEventListener("dragover", e => e.preventDefault());
addEventListener("drop", e => {
  e.preventDefault();
  openFile(e.dataTransfer.files[0]);
});

async function openFile(file) {
  if (!file) return;
  $("says").textContent = `Reading ${file.name} ..`;
  openBytes(new Uint8Array(await file.arrayBuffer()), file.name, "");
}

/** Shows a record with an answer of `ivshm replay`, or says in a sentence why it can't. */
function openBytes(bytes, name, answer) {
  let t = null;
  try {
    t = new Trace(bytes);
  } catch (fault) {
    $("says").textContent = fault.message;
  }
  $("drop").hidden = t !== null;
  for (const id of ["strip", "list", "side"]) $(id).toggleAttribute("hidden", t === null);
  ui.t = t;
  if (!t) return;
  for (const call of t.calls) call.isFolded = call.size > LONG_CALL;
  Object.assign(ui, { pick: 0, top: 0, isAllFolded: false, open: new Set(), hits: null, only: false });
  Object.assign(ui, { word: NONE, frame: null, trail: [], differs: NONE });
  $("name").textContent = document.title = name;
  const sizes = `sections of ${counted(t.outBytes, "byte")}${t.ports ? "" : `, link version ${t.version}, MTU ${t.mtu}`}`;
  $("status").textContent = `${t.first}: ${counted(t.count, "line")}, ${counted(t.frames.length, "frame")}, ${sizes}`;
  $("faults").textContent = t.faults.join(" ");
  makeRows();
  select(0, { remember: false });
  setAnswer(answer);
  $("list").focus();
}

/** The bytes of a script element that tools/view made: compressed, in Base64. */
async function embedded(id) {
  const bytes = Uint8Array.from(atob($(id).textContent), c => c.charCodeAt(0));
  const stream = new Blob([bytes]).stream().pipeThrough(new DecompressionStream("gzip"));
  return new Uint8Array(await new Response(stream).arrayBuffer());
}
if ($("record")) {
  Promise.all([embedded("record"), embedded("replay")])
    .then(([bytes, answer]) => openBytes(bytes, $("record").dataset.name, new TextDecoder().decode(answer)));
}
