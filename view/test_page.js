"use strict";
// node view/test_page.js CHROMIUM FOLDER [PICTURES]: keys and elements of the page in a headless
// Chromium. FOLDER has one_frame.html, differs.html (by tools/view), hostile.record, quiet.record,
// and may have running.record and long.record. With PICTURES it makes the pictures of docs/.
const fs = require("fs"), path = require("path");
const { Browser } = require("./browser.js");

const [chromium, folder, pictures] = process.argv.slice(2);
const page = path.join(__dirname, "view.html"), examples = path.join(__dirname, "../examples");
const faults = [];
let count = 0;
const check = (what, isSo) => {
  count++;
  if (!isSo) faults.push(what);
};

async function oneFrame(b) {
  await b.go(path.join(folder, "one_frame.html"));
  await b.until("ui.t !== null");
  const row = line => b.js(`document.querySelector('#line${line} .lane span')?.textContent`);
  const pick = () => b.js("ui.pick + 1"), panel = () => b.js("$('side').innerText");
  await b.js("select(8230)");
  await b.drawn();
  check("the words of a line", (await row(8231)) === "accepts 14 bytes ffffffffffff..");
  check("the rings at a line", /available index 1, used index 0, 1 in flight[^]*0\t0\t1792\t14\t0\tffffffffffff020000000001/.test(await panel()));
  check("the act of a line", (await panel()).includes("In the act turn 0 12, line 25 of the file."));
  check("the answer of replay", (await b.js("$('answer').value")) === "same");
  await b.key("m");
  check("the other end of a frame", (await pick()) === 8245);
  await b.key("4");
  check("the life of a frame", /accepted\t8231\npoll looks\t8235\ndelivered\t8245\nreturned\t8249\n/.test(await panel()) && (await panel()).includes("source\t02:00:00:00:00:01"));
  if (pictures) await b.picture(path.join(pictures, "view_light.png"));
  await b.key("Backspace");
  check("back", (await pick()) === 8231);
  await b.key("f");
  check("a folded call", (await row(8219)) === "offer: accepts 14 bytes ffffffffffff.., 15 lines" && (await row(8220)) === undefined);
  await b.key("ArrowDown");
  check("one row down over a fold", (await pick()) === 8234);
  await b.js("select(8247)");
  await b.key("2");
  check("the bytes written at a line", (await b.js("document.querySelector('pre .now').textContent")) === "00 00 01 00");
  await b.js("showWord(1280); $('word').click()");
  check("a word with its writers", /8230\tpeer 0\twrites\t1/.test(await panel()) && /8234\tpeer 1\treads\t1/.test(await panel()));
  await b.js("$('query').value = 'kind:accept,deliver'; $('query').focus()");
  await b.key("Enter");
  check("a search", (await b.js("$('hits').textContent")) === "2 lines" && (await pick()) === 8231);
  await b.js("$('only').click()");
  await b.drawn();
  check("only what was found", (await b.js("document.querySelectorAll('.row').length")) === 3);
}

async function main() {
  const b = new Browser(chromium);
  await b.start();
  await oneFrame(b);
  await b.go(path.join(folder, "differs.html"));
  await b.until("ui.t !== null");
  await b.drawn();
  check("the line that differs, found and due", (await b.js("document.querySelector('.differs').id")) === "line8244" &&
    /8244\tr 1 1475 9 *\tr 1 1475 8/.test(await b.js("$('about').innerText")));
  await b.js("$('scheme').click(); ui.tab = 'rings'; drawSide()");
  if (pictures) await b.picture(path.join(pictures, "view_dark.png"));
  await b.open(page, path.join(examples, "hostile_writer.portrecord"));
  check("sampling ports", (await b.js("document.querySelector('#line13 .lane span').textContent")) === "refuses Length 9");
  await b.open(page, path.join(folder, "quiet.record"));
  check("calls that found nothing", (await b.js("[...document.querySelectorAll('#line8234 .fold')].map(e => e.textContent).join()")) ===
    "1 tick, 1 poll: found nothing; idle, 1 turn,1 tick: found nothing; idle, 1 turn");
  await b.open(page, path.join(folder, "hostile.record"));
  await b.key("F");
  check("markup in a record is text", (await b.js("document.images.length + document.querySelectorAll('b script, #rows script').length")) === 0 &&
    (await b.js("$('rows').textContent")).includes("<img src=x onerror=alert(1)>"));
  await b.open(page, path.join(examples, "handmade.ivshm"));
  check("a text that is no record", (await b.js("$('says').textContent")).startsWith("This is no record"));
  if (fs.existsSync(path.join(folder, "running.record"))) {
    await b.open(page, path.join(folder, "running.record"));
    check("no arrows of frames in a running record", (await b.js("ui.t.frames.some(f => f.deliver >= 0) && document.querySelectorAll('#over .frame').length")) === 0);
    check("States in their own part", (await b.js("$('panel').innerText")).includes("peer 1\tnot in this part"));
  }
  if (fs.existsSync(path.join(folder, "long.record"))) {
    await b.go(page);
    const before = await b.cost();
    await b.open(page, path.join(folder, "long.record"));
    const { seconds: after, megabytes } = await b.cost(), seconds = after - before.seconds;
    console.log(`view: ${await b.js("ui.t.count")} lines shown after ${seconds.toFixed(1)} seconds of processor time, with ${megabytes} MB`);
    check("5 seconds and 700 MB", seconds < 5 && megabytes < 700);
  }
  check(`no exception: ${b.thrown}`, b.thrown.length === 0);
  await b.close();
  console.log(...faults.map(fault => `view: not so: ${fault}\n`));
  console.log(`view: ${count} assertions in Chromium, ${faults.length} not so`);
  process.exit(faults.length ? 1 : 0);
}
main();
