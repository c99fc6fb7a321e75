"use strict";
// A headless Chromium, asked by its debugging protocol over two pipes: no network and no package.
const { spawn } = require("child_process");
const fs = require("fs"), os = require("os"), path = require("path");

class Browser {
  constructor(program) {
    this.folder = fs.mkdtempSync(path.join(os.tmpdir(), "view-"));
    const words = ["--headless=new", "--no-sandbox", "--disable-gpu", "--hide-scrollbars", "--remote-debugging-pipe"];
    this.process = spawn(program, [...words, `--user-data-dir=${this.folder}`, "about:blank"], { stdio: ["ignore", "ignore", "ignore", "pipe", "pipe"] });
    this.waiting = new Map();
    this.thrown = [];
    this.asked = 0;
    let rest = "";
    this.process.stdio[4].setEncoding("utf8").on("data", text => {
      const parts = (rest + text).split("\0");
      rest = parts.pop();
      for (const part of parts) this.take(JSON.parse(part));
    });
  }
  take(message) {
    const { exceptionDetails: thrown, entry } = message.params ?? {};
    if (message.method === "Runtime.exceptionThrown") this.thrown.push(thrown.exception?.description ?? thrown.text);
    if (message.method === "Log.entryAdded" && entry.level === "error") this.thrown.push(entry.text);
    this.waiting.get(message.id)?.(message.result ?? message);
    this.waiting.delete(message.id);
  }
  call(method, params = {}, sessionId = this.session) {
    const id = ++this.asked;
    this.process.stdio[3].write(`${JSON.stringify({ id, method, params, ...(sessionId && { sessionId }) })}\0`);
    return new Promise(resolve => this.waiting.set(id, resolve));
  }
  async start() {
    const { targetInfos } = await this.call("Target.getTargets");
    const page = targetInfos.find(one => one.type === "page");
    this.session = (await this.call("Target.attachToTarget", { targetId: page.targetId, flatten: true })).sessionId;
    for (const part of ["Page", "Runtime", "DOM", "Log"]) await this.call(`${part}.enable`);
    await this.call("Emulation.setDeviceMetricsOverride", { width: 1500, height: 900, deviceScaleFactor: 1, mobile: false });
  }
  /** The value of an expression in the page. */
  async js(expression) {
    const { result, exceptionDetails } = await this.call("Runtime.evaluate", { expression, returnByValue: true, awaitPromise: true });
    if (exceptionDetails) throw new Error(`${expression}: ${exceptionDetails.exception?.description ?? exceptionDetails.text}`);
    return result.value;
  }
  async until(expression, tries = 1200) {
    for (; tries > 0; tries--) {
      if (await this.js(expression)) return;
      await new Promise(resolve => setTimeout(resolve, 25));
    }
    throw new Error(`never: ${expression}`);
  }
  async go(file) {
    await this.call("Page.navigate", { url: `file://${file}` });
    await this.until("document.readyState === 'complete' && typeof openBytes === 'function'");
  }
  /** Gives a record to the page as a user does. */
  async open(page, record) {
    await this.go(page);
    const { root } = await this.call("DOM.getDocument");
    const { nodeId } = await this.call("DOM.querySelector", { nodeId: root.nodeId, selector: "#file" });
    await this.call("DOM.setFileInputFiles", { nodeId, files: [path.resolve(record)] });
    await this.until("ui.t !== null || !$('says').textContent.startsWith('Reading') && !$('says').textContent.startsWith('Drop')");
    await this.drawn();
  }
  drawn() {
    return this.js("new Promise(done => requestAnimationFrame(() => requestAnimationFrame(() => done(1))))");
  }
  async key(key) {
    await this.call("Input.dispatchKeyEvent", { type: "keyDown", key, text: key.length === 1 ? key : "" });
    await this.call("Input.dispatchKeyEvent", { type: "keyUp", key });
    await this.drawn();
  }
  async picture(file) {
    await this.drawn();
    const { data } = await this.call("Page.captureScreenshot", { format: "png" });
    fs.writeFileSync(file, Buffer.from(data, "base64"));
  }
  /** The resident memory in MB and the processor time in seconds of the page's process. */
  async cost() {
    const { processInfo } = await this.call("SystemInfo.getProcessInfo", {}, null);
    const costs = processInfo.filter(one => one.type === "renderer").map(({ id, cpuTime }) => {
      const kilobytes = /VmRSS:\s*(\d+)/.exec(fs.readFileSync(`/proc/${id}/status`, "utf8"))[1];
      return { megabytes: Math.round(kilobytes / 1024), seconds: cpuTime };
    });
    return costs.sort((a, b) => b.megabytes - a.megabytes)[0];
  }
  async close() {
    await this.call("Browser.close");
    await new Promise(resolve => this.process.on("exit", resolve));
    fs.rmSync(this.folder, { recursive: true, force: true });
  }
}
module.exports = { Browser };
