// A Chromium without a window, led over its debugging pipe: it looks at a page as it really is.
import { spawn } from "node:child_process";
import { accessSync, constants, mkdtempSync, rmSync, writeFileSync } from "node:fs";
import { delimiter, join } from "node:path";
import { tmpdir } from "node:os";
import { pathToFileURL } from "node:url";

const KEYS = { ArrowLeft: 37, ArrowUp: 38, ArrowRight: 39, ArrowDown: 40, Enter: 13, Tab: 9, Home: 36, End: 35, PageDown: 34, PageUp: 33 };

/** Where Chromium is installed; null where it isn't. */
export function findChromium() {
  const folders = (process.env.PATH ?? "").split(delimiter);
  const names = folders.flatMap((folder) => ["chromium", "chromium-browser", "google-chrome"].map((name) => join(folder, name)));
  return names.find((name) => {
    try {
      accessSync(name, constants.X_OK);
      return true;
    } catch {
      return false;
    }
  }) ?? null;
}

export class Browser {
  /** @param {string} program */
  constructor(program) {
    this.folder = mkdtempSync(join(tmpdir(), "viewer-"));
    const sandbox = process.getuid?.() === 0 ? ["--no-sandbox"] : [];
    const words = ["--headless", "--remote-debugging-pipe", `--user-data-dir=${this.folder}`, "--disable-gpu", "--hide-scrollbars", "--no-first-run"];
    this.child = spawn(program, [...words, ...sandbox], { stdio: ["ignore", "ignore", "ignore", "pipe", "pipe"] });
    this.waiting = new Map();
    this.events = [];
    this.number = 0;
    this.listen();
  }

  listen() {
    let before = "";
    this.child.stdio[4].setEncoding("utf8").on("data", (data) => {
      const pieces = (before + data).split("\0");
      before = pieces.pop();
      for (const piece of pieces) this.receive(JSON.parse(piece));
    });
  }

  receive(message) {
    const waiting = this.waiting.get(message.id);
    if (!waiting) {
      this.events.push(message);
      return;
    }
    this.waiting.delete(message.id);
    if (message.error) waiting.reject(new Error(message.error.message));
    else waiting.resolve(message.result);
  }

  /** @param {string} method @param {Record<string, any>} [params] @returns {Promise<any>} */
  send(method, params = {}) {
    this.number += 1;
    const id = this.number;
    const sent = new Promise((resolve, reject) => this.waiting.set(id, { resolve, reject }));
    this.child.stdio[3].write(`${JSON.stringify({ id, method, params, sessionId: this.session })}\0`);
    return sent;
  }

  /** Opens a page in a window of this width. @param {string} file @param {{width?: number, height?: number, dark?: boolean, scripts?: boolean}} [options] */
  async open(file, { width = 1280, height = 900, dark = false, scripts = true } = {}) {
    this.session = undefined;
    const { targetId } = await this.send("Target.createTarget", { url: "about:blank" });
    const { sessionId } = await this.send("Target.attachToTarget", { targetId, flatten: true });
    this.session = sessionId;
    await Promise.all(["Page", "Runtime", "Network"].map((domain) => this.send(`${domain}.enable`)));
    await this.send("Performance.enable", { timeDomain: "threadTicks" });
    await this.send("Emulation.setDeviceMetricsOverride", { width, height, deviceScaleFactor: 1, mobile: false });
    await this.send("Emulation.setEmulatedMedia", { features: [{ name: "prefers-color-scheme", value: dark ? "dark" : "light" }] });
    await this.send("Emulation.setScriptExecutionDisabled", { value: !scripts });
    this.events = [];
    await this.send("Page.navigate", { url: pathToFileURL(file).href + (this.hash ?? "") });
    while (!this.events.some((event) => event.method === "Page.loadEventFired")) await new Promise((resolve) => setTimeout(resolve, 5));
    if (scripts) await this.evaluate("new Promise((resolve) => requestAnimationFrame(() => requestAnimationFrame(resolve)))");
  }

  /** @param {string} expression */
  async evaluate(expression) {
    const { result, exceptionDetails } = await this.send("Runtime.evaluate", { expression, returnByValue: true, awaitPromise: true });
    if (exceptionDetails) throw new Error(exceptionDetails.exception?.description ?? exceptionDetails.text);
    return result.value;
  }

  /** The processor time that the page's main thread has taken, in milliseconds: how long it takes where nothing else is running. */
  async busy() {
    const { metrics } = await this.send("Performance.getMetrics");
    return Math.round(1000 * metrics.find(({ name }) => name === "TaskDuration").value);
  }

  /** @param {string} key */
  async press(key) {
    const params = { key, code: key, windowsVirtualKeyCode: KEYS[key], text: key === "Enter" ? "\r" : undefined };
    await this.send("Input.dispatchKeyEvent", { type: "keyDown", ...params });
    await this.send("Input.dispatchKeyEvent", { type: "keyUp", ...params });
  }

  /** @param {{x: number, y: number}} place */
  async click({ x, y }) {
    for (const type of ["mouseMoved", "mousePressed", "mouseReleased"]) {
      await this.send("Input.dispatchMouseEvent", { type, x, y, ...(type === "mouseMoved" ? {} : { button: "left", clickCount: 1 }) });
    }
  }

  /** A picture of a part of the page, beyond the window too. @param {string} file @param {{x: number, y: number, width: number, height: number, scale: number}} clip */
  async screenshot(file, clip) {
    const { data } = await this.send("Page.captureScreenshot", { captureBeyondViewport: true, clip });
    writeFileSync(file, Buffer.from(data, "base64"));
  }

  /** @param {string} file */
  async print(file) {
    const { data } = await this.send("Page.printToPDF", { printBackground: false });
    writeFileSync(file, Buffer.from(data, "base64"));
  }

  async close() {
    const ended = new Promise((resolve) => this.child.once("exit", resolve));
    this.session = undefined;
    this.send("Browser.close").catch(() => {});
    await ended;
    rmSync(this.folder, { recursive: true, force: true, maxRetries: 5, retryDelay: 100 });
  }
}
