// @ts-check
// Drives a headless Chromium over its own pipe, with nothing but node: loads a file from disk, evaluates, clicks, types, hands files in, and takes
// screenshots. What the page says on its console and what it asks the network for are kept.

import { spawn } from 'node:child_process';
import { mkdtempSync, rmSync, writeFileSync } from 'node:fs';
import { tmpdir } from 'node:os';
import { join } from 'node:path';

/** How long a page may take to show what is waited for, in milliseconds. */
const PATIENCE = 60000;

export class Browser {
  /** @param {string} program */
  constructor(program) {
    this.home = mkdtempSync(join(tmpdir(), 'vault-page-'));
    this.child = spawn(program, [
      '--headless=new', '--remote-debugging-pipe', '--no-sandbox', '--disable-gpu', '--no-first-run', '--disable-extensions', '--hide-scrollbars',
      '--disable-background-networking', '--disable-component-update', '--force-color-profile=srgb', `--user-data-dir=${this.home}`, 'about:blank',
    ], { stdio: ['ignore', 'ignore', 'ignore', 'pipe', 'pipe'] });
    this.next = 1;
    /** @type {Map<number, { resolve: (value: any) => void, reject: (error: Error) => void }>} */
    this.asked = new Map();
    this.session = '';
    /** @type {string[]} */
    this.console = [];
    /** @type {string[]} */
    this.requests = [];
    let heard = '';
    /** @type {any} */ (this.child.stdio[4]).setEncoding('utf8').on('data', (/** @type {string} */ piece) => {
      heard += piece;
      const messages = heard.split('\0');
      heard = messages.pop() ?? '';
      for (const message of messages) this.hear(JSON.parse(message));
    });
  }

  /** @param {any} message */
  hear(message) {
    if (message.id) {
      const asked = this.asked.get(message.id);
      this.asked.delete(message.id);
      if (message.error) asked?.reject(new Error(message.error.message));
      else asked?.resolve(message.result);
    } else if (message.method === 'Runtime.consoleAPICalled') {
      this.console.push(message.params.args.map((/** @type {any} */ arg) => arg.value ?? arg.description).join(' '));
    } else if (message.method === 'Runtime.exceptionThrown') {
      const { exceptionDetails } = message.params;
      this.console.push(exceptionDetails.exception?.description ?? exceptionDetails.text);
    } else if (message.method === 'Log.entryAdded') {
      this.console.push(message.params.entry.text);
    } else if (message.method === 'Network.requestWillBeSent') {
      this.requests.push(message.params.request.url);
    }
  }

  /** @param {string} method @param {object} [params] @returns {Promise<any>} */
  send(method, params = {}) {
    const id = this.next++;
    const message = { id, method, params, ...(this.session ? { sessionId: this.session } : {}) };
    /** @type {any} */ (this.child.stdio[3]).write(`${JSON.stringify(message)}\0`);
    return new Promise((resolve, reject) => this.asked.set(id, { resolve, reject }));
  }

  /**
   * A page of its own.
   * @param {{ width: number, height: number, ratio?: number, dark?: boolean }} screen @param {string} [before] a script to run before the page's
   */
  async open(screen, before) {
    const { targetId } = await this.send('Target.createTarget', { url: 'about:blank' });
    const { sessionId } = await this.send('Target.attachToTarget', { targetId, flatten: true });
    this.session = sessionId;
    for (const domain of ['Page', 'Runtime', 'Log', 'Network', 'DOM']) await this.send(`${domain}.enable`);
    await this.screen(screen);
    await this.send('Browser.setDownloadBehavior', { behavior: 'allow', downloadPath: this.home });
    if (before) await this.send('Page.addScriptToEvaluateOnNewDocument', { source: before });
  }

  /** @param {{ width: number, height: number, ratio?: number, dark?: boolean }} screen */
  async screen({ width, height, ratio = 1, dark = false }) {
    await this.send('Emulation.setDeviceMetricsOverride', { width, height, deviceScaleFactor: ratio, mobile: width < 600 });
    await this.send('Emulation.setEmulatedMedia', { features: [{ name: 'prefers-color-scheme', value: dark ? 'dark' : 'light' }] });
  }

  /** @param {string} url */
  async go(url) {
    await this.send('Page.navigate', { url });
    await this.until('document.readyState === "complete" && document.querySelector("#status")?.textContent !== ""');
  }

  /**
   * The value of an expression in the page.
   * @param {string} expression @returns {Promise<any>}
   */
  async ask(expression) {
    const { result, exceptionDetails } = await this.send('Runtime.evaluate', { expression, returnByValue: true, awaitPromise: true });
    if (exceptionDetails) throw new Error(`${expression}: ${exceptionDetails.exception?.description ?? exceptionDetails.text}`);
    return result.value;
  }

  /**
   * Waits until an expression holds.
   * @param {string} expression
   */
  async until(expression) {
    const end = Date.now() + PATIENCE;
    while (!(await this.ask(`Boolean(${expression})`))) {
      if (Date.now() > end) throw new Error(`it never came to this: ${expression}`);
      await new Promise((resolve) => setTimeout(resolve, 25));
    }
  }

  /** @param {string} id @returns {Promise<string>} */
  text(id) {
    return this.ask(`document.getElementById(${JSON.stringify(id)}).textContent`);
  }

  /**
   * A click where a person would click.
   * @param {string} selector
   */
  async click(selector) {
    const place = await this.ask(`(() => {
      const found = document.querySelector(${JSON.stringify(selector)});
      found.scrollIntoView({ block: 'center', behavior: 'instant' });
      const box = found.getBoundingClientRect();
      return { x: box.x + box.width / 2, y: box.y + box.height / 2 };
    })()`);
    await this.mouse('mousePressed', place);
    await this.mouse('mouseReleased', place);
  }

  /** @param {'mousePressed' | 'mouseMoved' | 'mouseReleased'} type @param {{ x: number, y: number }} place */
  async mouse(type, { x, y }) {
    const down = type === 'mouseMoved' ? {} : { button: 'left', clickCount: 1 };
    await this.send('Input.dispatchMouseEvent', { type, x, y, buttons: type === 'mouseReleased' ? 0 : 1, ...down });
  }

  /** @param {string} key @param {number} [modifiers] 8 for shift */
  async key(key, modifiers = 0) {
    const text = key === 'Enter' ? '\r' : key.length === 1 ? key : undefined;
    await this.send('Input.dispatchKeyEvent', { type: 'keyDown', key, text, modifiers, windowsVirtualKeyCode: CODES[key] ?? key.charCodeAt(0) });
    await this.send('Input.dispatchKeyEvent', { type: 'keyUp', key, modifiers, windowsVirtualKeyCode: CODES[key] ?? key.charCodeAt(0) });
  }

  /**
   * Sets a slider, a number or a choice as its user would.
   * @param {string} id @param {string | number} value
   */
  async set(id, value) {
    await this.ask(`(() => {
      const field = document.getElementById(${JSON.stringify(id)});
      field.value = ${JSON.stringify(String(value))};
      field.dispatchEvent(new Event('input', { bubbles: true }));
      field.dispatchEvent(new Event('change', { bubbles: true }));
    })()`);
  }

  /**
   * Hands files to a file dialog.
   * @param {string} id @param {string[]} files
   */
  async hand(id, files) {
    const { root } = await this.send('DOM.getDocument');
    const { nodeId } = await this.send('DOM.querySelector', { nodeId: root.nodeId, selector: `#${id}` });
    await this.send('DOM.setFileInputFiles', { nodeId, files });
    await this.until(`document.getElementById(${JSON.stringify(id)}).files.length === 0`);
  }

  /** @param {string} file */
  async picture(file) {
    const { data } = await this.send('Page.captureScreenshot', { format: 'png' });
    writeFileSync(file, Buffer.from(data, 'base64'));
  }

  async close() {
    this.session = '';
    const ended = new Promise((resolve) => this.child.on('exit', resolve));
    await this.send('Browser.close').catch(() => {});
    await ended;
    rmSync(this.home, { recursive: true, force: true, maxRetries: 10, retryDelay: 100 });
  }
}

/** @type {Record<string, number>} */
const CODES = { Enter: 13, Escape: 27, ArrowLeft: 37, ArrowUp: 38, ArrowRight: 39, ArrowDown: 40, Home: 36, End: 35, Tab: 9 };
