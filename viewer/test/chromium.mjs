// A headless Chromium, driven through a pipe: no package is needed.
import { spawn } from 'node:child_process';
import { mkdtempSync, rmSync, writeFileSync } from 'node:fs';
import { tmpdir } from 'node:os';
import { join } from 'node:path';

export const sleep = (ms) => new Promise((resolve) => setTimeout(resolve, ms));

const FLAGS = ['--headless=new', '--no-sandbox', '--disable-gpu', '--hide-scrollbars', '--remote-debugging-pipe'];
const ERRORS = ['Runtime.exceptionThrown', 'Runtime.consoleAPICalled', 'Log.entryAdded'];

export class Chromium {
  constructor() {
    this.profile = mkdtempSync(join(tmpdir(), 'heap-page-'));
    const flags = [...FLAGS, `--user-data-dir=${this.profile}`, 'about:blank'];
    const stdio = ['ignore', 'ignore', 'ignore', 'pipe', 'pipe'];
    this.browser = spawn(process.env.CHROMIUM || 'chromium', flags, { stdio });
    this.ended = new Promise((resolve) => this.browser.on('exit', resolve));
    process.once('exit', () => this.browser.kill());
    this.serial = 0;
    this.rest = '';
    this.waiting = new Map();
    this.events = [];
    this.browser.stdio[4].on('data', (data) => this.receive(data));
  }

  receive(data) {
    this.rest += data;
    for (let end; (end = this.rest.indexOf('\0')) >= 0; this.rest = this.rest.slice(end + 1)) {
      const message = JSON.parse(this.rest.slice(0, end));
      if (message.id) this.answer(message);
      else this.events.push(message);
    }
  }

  answer({ id, result, error }) {
    const { resolve, reject } = this.waiting.get(id);
    this.waiting.delete(id);
    if (error) reject(new Error(error.message));
    else resolve(result);
  }

  call(method, params = {}, sessionId) {
    const id = ++this.serial;
    this.browser.stdio[3].write(JSON.stringify({ id, method, params, sessionId }) + '\0');
    return new Promise((resolve, reject) => this.waiting.set(id, { resolve, reject }));
  }

  // A page at this address, once its viewer stands.
  async open(url, { width = 1400, height = 900, theme = 'light' } = {}) {
    const { targetId } = await this.call('Target.createTarget', { url: 'about:blank' });
    const { sessionId } = await this.call('Target.attachToTarget', { targetId, flatten: true });
    const page = new Page(this, targetId, sessionId);
    for (const domain of ['Runtime', 'Log', 'Page']) await page.call(`${domain}.enable`);
    await page.call('Performance.enable', { timeDomain: 'threadTicks' });
    await page.resize(width, height);
    const features = [{ name: 'prefers-color-scheme', value: theme }];
    await page.call('Emulation.setEmulatedMedia', { features });
    await page.call('Page.navigate', { url });
    await page.waitFor('document.readyState === "complete"');
    return page;
  }

  // the text that Chromium itself has at an address
  async textAt(url) {
    const { targetId } = await this.call('Target.createTarget', { url });
    const { sessionId } = await this.call('Target.attachToTarget', { targetId, flatten: true });
    const page = new Page(this, targetId, sessionId);
    await page.waitFor(`location.href === ${JSON.stringify(url)} && document.readyState === 'complete'`);
    const text = await page.run('document.body ? document.body.textContent : ""');
    await page.close();
    return text;
  }

  async close() {
    this.browser.kill();
    await this.ended;
    rmSync(this.profile, { recursive: true, force: true, maxRetries: 5 });
  }
}

class Page {
  constructor(browser, targetId, sessionId) {
    Object.assign(this, { browser, targetId, sessionId });
  }

  call(method, params) {
    return this.browser.call(method, params, this.sessionId);
  }

  // A window of this size; zoomed, each pixel of the page is so many of the screen.
  resize(width, height, deviceScaleFactor = 1) {
    return this.call('Emulation.setDeviceMetricsOverride', { width, height, deviceScaleFactor, mobile: false });
  }

  async run(expression) {
    const how = { expression, returnByValue: true, awaitPromise: true };
    const { result, exceptionDetails } = await this.call('Runtime.evaluate', how);
    if (exceptionDetails) throw new Error(exceptionDetails.exception?.description || exceptionDetails.text);
    return result.value;
  }

  async waitFor(expression) {
    for (let look = 0; look < 200; look++) {
      if (await this.run(expression)) return;
      await sleep(50);
    }
    throw new Error(`waited for ${expression}: ${this.errors()}`);
  }

  async key(key) {
    const text = key === 'Enter' ? '\r' : key.length === 1 ? key : undefined;
    const windowsVirtualKeyCode = { Tab: 9, Enter: 13 }[key];
    await this.call('Input.dispatchKeyEvent', { type: 'keyDown', key, text, windowsVirtualKeyCode });
    await this.call('Input.dispatchKeyEvent', { type: 'keyUp', key });
  }

  async click(x, y) {
    for (const type of ['mousePressed', 'mouseReleased']) {
      await this.call('Input.dispatchMouseEvent', { type, x, y, button: 'left', clickCount: 1 });
    }
  }

  move(x, y) {
    return this.call('Input.dispatchMouseEvent', { type: 'mouseMoved', x, y });
  }

  // what the console got, and what was thrown
  errors() {
    const isOurs = ({ sessionId, method, params }) =>
      sessionId === this.sessionId && ERRORS.includes(method) && params.type !== 'debug';
    return this.browser.events.filter(isOurs).map(({ params }) => JSON.stringify(params).slice(0, 400));
  }

  // the window as it is painted, as PNG in base64
  async picture() {
    return (await this.call('Page.captureScreenshot', { format: 'png' })).data;
  }

  async shot(file) {
    writeFileSync(file, Buffer.from(await this.picture(), 'base64'));
  }

  // seconds of processor time that the page's thread took so far
  async seconds() {
    const { metrics } = await this.call('Performance.getMetrics');
    return metrics.find(({ name }) => name === 'TaskDuration').value;
  }

  async pdf(file) {
    const { data } = await this.call('Page.printToPDF', { printBackground: true, landscape: true });
    writeFileSync(file, Buffer.from(data, 'base64'));
  }

  close() {
    return this.browser.call('Target.closeTarget', { targetId: this.targetId });
  }
}
