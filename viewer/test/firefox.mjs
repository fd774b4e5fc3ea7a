// A headless Firefox, driven by Marionette over a local port: no package is needed.
import { spawn } from 'node:child_process';
import { mkdtempSync, readFileSync, rmSync, writeFileSync } from 'node:fs';
import { connect } from 'node:net';
import { tmpdir } from 'node:os';
import { join } from 'node:path';
import { sleep } from './chromium.mjs';

export class Firefox {
  constructor() {
    this.profile = mkdtempSync(join(tmpdir(), 'heap-page-'));
    writeFileSync(join(this.profile, 'user.js'), 'user_pref("marionette.port", 0);\n');
    const flags = ['--headless', '--marionette', '--no-remote', '--profile', this.profile, 'about:blank'];
    const env = { ...process.env, HOME: this.profile };
    this.browser = spawn(process.env.FIREFOX || 'firefox-esr', flags, { stdio: 'ignore', env });
    this.ended = new Promise((resolve) => this.browser.on('exit', resolve));
    process.once('exit', () => this.browser.kill());
    this.serial = 0;
    this.rest = Buffer.alloc(0);
    this.waiting = new Map();
  }

  // Firefox writes the port that it chose into its profile.
  async connect() {
    const port = await this.findPort();
    this.socket = connect(port, '127.0.0.1');
    this.socket.on('data', (data) => this.receive(data));
    await this.call('WebDriver:NewSession', {});
    return this;
  }

  async findPort() {
    for (let look = 0; look < 300; look++) {
      try {
        const port = Number(readFileSync(join(this.profile, 'MarionetteActivePort'), 'utf8'));
        if (port) return port;
      } catch {
        // not written yet
      }
      await sleep(100);
    }
    throw new Error('Firefox opened no port');
  }

  // A message is its length, a colon, and a list in JSON; the first is a greeting.
  receive(data) {
    this.rest = Buffer.concat([this.rest, data]);
    for (;;) {
      const colon = this.rest.indexOf(':');
      const length = Number(this.rest.subarray(0, Math.max(0, colon)));
      if (colon < 0 || this.rest.length < colon + 1 + length) return;
      const message = JSON.parse(this.rest.subarray(colon + 1, colon + 1 + length));
      this.rest = this.rest.subarray(colon + 1 + length);
      if (Array.isArray(message)) this.answer(message);
    }
  }

  answer([, id, error, result]) {
    const { resolve, reject } = this.waiting.get(id);
    this.waiting.delete(id);
    if (error) reject(new Error(error.message));
    else resolve(result);
  }

  call(command, params) {
    const id = ++this.serial;
    const text = JSON.stringify([0, id, command, params]);
    this.socket.write(`${Buffer.byteLength(text)}:${text}`);
    return new Promise((resolve, reject) => this.waiting.set(id, { resolve, reject }));
  }

  async open(url) {
    await this.call('WebDriver:SetWindowRect', { width: 1400, height: 980 });
    await this.call('WebDriver:Navigate', { url });
    for (let look = 0; !(await this.run('typeof viewer === "object"')); look++) {
      if (look > 200) throw new Error('the page has no viewer');
      await sleep(50);
    }
    return this;
  }

  async run(expression) {
    const script = 'return window.eval(arguments[0])';
    const { value } = await this.call('WebDriver:ExecuteScript', { script, args: [expression] });
    return value;
  }

  async shot(file) {
    const { value } = await this.call('WebDriver:TakeScreenshot', { full: false });
    writeFileSync(file, Buffer.from(value, 'base64'));
  }

  async close() {
    this.socket?.destroy();
    this.browser.kill();
    await this.ended;
    rmSync(this.profile, { recursive: true, force: true, maxRetries: 5 });
  }
}
