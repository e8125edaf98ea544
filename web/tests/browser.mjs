// Headless Chromium, driven over its debugging pipe with node's own modules alone.
import { spawn } from 'node:child_process';
import { mkdtempSync, rmSync, writeFileSync } from 'node:fs';
import { tmpdir } from 'node:os';
import { join } from 'node:path';

const FLAGS = ['--headless', '--no-sandbox', '--disable-gpu', '--hide-scrollbars', '--no-first-run', '--disable-dev-shm-usage', '--disable-extensions',
  '--disable-background-networking', '--disable-component-update', '--disable-sync', '--mute-audio', '--remote-debugging-pipe'];

// keys by their names, with the number that the browser knows them by and the text that they write
const KEYS = { Tab: [9, ''], Enter: [13, '\r'], Escape: [27, ''], ' ': [32, ' '], End: [35, ''], Home: [36, ''], ArrowLeft: [37, ''], ArrowUp: [38, ''],
  ArrowRight: [39, ''], ArrowDown: [40, ''] };

export class Browser {
  constructor(program) {
    this.folder = mkdtempSync(join(tmpdir(), 'crew-page-'));
    this.process = spawn(program, [...FLAGS, `--user-data-dir=${this.folder}`, 'about:blank'], { stdio: ['ignore', 'ignore', 'ignore', 'pipe', 'pipe'] });
    Object.assign(this, { last: 0, waiting: new Map(), listeners: [], rest: '' });
    this.process.stdio[4].setEncoding('utf8');
    this.process.stdio[4].on('data', (data) => this.hear(data));
    this.process.on('exit', () => this.waiting.forEach(([, reject]) => reject(new Error('the browser has ended'))));
  }

  hear(data) {
    const parts = (this.rest + data).split('\0');
    this.rest = parts.pop();
    for (const part of parts) {
      const { id, result, error, method, params, sessionId } = JSON.parse(part);
      if (id === undefined) [...this.listeners].forEach((listener) => listener(method, params, sessionId));
      else {
        const [resolve, reject] = this.waiting.get(id);
        this.waiting.delete(id);
        if (error) reject(new Error(`${error.message} ${error.data ?? ''}`));
        else resolve(result);
      }
    }
  }

  send(method, params = {}, sessionId = undefined) {
    const id = ++this.last;
    this.process.stdio[3].write(`${JSON.stringify({ id, method, params, sessionId })}\0`);
    return new Promise((resolve, reject) => this.waiting.set(id, [resolve, reject]));
  }

  // Waits for an event.
  next(wanted) {
    return new Promise((resolve) => {
      const listener = (method, params) => {
        if (!wanted(method, params)) return;
        this.listeners.splice(this.listeners.indexOf(listener), 1);
        resolve(params);
      };
      this.listeners.push(listener);
    });
  }

  async open(url, width, height) {
    const { targetId } = await this.send('Target.createTarget', { url: 'about:blank' });
    const { sessionId } = await this.send('Target.attachToTarget', { targetId, flatten: true });
    const tab = new Tab(this, sessionId, targetId);
    for (const domain of ['Page', 'Runtime', 'Network', 'DOM', 'Log']) await tab.send(`${domain}.enable`);
    await tab.size(width, height);
    await tab.go(url);
    return tab;
  }

  async close() {
    await this.send('Browser.close').catch(() => {});
    await new Promise((resolve) => (this.process.exitCode === null ? this.process.on('exit', resolve) : resolve()));
    rmSync(this.folder, { recursive: true, force: true, maxRetries: 5 });
  }
}

export class Tab {
  constructor(browser, session, target) {
    Object.assign(this, { browser, session, target, requests: [], errors: [], events: [] });
    browser.listeners.push((method, params, sessionId) => {
      if (sessionId !== session) return;
      this.events.push(method);
      if (method === 'Network.requestWillBeSent') this.requests.push(params.request.url);
      if (method === 'Runtime.exceptionThrown') this.errors.push(params.exceptionDetails.exception?.description ?? params.exceptionDetails.text);
      if (method === 'Log.entryAdded' && params.entry.level === 'error') this.errors.push(params.entry.text);
    });
  }

  send(method, params) {
    return this.browser.send(method, params, this.session);
  }

  size(width, height) {
    return this.send('Emulation.setDeviceMetricsOverride', { width, height, deviceScaleFactor: 1, mobile: false });
  }

  // Goes to a page and waits until it says that it is ready.
  async go(url) {
    await this.send('Page.navigate', { url });
    await this.until(`location.href === ${JSON.stringify(url)} && document.documentElement.dataset.ready === 'yes'`);
  }

  async reload() {
    await this.ask("document.documentElement.dataset.ready = 'no'");
    await this.send('Page.reload');
    await this.until("document.documentElement.dataset.ready === 'yes'");
  }

  // What an expression gives in the page. A function is called there, with these values.
  async ask(what, ...values) {
    const expression = typeof what === 'function' ? `(${what})(${values.map((value) => JSON.stringify(value)).join(', ')})` : what;
    const { result, exceptionDetails } = await this.send('Runtime.evaluate', { expression, awaitPromise: true, returnByValue: true });
    if (exceptionDetails) throw new Error(`in the page: ${exceptionDetails.exception?.description ?? exceptionDetails.text}`);
    return result.value;
  }

  async until(expression, tries = 400) {
    for (let left = tries; left > 0; left--) {
      if (await this.ask(expression).catch(() => false)) return;
      await new Promise((resolve) => setTimeout(resolve, 25));
    }
    throw new Error(`this did not come true: ${expression}`);
  }

  // Taps an element: it must be there, and in sight once it is scrolled to, with nothing over it.
  click(selector) {
    return this.ask((wanted) => {
      const element = document.querySelector(wanted);
      if (!element) throw new Error(`there is no ${wanted}`);
      if (element.disabled) throw new Error(`${wanted} is disabled`);
      element.scrollIntoView({ block: 'center' });
      const { left, top, width, height } = element.getBoundingClientRect();
      const hit = document.elementFromPoint(left + width / 2, top + height / 2);
      if (!element.contains(hit)) throw new Error(`over ${wanted} lies ${hit?.outerHTML.slice(0, 60)}`);
      element.dispatchEvent(new MouseEvent('click', { bubbles: true, cancelable: true }));
    }, selector);
  }

  // Chooses an option as a user does.
  choose(selector, value) {
    return this.ask((wanted, chosen) => {
      const element = document.querySelector(wanted);
      element.value = chosen;
      element.dispatchEvent(new Event('change', { bubbles: true }));
    }, selector, value);
  }

  write(selector, text) {
    return this.ask((wanted, written) => {
      const element = document.querySelector(wanted);
      element.value = written;
      element.dispatchEvent(new Event('input', { bubbles: true }));
    }, selector, text);
  }

  // Presses a key; `modifiers` 8 is the Shift key.
  async key(name, times = 1, modifiers = 0) {
    const [code, text] = KEYS[name] ?? [name.toUpperCase().charCodeAt(0), name];
    for (let left = times; left > 0; left--) {
      const params = { key: name, code: name, windowsVirtualKeyCode: code, text: text || undefined, modifiers };
      const commands = modifiers === 2 && name === 'a' ? ['selectAll'] : undefined;
      await this.send('Input.dispatchKeyEvent', { type: text ? 'keyDown' : 'rawKeyDown', commands, ...params });
      await this.send('Input.dispatchKeyEvent', { type: 'keyUp', ...params });
    }
  }

  async type(text) {
    await this.send('Input.insertText', { text });
  }

  // Gives a file to the page's file input, as the chooser does: how many milliseconds later the answer was there, and all of it drawn.
  async give(path) {
    const { root } = await this.send('DOM.getDocument');
    const { nodeId } = await this.send('DOM.querySelector', { nodeId: root.nodeId, selector: '#file' });
    await this.ask("performance.clearMeasures(); document.querySelector('#file').value = ''");
    await this.send('DOM.setFileInputFiles', { nodeId, files: [path] });
    await this.until("performance.getEntriesByName('drawn').length > 0");
    return this.ask("['answered', 'drawn'].map((name) => performance.getEntriesByName(name)[0].duration)");
  }

  async shot(path, full = false) {
    const { data } = await this.send('Page.captureScreenshot', { format: 'png', captureBeyondViewport: full });
    writeFileSync(path, Buffer.from(data, 'base64'));
  }

  async pdf(path) {
    const { data } = await this.send('Page.printToPDF', { printBackground: true, paperWidth: 8.27, paperHeight: 11.69 });
    const bytes = Buffer.from(data, 'base64');
    if (path) writeFileSync(path, bytes);
    return bytes;
  }
}
