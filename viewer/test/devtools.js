//! A headless chromium, driven over its DevTools protocol through a pipe.

'use strict';

const {spawn, spawnSync} = require('node:child_process');
const fs = require('node:fs');
const os = require('node:os');
const path = require('node:path');

const PATIENCE = 60000;

/** @returns {string | undefined} the browser's name, where one is installed */
function findBrowser() {
  const names = [process.env.CHROMIUM, 'chromium', 'chromium-browser', 'google-chrome'];
  return names.find((name) => name && spawnSync(name, ['--version']).status === 0);
}

/** A page of a browser that was started for it. */
class Page {
  /** @param {string} browser @returns {Promise<Page>} */
  static async start(browser) {
    const page = new Page();
    page.folder = fs.mkdtempSync(path.join(os.tmpdir(), 'viewer-'));
    const options = ['--headless=new', '--no-sandbox', '--disable-gpu', '--remote-debugging-pipe',
      '--no-first-run', '--disable-dev-shm-usage', '--hide-scrollbars',
      `--user-data-dir=${page.folder}`, 'about:blank'];
    const stdio = ['ignore', 'ignore', 'ignore', 'pipe', 'pipe'];
    page.process = spawn(browser, options, {stdio});
    page.number = 0;
    page.waiting = new Map();
    page.faults = [];
    page.listen(page.process.stdio[4]);
    const {targetInfos} = await page.call('Target.getTargets');
    const {targetId} = targetInfos.find(({type}) => type === 'page');
    const {sessionId} = await page.call('Target.attachToTarget', {targetId, flatten: true});
    page.sessionId = sessionId;
    const parts = ['Page', 'Runtime', 'DOM', 'Network'];
    await Promise.all(parts.map((name) => page.call(`${name}.enable`)));
    return page;
  }

  listen(stream) {
    let rest = Buffer.alloc(0);
    stream.on('data', (piece) => {
      rest = Buffer.concat([rest, piece]);
      for (let end = rest.indexOf(0); end >= 0; end = rest.indexOf(0)) {
        this.hear(JSON.parse(rest.subarray(0, end).toString('utf8')));
        rest = rest.subarray(end + 1);
      }
    });
  }

  hear({id, result, error, method, params}) {
    if (method === 'Runtime.exceptionThrown') this.faults.push(params.exceptionDetails);
    if (method === 'Network.requestWillBeSent') (this.requests ??= []).push(params.request.url);
    const waiting = this.waiting.get(id);
    if (!waiting) return;
    this.waiting.delete(id);
    clearTimeout(waiting.timer);
    if (error) waiting.reject(new Error(`${waiting.method}: ${error.message}`));
    else waiting.resolve(result);
  }

  /** @param {string} method @param {object} [params] @returns {Promise<any>} */
  call(method, params = {}) {
    this.number += 1;
    const id = this.number;
    const message = JSON.stringify({id, method, params, sessionId: this.sessionId});
    return new Promise((resolve, reject) => {
      const late = () => reject(new Error(`${method}: no answer`));
      const timer = setTimeout(late, PATIENCE);
      this.waiting.set(id, {method, resolve, reject, timer});
      this.process.stdio[3].write(message + '\0');
    });
  }

  /** The value of an expression in the page. @param {string} expression */
  async value(expression) {
    const asked = {expression, awaitPromise: true, returnByValue: true, userGesture: true};
    const {result, exceptionDetails} = await this.call('Runtime.evaluate', asked);
    if (exceptionDetails) {
      throw new Error(exceptionDetails.exception?.description ?? exceptionDetails.text);
    }
    return result.value;
  }

  /** Waits until an expression holds. @param {string} expression */
  async until(expression) {
    const end = Date.now() + PATIENCE;
    while (!(await this.value(expression))) {
      if (Date.now() > end) throw new Error(`it never came true: ${expression}`);
      await new Promise((resolve) => setTimeout(resolve, 25));
    }
  }

  /** @param {string} url */
  async go(url) {
    await this.call('Page.navigate', {url});
    await this.until('document.readyState === "complete" && !!globalThis.geostation?.app');
  }

  /** Chooses a file, as the page's button does. @param {string} file */
  async choose(file) {
    const {root} = await this.call('DOM.getDocument');
    const {nodeId} = await this.call('DOM.querySelector', {nodeId: root.nodeId, selector: '#file'});
    await this.call('DOM.setFileInputFiles', {nodeId, files: [file]});
  }

  /** Presses a key. @param {string} key */
  async press(key, modifiers = 0, more = {}) {
    const {text, ...both} = {key, modifiers, ...(key === ' ' ? {text: ' '} : {}), ...more};
    await this.call('Input.dispatchKeyEvent', {type: 'keyDown', text, ...both});
    await this.call('Input.dispatchKeyEvent', {type: 'keyUp', ...both});
  }

  /** Clicks at the middle of an element. @param {string} selector */
  async click(selector) {
    const {x, y} = await this.value(`(() => {
      const element = document.querySelector(${JSON.stringify(selector)});
      element.scrollIntoView({block: 'nearest'});
      const box = element.getBoundingClientRect();
      return {x: box.x + box.width / 2, y: box.y + box.height / 2};
    })()`);
    await this.clickAt(x, y);
  }

  async clickAt(x, y) {
    for (const type of ['mousePressed', 'mouseReleased']) {
      const button = {type, x, y, button: 'left', clickCount: 1};
      await this.call('Input.dispatchMouseEvent', button);
    }
  }

  /** Sets the window's size and whether it is dark. */
  async look(width, height, isDark, scale = 1) {
    const size = {width, height, deviceScaleFactor: scale, mobile: width < 600};
    await this.call('Emulation.setDeviceMetricsOverride', size);
    const features = [{name: 'prefers-color-scheme', value: isDark ? 'dark' : 'light'}];
    await this.call('Emulation.setEmulatedMedia', {features});
  }

  /** Writes what is seen. @param {string} file */
  async picture(file) {
    await new Promise((resolve) => setTimeout(resolve, 300));
    const {data} = await this.call('Page.captureScreenshot', {format: 'png'});
    fs.writeFileSync(file, Buffer.from(data, 'base64'));
  }

  async end() {
    const gone = new Promise((resolve) => this.process.once('exit', resolve));
    await this.call('Browser.close').catch(() => this.process.kill());
    await gone;
    fs.rmSync(this.folder, {recursive: true, force: true, maxRetries: 5});
  }
}

module.exports = {Page, findBrowser};
