// Drives a headless Chromium over its DevTools pipe, for the page's tests: no library, no port. Assumes a Chromium on the path.
import { spawn, spawnSync } from 'node:child_process';
import { mkdtempSync, rmSync, writeFileSync } from 'node:fs';
import { tmpdir } from 'node:os';
import path from 'node:path';

const NAMES = ['chromium-headless-shell', 'chromium', 'google-chrome'];

/** Starts a browser. */
export function openBrowser() {
    const program = NAMES.find((name) => spawnSync(name, ['--version']).status === 0);
    if (program === undefined) throw new Error(`no Chromium here: none of ${NAMES.join(', ')} starts`);
    const folder = mkdtempSync(path.join(tmpdir(), 'nosingginger-page-'));
    const child = spawn(program, ['--headless', '--no-sandbox', '--disable-gpu', '--hide-scrollbars', '--no-first-run',
        '--disable-background-networking', '--force-color-profile=srgb', '--remote-debugging-pipe', `--user-data-dir=${folder}`],
    { stdio: ['ignore', 'ignore', 'ignore', 'pipe', 'pipe'] });
    return new Browser(child, folder);
}

class Browser {
    #child;
    #folder;
    #waiting = new Map();
    #listeners = new Set();
    #last = 0;

    constructor(child, folder) {
        this.#child = child;
        this.#folder = folder;
        let read = Buffer.alloc(0);
        child.stdio[4].on('data', (part) => {
            read = Buffer.concat([read, part]);
            for (let end = read.indexOf(0); end >= 0; end = read.indexOf(0)) {
                this.#take(JSON.parse(read.toString('utf8', 0, end)));
                read = read.subarray(end + 1);
            }
        });
        child.on('exit', () => {
            for (const { reject } of this.#waiting.values()) reject(new Error('Chromium ended'));
        });
    }

    #take(message) {
        if (message.id === undefined) {
            for (const listener of this.#listeners) listener(message);
            return;
        }
        const { resolve, reject, method } = this.#waiting.get(message.id);
        this.#waiting.delete(message.id);
        if (message.error) reject(new Error(`${method}: ${message.error.message}`));
        else resolve(message.result);
    }

    send(method, params = {}, sessionId = undefined) {
        this.#last += 1;
        const id = this.#last;
        return new Promise((resolve, reject) => {
            this.#waiting.set(id, { resolve, reject, method });
            this.#child.stdio[3].write(`${JSON.stringify({ id, method, params, sessionId })}\0`);
        });
    }

    listen(listener) {
        this.#listeners.add(listener);
    }

    /** Opens a place in a new window of a size, light or dark, and waits until its scripts have run. */
    async open(place, { width = 1200, height = 900, phone = false, scheme = 'light' } = {}) {
        const { targetId } = await this.send('Target.createTarget', { url: 'about:blank' });
        const { sessionId } = await this.send('Target.attachToTarget', { targetId, flatten: true });
        const page = new Page(this, sessionId, targetId);
        await Promise.all(['Page', 'Runtime', 'Log', 'DOM', 'Accessibility', 'Network'].map((domain) => page.send(`${domain}.enable`)));
        await page.send('Emulation.setDeviceMetricsOverride', { width, height, deviceScaleFactor: phone ? 2 : 1, mobile: phone });
        await page.send('Emulation.setEmulatedMedia', { features: [{ name: 'prefers-color-scheme', value: scheme }] });
        await page.go(place);
        return page;
    }

    /** Where files go that a page saves. */
    saveTo(folder) {
        return this.send('Browser.setDownloadBehavior', { behavior: 'allow', downloadPath: folder });
    }

    async close() {
        const ended = new Promise((resolve) => this.#child.on('exit', resolve));
        await this.send('Browser.close').catch(() => {});
        await ended;
        rmSync(this.#folder, { recursive: true, force: true, maxRetries: 5 });
    }
}

function wordsOf({ exception, text }) {
    return exception?.description ?? text;
}

class Page {
    #browser;
    #session;
    #target;
    #loaded = [];

    /** Whatever the page's scripts threw or the browser complained of. */
    complaints = [];

    /** Where the page asked for something. */
    requests = [];

    constructor(browser, session, target) {
        this.#browser = browser;
        this.#session = session;
        this.#target = target;
        browser.listen(({ method, params, sessionId }) => {
            if (sessionId !== session) return;
            if (method === 'Page.loadEventFired') this.#loaded.splice(0).forEach((resolve) => resolve());
            if (method === 'Runtime.exceptionThrown') this.complaints.push(wordsOf(params.exceptionDetails));
            if (method === 'Log.entryAdded' && params.entry.level === 'error') this.complaints.push(params.entry.text);
            if (method === 'Network.requestWillBeSent') this.requests.push(params.request.url);
        });
    }

    send(method, params) {
        return this.#browser.send(method, params, this.#session);
    }

    async go(place) {
        const loaded = new Promise((resolve) => { this.#loaded.push(resolve); });
        await this.send('Page.navigate', { url: String(place) });
        await loaded;
    }

    /** Runs a function in the page; arguments and answer are JSON. */
    async run(work, ...given) {
        const expression = `(${work})(...${JSON.stringify(given)})`;
        const { result, exceptionDetails } = await this.send('Runtime.evaluate', { expression, awaitPromise: true, returnByValue: true });
        if (exceptionDetails) throw new Error(wordsOf(exceptionDetails));
        return result.value;
    }

    /** Waits until a function in the page answers something true. */
    async until(work, ...given) {
        for (let times = 0; times < 1000; times += 1) {
            if (await this.run(work, ...given)) return;
            await new Promise((resolve) => { setTimeout(resolve, 25); });
        }
        throw new Error(`never true in the page: ${work}`);
    }

    text(selector) {
        return this.run((name) => document.querySelector(name).textContent, selector);
    }

    /** Clicks in the middle of an element, as a mouse does. */
    async click(selector) {
        const [x, y] = await this.run((name) => {
            const found = document.querySelector(name);
            found.scrollIntoView({ block: 'center' });
            const { left, top, width, height } = found.getBoundingClientRect();
            return [left + width / 2, top + height / 2];
        }, selector);
        for (const type of ['mousePressed', 'mouseReleased']) {
            await this.send('Input.dispatchMouseEvent', { type, x, y, button: 'left', clickCount: 1 });
        }
    }

    /** Presses a key, as 'Tab' or 'ArrowDown'; editing commands as 'paste' go with it. */
    async press(key, { shift = false, commands = [] } = {}) {
        const codes = { Tab: 9, Enter: 13, ' ': 32, PageUp: 33, PageDown: 34, End: 35, Home: 36, ArrowLeft: 37, ArrowUp: 38, ArrowRight: 39,
            ArrowDown: 40 };
        const text = { Enter: '\r', ' ': ' ' }[key];
        const common = { key, code: key === ' ' ? 'Space' : key, windowsVirtualKeyCode: codes[key] ?? 0, modifiers: shift ? 8 : 0, commands };
        await this.send('Input.dispatchKeyEvent', { type: text === undefined ? 'rawKeyDown' : 'keyDown', text, ...common });
        await this.send('Input.dispatchKeyEvent', { type: 'keyUp', ...common, commands: [] });
    }

    async type(selector, text) {
        await this.run((name) => document.querySelector(name).focus(), selector);
        await this.send('Input.insertText', { text });
    }

    async giveFiles(selector, files) {
        const { root } = await this.send('DOM.getDocument');
        const { nodeId } = await this.send('DOM.querySelector', { nodeId: root.nodeId, selector });
        await this.send('DOM.setFileInputFiles', { nodeId, files });
    }

    /** The accessibility tree's nodes that are not ignored, as role, name and properties. */
    async accessible() {
        const { nodes } = await this.send('Accessibility.getFullAXTree');
        return nodes.filter(({ ignored }) => !ignored).map(({ role, name, properties = [] }) => ({
            role: role.value, name: name?.value ?? '', ...Object.fromEntries(properties.map((property) => [property.name, property.value.value])),
        }));
    }

    /** Waits until nothing moves. */
    settled() {
        return this.run(() => Promise.all(document.getAnimations().map((animation) => animation.finished)).then(() => null));
    }

    /** Writes a picture of the part of the page that an element takes, or of the window where none is named. */
    async screenshot(file, selector = 'html') {
        const clip = await this.run((name) => {
            if (name === null) return { x: scrollX, y: scrollY, width: innerWidth, height: innerHeight, scale: 1 };
            const { left, top, width, height } = document.querySelector(name).getBoundingClientRect();
            return { x: left + scrollX, y: top + scrollY, width, height, scale: 1 };
        }, selector);
        const { data } = await this.send('Page.captureScreenshot', { captureBeyondViewport: true, clip });
        writeFileSync(file, Buffer.from(data, 'base64'));
    }

    close() {
        return this.#browser.send('Target.closeTarget', { targetId: this.#target });
    }
}
