// Tests of the package as an app has it: what may be imported, the declared types' names, what README.md shows, and what `load` takes, in node
// and in a headless Chromium. Assumes a Chromium on the path.
import assert from 'node:assert/strict';
import { execFile } from 'node:child_process';
import { cpSync, mkdirSync, mkdtempSync, readFileSync, rmSync, writeFileSync } from 'node:fs';
import { createServer } from 'node:http';
import { tmpdir } from 'node:os';
import path from 'node:path';
import { after, test } from 'node:test';
import { pathToFileURL } from 'node:url';
import { promisify } from 'node:util';
import { openBrowser } from './chromium.mjs';
import * as draw from './draw.mjs';
import { pageOf } from './expected.mjs';
import * as operations from './nosingginger.mjs';

const { load, Refused, REFUSALS } = operations;
const here = (name) => new URL(name, import.meta.url);
const text = (name) => readFileSync(here(name), 'utf8');
const description = JSON.parse(text('package.json'));
const moduleBytes = readFileSync(here('nosingginger.wasm'));

// An app's folder with the package's files in it, and none but those.
const app = mkdtempSync(path.join(tmpdir(), 'nosingginger-app-'));
const installed = path.join(app, 'node_modules/nosingginger');
mkdirSync(installed, { recursive: true });
for (const name of ['package.json', ...description.files]) cpSync(here(name), path.join(installed, name));
after(() => rmSync(app, { recursive: true, force: true }));

// Node 18 has the system's random source only where it is asked for; later ones have it always.
const withRandomSource = globalThis.crypto ? [] : ['--experimental-global-webcrypto'];

/** Writes a program into the app's folder and runs it, from another folder; answers what it prints. */
async function runInApp(name, program) {
    writeFileSync(path.join(app, name), program);
    return (await promisify(execFile)(process.execPath, [...withRandomSource, path.join(app, name)], { cwd: '/' })).stdout;
}

/** The example of README.md under a heading, which is its language, and its name where there are several. */
function shown(heading) {
    return new RegExp(`^\`\`\`${heading}\\n(.*?)^\`\`\`$`, 'ms').exec(text('README.md'))[1];
}

/** It is Nosingginger: sensor 8 lies under square 15. */
async function isLoaded(promise) {
    assert.equal((await promise).sensorPosition(8), 15);
}

/** The declared classes: the name, and what stands between the braces. */
const CLASSES = [...text('nosingginger.d.ts').matchAll(/^export class (\w+) \{\n(.*?)^\}$/gms)].map(([, name, body]) => [name, body]);

test('the declarations name the exports and what the classes have, and no others', () => {
    for (const [name, module] of [['nosingginger.d.ts', operations], ['draw.d.ts', draw]]) {
        const declared = [...text(name).matchAll(/^export (?:class|function|const) (\w+)/gm)].map(([, exported]) => exported);
        assert.deepEqual(declared.sort(), Object.keys(module).sort());
    }
    assert.deepEqual(CLASSES.map(([name]) => name), ['Nosingginger', 'Tally']);
    const everyClassHas = ['length', 'name', 'prototype'];
    for (const [name, body] of CLASSES) {
        const named = (pattern) => [...body.matchAll(pattern)].map(([, member]) => member).sort();
        assert.deepEqual(named(/^ {4}(?:readonly )?(\w+)[(:]/gm), Object.getOwnPropertyNames(operations[name].prototype).sort());
        assert.deepEqual([...everyClassHas, ...named(/^ {4}static (\w+)\(/gm)].sort(), Object.getOwnPropertyNames(operations[name]).sort());
    }
});

test('a refusal has the fields that are declared, and a place where one is', () => {
    const fields = (name) => {
        const [, body] = new RegExp(`^export interface ${name}\\b[^{]*\\{\\n(.*?)^\\}$`, 'ms').exec(text('nosingginger.d.ts'));
        return [...body.matchAll(/^ {4}readonly (\w+)\??:/gm)].map(([, field]) => field);
    };
    assert.deepEqual(fields('Refusal'), Object.keys(REFUSALS[0]));
    assert.deepEqual(fields('RefusedFor'), Object.keys(new Refused(1)));
    assert.deepEqual([...fields('RefusedFor'), ...fields('ColumnPlace')], Object.keys(new Refused(18, { gridRow: 3, column: 5 })));
    assert.deepEqual(fields('RefusedElse'), fields('ColumnPlace'));
    assert.deepEqual(Object.getOwnPropertyNames(Refused.prototype), ['constructor']);
    assert.equal(new Refused(19, { gridRow: 3, column: 5 }).message,
        "refused 19: an array's column has the wrong parity for its grid row (grid row 3, column 5)");
});

test('a call has as many parameters as are declared', () => {
    const calls = CLASSES.flatMap(([name, body]) =>
        [...body.matchAll(/^ {4}(static )?(\w+)\((.*)\)(?:: .*)?;$/gm)].map(([, isStatic, method, parameters]) => {
            const owner = operations[name];
            return [method, method === 'constructor' ? owner : (isStatic ? owner : owner.prototype)[method], parameters];
        }));
    assert.equal(calls.length, (1 + 17) + (1 + 4));
    const ofOneClass = Object.getOwnPropertyNames(operations.Nosingginger.prototype).filter((name) => name !== 'constructor');
    assert.equal(ofOneClass.filter((name) => !name.startsWith('tally')).length, 13);
    for (const [method, call, parameters] of calls) {
        const many = parameters.replace(/\{.*?\}/g, '').split(',').filter((parameter) => parameter !== '').length;
        assert.equal(call.length, many, method);
    }
});

test('the package has no dependencies, and an app imports what is exported and nothing else', async () => {
    assert.deepEqual(Object.keys(description).filter((name) => /dependencies|scripts/i.test(name)), []);
    const program = `
        import { createRequire } from 'node:module';
        import { load } from 'nosingginger';
        import * as draw from 'nosingginger/draw';
        const place = createRequire(import.meta.url).resolve('nosingginger/nosingginger.wasm');
        console.log((await load()).sensorPosition(8), (await load(place)).sensorPosition(8), Object.keys(draw).sort().join());
        for (const name of ['nosingginger.mjs', 'example.mjs', 'build']) {
            await import('nosingginger/' + name).catch(({ code }) => console.log(code));
        }
    `;
    const refusal = 'ERR_PACKAGE_PATH_NOT_EXPORTED\n';
    assert.equal(await runInApp('imports.mjs', program), `15 15 ${Object.keys(draw).sort().join()}\n${refusal}${refusal}${refusal}`);
});

test('README.md\u2019s program runs in an app', async () => {
    const written = await runInApp('app.mjs', shown('js'));
    assert.match(written, /^player 0 sees noise: Uint8Array\(72\)/);
    assert.match(written, /^both together see the piece: Uint8Array\(72\)/m);
    const [, promised] = /\/\/ (14 .*)$/m.exec(shown('js'));
    assert.equal(written.trimEnd().split('\n').at(-1), promised);
});

test('README.md\u2019s draw of a card runs in an app', async () => {
    const program = shown('js draw');
    const [, promised] = /\/\/ (\w+)$/m.exec(program);
    assert.equal((await runInApp('draw.mjs', program)).trimEnd(), promised);
    const other = program.replace('cardDealing(board, 2)', 'cardDealing(board, 1)');
    assert.equal((await runInApp('other.mjs', other)).trimEnd(), 'owl');
});

test('README.md\u2019s board on a page runs in an app, and the piece is read back from it', async () => {
    const program = shown('js page');
    const [, count, length] = /\/\/ (\w+) lines of (\d+) characters, line feeds among them$/m.exec(program);
    assert.equal(count, 'nine');
    for (let times = 0; times < 3; times += 1) {
        const lines = (await runInApp('page.mjs', program)).split('\n');
        const [point, value] = lines[10].split(' ');
        const squares = lines.slice(0, 9).flatMap((line, place) => {
            assert.equal(line.length + 1, Number(length));
            const [first, ...eight] = line.trimStart().split(' ');
            assert.deepEqual([Number(first), eight.length], [8 * place, 8]);
            return eight;
        });
        assert.deepEqual(squares, squares.map((_, position) => (position === Number(point) ? value : '0000')));
        assert.match(value, /^(?!0000)[0-9A-F]{4}$/);
        assert.deepEqual(lines.slice(9), ['', lines[10], '']);
    }
});

test('README.md\u2019s tally runs in an app: the joined board is what five hunts hid', async () => {
    const program = shown('js tally');
    for (let times = 0; times < 3; times += 1) {
        const lines = (await runInApp('tally.mjs', program)).trimEnd().split('\n');
        const hidden = new Uint8Array(72);
        const hunts = lines.slice(0, 5).map((line) => /^hid (\d+) on square (\d+)$/.exec(line).slice(1).map(Number));
        for (const [value, square] of hunts) hidden[square] ^= value;
        const page = lines.slice(5, -1).join('\n');
        assert.equal(page, pageOf(72, 1, hidden));
        const total = hunts.reduce((sum, [value]) => sum ^ value, 0);
        assert.equal(lines.at(-1), `all values together: ${total}`);
        assert.ok(hunts.every(([value]) => value > 0));
    }
});

test('load in node: nothing, URLs, paths from the folder that the program was started in', async () => {
    const folder = path.join(app, 'deeper');
    mkdirSync(folder);
    writeFileSync(path.join(folder, 'own copy#1.wasm'), moduleBytes);
    const own = path.join(folder, 'own copy#1.wasm');
    await isLoaded(load());
    await isLoaded(load(undefined));
    await isLoaded(load(own));
    await isLoaded(load(pathToFileURL(own)));
    await isLoaded(load(pathToFileURL(own).href));
    await assert.rejects(load('nosingginger.wasm'), { code: 'ENOENT' });
    const before = process.cwd();
    process.chdir(app);
    try {
        await isLoaded(load('deeper/own copy#1.wasm'));
        await isLoaded(load('./deeper/../deeper/own copy#1.wasm'));
        await assert.rejects(load('own copy#1.wasm'), { code: 'ENOENT' });
        process.chdir(folder);
        await isLoaded(load('own copy#1.wasm'));
        await isLoaded(load());
    } finally {
        process.chdir(before);
    }
    await assert.rejects(load(here('package.json')), WebAssembly.CompileError);
    await assert.rejects(load(''), { code: 'ENOENT' });
    for (const other of [null, 5, [0, 0x61, 0x73, 0x6D], {}]) await assert.rejects(load(other), TypeError);
});

// A server with the app's page, the package, the module near every page and worker, and a record of what was asked for.
const asked = [];
const PAGES = {
    '/index.html': shown('html'),
    '/pages/plain.html': '<!doctype html><title>plain</title>',
    '/pages/based.html': '<!doctype html><title>based</title><base href="/elsewhere/">',
    '/workers/worker.mjs': `
        import { load } from '/node_modules/nosingginger/nosingginger.mjs';
        onmessage = async ({ data }) => postMessage((await load(...data)).sensorPosition(8));
    `,
};
const TYPES = { '.html': 'text/html', '.mjs': 'text/javascript', '.wasm': 'application/octet-stream' };
const server = createServer((request, response) => {
    const place = new URL(request.url, 'http://app').pathname;
    const packaged = /^\/node_modules\/nosingginger\/([\w.-]+)$/.exec(place)?.[1];
    asked.push(place);
    const body = place.endsWith('/near.wasm') ? moduleBytes : packaged ? readFileSync(path.join(installed, packaged)) : PAGES[place];
    response.writeHead(body ? 200 : 404, { 'content-type': TYPES[path.extname(place)] ?? 'text/plain' });
    response.end(body);
});
await new Promise((resolve) => { server.listen(0, '127.0.0.1', resolve); });
const origin = `http://127.0.0.1:${server.address().port}`;
const browser = openBrowser();
after(async () => {
    await browser.close();
    server.closeAllConnections();
    server.close();
});

/** Loads in a page, and answers what sensor 8 lies under, or the error's words, and where the module was asked for. */
async function loadedAt(page, ...source) {
    asked.length = 0;
    const answer = await page.run(async (given) => {
        const { load: loadHere } = await import('/node_modules/nosingginger/nosingginger.mjs');
        return loadHere(...given).then((made) => made.sensorPosition(8), (error) => error.message);
    }, source);
    return [answer, ...asked.filter((place) => place.endsWith('.wasm'))];
}

test('load in node from a server', async () => {
    await isLoaded(load(`${origin}/near.wasm`));
    await isLoaded(load(new URL('near.wasm', origin)));
    await assert.rejects(load(`${origin}/none.wasm`), { message: `no WebAssembly module at ${origin}/none.wasm: 404` });
});

test('README.md\u2019s page says a key\u2019s length', { timeout: 60000 }, async () => {
    asked.length = 0;
    const page = await browser.open(`${origin}/index.html`);
    await page.until(() => document.querySelector('#said').textContent !== '');
    assert.equal(await page.text('#said'), 'A key of this board has 551 bytes.');
    // The one thing that is not there is the picture that a browser asks every server for.
    assert.deepEqual(asked.filter((place) => !PAGES[place] && !place.startsWith('/node_modules/') && place !== '/favicon.ico'), []);
    await page.close();
});

test('load in a browser: nothing, URLs, strings from the page\u2019s base address', { timeout: 60000 }, async () => {
    const beside = '/node_modules/nosingginger/nosingginger.wasm';
    const plain = await browser.open(`${origin}/pages/plain.html`);
    assert.deepEqual(await loadedAt(plain), [15, beside]);
    assert.deepEqual(await loadedAt(plain, 'near.wasm'), [15, '/pages/near.wasm']);
    assert.deepEqual(await loadedAt(plain, '../near.wasm'), [15, '/near.wasm']);
    assert.deepEqual(await loadedAt(plain, `${origin}/far/near.wasm`), [15, '/far/near.wasm']);
    assert.deepEqual(await loadedAt(plain, `data:application/wasm;base64,${moduleBytes.toString('base64')}`), [15]);
    assert.deepEqual(await loadedAt(plain, 'none.wasm'), [`no WebAssembly module at ${origin}/pages/none.wasm: 404`, '/pages/none.wasm']);
    await plain.close();
    const based = await browser.open(`${origin}/pages/based.html`);
    assert.deepEqual(await loadedAt(based), [15, beside]);
    assert.deepEqual(await loadedAt(based, 'near.wasm'), [15, '/elsewhere/near.wasm']);
    await based.close();
});

test('load in a worker: nothing, and strings from the worker\u2019s script', { timeout: 60000 }, async () => {
    const page = await browser.open(`${origin}/pages/plain.html`);
    for (const [source, place] of [[[], '/node_modules/nosingginger/nosingginger.wasm'], [['near.wasm'], '/workers/near.wasm']]) {
        asked.length = 0;
        assert.equal(await page.run((given) => new Promise((resolve, reject) => {
            const worker = new Worker('/workers/worker.mjs', { type: 'module' });
            worker.onmessage = ({ data }) => resolve(data);
            worker.onerror = () => reject(new Error('the worker failed'));
            worker.postMessage(given);
        }), source), 15);
        assert.deepEqual(asked.filter((asking) => asking.endsWith('.wasm')), [place]);
    }
    await page.close();
});
