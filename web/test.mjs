// Tests of nosingginger.mjs in node: every call, every refusal, the place of a bad column, the printed deal, what is
// left of a lent output, whole draws of cards, boards' pages, evenings of tallies, the largest table, deck, page and
// tally, the memory's growth, the second implementation's answers, drawn dealings and the example. Assumes that
// targets/build has run.
import assert from 'node:assert/strict';
import { execFileSync } from 'node:child_process';
import { readFileSync } from 'node:fs';
import { test } from 'node:test';
import { fileURLToPath } from 'node:url';
import { load, loadBase64, Nosingginger, Refused, REFUSALS, Tally } from './nosingginger.mjs';
import { cardDealing, randomDealing, systemBytes } from './draw.mjs';
import { pageOf } from './expected.mjs';
import { keysApart, marked, printedDeal } from './match.mjs';
import { sameEachTime } from './random.mjs';

const root = new URL('../', import.meta.url);
const moduleBytes = readFileSync(new URL('target/targets/wasm32/nosingginger.wasm', root));
const nosingginger = await load(moduleBytes);

const FILL = 0xC9;
const filled = (length) => new Uint8Array(length).fill(FILL);

/** The call is refused with this number and this place, or with no place where that is null, and the lent outputs are as they were. */
function refusedAt(number, place, call, ...lent) {
    const before = lent.map((slice) => slice.slice());
    assert.throws(call, (error) => {
        assert.ok(error instanceof Refused && error instanceof Error, String(error));
        const { name, words } = REFUSALS.find((refusal) => refusal.number === number);
        assert.deepEqual({ ...error }, { number, name, words, ...place });
        const where = place === null ? '' : ` (grid row ${place.gridRow}, column ${place.column})`;
        assert.equal(error.message, `refused ${number}: ${words}${where}`);
        return true;
    });
    lent.forEach((slice, index) => assert.deepEqual(slice, before[index]));
}

/** The call is refused with this number, which has no place, and the lent outputs are as they were. */
function refused(number, call, ...lent) {
    refusedAt(number, null, call, ...lent);
}

function spring(players, start = players) {
    const board = { players, positions: 72, valueBytes: 1 };
    return randomDealing({ ...board, width: nosingginger.chooseWidth(board) }, sameEachTime(start));
}

test('the module has no imports and all calls', () => {
    const module = new WebAssembly.Module(moduleBytes);
    assert.deepEqual(WebAssembly.Module.imports(module), []);
    const names = WebAssembly.Module.exports(module).map(({ name }) => name).filter((name) => name.startsWith('nsg_'));
    assert.equal(names.length, 17);
    assert.equal(names.filter((name) => !name.startsWith('nsg_tally')).length, 13);
});

test('it is made from bytes, a module, a place and base64', async () => {
    const sources = [moduleBytes, moduleBytes.buffer.slice(moduleBytes.byteOffset, moduleBytes.byteOffset + moduleBytes.length),
        new DataView(moduleBytes.buffer, moduleBytes.byteOffset, moduleBytes.length), new WebAssembly.Module(moduleBytes), new URL('target/targets/wasm32/nosingginger.wasm', root)];
    for (const source of sources) assert.equal((await load(source)).sensorPosition(8), 15);
    assert.equal((await loadBase64(moduleBytes.toString('base64'))).sensorPosition(8), 15);
    assert.equal((await load(`data:application/wasm;base64,${moduleBytes.toString('base64')}`)).sensorPosition(8), 15);
    const empty = new WebAssembly.Module(Uint8Array.of(0, 0x61, 0x73, 0x6D, 1, 0, 0, 0));
    await assert.rejects(load(empty), /not Nosingginger/);
    assert.throws(() => new Nosingginger({ exports: { memory: new WebAssembly.Memory({ initial: 1 }) } }), /nsg_key_length/);
});

test('the refusals are those of the one list, and have the names of the Rattle sources', () => {
    const listed = readFileSync(new URL('refusals.txt', root), 'utf8').matchAll(/^(\d+) (\w+) (.*)$/gm);
    assert.deepEqual([...listed].map(([, number, name, words]) => [Number(number), `REFUSED_${name}`, words]),
        REFUSALS.map(({ number, name, words }) => [number, name, words]));
    assert.ok(REFUSALS.every(Object.isFrozen));
    const numbers = REFUSALS.map(({ number }) => number);
    assert.deepEqual(numbers, [...new Set(numbers)].sort((a, b) => a - b));
    assert.deepEqual({ ...new Refused(8) }, { number: 8, name: 'REFUSED', words: 'a number that is not known here' });
    const enumeration = readFileSync(new URL('crates/refusal/src/lib.rt', root), 'utf8').matchAll(/^ {4}(\w+) = (\d+),$/gm);
    const snake = (variant) => variant.replace(/(?<=[a-z])(?=[A-Z])/g, '_').toUpperCase();
    assert.deepEqual([...enumeration].map(([, variant, number]) => [Number(number), `REFUSED_${snake(variant)}`]),
        REFUSALS.map(({ number, name }) => [number, name]));
});

// Node 18 has the system's random source only where it is asked for; later ones have it always.
const withRandomSource = globalThis.crypto ? [] : ['--experimental-global-webcrypto'];

test('the example deals, opens and joins, and draws anew each time', () => {
    const example = fileURLToPath(new URL('example.mjs', import.meta.url));
    assert.ok(readFileSync(example, 'utf8').trimEnd().split('\n').length <= 15);
    const run = () => execFileSync(process.execPath, [...withRandomSource, example], { cwd: '/', encoding: 'utf8' });
    const written = [run(), run(), run()];
    for (const text of written) {
        const [first, second] = text.split('\n');
        const [, square, shares] = /^On square (\d+) the players see ([\d, ]+): noise, each alone\.$/.exec(first);
        const [, value, others] = /^Together that is (\d+)\. All keys joined are zero on every square but (.*)\.$/.exec(second);
        assert.equal(shares.split(', ').length, 4);
        assert.equal(shares.split(', ').reduce((sum, share) => sum ^ Number(share), 0), Number(value));
        assert.ok(Number(value) > 0 && Number(square) < 72);
        assert.equal(others, square);
    }
    assert.equal(new Set(written).size, 3);
});

test('key length', () => {
    const board = { players: 4, positions: 72, width: 36, valueBytes: 1 };
    assert.equal(nosingginger.keyLength(board), 551);
    assert.equal(nosingginger.keyLength({ ...board, width: 24 }), 584);
    assert.equal(nosingginger.keyLength({ players: 6, positions: 65536, width: 256, valueBytes: 16 }), 263176);
    refused(1, () => nosingginger.keyLength({ ...board, players: 7 }));
    refused(1, () => nosingginger.keyLength({ players: 1, positions: 0, width: 0, valueBytes: 0 }));
    refused(2, () => nosingginger.keyLength({ ...board, positions: 65537 }));
    refused(3, () => nosingginger.keyLength({ ...board, width: 0 }));
    refused(4, () => nosingginger.keyLength({ ...board, valueBytes: 17 }));
    refused(5, () => nosingginger.keyLength({ ...board, positions: 65536, width: 255 }));
    refused(1, () => nosingginger.keyLength({ ...board, players: 0xFFFFFFFF }));
});

/** The widths whose keys are shortest, among those at which the board has at most 256 grid rows. */
function shortestWidths(board) {
    const widths = Array.from({ length: 256 }, (_, place) => place + 1)
        .filter((width) => Math.ceil(board.positions / width) <= 256);
    const lengths = widths.map((width) => nosingginger.keyLength({ ...board, width }));
    const least = Math.min(...lengths);
    return widths.filter((_, place) => lengths[place] === least);
}

test('choose width: the width that makes keys shortest', () => {
    for (const positions of [1, 2, 36, 64, 72, 128, 256, 257, 400, 892, 16384, 65280, 65535, 65536]) {
        for (const valueBytes of [1, 2, 5, 11, 13, 16]) {
            for (const players of [2, 3, 4, 5, 6]) {
                const board = { players, positions, valueBytes };
                assert.equal(nosingginger.chooseWidth(board), shortestWidths(board)[0], JSON.stringify(board));
            }
        }
    }
    // On the last three boards two widths tie, on the first of them with a header of one byte more at 128.
    for (const [players, positions, valueBytes, ...widths] of [[2, 64, 1, 32], [4, 72, 1, 36], [6, 65536, 1, 256],
        [4, 892, 1, 112, 128], [2, 36, 11, 6, 9], [3, 400, 13, 20, 25]]) {
        const board = { players, positions, valueBytes };
        assert.equal(nosingginger.chooseWidth(board), widths[0]);
        assert.deepEqual(shortestWidths(board), widths);
    }
});

test('choose width: the first number that is out of its range is refused', () => {
    for (const valueBytes of [0, 17, 257, 0xFFFFFFFF]) {
        refused(4, () => nosingginger.chooseWidth({ players: 4, positions: 72, valueBytes }));
        for (const positions of [0, 65537, 65608, 0xFFFFFFFF]) {
            refused(2, () => nosingginger.chooseWidth({ players: 4, positions, valueBytes }));
            refused(2, () => nosingginger.chooseWidth({ players: 4, positions, valueBytes: 1 }));
            for (const players of [0, 1, 7, 260, 0xFFFFFFFF]) {
                refused(1, () => nosingginger.chooseWidth({ players, positions, valueBytes }));
                refused(1, () => nosingginger.chooseWidth({ players, positions: 72, valueBytes }));
                refused(1, () => nosingginger.chooseWidth({ players, positions: 72, valueBytes: 1 }));
            }
        }
    }
});

test('sensor position', () => {
    const places = Array.from({ length: 72 }, (_, sensor) => nosingginger.sensorPosition(sensor));
    assert.deepEqual(places.slice(0, 17), [0, 1, 2, 3, 4, 5, 6, 7, 15, 14, 13, 12, 11, 10, 9, 8, 16]);
    assert.equal(places[71], 71);
    refused(17, () => nosingginger.sensorPosition(72));
});

test('expand: the first key stream block of RFC 8439, A.1, and the limits', () => {
    const seed = new Uint8Array(32);
    const block = nosingginger.expand(seed, 0, filled(64));
    assert.equal(Buffer.from(block).toString('hex'), '76b8e0ada0f13d90405d6ae55386bd28bdd219b8a08ded1aa836efcc8b770dc7'
        + 'da41597c5157488d7724e03fb8d84a376a43b8f41518a11cc387b669b2ee6586');
    assert.equal(nosingginger.expand(seed, 0, new Uint8Array(0)).length, 0);
    assert.deepEqual(nosingginger.expand(seed, 0, filled(4096)).subarray(0, 64), block);
    for (const lent of [filled(10), filled(5000)]) {
        for (const start of [0, 4097, 2n ** 64n - 1n]) {
            refused(7, () => nosingginger.expand(new Uint8Array(31), start, lent), lent);
        }
    }
    const lent = filled(4097);
    refused(16, () => nosingginger.expand(seed, 0, lent), lent);
});

test('expand: the pieces of a row, from any start, are the row', () => {
    const seed = sameEachTime(32)(32);
    const row = nosingginger.expand(seed, 0, filled(4096));
    for (const piece of [1, 5, 16, 63, 64, 65, 100, 256, 1000, 4095]) {
        for (let start = 0; start < 4096; start += piece) {
            const lent = filled(Math.min(piece, 4096 - start));
            assert.equal(nosingginger.expand(seed, start, lent), lent);
            assert.deepEqual(lent, row.subarray(start, start + piece));
            assert.deepEqual(nosingginger.expand(seed, BigInt(start), filled(lent.length)), lent);
        }
    }
});

test('expand: start and length together are at most 4,096, whatever the start', () => {
    const seed = new Uint8Array(32);
    const most = 2n ** 64n - 1n;
    for (const length of [0, 1, 16, 63, 64, 65, 4095, 4096]) {
        const lent = filled(length);
        const last = 4096 - length;
        const long = BigInt(length);
        // On the second line are those that are small, or make a small sum, where upper bits are left out.
        for (const start of [last + 1, BigInt(last + 1), 4097, 2 ** 31, 2 ** 53 - 1, 2n ** 63n, most - long, most,
            2 ** 32, 2 ** 32 + last, most - (length > 1 ? long - 1n : 0n), most - long / 2n]) {
            refused(16, () => nosingginger.expand(seed, start, lent), lent);
        }
        assert.equal(nosingginger.expand(seed, last, lent), lent);
    }
});

test('the printed deal', () => {
    const keys = nosingginger.deal(printedDeal());
    assert.equal(keys.length, 158);
    assert.deepEqual([...nosingginger.joinKeys(keys)], [0, 0, 0, 0, 0xA5, 0]);
    const stored = readFileSync(new URL('crates/dealer/stdin', root));
    const { value, arrays, seeds, words } = printedDeal();
    assert.deepEqual([...stored], [2, 6, 4, 1, 4, ...value, ...arrays, ...seeds, ...words]);
    assert.deepEqual(Buffer.from(keys), readFileSync(new URL('crates/dealer/stdout', root)));
    assert.deepEqual(keysApart(nosingginger, keys).map((key) => nosingginger.checkKey(key)),
        [0, 1].map((player) => ({ players: 2, player, positions: 6, width: 4, valueBytes: 1 })));
});

test('deal: refusals, lent output, lent output that is longer', () => {
    const exact = filled(158);
    const given = printedDeal();
    refused(1, () => nosingginger.deal({ ...given, players: 7, positions: 0 }, exact), exact);
    refused(2, () => nosingginger.deal({ ...given, positions: 0 }, exact), exact);
    refused(3, () => nosingginger.deal({ ...given, width: 257 }, exact), exact);
    refused(4, () => nosingginger.deal({ ...given, valueBytes: 0 }, exact), exact);
    refused(5, () => nosingginger.deal({ ...given, positions: 257, width: 1 }, exact), exact);
    refused(6, () => nosingginger.deal({ ...given, point: 6 }, exact), exact);
    refused(7, () => nosingginger.deal({ ...given, value: new Uint8Array(2) }, exact), exact);
    refused(7, () => nosingginger.deal({ ...given, seeds: new Uint8Array(127) }, exact), exact);
    const short = filled(157);
    // Bad arrays come after 1 to 7 and before 9.
    const bad = { ...given, arrays: Uint8Array.of(0, 7, 1, 2) };
    refused(1, () => nosingginger.deal({ ...bad, players: 7 }, short), short);
    refused(6, () => nosingginger.deal({ ...bad, point: 6 }, short), short);
    refused(7, () => nosingginger.deal({ ...bad, words: new Uint8Array(3) }, short), short);
    refusedAt(18, { gridRow: 0, column: 1 }, () => nosingginger.deal(bad, short), short);
    refusedAt(18, { gridRow: 0, column: 1 }, () => nosingginger.deal(bad));
    refused(9, () => nosingginger.deal(given, short), short);
    refused(6, () => nosingginger.deal({ ...given, point: 6 }));
    const longer = filled(200);
    const keys = nosingginger.deal(given, longer);
    assert.equal(keys.buffer, longer.buffer);
    assert.deepEqual(keys, nosingginger.deal(given));
    assert.deepEqual(longer.subarray(158), filled(42));
});

/** A drawn dealing with the piece on this square: its odd array and the one of this square's grid row change places. */
function dealingAt(board, point) {
    const dealing = randomDealing(board, sameEachTime(point));
    const columns = 2 ** (board.players - 1);
    const [drawn, wanted] = [dealing.point, point].map((square) => Math.floor(square / board.width) * columns);
    const odd = dealing.arrays.slice(drawn, drawn + columns);
    dealing.arrays.copyWithin(drawn, wanted, wanted + columns).set(odd, wanted);
    return { ...dealing, point };
}

/** A dealing with one byte of its arrays changed. */
function withColumn(dealing, at, byte) {
    return { ...dealing, arrays: dealing.arrays.map((own, place) => (place === at ? byte : own)) };
}

/** Deal refuses each way of making one column of good arrays bad, with its number and its place. */
function refusesColumn(dealing, at) {
    const { players, arrays } = dealing;
    const columns = 2 ** (players - 1);
    const place = { gridRow: Math.floor(at / columns), column: at % columns };
    const lent = filled(players * nosingginger.keyLength(dealing));
    const bits = Array.from({ length: 8 }, (_, bit) => arrays[at] ^ (1 << bit));
    const earlier = arrays.subarray(at - place.column, at);
    for (const [number, bytes] of [[18, bits.slice(players)], [19, bits.slice(0, players)], [20, earlier]]) {
        for (const byte of bytes) refusedAt(number, place, () => nosingginger.deal(withColumn(dealing, at, byte), lent), lent);
    }
}

test('deal: one bad column at every place, with the piece in every grid row', () => {
    for (const players of [2, 3, 4, 5, 6]) {
        for (const point of [0, 2, 4]) {
            const dealing = dealingAt({ players, positions: 5, width: 2, valueBytes: 1 }, point);
            dealing.arrays.forEach((_, at) => refusesColumn(dealing, at));
        }
    }
});

test('deal: one bad column in the first and the last place of 256 grid rows', () => {
    for (const point of [0, 100, 255]) {
        const dealing = dealingAt({ players: 6, positions: 256, width: 1, valueBytes: 1 }, point);
        for (const at of [0, 1, 31, 255 * 32, 255 * 32 + 1, 255 * 32 + 31]) refusesColumn(dealing, at);
    }
});

test('deal: of several bad columns the first is named', () => {
    const board = { players: 3, positions: 2, width: 1, valueBytes: 1 };
    const dealing = dealingAt(board, 1);
    const lent = filled(3 * nosingginger.keyLength(board));
    for (const [even, odd, number, gridRow, column] of [
        [[0, 3, 5, 6], [1, 8, 1, 2], 18, 1, 1], [[0, 3, 5, 6], [1, 2, 1, 8], 20, 1, 2],
        [[8, 8, 8, 8], [8, 8, 8, 8], 18, 0, 0], [[255, 1, 1, 1], [0, 0, 0, 0], 18, 0, 0],
        // A bit of no player is asked for before the parity, whichever that is.
        [[0, 3, 5, 6], [1, 2, 4, 9], 18, 1, 3], [[0, 3, 5, 6], [1, 2, 4, 8], 18, 1, 3],
        // The second of two that are the same is the bad one.
        [[3, 3, 3, 3], [8, 1, 1, 1], 20, 0, 1], [[0, 3, 5, 3], [0, 8, 0, 0], 20, 0, 3],
        // Arrays in each other's place have the wrong parity from the first column on; so has what would stand there twice.
        [[1, 2, 4, 7], [0, 3, 5, 6], 19, 0, 0], [[0, 3, 5, 6], [0, 0, 0, 0], 19, 1, 0], [[1, 1, 1, 1], [0, 0, 0, 0], 19, 0, 0],
    ]) {
        refusedAt(number, { gridRow, column }, () => nosingginger.deal({ ...dealing, arrays: Uint8Array.from([...even, ...odd]) }, lent), lent);
    }
});

/** Number and place of the first bad column of a dealing's arrays, looked for as it is defined; null where there is none. */
function firstBad({ players, width, point, arrays }) {
    const columns = 2 ** (players - 1);
    for (const [at, byte] of arrays.entries()) {
        const place = { gridRow: Math.floor(at / columns), column: at % columns };
        const isOdd = byte.toString(2).replaceAll('0', '').length % 2 === 1;
        if (byte >= 2 ** players) return [18, place];
        if (isOdd !== (place.gridRow === Math.floor(point / width))) return [19, place];
        if (arrays.subarray(at - place.column, at).includes(byte)) return [20, place];
    }
    return null;
}

test('deal: arrays with some bytes drawn at random', () => {
    const random = sameEachTime(20);
    const below = (bound) => (random(1)[0] + 256 * random(1)[0]) % bound;
    const tried = new Map();
    for (let round = 0; round < 2000; round += 1) {
        const players = 2 + below(5);
        const dealing = randomDealing({ players, positions: 1 + below(6), width: 1 + below(3), valueBytes: 1 }, random);
        for (let times = below(6); times > 0; times -= 1) dealing.arrays[below(dealing.arrays.length)] = below(below(2) === 0 ? 2 ** players : 256);
        const bad = firstBad(dealing);
        const lent = filled(players * nosingginger.keyLength(dealing));
        const number = bad?.[0] ?? 0;
        if (bad === null) assert.deepEqual(marked(nosingginger.joinKeys(nosingginger.deal(dealing, lent)), dealing), [dealing.point]);
        else refusedAt(...bad, () => nosingginger.deal(dealing, lent), lent);
        tried.set(number, (tried.get(number) ?? 0) + 1);
    }
    for (const number of [0, 18, 19, 20]) assert.ok(tried.get(number) > 50, `${number}: ${tried.get(number)} times`);
});

/**
 * The operations over the module with another call of this name in it, and the module's memory. The other call is given
 * the module's own and what it is lent.
 */
function withCall(name, call) {
    const { exports } = new WebAssembly.Instance(new WebAssembly.Module(moduleBytes));
    const { memory } = exports;
    const own = new Nosingginger({ exports: { ...exports, [name]: (...lent) => call(exports[name], lent, memory) } });
    return { own, memory };
}

const withDeal = (deal) => withCall('nsg_deal', deal);

test('deal: the place is lent eight bytes of its own, and is told with 18, 19 and 20 alone', () => {
    const given = printedDeal();
    let answer = 0;
    const { own } = withDeal((_, lent, memory) => {
        const fault = lent.at(-1);
        assert.equal(lent.length, 16);
        assert.equal(fault % 4, 0);
        for (const at of [5, 7, 9, 11, 13]) assert.ok(fault >= lent[at] + Number(lent[at + 1]) || fault + 8 <= lent[at], `lent ${at}`);
        new Uint8Array(memory.buffer, fault, 8).set([0xFE, 0xFF, 0xFF, 0xFF, 4, 3, 2, 1]);
        return answer;
    });
    assert.equal(own.deal(given).length, 158);
    for (const { number } of REFUSALS) {
        answer = number;
        const place = number === 18 || number === 19 || number === 20 ? { gridRow: 0xFFFFFFFE, column: 0x01020304 } : null;
        for (const lent of [filled(0), filled(1), filled(158)]) refusedAt(number, place, () => own.deal(given, lent), lent);
    }
});

test('a deal that is refused for a column leaves nothing in the module\u2019s memory, and takes no more of it each time', () => {
    const places = new Set();
    const { own, memory } = withDeal((deal, lent) => {
        places.add(lent.at(-1));
        return deal(...lent);
    });
    const start = memory.buffer.byteLength;
    const dealing = dealingAt({ players: 6, positions: 256, width: 1, valueBytes: 1 }, 255);
    const bad = withColumn(dealing, 255 * 32 + 31, dealing.arrays[255 * 32]);
    const refuse = () => refusedAt(20, { gridRow: 255, column: 31 }, () => own.deal(bad));
    refuse();
    const grown = memory.buffer.byteLength;
    assert.ok(grown > start);
    for (let times = 0; times < 20; times += 1) refuse();
    assert.deepEqual([places.size, memory.buffer.byteLength], [1, grown]);
    assert.ok(new Uint8Array(memory.buffer, start).every((byte) => byte === 0));
});

/** Ways of damaging a key of the spring board for four players, each with the number that refuses it. */
function damagedKeys(key) {
    const changed = (place, byte) => Uint8Array.from(key, (own, index) => (index === place ? byte : own));
    return [
        [10, new Uint8Array(0)], [10, Uint8Array.of(4, 0, 0xC8, 0)], [10, Uint8Array.of(4, 0, 0xFF, 0xFF, 0xFF, 0)], [1, changed(0, 7)],
        [2, changed(2, 0)], [3, changed(3, 0)], [4, changed(4, 17)], [5, Uint8Array.of(4, 0, 0x81, 0x02, 1, 1)], [11, changed(1, 4)],
        [12, key.subarray(0, 5)], [12, key.subarray(0, 550)], [12, Uint8Array.from([...key, 0])], [13, changed(5, key[5] ^ 1)],
    ];
}

test('check key, open one, open all: refusals and lent output', () => {
    const keys = nosingginger.deal(spring(4));
    const [key] = keysApart(nosingginger, keys);
    for (const [number, damaged] of damagedKeys(key)) {
        const lent = filled(100);
        refused(number, () => nosingginger.checkKey(damaged));
        refused(number, () => nosingginger.openOne(damaged, 72, lent), lent);
        refused(number, () => nosingginger.openOne(damaged, 0));
        refused(number, () => nosingginger.openAll(damaged, lent), lent);
        refused(number, () => nosingginger.openAll(damaged));
        assert.equal(nosingginger.heldSeed(damaged, 0, 0).length, 0);
    }
    const none = filled(0);
    refused(14, () => nosingginger.openOne(key, 72, none), none);
    refused(9, () => nosingginger.openOne(key, 71, none), none);
    const short = filled(71);
    refused(9, () => nosingginger.openAll(key, short), short);
    const longer = filled(80);
    const table = nosingginger.openAll(key, longer);
    assert.equal(table.length, 72);
    assert.deepEqual(longer.subarray(72), filled(8));
    assert.deepEqual(nosingginger.openAll(key), table);
    for (let position = 0; position < 72; position += 1) {
        assert.deepEqual(nosingginger.openOne(key, position), table.subarray(position, position + 1));
        const wide = filled(3);
        assert.deepEqual([...nosingginger.openOne(key, position, wide)], [table[position]]);
        assert.deepEqual([...wide], [table[position], FILL, FILL]);
    }
});

test('open one: every entry of the table, also where a cell lies in two blocks of its row', () => {
    const boards = [[2, 300, 256, 15], [3, 40, 17, 5], [4, 60, 27, 12], [5, 50, 34, 3], [6, 30, 19, 7]];
    for (const [players, positions, width, valueBytes] of boards) {
        const keys = nosingginger.deal(randomDealing({ players, positions, width, valueBytes }, sameEachTime(width)));
        for (const key of keysApart(nosingginger, keys)) {
            const opened = Array.from({ length: positions }, (_, position) => [...nosingginger.openOne(key, position)]);
            assert.deepEqual(opened.flat(), [...nosingginger.openAll(key)]);
        }
    }
});

test('join shares', () => {
    const shares = Uint8Array.of(1, 2, 4, 8, 16, 32);
    assert.deepEqual([...nosingginger.joinShares({ players: 3, valueBytes: 2, shares })], [21, 42]);
    assert.deepEqual([...nosingginger.joinShares({ players: 6, valueBytes: 1, shares }, filled(3))], [63]);
    const lent = filled(2);
    refused(1, () => nosingginger.joinShares({ players: 7, valueBytes: 0, shares }, lent), lent);
    for (const valueBytes of [0, 257, 258, 512, 0xFFFFFFFF]) {
        refused(4, () => nosingginger.joinShares({ players: 3, valueBytes, shares }, lent), lent);
        refused(4, () => nosingginger.joinShares({ players: 3, valueBytes, shares: new Uint8Array(3 * 257) }));
    }
    refused(7, () => nosingginger.joinShares({ players: 3, valueBytes: 1, shares }, lent), lent);
    const short = filled(1);
    refused(9, () => nosingginger.joinShares({ players: 3, valueBytes: 2, shares }, short), short);
});

/** The XOR of byte strings of one length. */
function xored(parts) {
    return parts.reduce((sum, part) => sum.map((byte, place) => byte ^ part[place]));
}

test('join shares: every width from 1 to 256', () => {
    for (let valueBytes = 1; valueBytes <= 256; valueBytes += 1) {
        const players = 2 + (valueBytes % 5);
        const shares = sameEachTime(valueBytes)(players * valueBytes);
        const wanted = xored(cardsOf(shares, valueBytes));
        assert.deepEqual(nosingginger.joinShares({ players, valueBytes, shares }), wanted);
        const longer = filled(valueBytes + 3);
        assert.deepEqual(nosingginger.joinShares({ players, valueBytes, shares }, longer), wanted);
        assert.deepEqual(longer.subarray(valueBytes), filled(3));
        const short = filled(valueBytes - 1);
        refused(9, () => nosingginger.joinShares({ players, valueBytes, shares }, short), short);
        refused(7, () => nosingginger.joinShares({ players, valueBytes, shares: shares.subarray(1) }, short), short);
    }
});

/** A deck's cards, or shares of one width that stand one after another. */
function cardsOf(deck, cardBytes) {
    const many = deck.length / cardBytes;
    return Array.from({ length: many }, (_, card) => deck.subarray(card * cardBytes, (card + 1) * cardBytes));
}

/** Each player's key of a draw of this card, on a board of players, positions and width. */
function cardKeys([players, positions, width], card, random) {
    return keysApart(nosingginger, nosingginger.deal(cardDealing({ players, positions, width }, card, random)));
}

/** What a phone answers, as it is defined: from the key's own table. */
function answerOf(key, deck, cardBytes) {
    const table = nosingginger.openAll(key);
    return xored([new Uint8Array(cardBytes), ...cardsOf(deck, cardBytes).filter((_, card) => table[card] % 2 === 1)]);
}

/** All phones' answers, and what they join to. */
function drawn(keys, deck, cardBytes) {
    const answers = keys.map((key) => nosingginger.drawCard(key, deck, cardBytes));
    const shares = Uint8Array.from(answers.flatMap((answer) => [...answer]));
    return { answers, card: nosingginger.joinShares({ players: keys.length, valueBytes: cardBytes, shares }) };
}

// One grid row and many, a short last one, a width above the positions, 256 grid rows.
const CARD_BOARDS = [[2, 1, 1], [2, 52, 12], [3, 52, 15], [4, 72, 24], [5, 5, 9], [6, 40, 7], [2, 256, 1],
    [3, 300, 256]];

test('draw card: the answers join to the wanted card, for every number of players and cards of 1 to 256 bytes', () => {
    for (const board of CARD_BOARDS) {
        const [, positions] = board;
        for (const cardBytes of [1, 2, 15, 16, 17, 32, 63, 64, 65, 255, 256]) {
            const random = sameEachTime(positions * 256 + cardBytes);
            const deck = random(positions * cardBytes);
            for (const card of new Set([0, Math.floor(positions / 2), positions - 1])) {
                const keys = cardKeys(board, card, random);
                const { answers, card: joined } = drawn(keys, deck, cardBytes);
                assert.deepEqual(joined, cardsOf(deck, cardBytes)[card]);
                answers.forEach((answer, player) => assert.deepEqual(answer, answerOf(keys[player], deck, cardBytes)));
            }
        }
    }
});

test('draw card: every card of a deck, and a key for it each time anew', () => {
    const names = Array.from({ length: 52 }, (_, card) => `card number ${card}`.padEnd(17));
    const deck = new TextEncoder().encode(names.join(''));
    const board = [4, 52, nosingginger.chooseWidth({ players: 4, positions: 52, valueBytes: 1 })];
    const random = sameEachTime(52);
    const met = new Set();
    names.forEach((name, card) => {
        const keys = cardKeys(board, card, random);
        assert.equal(new TextDecoder().decode(drawn(keys, deck, 17).card), name);
        keys.forEach((key) => met.add(key.join()));
    });
    assert.equal(met.size, 4 * 52);
});

test('draw card: every odd value draws the card, and every even one zeros', () => {
    const deck = sameEachTime(5)(6 * 20);
    for (let value = 0; value < 256; value += 1) {
        const dealing = cardDealing({ players: 3, positions: 6, width: 4 }, 5, sameEachTime(value));
        const keys = nosingginger.deal({ ...dealing, value: Uint8Array.of(value) });
        const { card } = drawn(keysApart(nosingginger, keys), deck, 20);
        assert.deepEqual(card, value % 2 === 1 ? deck.subarray(100) : new Uint8Array(20));
    }
});

test('draw card: refusals in their order, and lent output', () => {
    const deal = (valueBytes) => keysApart(nosingginger, nosingginger.deal(
        randomDealing({ players: 4, positions: 72, width: 24, valueBytes }, sameEachTime(valueBytes))));
    const [[key], [wide], [widest]] = [deal(1), deal(2), deal(16)];
    const changed = (place, byte) => Uint8Array.from(key, (own, index) => (index === place ? byte : own));
    const deck = sameEachTime(72)(72 * 10);
    const short = filled(9);
    // The key's own numbers come first, also where its values are wide, and deck, length and output are wrong.
    const wrong = [
        [10, new Uint8Array(0)], [1, changed(0, 7)], [2, changed(2, 0)], [3, changed(3, 0)], [4, changed(4, 17)],
        [5, Uint8Array.of(4, 0, 0x81, 0x02, 1, 2)], [11, changed(1, 4)], [12, changed(4, 2)],
        [12, key.subarray(0, 583)], [13, changed(5, key[5] ^ 1)],
        [13, Uint8Array.from(wide, (own, index) => (index === 5 ? own ^ 1 : own))],
    ];
    for (const [number, damaged] of wrong) {
        refused(number, () => nosingginger.drawCard(damaged, deck, 0, short), short);
        refused(number, () => nosingginger.drawCard(damaged, deck.subarray(1), 10, short), short);
        refused(number, () => nosingginger.drawCard(damaged, deck, 10));
    }
    // 21 comes before 22 and 9, and 22 before 9.
    for (const other of [wide, widest]) {
        refused(21, () => nosingginger.drawCard(other, deck, 10));
        refused(21, () => nosingginger.drawCard(other, deck.subarray(1), 0, short), short);
    }
    for (const cardBytes of [0, 257, 258, 512, 65536, 2 ** 29, 2 ** 31, 0xFFFFFFFF]) {
        // Also a deck whose length is N × L where that is cut to 32 bits: with 2 to the power of 29 it is empty.
        const long = (72 * cardBytes) % 2 ** 32;
        for (const given of [deck, new Uint8Array(long < 2 ** 23 ? long : 1)]) {
            refused(22, () => nosingginger.drawCard(key, given, cardBytes, short), short);
            refused(22, () => nosingginger.drawCard(key, given, cardBytes));
        }
    }
    for (const length of [0, 1, 10, 71 * 10, 719, 721, 73 * 10, 72 * 11, 1440]) {
        refused(22, () => nosingginger.drawCard(key, new Uint8Array(length), 10, short), short);
        refused(22, () => nosingginger.drawCard(key, new Uint8Array(length), 10));
    }
    refused(9, () => nosingginger.drawCard(key, deck, 10, short), short);
    const none = filled(0);
    refused(9, () => nosingginger.drawCard(key, deck, 10, none), none);
    const longer = filled(300);
    const answer = nosingginger.drawCard(key, deck, 10, longer);
    assert.deepEqual([answer.buffer, answer.length], [longer.buffer, 10]);
    assert.deepEqual(answer, answerOf(key, deck, 10));
    assert.deepEqual(longer.subarray(10), filled(290));
    assert.deepEqual(nosingginger.drawCard(key, deck, 10, filled(10)), answer);
    assert.deepEqual(nosingginger.drawCard(key, deck, 10), answer);
    // Key and deck may be parts of longer arrays, and the output the memory of either.
    const around = Uint8Array.from([9, ...deck, 9, ...key, 9]);
    const [deckThere, keyThere] = [around.subarray(1, 721), around.subarray(722, 722 + key.length)];
    assert.deepEqual(nosingginger.drawCard(keyThere, deckThere, 10), answer);
    assert.deepEqual(nosingginger.drawCard(keyThere.slice(), deckThere, 10, deckThere), answer);
    assert.deepEqual([...around.subarray(0, 722)], [9, ...answer, ...deck.subarray(10), 9]);
    assert.deepEqual(nosingginger.drawCard(keyThere, deck, 10, keyThere), answer);
});

test('bytes whose memory was handed on to a worker are no bytes, and what was lent beside them is wiped', () => {
    const { own, memory } = withDeal((deal, lent) => deal(...lent));
    const start = memory.buffer.byteLength;
    const [key] = cardKeys([2, 6, 4], 5, sameEachTime(6));
    const gone = filled(60);
    structuredClone(gone.buffer, { transfer: [gone.buffer] });
    const lent = filled(60);
    for (const call of [() => own.drawCard(gone, filled(60), 10, lent), () => own.drawCard(key, gone, 10, lent),
        () => own.drawCard(key, filled(60), 10, gone), () => own.openAll(key, gone), () => own.openAll(gone, lent),
        () => own.deal({ ...printedDeal(), words: gone }, lent), () => own.writePage(60, 1, gone),
        () => own.tallyAdd(own.checkKey(key), gone, lent), () => own.tallyAdd(own.checkKey(key), key, gone),
        () => own.tallyLookUp(own.checkKey(key), gone, 0, lent), () => own.tallyTotal(own.checkKey(key), gone, lent)]) {
        assert.throws(call, TypeError);
        assert.deepEqual(lent, filled(60));
        assert.ok(new Uint8Array(memory.buffer, start).every((byte) => byte === 0));
    }
    assert.ok(memory.buffer.byteLength > start);
});

test('the largest deck: the memory grows to it once, holds nothing afterwards, and not to a longer one', () => {
    const instance = new WebAssembly.Instance(new WebAssembly.Module(moduleBytes));
    const { memory } = instance.exports;
    const own = new Nosingginger(instance);
    const start = memory.buffer.byteLength;
    const [most, cardBytes] = [16777216, 256];
    // One more than a deck has, and each card begins with its number.
    const longer = new Uint8Array(most + 1).fill(0xA5);
    const view = new DataView(longer.buffer);
    for (let card = 0; card < 65536; card += 1) view.setUint32(card * cardBytes, card);
    const deck = longer.subarray(0, most);
    let grown = 0;
    for (const card of [0, 40000, 65535]) {
        const keys = cardKeys([3, 65536, 256], card, sameEachTime(card));
        const answers = keys.map((key) => own.drawCard(key, deck, cardBytes));
        assert.deepEqual(xored(answers), deck.subarray(card * cardBytes, (card + 1) * cardBytes));
        grown ||= memory.buffer.byteLength;
        for (const [given, long] of [[longer, cardBytes], [deck.subarray(1), cardBytes], [deck, 255], [deck, 257]]) {
            const lent = filled(256);
            refused(22, () => own.drawCard(keys[0], given, long, lent), lent);
        }
    }
    assert.ok(grown > start + most && grown < start + most + 2 ** 17, `${start} bytes grew to ${grown}`);
    const [small] = cardKeys([2, 1, 1], 0, sameEachTime(1));
    refused(22, () => own.drawCard(small, new Uint8Array(2 ** 27), 1));
    assert.equal(memory.buffer.byteLength, grown);
    assert.ok(Buffer.from(memory.buffer, start).every((byte) => byte === 0));
});

test('write page: lines that were written by hand', () => {
    const counted = Uint8Array.from({ length: 72 }, (_, position) => position);
    assert.equal(nosingginger.writePage(10, 1, counted.subarray(0, 10)),
        '    0 00 01 02 03 04 05 06 07\n    8 08 09                  \n');
    const spring = nosingginger.writePage(72, 1, counted).split('\n');
    assert.deepEqual(spring.map((line) => line.length), [29, 29, 29, 29, 29, 29, 29, 29, 29, 0]);
    assert.equal(spring[8], '   64 40 41 42 43 44 45 46 47');
    assert.equal(nosingginger.writePage(2, 3, Uint8Array.of(0xC0, 0xFF, 0xEE, 0x0A, 0xB0, 0x9F)),
        `    0 C0FFEE 0AB09F${' '.repeat(6 * 7)}\n`);
    assert.equal(nosingginger.writePage(1, 1, Uint8Array.of(0)), `    0 00${' '.repeat(21)}\n`);
});

test('write page: every number of value bytes, and every number of squares in the last line', () => {
    for (let valueBytes = 1; valueBytes <= 16; valueBytes += 1) {
        const many = [1, 2, 3, 4, 5, 6, 7, 8, 9, 10, 15, 16, 17, 72, 97, 104, 105, 255, 256, 257, 1000, 1001];
        for (const positions of many) {
            const table = sameEachTime(positions * 17 + valueBytes)(positions * valueBytes);
            const page = nosingginger.writePage(positions, valueBytes, table);
            assert.equal(page, pageOf(positions, valueBytes, table), `${positions} squares of ${valueBytes} bytes`);
            // A square is found by its line and column alone.
            const line = 6 + 8 * (2 * valueBytes + 1);
            assert.equal(page.length, Math.ceil(positions / 8) * line);
            for (let position = 0; position < positions; position += 1) {
                const at = Math.floor(position / 8) * line + 6 + (position % 8) * (2 * valueBytes + 1);
                assert.deepEqual(new Uint8Array(Buffer.from(page.slice(at, at + 2 * valueBytes), 'hex')),
                    table.subarray(position * valueBytes, (position + 1) * valueBytes));
            }
        }
    }
    for (const positions of [9992, 10000, 10001, 65528, 65529, 65535]) {
        const table = sameEachTime(positions)(positions);
        assert.equal(nosingginger.writePage(positions, 1, table), pageOf(positions, 1, table));
    }
});

test('write page: refusals in their order, whatever the table', () => {
    const tables = [0, 1, 15, 16, 17, 72, 1152, 65537, 1048576, 1048577].map(filled);
    for (const table of tables) {
        for (const positions of [0, 65537, 65538, 131072, 2 ** 31, 0xFFFFFFFF]) {
            for (const valueBytes of [0, 1, 16, 17, 0xFFFFFFFF]) {
                refused(2, () => nosingginger.writePage(positions, valueBytes, table), table);
            }
        }
        for (const positions of [1, 72, 65536]) {
            for (const valueBytes of [0, 17, 18, 256, 2 ** 31, 0xFFFFFFFF]) {
                refused(4, () => nosingginger.writePage(positions, valueBytes, table), table);
            }
        }
    }
    for (const [positions, valueBytes] of [[1, 1], [72, 1], [9, 16], [65536, 1], [65536, 16]]) {
        const long = positions * valueBytes;
        const others = [0, 1, long - 1, long + 1, long + valueBytes + 1, 2 * long].filter((other) => other !== long);
        for (const length of others) {
            const table = filled(length);
            refused(7, () => nosingginger.writePage(positions, valueBytes, table), table);
        }
    }
    // Also a table whose length is right where N × w is cut to 32 bits.
    refused(2, () => nosingginger.writePage(2 ** 28 + 1, 16, filled(16)));
    refused(4, () => nosingginger.writePage(16, 2 ** 28 + 1, filled(16)));
});

test('write page: the table may be a part of a longer array, and is left as it was', () => {
    const around = sameEachTime(74)(74);
    const table = around.slice(1, 73);
    assert.equal(nosingginger.writePage(72, 1, around.subarray(1, 73)), pageOf(72, 1, table));
    assert.deepEqual(around, sameEachTime(74)(74));
});

test('write page: the number is lent a place of its own, and tells how much of the output is the page', () => {
    let answer = 0;
    const { own } = withCall('nsg_write_page', (_, lent, memory) => {
        const [positions, valueBytes, table, tableBytes, page, pageBytes, written] = lent;
        assert.deepEqual([positions, valueBytes, tableBytes, pageBytes], [9, 2, 18n, 92n]);
        assert.equal(written % 4, 0);
        for (const [place, length] of [[table, 18], [page, 92]]) {
            assert.ok(written >= place + length || written + 4 <= place);
        }
        new Uint8Array(memory.buffer, page, 92).fill(0x41);
        new DataView(memory.buffer).setUint32(written, 46, true);
        return answer;
    });
    assert.equal(own.writePage(9, 2, filled(18)), 'A'.repeat(46));
    for (const { number } of REFUSALS) {
        answer = number;
        const place = [18, 19, 20].includes(number) ? { gridRow: 46, column: 0 } : null;
        refusedAt(number, place, () => own.writePage(9, 2, filled(18)));
    }
});

test('the largest page: the memory grows to it once, holds nothing afterwards, and not to a longer table', () => {
    const instance = new WebAssembly.Instance(new WebAssembly.Module(moduleBytes));
    const { memory } = instance.exports;
    const own = new Nosingginger(instance);
    const start = memory.buffer.byteLength;
    // Refusals need no room for a page.
    for (const [positions, valueBytes] of [[0xFFFFFFFF, 16], [65536, 0xFFFFFFFF], [65537, 16], [65536, 17], [65536, 0]]) {
        assert.throws(() => own.writePage(positions, valueBytes, filled(10)), Refused);
    }
    assert.ok(memory.buffer.byteLength <= start + 2 ** 16);
    const table = sameEachTime(16)(1048576);
    const page = own.writePage(65536, 16, table);
    assert.equal(page.length, 2211840);
    assert.equal(page, pageOf(65536, 16, table));
    const grown = memory.buffer.byteLength;
    const needed = start + 1048576 + 2211840;
    assert.ok(grown > needed && grown < needed + 2 ** 17, `${start} bytes grew to ${grown}`);
    refused(7, () => own.writePage(65536, 16, new Uint8Array(2 ** 26)));
    assert.equal(own.writePage(65536, 16, table), page);
    assert.equal(memory.buffer.byteLength, grown);
    assert.ok(Buffer.from(memory.buffer, start).every((byte) => byte === 0));
});

/** Each player's key of a hunt. */
function huntKeys(dealing) {
    return keysApart(nosingginger, nosingginger.deal(dealing));
}

/** Hunts on a board of players, positions and value bytes, each at a width of its own. */
function hunts([players, positions, valueBytes], many, random) {
    const least = Math.ceil(positions / 256);
    const width = () => least + (random(1)[0] % (257 - least));
    return Array.from({ length: many }, () => randomDealing({ players, positions, valueBytes, width: width() }, random));
}

/** What hunts hid: on each square the XOR of all values there. */
function hiddenBy(dealings, [, positions, valueBytes]) {
    const table = new Uint8Array(positions * valueBytes);
    for (const { point, value } of dealings) {
        value.forEach((byte, place) => { table[point * valueBytes + place] ^= byte; });
    }
    return table;
}

/** A new tally for each player of a board. */
function newTallies([players, positions, valueBytes]) {
    return Array.from({ length: players }, (_, player) =>
        new Tally(nosingginger, { players, player, positions, valueBytes }));
}

/** Each player's tally of these hunts, whose keys it adds in an order that is drawn for it. */
function talliesOf(board, dealings, random) {
    const keys = dealings.map(huntKeys);
    return newTallies(board).map((tally, player) => {
        const left = keys.map((all) => all[player]);
        while (left.length > 0) tally.add(left.splice(random(1)[0] % left.length, 1)[0]);
        return tally;
    });
}

/** What all players' shares join to. */
function joinedShares(parts) {
    const shares = Uint8Array.from(parts.flatMap((part) => [...part]));
    return nosingginger.joinShares({ players: parts.length, valueBytes: parts[0].length, shares });
}

// Players, positions and value bytes: one square and few, on which values meet; tables that are shorter than the longest
// share, as long, twice as long, and a little longer.
const TALLY_BOARDS = [[2, 1, 1], [3, 1, 16], [2, 2, 2], [3, 5, 3], [4, 72, 1], [5, 9, 16], [6, 20, 5], [4, 256, 1],
    [6, 32, 16], [3, 257, 1], [2, 300, 3]];

test('tally: joined, tables, entries and totals are the XOR of what was hidden, each player adding in an order of its own', () => {
    for (const board of TALLY_BOARDS) {
        const [players, positions, valueBytes] = board;
        const random = sameEachTime(positions * 17 + valueBytes);
        for (const many of [0, 1, 2, 7]) {
            const dealings = hunts(board, many, random);
            const tallies = talliesOf(board, dealings, random);
            const hidden = hiddenBy(dealings, board);
            const total = xored([new Uint8Array(valueBytes), ...dealings.map(({ value }) => value)]);
            assert.deepEqual(Tally.join(tallies), hidden, `${many} hunts on ${board}`);
            cardsOf(hidden, valueBytes).forEach((entry, position) =>
                assert.deepEqual(joinedShares(tallies.map((tally) => tally.get(position))), entry));
            assert.deepEqual(joinedShares(tallies.map((tally) => tally.total())), total);
            assert.deepEqual(nosingginger.tallyTotal({ players, player: 0, positions, valueBytes }, hidden), total);
        }
    }
});

test('tally: a player\u2019s table is the XOR of its keys\u2019 tables, by the calls as by the class', () => {
    for (const board of TALLY_BOARDS) {
        const [, positions, valueBytes] = board;
        const keys = hunts(board, 4, sameEachTime(positions * 19 + valueBytes)).map(huntKeys);
        newTallies(board).forEach((tally, player) => {
            const { numbers } = tally;
            const longer = filled(positions * valueBytes + 5);
            const table = nosingginger.tallyMake(numbers, longer);
            assert.deepEqual([table.buffer, table.byteOffset], [longer.buffer, 0]);
            let wanted = new Uint8Array(positions * valueBytes);
            for (const made of [table, nosingginger.tallyMake(numbers), tally.table]) assert.deepEqual(made, wanted);
            for (const { [player]: key } of keys) {
                wanted = xored([wanted, nosingginger.openAll(key)]);
                assert.deepEqual(nosingginger.tallyAdd(numbers, key, longer), wanted);
                assert.equal(tally.add(key), undefined);
                for (const added of [table, tally.table]) assert.deepEqual(added, wanted);
            }
            assert.deepEqual(longer.subarray(table.length), filled(5));
            const entries = cardsOf(wanted, valueBytes);
            const reads = (entry, call, own) => {
                const out = filled(valueBytes + 3);
                assert.equal(call(longer, out).buffer, out.buffer);
                assert.deepEqual([...out], [...entry, FILL, FILL, FILL]);
                for (const read of [call(table), call(longer, filled(valueBytes)), own]) assert.deepEqual(read, entry);
            };
            entries.forEach((entry, position) => reads(entry,
                (lent, out) => nosingginger.tallyLookUp(numbers, lent, position, out), tally.get(position)));
            reads(xored(entries), (lent, out) => nosingginger.tallyTotal(numbers, lent, out), tally.total());
            assert.deepEqual(table, wanted);
        });
    }
});

test('tally: a key added twice cancels itself, wherever the two stand, and three times it is added once', () => {
    const board = [3, 10, 2];
    const keys = hunts(board, 3, sameEachTime(34)).map(huntKeys);
    const added = (order, player) => {
        const tally = newTallies(board)[player];
        order.forEach((hunt) => tally.add(keys[hunt][player]));
        return tally.table;
    };
    for (const player of [0, 1, 2]) {
        const [none, one, two] = [[], [0], [0, 1]].map((order) => added(order, player));
        for (const order of [[1, 1], [0, 1, 0, 1], [0, 1, 2, 2, 1, 0]]) assert.deepEqual(added(order, player), none);
        for (const order of [[1, 1, 0], [1, 0, 1], [0, 1, 1], [0, 0, 0], [2, 0, 1, 2, 1]]) {
            assert.deepEqual(added(order, player), one);
        }
        for (const order of [[1, 0], [2, 0, 2, 1], [1, 2, 0, 2]]) assert.deepEqual(added(order, player), two);
        assert.equal(new Set([none, one, two].map(String)).size, 3);
    }
});

test('tally: equal values on one square cancel, three show one, and a hunt that one player leaves out spoils all', () => {
    const board = [4, 1, 3];
    const random = sameEachTime(43);
    const value = Uint8Array.of(1, 2, 3);
    const same = hunts(board, 3, random).map((dealing) => ({ ...dealing, value }));
    assert.deepEqual([...Tally.join(talliesOf(board, same.slice(1), random))], [0, 0, 0]);
    assert.deepEqual(Tally.join(talliesOf(board, same, random)), value);
    const many = [2, 72, 1];
    const [tally, other] = talliesOf(many, hunts(many, 3, random), random);
    const [last, [left]] = [hunts(many, 1, random).map(huntKeys)[0], [other.table]];
    last.forEach((key, player) => [tally, other][player].add(key));
    const whole = Tally.join([tally, other]);
    const spoilt = Tally.join([tally, new Tally(nosingginger, other.numbers, left)]);
    assert.deepEqual(xored([whole, spoilt]), nosingginger.openAll(last[1]));
    assert.ok(whole.filter((byte) => byte === 0).length >= 68 && spoilt.filter((byte) => byte === 0).length < 10);
});

test('tally: stored with its numbers and restored, it goes on as it was', () => {
    for (const board of TALLY_BOARDS) {
        const random = sameEachTime(board[1] * 23 + board[2]);
        const [before, after] = [hunts(board, 2, random), hunts(board, 2, random)];
        const stored = talliesOf(board, before, random).map(({ numbers, table }) =>
            JSON.stringify({ numbers, table: Buffer.from(table).toString('base64') }));
        const tallies = stored.map((line) => {
            const { numbers, table } = JSON.parse(line);
            return new Tally(nosingginger, numbers, new Uint8Array(Buffer.from(table, 'base64')));
        });
        assert.deepEqual(Tally.join(tallies), hiddenBy(before, board));
        after.map(huntKeys).forEach((keys) => keys.forEach((key, player) => tallies[player].add(key)));
        assert.deepEqual(Tally.join(tallies), hiddenBy([...before, ...after], board));
    }
});

test('tally: its table and numbers are its own', () => {
    const [dealing] = hunts([2, 6, 2], 1, sameEachTime(62));
    const [key] = huntKeys(dealing);
    // A key's header is enough to make one, and is not kept.
    const header = nosingginger.checkKey(key);
    const stored = sameEachTime(12)(14).subarray(1, 13);
    const tally = new Tally(nosingginger, header, stored);
    assert.deepEqual(tally.numbers, { players: 2, player: 0, positions: 6, valueBytes: 2 });
    const kept = tally.table;
    assert.deepEqual(kept, stored);
    stored.fill(0);
    tally.table.fill(0);
    tally.get(3).fill(0);
    header.player = 1;
    assert.throws(() => { tally.numbers.player = 1; }, TypeError);
    assert.throws(() => { tally.table = stored; }, TypeError);
    assert.deepEqual([tally.numbers.player, tally.table], [0, kept]);
    assert.deepEqual(tally.get(3), kept.subarray(6, 8));
    // It is what the table of another tally is made of, and each goes on by itself.
    const other = new Tally(nosingginger, tally.numbers, tally.table);
    other.add(key);
    assert.deepEqual(tally.table, kept);
    assert.deepEqual(other.table, xored([kept, nosingginger.openAll(key)]));
    assert.deepEqual(Object.keys(tally), []);
});

// A tally of the spring board, and what is wrong with its numbers, in the order in which they are asked for.
const SPRING_TALLY = { players: 4, player: 0, positions: 72, valueBytes: 1 };
const WRONG_NUMBERS = [[1, 'players', [0, 1, 7, 260, 0xFFFFFFFF]], [2, 'positions', [0, 65537, 65608, 2 ** 31, 0xFFFFFFFF]],
    [4, 'valueBytes', [0, 17, 18, 257, 0xFFFFFFFF]], [11, 'player', [4, 5, 256, 2 ** 31, 0xFFFFFFFF]]];

/** A call of a tally refuses every choice of wrong numbers with the first of them, and leaves what is lent as it was. */
function refusesNumbers(call, ...lent) {
    for (let choice = 1; choice < 2 ** WRONG_NUMBERS.length; choice += 1) {
        const wrong = WRONG_NUMBERS.filter((_, place) => (choice >> place) % 2 === 1);
        for (const turn of [0, 1, 2, 3, 4]) {
            const given = Object.fromEntries(wrong.map(([, name, numbers]) => [name, numbers[turn]]));
            refused(wrong[0][0], () => call({ ...SPRING_TALLY, ...given }), ...lent);
        }
    }
}

test('tally make: refusals in their order, and lent output', () => {
    for (const length of [0, 71, 72, 80]) {
        const lent = filled(length);
        refusesNumbers((numbers) => nosingginger.tallyMake(numbers, lent), lent);
    }
    refusesNumbers((numbers) => nosingginger.tallyMake(numbers));
    for (const [positions, valueBytes] of [[1, 1], [72, 1], [5, 16], [65536, 16]]) {
        const long = positions * valueBytes;
        for (const length of new Set([0, 1, positions, long - 1].filter((other) => other < long))) {
            const lent = filled(length);
            refused(9, () => nosingginger.tallyMake({ ...SPRING_TALLY, positions, valueBytes }, lent), lent);
        }
        const lent = filled(long + 2);
        assert.deepEqual(nosingginger.tallyMake({ ...SPRING_TALLY, positions, valueBytes }, lent), new Uint8Array(long));
        assert.deepEqual(lent.subarray(long), filled(2));
    }
});

/** Keys that are accepted but not for the spring board's tally of player 0: each differs in one number. */
function otherKeys() {
    const at = (players, player, positions, valueBytes) =>
        huntKeys(randomDealing({ players, positions, valueBytes, width: 36 }, sameEachTime(players + positions)))[player];
    return [at(3, 0, 72, 1), at(5, 0, 72, 1), at(4, 1, 72, 1), at(4, 3, 72, 1), at(4, 0, 71, 1), at(4, 0, 73, 1), at(4, 0, 72, 2),
        at(4, 0, 72, 16)];
}

test('tally add: refusals in their order, and nothing lent is changed', () => {
    const [key] = huntKeys(spring(4));
    const damaged = damagedKeys(key);
    const others = otherKeys();
    const tables = [0, 71, 72, 80].map((length) => sameEachTime(length)(length));
    const kept = key.slice();
    for (const table of tables) {
        for (const given of [key, damaged[0][1], others[0]]) {
            refusesNumbers((numbers) => nosingginger.tallyAdd(numbers, given, table), table, given);
        }
    }
    // A table that is too short comes before the key's numbers, and these before 23.
    for (const table of tables.slice(0, 2)) {
        for (const given of [key, ...damaged.map(([, bytes]) => bytes), ...others]) {
            refused(9, () => nosingginger.tallyAdd(SPRING_TALLY, given, table), table, given);
        }
    }
    const wrongMarks = others.map((other) => Uint8Array.from(other, (byte, place) => (place === 5 ? byte ^ 1 : byte)));
    const tally = new Tally(nosingginger, SPRING_TALLY, tables[2]);
    for (const [number, given] of [...damaged, ...wrongMarks.map((bytes) => [13, bytes]), ...others.map((bytes) => [23, bytes])]) {
        for (const table of tables.slice(2)) refused(number, () => nosingginger.tallyAdd(SPRING_TALLY, given, table), table, given);
        refused(number, () => tally.add(given), given);
        assert.deepEqual(tally.table, tables[2]);
    }
    // The key's width may be any, and key and table parts of one array.
    const [narrow] = huntKeys(randomDealing({ players: 4, positions: 72, valueBytes: 1, width: 5 }, sameEachTime(5)));
    const around = Uint8Array.from([9, ...narrow, 9, ...tables[2], 9]);
    const wanted = xored([tables[2], nosingginger.openAll(narrow)]);
    const [keyThere, tableThere] = [around.subarray(1, 1 + narrow.length), around.subarray(2 + narrow.length, -1)];
    assert.deepEqual(nosingginger.tallyAdd(SPRING_TALLY, keyThere, tableThere), wanted);
    assert.deepEqual([...around], [9, ...narrow, 9, ...wanted, 9]);
    tally.add(narrow);
    assert.deepEqual(tally.table, wanted);
    assert.deepEqual(key, kept);
});

test('tally look up and total: refusals in their order, and lent output', () => {
    const [none, short, table, longer] = [0, 71, 72, 80].map((length) => sameEachTime(length)(length));
    const out = filled(1);
    for (const lent of [none, short, table, longer]) {
        for (const output of [filled(0), filled(1), filled(20), undefined]) {
            const outputs = output === undefined ? [] : [output];
            for (const position of [0, 72, 0xFFFFFFFF]) {
                refusesNumbers((numbers) => nosingginger.tallyLookUp(numbers, lent, position, output), lent, ...outputs);
            }
            refusesNumbers((numbers) => nosingginger.tallyTotal(numbers, lent, output), lent, ...outputs);
        }
    }
    // The table's 9 comes before 14, and this before the output's.
    const room = filled(0);
    for (const lent of [none, short]) {
        refused(9, () => nosingginger.tallyLookUp(SPRING_TALLY, lent, 0, out), lent, out);
        refused(9, () => nosingginger.tallyLookUp(SPRING_TALLY, lent, 72, room), lent, room);
        refused(9, () => nosingginger.tallyTotal(SPRING_TALLY, lent, out), lent, out);
    }
    const tally = new Tally(nosingginger, SPRING_TALLY, table);
    for (const position of [72, 73, 80, 328, 65536, 2 ** 31, 0xFFFFFFFF]) {
        for (const lent of [table, longer]) {
            for (const output of [room, out]) {
                refused(14, () => nosingginger.tallyLookUp(SPRING_TALLY, lent, position, output), lent, output);
            }
        }
        refused(14, () => tally.get(position));
    }
    for (const [valueBytes, length] of [[1, 0], [2, 0], [2, 1], [16, 15]]) {
        const numbers = { ...SPRING_TALLY, valueBytes };
        const [lent, output] = [filled(72 * valueBytes), filled(length)];
        refused(9, () => nosingginger.tallyLookUp(numbers, lent, 71, output), lent, output);
        refused(9, () => nosingginger.tallyTotal(numbers, lent, output), lent, output);
    }
    // The output may be the table itself.
    assert.deepEqual([...nosingginger.tallyLookUp(SPRING_TALLY, table, 71, table)], [tally.table[71]]);
    assert.deepEqual([...table.subarray(1)], [...tally.table.subarray(1)]);
});

test('tally: what cannot be made or restored is refused', () => {
    refusesNumbers((numbers) => new Tally(nosingginger, numbers));
    refusesNumbers((numbers) => new Tally(nosingginger, numbers, filled(5)));
    for (const length of [0, 1, 71, 73, 144]) {
        const stored = filled(length);
        refused(7, () => new Tally(nosingginger, SPRING_TALLY, stored), stored);
    }
    for (const stored of [null, [1, 2], new ArrayBuffer(72), new Uint16Array(72), '00', 72]) {
        assert.throws(() => new Tally(nosingginger, SPRING_TALLY, stored), TypeError);
    }
    assert.throws(() => new Tally(nosingginger), TypeError);
    assert.throws(() => new Tally(Promise.resolve(nosingginger), SPRING_TALLY), TypeError);
});

test('tally: joined are those of all players of one board, each player\u2019s once, in any order', () => {
    const random = sameEachTime(15);
    const board = [3, 20, 2];
    const tallies = talliesOf(board, hunts(board, 5, random), random);
    const joined = Tally.join(tallies);
    const [a, b, c] = tallies;
    for (const order of [[a, c, b], [b, a, c], [b, c, a], [c, a, b], [c, b, a]]) assert.deepEqual(Tally.join(order), joined);
    assert.deepEqual(Tally.join(new Set(tallies)), joined);
    const like = (numbers) => new Tally(nosingginger, { ...c.numbers, ...numbers });
    const wrong = [[], [a], [a, b], [a, b, c, c], [a, b, b], [a, a, a], [...tallies, ...tallies], [a, b, like({ players: 4 })],
        [like({ players: 4 }), a, b], [a, b, like({ players: 4 }), like({ players: 4, player: 3 })],
        [a, b, like({ positions: 19 })], [a, b, like({ positions: 21 })], [a, b, like({ valueBytes: 1 })],
        // As many bytes, on another board.
        [a, b, like({ positions: 40, valueBytes: 1 })], [like({ positions: 10, valueBytes: 4 }), a, b]];
    const before = tallies.map(({ table }) => table);
    for (const some of wrong) refused(15, () => Tally.join(some));
    for (const other of [undefined, null, 3, a, [a, b, c.table], [a, b, {}], [a, b, undefined]]) {
        assert.throws(() => Tally.join(other), TypeError);
    }
    assert.deepEqual(tallies.map(({ table }) => table), before);
});

test('tally: what was lent is wiped, of refused calls too', () => {
    const { own, memory } = withCall('nsg_tally_add', (add, lent) => add(...lent));
    const start = memory.buffer.byteLength;
    const keys = huntKeys(spring(4));
    const table = filled(72);
    const tallies = keys.map((key) => new Tally(own, own.checkKey(key)));
    const marks = Uint8Array.from(keys[0], (byte, place) => (place === 5 ? byte ^ 1 : byte));
    for (const call of [() => own.tallyMake(SPRING_TALLY, table), () => own.tallyAdd(SPRING_TALLY, keys[0], table),
        () => own.tallyLookUp(SPRING_TALLY, table, 7), () => own.tallyTotal(SPRING_TALLY, table),
        () => tallies.forEach((tally, player) => tally.add(keys[player])), () => tallies[1].get(7), () => tallies[1].total(),
        () => Tally.join(tallies), () => refused(13, () => own.tallyAdd(SPRING_TALLY, marks, table)),
        () => refused(23, () => own.tallyAdd(SPRING_TALLY, keys[1], table)), () => refused(23, () => tallies[0].add(keys[1])),
        () => refused(14, () => own.tallyLookUp(SPRING_TALLY, table, 72)), () => refused(14, () => tallies[0].get(72)),
        () => refused(9, () => own.tallyTotal(SPRING_TALLY, table, filled(0)))]) {
        call();
        assert.ok(new Uint8Array(memory.buffer, start).every((byte) => byte === 0), String(call));
    }
    assert.ok(memory.buffer.byteLength > start);
});

test('the largest tally: the memory grows to it once, and not to a longer table that is read', () => {
    const { own, memory } = withCall('nsg_tally_add', (add, lent) => add(...lent));
    const start = memory.buffer.byteLength;
    const [positions, valueBytes] = [65536, 16];
    // Refusals need no room for a table.
    for (const [many, wide] of [[0xFFFFFFFF, 16], [65536, 0xFFFFFFFF], [65537, 16], [65536, 17], [65536, 0]]) {
        assert.throws(() => own.tallyMake({ ...SPRING_TALLY, positions: many, valueBytes: wide }), Refused);
    }
    assert.ok(memory.buffer.byteLength <= start + 2 ** 16);
    const dealings = [3, 4, 5].map((from) => randomDealing({ players: 2, positions, width: 256, valueBytes }, sameEachTime(from)));
    const tallies = [0, 1].map((player) => new Tally(own, { players: 2, player, positions, valueBytes }));
    const keys = dealings.map(huntKeys);
    let grown = 0;
    for (const all of keys) {
        all.forEach((key, player) => tallies[player].add(key));
        grown ||= memory.buffer.byteLength;
    }
    const needed = start + positions * valueBytes + keys[0][0].length;
    assert.ok(grown > needed && grown < needed + 2 ** 17, `${start} bytes grew to ${grown}`);
    assert.deepEqual(Buffer.from(Tally.join(tallies)), Buffer.from(hiddenBy(dealings, [2, positions, valueBytes])));
    assert.deepEqual(xored(tallies.map((tally) => tally.total())), xored(dealings.map(({ value }) => value)));
    assert.deepEqual(xored(tallies.map((tally) => tally.get(dealings[0].point))), dealings[0].value);
    const longer = new Uint8Array(2 ** 26).fill(FILL);
    assert.deepEqual(own.tallyLookUp(tallies[0].numbers, longer, 65535), filled(16));
    assert.deepEqual(own.tallyTotal(tallies[0].numbers, longer), new Uint8Array(16));
    assert.equal(memory.buffer.byteLength, grown);
    assert.ok(Buffer.from(memory.buffer, start).every((byte) => byte === 0));
});

test('join keys: every number of players, refusals and lent output', () => {
    for (const players of [2, 3, 4, 5, 6]) {
        const dealing = spring(players);
        const keys = nosingginger.deal(dealing);
        const table = nosingginger.joinKeys(keys);
        assert.deepEqual([...table], Array.from({ length: 72 }, (_, position) => (position === dealing.point ? dealing.value[0] : 0)));
        const longer = filled(75);
        assert.deepEqual(nosingginger.joinKeys(keys, longer), table);
        assert.deepEqual(longer.subarray(72), filled(3));
        const short = filled(71);
        refused(9, () => nosingginger.joinKeys(keys, short), short);
        const apart = keysApart(nosingginger, keys);
        const swapped = Uint8Array.from([...apart].reverse().flatMap((key) => [...key]));
        const lent = filled(72);
        refused(15, () => nosingginger.joinKeys(swapped, lent), lent);
        refused(15, () => nosingginger.joinKeys(swapped));
        refused(12, () => nosingginger.joinKeys(keys.subarray(0, keys.length - 1), lent), lent);
        refused(10, () => nosingginger.joinKeys(new Uint8Array(0), lent), lent);
        const later = keys.slice();
        later[apart[0].length + 5] ^= 1;
        refused(13, () => nosingginger.joinKeys(later, lent), lent);
        later[apart[0].length + 1] = players;
        refused(11, () => nosingginger.joinKeys(later, lent), lent);
    }
});

test('held seed is a part of the key itself', () => {
    const dealing = spring(5);
    const keys = nosingginger.deal(dealing);
    const columns = 16;
    keysApart(nosingginger, keys).forEach((key, player) => {
        for (let gridRow = 0; gridRow < Math.ceil(72 / dealing.width); gridRow += 1) {
            for (let column = 0; column < columns; column += 1) {
                const place = gridRow * columns + column;
                const part = nosingginger.heldSeed(key, gridRow, column);
                const marked = (dealing.arrays[place] >> player) % 2 === 1;
                assert.deepEqual(part, marked ? dealing.seeds.subarray(place * 32, place * 32 + 32) : new Uint8Array(0));
                assert.equal(part.buffer, key.buffer);
            }
        }
        assert.equal(nosingginger.heldSeed(key, 0, columns).length, 0);
        assert.equal(nosingginger.heldSeed(key, 0xFFFFFFFF, 0xFFFFFFFF).length, 0);
        assert.equal(nosingginger.heldSeed(key, Math.ceil(72 / dealing.width), 0).length, 0);
    });
});

test('numbers that 32 bits cannot hold and things that are no bytes are the caller\u2019s error', () => {
    for (const players of [-1, 2.5, 2 ** 32, 2 ** 32 + 2, NaN, '2', 2n, undefined]) {
        assert.throws(() => nosingginger.keyLength({ players, positions: 72, width: 36, valueBytes: 1 }), RangeError);
    }
    for (const number of [-1, 1.5, 2 ** 32, 2 ** 32 + 2, NaN, '2', 2n, undefined]) {
        for (const name of ['players', 'positions', 'valueBytes']) {
            const board = { players: 2, positions: 2, valueBytes: 2, [name]: number };
            assert.throws(() => nosingginger.chooseWidth(board), RangeError);
        }
    }
    for (const key of [undefined, [1, 2], new ArrayBuffer(4), new Uint16Array(4), 'key']) {
        assert.throws(() => nosingginger.checkKey(key), TypeError);
        assert.throws(() => nosingginger.openAll(key, filled(3)), TypeError);
    }
    assert.throws(() => nosingginger.expand(new Uint8Array(32), 0), TypeError);
    const [key] = keysApart(nosingginger, nosingginger.deal(printedDeal()));
    for (const other of [undefined, [1, 2], new ArrayBuffer(6), new Uint16Array(6), 'deck', 1]) {
        assert.throws(() => nosingginger.drawCard(other, filled(6), 1), TypeError);
        assert.throws(() => nosingginger.drawCard(key, other, 1), TypeError);
        if (other !== undefined) assert.throws(() => nosingginger.drawCard(key, filled(6), 1, other), TypeError);
    }
    for (const cardBytes of [-1, 1.5, 2 ** 32, 2 ** 32 + 1, NaN, '1', 1n, undefined]) {
        const lent = filled(6);
        assert.throws(() => nosingginger.drawCard(key, filled(6), cardBytes, lent), RangeError);
        assert.deepEqual(lent, filled(6));
    }
    for (const other of [undefined, null, [1, 2], new ArrayBuffer(6), new Uint16Array(6), '00', 1]) {
        assert.throws(() => nosingginger.writePage(6, 1, other), TypeError);
    }
    for (const number of [-1, 1.5, 2 ** 32, 2 ** 32 + 6, NaN, '6', 6n, undefined]) {
        assert.throws(() => nosingginger.writePage(number, 1, filled(6)), RangeError);
        assert.throws(() => nosingginger.writePage(6, number, filled(6)), RangeError);
    }
    const numbers = { players: 2, player: 0, positions: 6, valueBytes: 1 };
    const tally = new Tally(nosingginger, numbers);
    for (const other of [undefined, null, [1, 2], new ArrayBuffer(6), new Uint16Array(6), 'table', 1]) {
        for (const call of [() => nosingginger.tallyAdd(numbers, other, filled(6)), () => nosingginger.tallyAdd(numbers, key, other),
            () => nosingginger.tallyLookUp(numbers, other, 0), () => nosingginger.tallyTotal(numbers, other), () => tally.add(other)]) {
            assert.throws(call, TypeError);
        }
    }
    for (const number of [-1, 1.5, 2 ** 32, 2 ** 32 + 2, NaN, '2', 2n, undefined]) {
        for (const name of Object.keys(numbers)) {
            const wrong = { ...numbers, [name]: number };
            for (const call of [() => nosingginger.tallyMake(wrong), () => nosingginger.tallyAdd(wrong, key, filled(6)),
                () => nosingginger.tallyLookUp(wrong, filled(6), 0), () => nosingginger.tallyTotal(wrong, filled(6)),
                () => new Tally(nosingginger, wrong)]) {
                assert.throws(call, { name: 'RangeError', message: new RegExp(`^${name} is not a whole number`) });
            }
        }
        assert.throws(() => nosingginger.tallyLookUp(numbers, filled(6), number), RangeError);
        assert.throws(() => tally.get(number), RangeError);
    }
    // Expand without a start, and with one that is no number of 64 bits, or a number that is not exact.
    assert.throws(() => nosingginger.expand(new Uint8Array(32), filled(32)), TypeError);
    for (const start of [-1, 0.5, 2 ** 53, 2 ** 64, -1n, 2n ** 64n, NaN, Infinity, '0', null, undefined]) {
        const lent = filled(32);
        assert.throws(() => nosingginger.expand(new Uint8Array(32), start, lent), RangeError);
        assert.deepEqual(lent, filled(32));
    }
});

test('lent bytes may be part of a longer array, and may be the output too', () => {
    const keys = nosingginger.deal(printedDeal());
    const longer = Uint8Array.from([9, 9, 9, ...keys, 9]);
    assert.deepEqual(nosingginger.joinKeys(longer.subarray(3, 161)), nosingginger.joinKeys(keys));
    const seed = filled(32);
    const expanded = nosingginger.expand(seed, 50, filled(32));
    assert.deepEqual(nosingginger.expand(seed, 50, seed), expanded);
});

test('the largest table, and the memory grows to it and holds nothing afterwards', async () => {
    const module = new WebAssembly.Module(moduleBytes);
    const instance = new WebAssembly.Instance(module);
    const { memory } = instance.exports;
    const own = new Nosingginger(instance);
    const start = memory.buffer.byteLength;
    assert.equal(own.sensorPosition(8), 15);
    const board = { players: 6, positions: 65536, width: 256, valueBytes: 16 };
    const dealing = randomDealing(board, sameEachTime(16));
    const keys = own.deal(dealing);
    assert.equal(keys.length, 6 * 263176);
    const afterDeal = memory.buffer.byteLength;
    assert.ok(afterDeal > start + keys.length);
    const table = own.joinKeys(keys);
    assert.equal(table.length, 1048576);
    const found = table.subarray(dealing.point * 16, dealing.point * 16 + 16);
    assert.deepEqual(found, dealing.value);
    table.fill(0, dealing.point * 16, dealing.point * 16 + 16);
    assert.ok(table.every((byte) => byte === 0));
    const [key] = keysApart(nosingginger, keys);
    assert.deepEqual(own.openOne(key, 65535), own.openAll(key).subarray(1048560));
    assert.ok(new Uint8Array(memory.buffer, start).every((byte) => byte === 0));
    const grown = memory.buffer.byteLength;
    for (let times = 0; times < 20; times += 1) assert.equal(own.checkKey(key).positions, 65536);
    assert.equal(memory.buffer.byteLength, grown);
});

// The operations of reference/FORMAT.md by number: each takes the numbers in, the inputs and the lent output, and answers numbers out and bytes.
const boardOf = ([players, positions, width, valueBytes]) => ({ players, positions, width, valueBytes });
const OPERATIONS = {
    1: (numbers) => [[nosingginger.keyLength(boardOf(numbers))]],
    2: (numbers, [value, arrays, seeds, words], out) =>
        [[], nosingginger.deal({ ...boardOf(numbers), point: numbers[4], value, arrays, seeds, words }, out)],
    3: (_, [key]) => {
        const { players, player, positions, width, valueBytes } = nosingginger.checkKey(key);
        return [[players, player, positions, width, valueBytes]];
    },
    4: ([position], [key], out) => [[], nosingginger.openOne(key, position, out)],
    5: (_, [key], out) => [[], nosingginger.openAll(key, out)],
    6: ([players, valueBytes], [shares], out) => [[], nosingginger.joinShares({ players, valueBytes, shares }, out)],
    7: (_, [keys], out) => [[], nosingginger.joinKeys(keys, out)],
    8: ([gridRow, column], [key]) => {
        const part = nosingginger.heldSeed(key, gridRow, column);
        return [[part.length === 0 ? 0 : part.byteOffset - key.byteOffset], part];
    },
    9: ([low, high], [seed], out) => [[], nosingginger.expand(seed, (BigInt(high) << 32n) | BigInt(low), out)],
    10: ([players, positions, valueBytes]) => [[nosingginger.chooseWidth({ players, positions, valueBytes })]],
    11: ([sensor]) => [[nosingginger.sensorPosition(sensor)]],
    14: ([cardBytes], [key, deck], out) => [[], nosingginger.drawCard(key, deck, cardBytes, out)],
    15: ([positions, valueBytes], [table]) => {
        const page = new TextEncoder().encode(nosingginger.writePage(positions, valueBytes, table));
        return [[page.length], page];
    },
    16: (numbers, _, out) => [[], nosingginger.tallyMake(tallyOf(numbers), out)],
    // The lent output begins with the table before the call, and all of that is the answer.
    17: (numbers, [key, table], out) => {
        nosingginger.tallyAdd(tallyOf(numbers), key, out);
        return [[], out.subarray(0, table.length)];
    },
    18: (numbers, [table], out) => [[], nosingginger.tallyLookUp(tallyOf(numbers), table, numbers[4], out)],
    19: (numbers, [table], out) => [[], nosingginger.tallyTotal(tallyOf(numbers), table, out)],
    20: (numbers, [lengths, keys], out) => runOf(tallyOf(numbers), keysOf(lengths, keys), out),
};
const tallyOf = ([players, player, positions, valueBytes]) => ({ players, player, positions, valueBytes });
const numberOf = (call) => {
    try {
        call();
        return 0;
    } catch (error) {
        if (!(error instanceof Refused)) throw error;
        return error.number;
    }
};

/** Keys that stand one after another, from their lengths, which are numbers of four bytes. */
function keysOf(lengths, keys) {
    const view = new DataView(lengths.buffer, lengths.byteOffset, lengths.length);
    let at = 0;
    return cardsOf(lengths, 4).map((_, place) => keys.subarray(at, at += view.getUint32(4 * place, true)));
}

/** A tally is made and keys are added, by the calls and by the class: how many are, the sum of place times number, the table. */
function runOf(numbers, keys, out) {
    const table = nosingginger.tallyMake(numbers, out);
    const tally = new Tally(nosingginger, numbers);
    const answers = keys.map((key) => {
        const number = numberOf(() => nosingginger.tallyAdd(numbers, key, out));
        assert.equal(numberOf(() => tally.add(key)), number);
        return number;
    });
    assert.deepEqual(tally.table, new Uint8Array(table));
    const sum = answers.reduce((before, number, place) => before + (place + 1) * number, 0);
    return [[answers.filter((number) => number === 0).length, sum % 2 ** 32], table];
}

// Held seed writes nothing, and a page is answered as text: these leave a lent output alone. Nor is a page's ever too
// short.
const [HELD_SEED, WRITE_PAGE, TALLY_ADD, REFUSED_ROOM] = [8, 15, 17, 9];
const WITHOUT_OUTPUT = [HELD_SEED, WRITE_PAGE];

/** Makes the calls of a file of cases, and holds them to its answers. Gives each operation's numbers that were met. */
function comparedCases(name) {
    const file = readFileSync(new URL(name, root));
    assert.equal(file.toString('latin1', 0, 8), 'NGCASES1');
    const bytes = new Uint8Array(file);
    const view = new DataView(bytes.buffer);
    const numbersAt = (place, many) => Array.from({ length: many }, (_, index) => view.getUint32(place + 4 * index, true));
    const [cases, , , length] = numbersAt(8, 4);
    assert.equal(length, bytes.length);
    const tried = new Map();
    let at = 24;
    let inputs = [];
    for (let place = 0; place < cases; place += 1) {
        const [operation, number, fill, kept] = bytes.subarray(at, at + 4);
        const [into, outOf] = [numbersAt(at + 4, 5), numbersAt(at + 24, 5)];
        const lengths = numbersAt(at + 44, 4);
        const [lentBytes, answerBytes] = numbersAt(at + 60, 2);
        at += 68;
        if (!kept) {
            inputs = lengths.map((long) => bytes.subarray(at, at += long));
        }
        const answer = bytes.subarray(at, at += answerBytes);
        if (!(operation in OPERATIONS)) continue;
        const lent = new Uint8Array(lentBytes).fill(fill);
        if (operation === TALLY_ADD) lent.set(inputs[1]);
        if (number === 0) {
            const [numbers, written = new Uint8Array(0)] = OPERATIONS[operation](into, inputs, lent);
            assert.deepEqual([...numbers, 0, 0, 0, 0, 0].slice(0, 5), outOf, `numbers of case ${place}`);
            assert.ok(Buffer.from(written).equals(answer), `bytes of case ${place}`);
            const isWritten = !WITHOUT_OUTPUT.includes(operation);
            const left = (index) => (isWritten && index < answer.length ? answer[index] : fill);
            assert.ok(lent.every((byte, index) => byte === left(index)), `output of case ${place}`);
        } else if (operation === WRITE_PAGE && number === REFUSED_ROOM) {
            const [[length]] = OPERATIONS[operation](into, inputs);
            assert.ok(length > lentBytes, `output of case ${place}`);
        } else {
            // A refusal has no numbers but the place of a bad column: 1, the grid row and the column.
            const [isPlaced, gridRow, column] = outOf;
            assert.deepEqual(outOf, isPlaced === 1 ? [1, gridRow, column, 0, 0] : [0, 0, 0, 0, 0], `numbers of case ${place}`);
            refusedAt(number, isPlaced === 1 ? { gridRow, column } : null, () => OPERATIONS[operation](into, inputs, lent), lent);
        }
        tried.set(operation, (tried.get(operation) ?? new Set()).add(number));
    }
    assert.equal(at, length);
    return tried;
}

test('the second implementation\u2019s answers, all cases of the operations', () => {
    const tried = comparedCases('crates/test_compare/data/cases.bin');
    for (const [operation, numbers] of comparedCases('reference/tallies.bin')) {
        tried.set(operation, new Set([...(tried.get(operation) ?? []), ...numbers]));
    }
    assert.deepEqual([...tried.keys()].sort((a, b) => a - b), Object.keys(OPERATIONS).map(Number));
    const numbers = new Set([...tried.values()].flatMap((set) => [...set]));
    assert.deepEqual([...numbers].sort((a, b) => a - b), [0, ...REFUSALS.map(({ number }) => number)]);
});

test('the system\u2019s bytes are as many as are asked for, on the largest board too', { skip: !globalThis.crypto }, () => {
    for (const length of [0, 1, 65536, 65537, 200000]) {
        const bytes = systemBytes(length);
        assert.equal(bytes.length, length);
        // A part of 64 bytes that was left as it was made is zero; a drawn one is not, but for one in 2 to the power of 512.
        for (let at = 0; at + 64 <= length; at += 64) assert.ok(bytes.subarray(at, at + 64).some((byte) => byte !== 0));
    }
    const dealing = randomDealing({ players: 6, positions: 65536, width: 256, valueBytes: 16 });
    const table = nosingginger.joinKeys(nosingginger.deal(dealing));
    assert.deepEqual(marked(table, dealing), [dealing.point]);
});

test('a board that cannot be dealt is not drawn for', () => {
    const board = { players: 2, positions: 6, width: 4, valueBytes: 1 };
    const wrong = [{}, { ...board, players: 1 }, { ...board, players: 7 }, { ...board, positions: 0 }, { ...board, positions: 65537, width: 256 },
        { ...board, width: 0 }, { ...board, width: 257 }, { ...board, positions: 257, width: 1 }, { ...board, valueBytes: 0 },
        { ...board, valueBytes: 17 }, { ...board, valueBytes: undefined }, { ...board, positions: 1.5 }];
    for (const one of wrong) assert.throws(() => randomDealing(one), RangeError);
    // For a card a board has values of one byte, whatever it says of them.
    const wrongForCards = wrong.filter(({ valueBytes }) => valueBytes === 1);
    for (const one of wrongForCards) assert.throws(() => cardDealing(one, 0), RangeError);
    for (const card of [-1, 6, 1.5, NaN, '0', undefined]) assert.throws(() => cardDealing(board, card), RangeError);
    assert.deepEqual(cardDealing({ ...board, valueBytes: 2 }, 5, sameEachTime(1)).value, Uint8Array.of(1));
});

test('the output may be the memory of an input', () => {
    for (const players of [2, 4]) {
        const keys = nosingginger.deal(spring(players));
        const [key] = keysApart(nosingginger, keys).map((bytes) => bytes.slice());
        const [table, joined] = [nosingginger.openAll(key), nosingginger.joinKeys(keys)];
        assert.deepEqual(nosingginger.openAll(key, key), table);
        assert.deepEqual(nosingginger.joinKeys(keys, keys), joined);
    }
});

test('a drawn dealing is accepted, on every kind of board', () => {
    for (const [players, positions, width, valueBytes] of [[2, 1, 1, 1], [3, 7, 3, 16], [6, 5, 9, 5], [4, 72, 24, 1], [2, 256, 1, 2]]) {
        const dealing = randomDealing({ players, positions, width, valueBytes }, sameEachTime(positions));
        const table = nosingginger.joinKeys(nosingginger.deal(dealing));
        assert.deepEqual(marked(table, dealing), [dealing.point]);
        assert.ok(table.length === positions * valueBytes);
    }
});
