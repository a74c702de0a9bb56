// Tests of what is found in files and texts, how keys are examined, and their fingerprints, in node. The cases and edits of
// tests/match/cases.json are shared with demo/match.py; tests/match/test_match.py says how they are written. Assumes that targets/build has run.
import assert from 'node:assert/strict';
import { createHash } from 'node:crypto';
import { readFileSync } from 'node:fs';
import { test } from 'node:test';
import { randomDealing } from './draw.mjs';
import { fingerprint } from './fingerprint.mjs';
import { examine, hexadecimal, joinedWords, joinTables, keysApart, keysOfFile, keysOfText, marked, matchText } from './match.mjs';
import { load } from './nosingginger.mjs';
import { sameEachTime } from './random.mjs';
import { WORDS } from './words.mjs';

const library = await load(new URL('../target/targets/wasm32/nosingginger.wasm', import.meta.url));

function spring(players, start = players) {
    const board = { players, positions: 72, valueBytes: 1 };
    return randomDealing({ ...board, width: library.chooseWidth(board) }, sameEachTime(start));
}

const keyBytes = ({ keys, problems }) => {
    assert.deepEqual(problems, []);
    return keys.map(({ bytes }) => bytes);
};
const given = (keys) => keys.map((bytes, place) => ({ bytes, from: `key ${place}`, label: null }));

test('keys are found in text and in files', () => {
    for (const players of [2, 3, 4, 5, 6]) {
        const all = library.deal(spring(players));
        const keys = keysApart(library, all);
        assert.equal(keys.length, players);
        const lines = keys.map(hexadecimal);
        const texts = [matchText(keys), lines.join('\n'), lines.join('\n\n').toLowerCase(), hexadecimal(all), hexadecimal(all).replace(/.{60}/g, '$&\n'),
            keys.map((key) => hexadecimal(key).replace(/.{32}/g, '$&\r\n')).join('\r\n\r\n'), lines.map((line) => `> ${line}`).join('\n'),
            lines.map((line, place) => `${place + 1}. "${line}",`).join('\n'), lines.map((line, place) => `Player ${place}:\n${line.replace(/.{77}/g, '$&\n')}`).join('\n'),
            JSON.stringify(Object.fromEntries(lines.map((line, place) => [`player ${place}`, line])), null, 2),
            Array.from(all, (byte) => `0x${byte.toString(16).padStart(2, '0')}`).join(', '), Array.from(keys[0], (byte) => hexadecimal([byte])).join(':')];
        for (const text of texts) {
            const wanted = text === texts.at(-1) ? [keys[0]] : keys;
            assert.deepEqual(keyBytes(keysOfText(library, text)), wanted);
            assert.deepEqual(keyBytes(keysOfFile(library, new TextEncoder().encode(text), 'a.txt')), wanted);
        }
        assert.deepEqual(keyBytes(keysOfFile(library, all, 'all')), keys);
        assert.deepEqual(keyBytes(keysOfFile(library, keys[1], 'one')), [keys[1]]);
        // A damaged key among good ones is cut from them all the same, and stands alone when it is alone.
        for (const place of [0, 2, 5]) {
            const damaged = all.slice();
            damaged[place] ^= 0x80;
            assert.equal(keyBytes(keysOfFile(library, damaged, 'all')).length, players);
            assert.deepEqual(keyBytes(keysOfText(library, hexadecimal(damaged.subarray(0, keys[0].length)).replace(/.{60}/g, '$&\n'))),
                [damaged.subarray(0, keys[0].length)]);
        }
        const both = keys.slice(0, 2).map((key) => key.map((byte, at) => (at === 5 ? byte ^ 1 : byte)));
        assert.deepEqual(keyBytes(keysOfText(library, both.map(hexadecimal).join('\n'))), both);
    }
});

test('a match is examined whatever the order', () => {
    const dealing = spring(4);
    const keys = keysApart(library, library.deal(dealing));
    for (const order of [[0, 1, 2, 3], [3, 1, 0, 2]]) {
        const whole = examine(library, given(order.map((player) => keys[player])));
        assert.deepEqual([whole.refusal, whole.missing, whole.missingWords], [null, [], null]);
        assert.deepEqual(whole.players.map(({ bytes }) => bytes), keys);
        assert.deepEqual(marked(whole.joined, whole.board), [dealing.point]);
        assert.deepEqual(whole.joined, joinTables(library, keys.map((key) => library.openAll(key))));
    }
});

test('a fingerprint is SHA-256, in groups of four digits', () => {
    const random = sameEachTime(5);
    for (let length = 0; length < 200; length += 1) {
        const bytes = random(length);
        assert.equal(fingerprint(bytes).replaceAll(' ', ''), createHash('sha256').update(bytes).digest('hex').toUpperCase());
    }
    assert.match(fingerprint(random(263176)), /^([0-9A-F]{4} ){15}[0-9A-F]{4}$/);
});

// ---- the cases that demo/match.py is held to as well ----

const shared = JSON.parse(readFileSync(new URL('../tests/match/cases.json', import.meta.url), 'utf8'));
const SENSORS = 72;
const sensorAt = new Map(Array.from({ length: SENSORS }, (_, sensor) => [library.sensorPosition(sensor), sensor]));
const WAYS = {
    plain: (digits) => digits,
    lower: (digits) => digits.toLowerCase(),
    wrap: (digits) => digits.match(/.{1,60}/g).join('\n'),
    'odd wrap': (digits) => digits.match(/.{1,37}/g).join('\n'),
    pairs: (digits) => digits.match(/../g).join(' '),
    colons: (digits) => digits.match(/../g).join(':'),
    '0x': (digits) => digits.match(/../g).map((pair) => `0x${pair}`).join(', '),
};

/** A text with the keys that it names. */
function filled(template) {
    return template.replace(/\{([^{}|]+)(?:\|([^{}|]+))?\}/g, (_, name, way = 'plain') => WAYS[way](shared.keys[name]));
}

function encoded(text, encoding = 'utf-8') {
    const bytes = Buffer.from(text, { 'utf-8': 'utf8', 'latin-1': 'latin1' }[encoding] ?? 'utf16le');
    return encoding === 'utf-16be' ? bytes.swap16() : bytes;
}

function contentOf({ text, bytes, encoding, times = 1 }) {
    const once = bytes === undefined ? encoded(filled(text), encoding) : Buffer.from(filled(bytes), 'hex');
    return new Uint8Array(once.length === 0 ? once : Buffer.alloc(once.length * times, once));
}

/** A sentence by its name and what stands in its braces, which may be sentences too. */
function said(sentence) {
    if (!Array.isArray(sentence)) return sentence ?? null;
    const [name, values = {}] = sentence;
    return WORDS[name].replace(/\{(\w+)\}/g, (_, value) => String(said(values[value])));
}

/** What match.mjs finds in these files, in the shape of a case. */
function outcomeOf(files) {
    const read = files.map(({ name, content }) => keysOfFile(library, content, name));
    const examined = examine(library, read.flatMap(({ keys }) => keys));
    const sensorOf = (position) => (examined.board.positions === SENSORS ? sensorAt.get(position) : undefined);
    return {
        keys: examined.keys.map(({ bytes, from, state, refusal, words }) =>
            ({ is: hexadecimal(bytes), from, state, refusal: refusal?.number ?? null, says: words })),
        problems: read.flatMap(({ problems }) => problems), missing: examined.missingWords, refusal: examined.refusal?.number ?? null,
        joined: examined.joined === null ? null : hexadecimal(examined.joined),
        shows: examined.joined === null ? null : joinedWords(examined.joined, examined.board, sensorOf),
    };
}

for (const wanted of shared.cases) {
    test(`shared case: ${wanted.name}`, () => {
        const files = wanted.files.map((file) => ({ name: file.name, content: contentOf(file) }));
        assert.deepEqual(outcomeOf(files), {
            keys: wanted.keys.map(({ is, from, state, refusal, says }) =>
                ({ is: shared.keys[is], from, state, refusal: refusal ?? null, says: said(says) })),
            problems: wanted.problems.map(said), missing: said(wanted.missing), refusal: wanted.refusal ?? null,
            joined: wanted.joined ?? null, shows: said(wanted.shows),
        });
    });
}

/** Numbers that are the same each time and in both tests: Marsaglia's xorshift of 32 bits. */
function drawnFrom(seed) {
    let state = seed;
    return (limit) => {
        state = (state ^ (state << 13)) >>> 0;
        state = (state ^ (state >>> 17)) >>> 0;
        state = (state ^ (state << 5)) >>> 0;
        return state % limit;
    };
}

/** The bytes with one to four edits: a byte changed, some taken out, put in or doubled. */
function edited(below, good) {
    const signs = Buffer.from(shared.edits.signs, 'hex');
    let content = Buffer.from(good);
    for (let left = 1 + below(4); left > 0; left -= 1) {
        const [kind, at] = [below(5), below(content.length + 1)];
        const end = Math.min(content.length, at + 1 + below(40));
        const before = content.subarray(0, at);
        if (kind === 0) content = Buffer.concat([before, Uint8Array.of(below(256)), content.subarray(at + 1)]);
        else if (kind === 1) content = Buffer.concat([before, content.subarray(end)]);
        else if (kind === 2) content = Buffer.concat([before, content.subarray(at, end), content.subarray(at)]);
        else {
            const sign = below(signs.length);
            content = Buffer.concat([before, signs.subarray(sign, sign + 1 + below(3)), content.subarray(at)]);
        }
    }
    return new Uint8Array(content);
}

/** A good file with edits, or bytes drawn at random. */
function randomFile(below, good) {
    if (below(4) === 0) return Uint8Array.from({ length: below(200) }, () => below(256));
    return edited(below, good[below(good.length)]);
}

test('whatever the bytes, something is found or said, and the same as demo/match.py finds', () => {
    const below = drawnFrom(shared.edits.seed);
    const digest = createHash('sha256');
    const good = shared.edits.files.map(contentOf);
    for (let round = 0; round < shared.edits.rounds; round += 1) {
        const { keys, problems, refusal, joined } = outcomeOf(['one', 'other'].map((name) => ({ name, content: randomFile(below, good) })));
        assert.ok(keys.length + problems.length > 0);
        const lines = keys.map((key) => `${key.from} ${key.state} ${key.refusal ?? 0} ${key.is} ${key.says === null ? '-' : 'says'}`);
        lines.push(`${problems.length} ${refusal ?? 0} ${joined ?? 'none'}`);
        digest.update(lines.map((line) => `${line}\n`).join(''));
    }
    assert.equal(digest.digest('hex'), shared.edits.sha256);
});
