// A published match from whatever a person has of it: keys found in files and texts, each checked, put in the players' order, and joined. What a
// key is and what keys join to are answers of the library's calls; worked out here is which bytes are a key, and how a person would name what
// is wrong. demo/match.py does the same for the hunt, with the same sentences, and tests/match holds both to the same cases. Assumes nothing
// of the bytes; nothing here throws for what they are.
import { Refused } from './nosingginger.mjs';
import { WORDS } from './words.mjs';

const MOST_KEYS = 6;
// The shortest key there is: of two players, one position and one byte. Fewer bytes are not asked about.
const LEAST_KEY_BYTES = 40;
const MOST_SHARE_BYTES = 16;
export const SQUARES_IN_A_LINE = 8;
// Of a text that has nothing to do with keys not every line is named.
const MOST_WRONG = 5;
// All keys of the largest board have 1,579,056 bytes; written as text, they are some times longer.
export const MOST_FILE_BYTES = 16 * 1024 * 1024;

/** A sentence of WORDS with what belongs in its braces. */
export function sentence(name, values = {}) {
    return WORDS[name].replace(/\{(\w+)\}/g, (_, value) => String(values[value]));
}

export function listed(things) {
    return things.length < 2 ? things.join('') : `${things.slice(0, -1).join(', ')} and ${things.at(-1)}`;
}

/** The answer of a call: its value, or its refusal. */
export function answerOf(call) {
    try {
        return { value: call(), refusal: null };
    } catch (error) {
        if (!(error instanceof Refused)) throw error;
        return { value: null, refusal: error };
    }
}

function checked(library, bytes) {
    const { value, refusal } = answerOf(() => library.checkKey(bytes));
    return { header: value, refusal };
}

function isAccepted(library, bytes) {
    return bytes.length >= LEAST_KEY_BYTES && checked(library, bytes).refusal === null;
}

export function hexadecimal(bytes) {
    return Array.from(bytes, (byte) => byte.toString(16).toUpperCase().padStart(2, '0')).join('');
}

function bytesOf(digits) {
    return Uint8Array.from({ length: digits.length / 2 }, (_, place) => parseInt(digits.slice(2 * place, 2 * place + 2), 16));
}

export function together(parts) {
    const all = new Uint8Array(parts.reduce((sum, part) => sum + part.length, 0));
    let at = 0;
    for (const part of parts) {
        all.set(part, at);
        at += part.length;
    }
    return all;
}

// ---- the keys in bytes ----

/** Whether these bytes are as long as their header asks: Check key accepts them, or has only their marks to refuse. */
function longAsAsked(library, bytes) {
    const { refusal } = checked(library, bytes);
    return refusal === null || refusal.name === 'REFUSED_MARKS';
}

/** How long the key that begins these bytes says it is; null where no key begins them. */
function askedLength(library, bytes) {
    const header = headerNumbers(bytes);
    return header === null ? null : answerOf(() => library.keyLength(header)).value;
}

/** The keys in these bytes by the length that each asks for, and what is left behind the last; none where not two of them are whole. */
function keysByHeaders(library, bytes) {
    const parts = [];
    let at = 0;
    while (bytes.length - at >= LEAST_KEY_BYTES) {
        const rest = bytes.subarray(at);
        const asked = askedLength(library, rest);
        if (asked === null || asked > rest.length || !longAsAsked(library, rest.subarray(0, asked))) break;
        parts.push(rest.subarray(0, asked));
        at += asked;
    }
    if (parts.length < 2) return [];
    return at === bytes.length ? parts : [...parts, bytes.subarray(at)];
}

/** The keys that stand one after another in these bytes, cut in equal parts or by their headers; all of them as one, where neither gives a key. */
export function keysApart(library, bytes) {
    let best = { parts: [bytes], fitting: 0 };
    for (let many = 1; many <= MOST_KEYS; many += 1) {
        const long = bytes.length / many;
        if (!Number.isInteger(long) || long < LEAST_KEY_BYTES) continue;
        const parts = Array.from({ length: many }, (_, place) => bytes.subarray(place * long, (place + 1) * long));
        const fitting = parts.filter((part) => longAsAsked(library, part)).length;
        if (fitting > best.fitting) best = { parts, fitting };
    }
    const byHeaders = best.fitting === 0 ? keysByHeaders(library, bytes) : [];
    return byHeaders.length > 0 ? byHeaders : best.parts;
}

// ---- the keys in a text ----

const BREAKS = /\r\n?|[\u000B\u000C\u0085\u2028\u2029]/g;
const UNSEEN = /[\u200B-\u200D\u2060\uFEFF]/g;
const SPACES = /[\t\u00A0\u1680\u2000-\u200A\u202F\u205F\u3000]/g;
// What people and programs put around a line: mail's quotes, bullets, quotation marks, brackets, fences.
const BEFORE = /^[ >|*\u2022\u2013"'\u201C\u201D\u201E\u2018\u2019\u00AB\u00BB`[\](){}-]+/;
const BEHIND = ' "\'\u201C\u201D\u2018\u2019\u00AB\u00BB`[](){},;.=';
const LABEL = /^player *#?([0-9]{1,2})["'\u201D\u2019]*(?:s? key)? *[:=.)-]* */i;
const NUMBERED = /^(?:[0-9]{1,3}(?:[.)\]]+:? *|: +)|#[0-9]{1,3}[.:)\]]* +)/;
// Any other name in front of digits: "Anna: 0400..".
const NAMED = /^.{1,80}?[:=] *(?=[0-9a-f][0-9a-f ,;:_-]{31,}$)/i;
const COMMENT = /^(?:#|\/\/)/;
const NO_DIGIT = /[^0-9a-f]/iu;
// A row of letters and digits that is long enough to be a fingerprint or a part of a key; the shortest key there is has 40 bytes.
const LONG_ROW = /[0-9a-z]{40,}/gi;
const PRINT_BYTES = 32;
// A row of fewer signs, some of which are no digits, is a word rather than a damaged key.
const LEAST_DAMAGED = 16;

/** A line without what people put around it. (A pattern for its end would look at a long row of spaces from each of them.) */
function bare(text) {
    let end = text.length;
    while (end > 0 && BEHIND.includes(text[end - 1])) end -= 1;
    return text.slice(0, end).replace(BEFORE, '');
}

/** A line without what stands between digits. */
function digitsOf(text) {
    return text.replace(/\b0x/gi, '').replace(/[ ,;:_-]/g, '');
}

/** One line of a text: the player that it says it is of, whether a key begins with it, its hexadecimal digits, and a sign that is none. */
function readLine(text, number) {
    let rest = bare(text);
    const label = LABEL.exec(rest);
    const numbered = label ?? NUMBERED.exec(rest) ?? (NO_DIGIT.test(digitsOf(rest)) ? NAMED.exec(rest) : null);
    if (numbered !== null) rest = rest.slice(numbered[0].length).replace(BEFORE, '');
    else if (COMMENT.test(rest)) rest = '';
    const digits = digitsOf(rest);
    const other = NO_DIGIT.exec(digits)?.[0];
    return { number, text, label: label === null ? null : Number(label[1]), begins: numbered !== null, digits, other };
}

/** The long rows of letters and digits in a line, whatever stands around them. */
function rowsOf({ text }) {
    return (text.match(LONG_ROW) ?? []).map((row) => row.replace(/^0x/i, ''));
}

/** A line of words around a fingerprint. */
function hasPrint(line) {
    const rows = rowsOf(line);
    return rows.length === 1 && rows[0].length === 2 * PRINT_BYTES && !NO_DIGIT.test(rows[0]);
}

/** Whether a line with a sign that is no digit is words, or a fingerprint among words, and not a key in which something was changed. */
function isWords(line) {
    const signs = [...line.digits];
    const many = signs.filter((sign) => !NO_DIGIT.test(sign)).length;
    return signs.length < LEAST_DAMAGED || 5 * many < 4 * signs.length || hasPrint(line);
}

/** What a line has amidst words, where one of its long rows is a key: each row is a key, or is named. */
function readAmidst(library, line, name) {
    const rows = rowsOf(line).map((row) => ({ row, other: NO_DIGIT.exec(row)?.[0] }));
    const whole = rows.filter(({ row, other }) => other === undefined && row.length % 2 === 0);
    const found = whole.flatMap(({ row }) => keysApart(library, bytesOf(row)).map((bytes) => ({ line, bytes })));
    if (!found.some(({ bytes }) => isAccepted(library, bytes))) return null;
    const where = whereOf(name, [line]);
    const damage = rows.filter((one) => !whole.includes(one)).map(({ row, other }) =>
        (other === undefined ? sentence('odd digits', { where, count: row.length }) : sentence('no digit', { where, sign: other })));
    return { found, damage, words: [] };
}

/** The lines that belong together, and whose they say they are: a labelled or numbered line begins a block; an empty one and words end it. */
function blocksOf(text) {
    const blocks = [];
    let open = false;
    text.replace(BREAKS, '\n').replace(UNSEEN, '').replace(SPACES, ' ').split('\n').forEach((each, index) => {
        const line = readLine(each, index + 1);
        const apart = line.other !== undefined && isWords(line);
        if (line.begins || apart || (line.digits !== '' && !open)) blocks.push({ label: line.label, lines: [] });
        open = !apart && (line.begins || line.digits !== '');
        if (line.digits !== '') blocks.at(-1).lines.push(line);
    });
    return blocks.filter(({ lines }) => lines.length > 0);
}

/** A key to each of these lines, where each has whole bytes. */
function byLine(lines) {
    return lines.every(({ digits }) => digits.length % 2 === 0) ? lines.map((line) => ({ line, bytes: bytesOf(line.digits) })) : [];
}

/** The bytes of these lines run on, cut in keys; each stands where its first byte does. */
function runOn(library, lines) {
    const digits = lines.map((line) => line.digits).join('');
    const parts = digits.length % 2 === 0 ? keysApart(library, bytesOf(digits)) : [];
    let start = 0;
    return parts.map((bytes) => {
        let before = start;
        start += 2 * bytes.length;
        return { line: lines.find((one) => (before -= one.digits.length) < 0), bytes };
    });
}

/** The keys of one block: a key to each line, or bytes that run on over the lines, whichever is accepted more often. */
function keysOfBlock(library, lines) {
    if (lines.length === 1) return runOn(library, lines);
    const ways = [byLine(lines), runOn(library, lines)];
    const [lineCount, runOnCount] = ways.map((keys) => keys.filter(({ bytes }) => isAccepted(library, bytes)).length);
    const alike = ways[0].length > 0 && ways[0].every(({ bytes }) => bytes.length === ways[0][0].bytes.length && bytes[0] === ways[0][0].bytes[0]);
    return lineCount > runOnCount || (lineCount === runOnCount && alike) ? ways[0] : ways[1];
}

function whereOf(name, lines) {
    const [first, last] = [lines[0].number, lines.at(-1).number];
    return `${name === '' ? '' : `${name}, `}${first === last ? `line ${first}` : `lines ${first} to ${last}`}`;
}

/** What is in a line by itself: keys, what may be a damaged one, and words. */
function readAlone(library, line, name) {
    const amidst = readAmidst(library, line, name);
    if (amidst !== null) return amidst;
    if (line.other !== undefined) {
        const said = [wrongWords(line, name)];
        return isWords(line) ? { found: [], damage: [], words: said } : { found: [], damage: said, words: [] };
    }
    const isWhole = line.digits.length % 2 === 0;
    return { found: isWhole ? byLine([line]) : [], damage: isWhole ? [] : [oddWords([line], name)], words: [] };
}

/** What is in these lines, each by itself. */
function readEach(library, lines, name) {
    const reads = lines.map((line) => readAlone(library, line, name));
    const all = (part) => reads.flatMap((read) => read[part]);
    return { found: all('found'), damage: all('damage'), words: all('words') };
}

function oddWords(lines, name) {
    return sentence('odd digits', { where: whereOf(name, lines), count: lines.reduce((sum, { digits }) => sum + digits.length, 0) });
}

function wrongWords(line, name) {
    const where = whereOf(name, [line]);
    return hasPrint(line) ? sentence('fingerprint', { where }) : sentence('no digit', { where, sign: line.other });
}

/** The keys of one block, and what is wrong with it: sentences of what may be a damaged key, and of words. */
function readBlock(library, lines, name) {
    const isKey = ({ bytes }) => isAccepted(library, bytes);
    const isDigits = lines.every(({ other }) => other === undefined);
    const runs = isDigits ? keysOfBlock(library, lines) : [];
    if (runs.some(isKey)) return { found: runs, damage: [], words: [] };
    const each = readEach(library, lines, name);
    if (each.found.some(isKey) || (!isDigits && lines.length === 1)) return each;
    // No line is a key by itself: these are parts of one, in which something was changed.
    if (isDigits) return runs.length > 0 ? { found: runs, damage: [], words: [] } : { found: [], damage: [oddWords(lines, name)], words: [] };
    const damage = lines.filter(({ other }) => other !== undefined).map((line) => wrongWords(line, name));
    return { found: [], damage: [...damage, sentence('left out', { where: whereOf(name, lines) })], words: [] };
}

/**
 * The keys in a text, and what could not be read. A line that is no hexadecimal takes none of the others with it; what may be a damaged key is
 * named before words are.
 * @param {string} name of the file that the text is from, or ''
 * @returns {{ keys: { bytes: Uint8Array, from: string, label: ?number }[], problems: string[] }}
 */
export function keysOfText(library, text, name = '') {
    const [found, damage, words] = [[], [], []];
    for (const { label, lines } of blocksOf(text)) {
        const read = readBlock(library, lines, name);
        const isLabelled = read.found.length === 1 && read.found[0].line === lines[0];
        for (const { line, bytes } of read.found) found.push({ bytes, from: whereOf(name, [line]), label: isLabelled ? label : null });
        for (const said of read.damage) damage.push(said);
        for (const said of read.words) words.push(said);
    }
    // As many bytes as a fingerprint has, for no more than there are players; more are parts of something else.
    const prints = found.filter(({ bytes }) => bytes.length === PRINT_BYTES);
    const others = prints.length > MOST_KEYS ? found : found.filter((key) => !prints.includes(key));
    const printed = prints.length > MOST_KEYS ? [] : prints.map(({ from }) => sentence('fingerprint', { where: from }));
    return limited(library, others, [...damage, ...printed, ...words], name === '' ? 'the text' : name);
}

/** Not more refused keys and sentences of one text than a person reads; how many more there are is said. */
function limited(library, found, problems, where) {
    if (found.length === 0 && problems.length === 0) return { keys: [], problems: [sentence('empty', { where })] };
    const refused = found.filter(({ bytes }) => !isAccepted(library, bytes));
    const dropped = new Set(refused.slice(refused.length > MOST_WRONG + 1 ? MOST_WRONG : refused.length));
    const shown = problems.length > MOST_WRONG + 1 ? problems.slice(0, MOST_WRONG) : problems;
    const count = dropped.size + problems.length - shown.length;
    return { keys: found.filter((key) => !dropped.has(key)), problems: count === 0 ? shown : [...shown, sentence('more wrong', { where, count })] };
}

const CONTROL = /[\u0000-\u0008\u000E-\u001F\u007F]/; // eslint-disable-line no-control-regex

/** The text that these bytes are, in UTF-8 or, with its mark, UTF-16, or else a byte to a sign; null where they are none. A binary key never begins as
    a text does. */
function textOf(bytes) {
    const wide = bytes[0] === 0xFF && bytes[1] === 0xFE ? 'utf-16le' : bytes[0] === 0xFE && bytes[1] === 0xFF ? 'utf-16be' : null;
    try {
        const text = new TextDecoder(wide ?? 'utf-8', { fatal: true }).decode(bytes);
        return CONTROL.test(text) ? null : text;
    } catch {
        if (wide !== null || bytes.some((byte) => byte < 9 || (byte > 13 && byte < 32) || byte === 127)) return null;
        return Array.from(bytes, (byte) => String.fromCharCode(byte)).join('');
    }
}

/** The keys in a file, and what could not be read: text, or binary with one key or several one after another. */
export function keysOfFile(library, bytes, name) {
    if (bytes.length > MOST_FILE_BYTES) return { keys: [], problems: [sentence('too long', { where: name })] };
    if (bytes.length === 0) return { keys: [], problems: [sentence('empty', { where: name })] };
    const text = textOf(bytes);
    if (text !== null) return keysOfText(library, text, name);
    const parts = keysApart(library, bytes);
    const from = (place) => (parts.length === 1 ? name : `${name}, part ${place + 1}`);
    return { keys: parts.map((part, place) => ({ bytes: part, from: from(place), label: null })), problems: [] };
}

/** The whole match as a text: a line for each key, in the players' order. */
export function matchText(keys) {
    return keys.map((bytes, player) => `player ${player}: ${hexadecimal(bytes)}\n`).join('');
}

// ---- what the keys are ----

/** The five numbers that these bytes begin with, as a key's header has them; null where they are cut short. */
function headerNumbers(bytes) {
    const numbers = [];
    for (let at = 0; numbers.length < 5; ) {
        let [number, shift] = [0, 0];
        do {
            if (at === bytes.length || shift > 14) return null;
            number += (bytes[at] & 127) * 2 ** shift;
            shift += 7;
            at += 1;
        } while (bytes[at - 1] > 127);
        numbers.push(number);
    }
    const [players, player, positions, width, valueBytes] = numbers;
    return { players, player, positions, width, valueBytes };
}

/** Why a key by itself is refused, as a person would say it. */
function refusedWords(library, bytes, { name }) {
    if (name === 'REFUSED_MARKS') return sentence('damaged');
    if (name === 'REFUSED_PLAYER') return sentence('no such player');
    if (name !== 'REFUSED_LENGTH') return sentence('no key');
    const asked = library.keyLength(headerNumbers(bytes));
    return sentence(bytes.length < asked ? 'cut short' : 'too many bytes', { bytes: bytes.length, asked });
}

export function sameBoard(one, other) {
    return ['players', 'positions', 'width', 'valueBytes'].every((name) => one[name] === other[name]);
}

/** How a key's board differs from that of the match. */
function otherBoardWords(header, board) {
    if (header.players !== board.players) return sentence('other players', { players: WORDS.numbers[header.players] });
    if (header.positions !== board.positions) return sentence('other squares', header);
    return sentence(header.width !== board.width ? 'other width' : 'other value', header);
}

/** The board of the match: the first for which all players' keys are here; else the first of those with most. */
function boardOf(headers) {
    const boards = headers.filter((header, place) => headers.findIndex((one) => sameBoard(one, header)) === place);
    const here = (board) => new Set(headers.filter((header) => sameBoard(header, board)).map(({ player }) => player)).size;
    const better = (one, other) => {
        const [whole, otherWhole] = [one, other].map((board) => here(board) === board.players);
        return whole !== otherWhole ? otherWhole : here(other) > here(one);
    };
    return boards.reduce((best, board) => (best === null || better(best, board) ? board : best), null);
}

function sameBytes(one, other) {
    return one.length === other.length && one.every((byte, place) => byte === other[place]);
}

/** What is to be said of one key beside those before it: its sentence, and whether the match can do without it. */
function standingOf(library, key, before, board) {
    const { header, refusal } = key;
    if (refusal !== null) return { state: 'refused', words: refusedWords(library, key.bytes, refusal) };
    if (!sameBoard(header, board)) return { state: 'other', words: otherBoardWords(header, board) };
    const earlier = before.filter((one) => one.header !== null && sameBoard(one.header, board) && one.header.player === header.player);
    if (earlier.some(({ bytes }) => sameBytes(bytes, key.bytes))) return { state: 'copy', words: sentence('copy', header) };
    if (earlier.length > 0) return { state: 'conflict', words: sentence('conflict', header) };
    const isLabelled = key.label !== null && key.label !== header.player;
    return { state: 'used', words: isLabelled ? sentence('other label', { label: key.label, player: header.player }) : null };
}

/**
 * Checks each key, puts those of the match in the players' order, and joins them when none is missing and no two speak against each other.
 * @param {{ bytes: Uint8Array, from: string, label: ?number }[]} keys
 * @returns {{ keys: object[], board: ?object, players: ?object[], missing: number[], missingWords: ?string, joined: ?Uint8Array, refusal: ?Refused }}
 *     the keys as given, each with header or refusal, state ('used', 'copy', 'conflict', 'other' or 'refused') and words; the match's board;
 *     its keys by player, null where one is missing; the joined table, or the library's refusal to join what is here
 */
export function examine(library, keys) {
    const examined = keys.map((key) => ({ ...key, ...checked(library, key.bytes) }));
    const board = boardOf(examined.flatMap(({ header }) => (header === null ? [] : [header])));
    examined.forEach((key, place) => Object.assign(key, standingOf(library, key, examined.slice(0, place), board)));
    const nothing = { keys: examined, board, players: [], missing: [], missingWords: null, joined: null, refusal: null };
    if (board === null) return nothing;
    const players = Array.from({ length: board.players }, (_, player) =>
        examined.find(({ state, header }) => state === 'used' && header.player === player) ?? null);
    const missing = players.flatMap((key, player) => (key === null ? [player] : []));
    const missingWords = missing.length === 0 ? null
        : missing.length === 1 ? sentence('missing', { player: missing[0] }) : sentence('several missing', { players: listed(missing) });
    const inOrder = examined.filter(({ state }) => state === 'used' || state === 'conflict')
        .sort((one, other) => one.header.player - other.header.player);
    const { value, refusal } = answerOf(() => library.joinKeys(together(inOrder.map(({ bytes }) => bytes))));
    return { ...nothing, players, missing, missingWords, joined: value, refusal };
}

// ---- what they join to ----

/** What a table has for a position. */
export function entry(table, { valueBytes }, position) {
    return table.subarray(position * valueBytes, (position + 1) * valueBytes);
}

/** The positions whose entry is not zero. */
export function marked(table, board) {
    return Array.from({ length: board.positions }, (_, position) => position)
        .filter((position) => entry(table, board, position).some((byte) => byte !== 0));
}

/** A square in words; `sensor` is undefined where the board is not the spring board. */
export function squareWords(position, sensor) {
    const values = { position, line: Math.floor(position / SQUARES_IN_A_LINE), column: position % SQUARES_IN_A_LINE, sensor };
    return sentence(sensor === undefined ? 'square' : 'square with sensor', values);
}

/** What a joined table shows, in a sentence: the piece, several squares, or none. */
export function joinedWords(table, board, sensorOf) {
    const found = marked(table, board);
    if (found.length === 0) return sentence('zero');
    if (found.length > 1) return sentence('several', { count: found.length });
    const [position] = found;
    return sentence('piece', { place: squareWords(position, sensorOf(position)), value: hexadecimal(entry(table, board, position)) });
}

/** The XOR of some players' tables, by Join shares, sixteen bytes at a time. */
export function joinTables(library, tables) {
    if (tables.length === 1) return tables[0];
    const joined = new Uint8Array(tables[0].length);
    for (let at = 0; at < joined.length; at += MOST_SHARE_BYTES) {
        const valueBytes = Math.min(MOST_SHARE_BYTES, joined.length - at);
        const shares = together(tables.map((table) => table.subarray(at, at + valueBytes)));
        joined.set(library.joinShares({ players: tables.length, valueBytes, shares }), at);
    }
    return joined;
}

/** The printed deal of document 01, with the seeds and words of the stored input of the program `dealer`. */
export function printedDeal() {
    return {
        players: 2, positions: 6, width: 4, valueBytes: 1, point: 4,
        value: Uint8Array.of(0xA5),
        arrays: Uint8Array.of(0, 3, 1, 2),
        seeds: Uint8Array.from({ length: 128 }, (_, place) => place),
        words: Uint8Array.of(0xF0, 0xF1, 0xF2, 0xF3),
    };
}
