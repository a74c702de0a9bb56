// The operations of Nosingginger for app makers, over its WebAssembly module: numbers and typed arrays in and
// out, refusals as errors with a name; and a tally that owns its table. Runs in node and in browsers, with no other file
// than the module's bytes. Assumes that those are Nosingginger's. nosingginger.d.ts has its types.
//
//     import { load, Refused } from 'nosingginger';       // or from './nosingginger.mjs'
//     const nosingginger = await load();                  // with nosingginger.wasm, which lies beside this file
//     const header = nosingginger.checkKey(key);          // or throws Refused
//
// The WebAssembly module is the proved module compiled for another machine, and tested there; this file is tested, not proved.

/**
 * The refusals in the order of their numbers, by the names that all of Nosingginger's interfaces use, with the words for a person: those of
 * the repository's refusals.txt. There is none of number 8, so one is found by its number and not by its place here.
 * @type {ReadonlyArray<{ readonly number: number, readonly name: string, readonly words: string }>}
 */
export const REFUSALS = Object.freeze([
    [1, 'REFUSED_PLAYERS', 'the number of players is not 2 to 6'],
    [2, 'REFUSED_POSITIONS', 'the number of positions is not 1 to 65,536'],
    [3, 'REFUSED_WIDTH', "the grid's width is not 1 to 256"],
    [4, 'REFUSED_VALUE_BYTES', "a value's width is not 1 to 16 bytes, or the width of shares to be joined not 1 to 256"],
    [5, 'REFUSED_GRID_ROWS', 'the board has more than 256 grid rows at this width'],
    [6, 'REFUSED_POINT', "the piece's point is none of the board's positions"],
    [7, 'REFUSED_LENT', 'an input does not have the length that the numbers ask for'],
    [9, 'REFUSED_ROOM', 'the output is too short for what is to be written'],
    [10, 'REFUSED_NUMBER', "a key's header has a number that is cut short, over three groups or not in its shortest form"],
    [11, 'REFUSED_PLAYER', "a key's player is not below its number of players"],
    [12, 'REFUSED_LENGTH', 'a key, or all keys together, do not have the length that the header asks for'],
    [13, 'REFUSED_MARKS', 'a key marks another number of columns than half in some grid row, or has a spare bit set'],
    [14, 'REFUSED_POSITION', "the position is none of the board's"],
    [15, 'REFUSED_PLACE', 'a key is of another board than the first, or not of the player whose place it stands in'],
    [16, 'REFUSED_EXPANSION', 'what is asked of a seed ends past its first 4,096 bytes'],
    [17, 'REFUSED_SENSOR', "the sensor is none of the spring board's 72"],
    [18, 'REFUSED_COLUMN_BIT', "an array's column has a bit of no player"],
    [19, 'REFUSED_COLUMN_PARITY', "an array's column has the wrong parity for its grid row"],
    [20, 'REFUSED_COLUMN_TWICE', "an array's column stood earlier in its array"],
    [21, 'REFUSED_CARD_KEY', "the key's values are wider than the one byte that drawing a card takes"],
    [22, 'REFUSED_DECK', 'a card is not 1 to 256 bytes long, or the deck is not one card for each position'],
    [23, 'REFUSED_TALLY', "the key's players, player, positions or value bytes are not the tally's"],
].map(([number, name, words]) => Object.freeze({ number, name, words })));

/**
 * Where a column stands in a dealing's arrays: the grid row, and the column's index in that grid row's array, both from 0 on.
 * @typedef {{ gridRow: number, column: number }} ColumnPlace
 */

// The refusals of a bad column, which say where it stands. Deal alone gives them.
const COLUMN_REFUSALS = [18, 19, 20];
// Those that a Tally gives by itself.
const REFUSED_LENT = 7;
const REFUSED_PLACE = 15;

/** A call that was refused. The lent output is as it was. */
export class Refused extends Error {
    /**
     * @param {number} number the refusal's number
     * @param {ColumnPlace} [place] where the bad column stands, with 18, 19 and 20
     */
    constructor(number, place) {
        const { name, words } = REFUSALS.find((refusal) => refusal.number === number)
            ?? { name: 'REFUSED', words: 'a number that is not known here' };
        super(`refused ${number}: ${words}${place === undefined ? '' : ` (grid row ${place.gridRow}, column ${place.column})`}`);
        /** The refusal's number, from 1 on. @type {number} */
        this.number = number;
        /** The number's name, as 'REFUSED_LENGTH'. @type {string} */
        this.name = name;
        /** The number in words. @type {string} */
        this.words = words;
        if (place !== undefined) {
            /** The bad column's grid row, from 0 on. @type {number | undefined} */
            this.gridRow = place.gridRow;
            /** Its index in that grid row's array, from 0 on. @type {number | undefined} */
            this.column = place.column;
        }
    }
}

/**
 * A board's four numbers: players (2 to 6), positions (1 to 65,536), the grid's width (1 to 256) and the bytes of a value (1 to 16).
 * @typedef {{ players: number, positions: number, width: number, valueBytes: number }} Board
 */

/**
 * What a key's header says: the board, and whose key it is.
 * @typedef {{ players: number, player: number, positions: number, width: number, valueBytes: number }} Header
 */

/**
 * A dealing: the board, the piece's point and value, and what is drawn. With J = 2 to the power of players - 1 columns, and as many grid rows
 * as positions / width rounded up: arrays has J bytes for each grid row, seeds J × 32, and words has (J - 1) × width × valueBytes in all.
 * @typedef {Board & { point: number, value: Uint8Array, arrays: Uint8Array, seeds: Uint8Array, words: Uint8Array }} Dealing
 */

/**
 * What a tally is made for: players (2 to 6), whose tally it is (from 0 on, below players), positions (1 to 65,536) and
 * the bytes of a value (1 to 16). A key's header has them among its numbers.
 * @typedef {{ players: number, player: number, positions: number, valueBytes: number }} TallyNumbers
 */

const SEED_BYTES = 32;
const HEADER_NUMBERS = 5;
// What a call tells in numbers beside the bytes that it writes: the place of a bad column, or how many bytes a board's
// page has.
const TOLD_NUMBERS = 2;
const NUMBER_BYTES = 4;
const MEMORY_PAGE_BYTES = 65536;
const MOST_PLAYERS = 6;
const MOST_POSITIONS = 65536;
const MOST_VALUE_BYTES = 16;
const SQUARES_IN_A_LINE = 8;
// The longest share that joinShares takes, and the longest card.
const MOST_SHARE_BYTES = 256;
const MOST_DECK_BYTES = 16777216;
const CALLS = ['key_length', 'deal', 'check_key', 'open_one', 'open_all', 'draw_card', 'write_page', 'join_shares',
    'join_keys', 'held_seed', 'expand', 'choose_width', 'sensor_position', 'tally_make', 'tally_add', 'tally_look_up',
    'tally_total'];

/**
 * Makes the operations from the WebAssembly module. The source may be
 *   - nothing: the file nosingginger.wasm that lies beside this one, wherever that is;
 *   - the module's bytes, or the compiled module;
 *   - a URL: file: (in node), http:, https:, data: or blob:;
 *   - a string. In node it is a path, unless it is a whole URL; a relative one leads from the folder that the program was started in. In a
 *     browser it is what fetch takes: a relative one leads from the page's base address, in a worker from the worker's script.
 * Where nothing can be had, or something else than Nosingginger's module, the promise is rejected.
 * @param {BufferSource | WebAssembly.Module | URL | string} [source]
 * @returns {Promise<Nosingginger>}
 */
export async function load(source = new URL('nosingginger.wasm', import.meta.url)) {
    const module = source instanceof WebAssembly.Module ? source : await WebAssembly.compile(await bytesAt(source));
    return new Nosingginger(await WebAssembly.instantiate(module));
}

/**
 * Makes the operations from the module's bytes in base64, as a page has them that is one file.
 * @param {string} text
 * @returns {Promise<Nosingginger>}
 */
export async function loadBase64(text) {
    return load(Uint8Array.from(atob(text.trim()), (letter) => letter.charCodeAt(0)));
}

// A string that starts so is no path. The name of node's files stands apart, so that tools that bundle an app for browsers do not seek it.
const WHOLE_URL = /^(?:file|https?|data|blob):/i;
const NODE_FILES = 'node:fs/promises';

/** The bytes themselves, or those that a place holds. A browser fetches nothing from files: there, lend the bytes or base64. */
async function bytesAt(source) {
    // An engine compiles a Uint8Array, and not every other view of bytes.
    if (ArrayBuffer.isView(source)) return new Uint8Array(source.buffer, source.byteOffset, source.byteLength);
    if (!(source instanceof URL) && typeof source !== 'string') return source;
    const place = WHOLE_URL.test(source) ? new URL(source) : source;
    if (globalThis.process?.versions?.node && (typeof place === 'string' || place.protocol === 'file:')) {
        return (await import(/* webpackIgnore: true */ /* @vite-ignore */ NODE_FILES)).readFile(place);
    }
    const answer = await fetch(place);
    if (!answer.ok) throw new Error(`no WebAssembly module at ${answer.url}: ${answer.status}`);
    return answer.arrayBuffer();
}

/** A number of 32 bits as the module takes it. */
function u32(number, what) {
    if (!Number.isInteger(number) || number < 0 || number > 0xFFFFFFFF) {
        throw new RangeError(`${what} is not a whole number from 0 to 4294967295: ${String(number)}`);
    }
    return number;
}

/** A number of 64 bits as the module takes it, which is a BigInt. */
function u64(number, what) {
    const isWhole = typeof number === 'bigint' || Number.isSafeInteger(number);
    if (!isWhole || number < 0 || number > 0xFFFFFFFFFFFFFFFFn) {
        throw new RangeError(`${what} is not a whole number from 0 to 2^53 - 1, nor a BigInt from 0 to 2^64 - 1: `
            + String(number));
    }
    return BigInt(number);
}

function bytes(given, what) {
    if (!(given instanceof Uint8Array)) throw new TypeError(`${what} is not a Uint8Array`);
    return given;
}

/** Room for numbers that the module writes. */
function roomFor(many) {
    return new Uint8Array(many * NUMBER_BYTES);
}

/** The numbers that the module wrote. */
function numbersIn(written) {
    const view = new DataView(written.buffer);
    return Array.from({ length: written.length / NUMBER_BYTES }, (_, place) => view.getUint32(place * NUMBER_BYTES, true));
}

/** What the module tells of a bad column: where it stands. */
function placeOf([gridRow, column]) {
    return { gridRow, column };
}

/**
 * The operations. Every call takes numbers and lent bytes, answers its result, or throws `Refused` with the first number that fits. A call
 * holds no state. The module works on copies of the lent bytes; the copies are wiped after each call, the module's own stack is not.
 *
 * An output may be lent to the calls that write bytes, as their last argument: they write to its front and answer that part of it. Whatever
 * a call leaves of the lent output, of refused calls too, is what the module left of it. Without one, a new array of the right length is
 * answered.
 */
export class Nosingginger {
    #calls;
    #memory;
    #start;

    /** @param {WebAssembly.Instance} instance of Nosingginger's module; `load` makes one */
    constructor(instance) {
        const { memory } = instance.exports;
        if (!(memory instanceof WebAssembly.Memory)) throw new TypeError('not Nosingginger\u2019s module: it has no memory');
        this.#calls = Object.fromEntries(CALLS.map((name) => {
            const call = instance.exports[`nsg_${name}`];
            if (typeof call !== 'function') throw new TypeError(`not Nosingginger\u2019s module: it has no nsg_${name}`);
            return [name, call];
        }));
        this.#memory = memory;
        // The memory that the module came with is its own; lent bytes stand behind it.
        this.#start = memory.buffer.byteLength;
    }

    /**
     * KEY LENGTH: the bytes of each player's key. Refusals: 1 to 5.
     * @param {Board} board
     * @returns {number}
     */
    keyLength({ players, positions, width, valueBytes }) {
        const numbers = [u32(players, 'players'), u32(positions, 'positions'), u32(width, 'width'), u32(valueBytes, 'valueBytes')];
        return this.#value((place) => this.#calls.key_length(...numbers, place));
    }

    /**
     * DEAL: the keys of all players one after another, player 0 first. Refusals: 1 to 7; 18, 19 or 20 for the first bad column of the arrays,
     * grid row by grid row and column by column, with its place; 9. A column is bad for a bit at players or above (18), else for a count of
     * ones that is even in the point's grid row or odd in another (19), else where it stood earlier in its array (20). Place and number can
     * tell the point's grid row: they are for the board's maker, not for players.
     * @param {Dealing} dealing
     * @param {Uint8Array} [out] lent output of at least players × key length bytes
     * @returns {Uint8Array} the keys
     */
    deal({ players, positions, width, valueBytes, point, value, arrays, seeds, words }, out) {
        const numbers = [u32(players, 'players'), u32(positions, 'positions'), u32(width, 'width'), u32(valueBytes, 'valueBytes'),
            u32(point, 'point')];
        const inputs = [bytes(value, 'value'), bytes(arrays, 'arrays'), bytes(seeds, 'seeds'), bytes(words, 'words')];
        const room = () => players * this.keyLength({ players, positions, width, valueBytes });
        return this.#answer(out, room, inputs, (lent, output, [fault]) => this.#calls.deal(...numbers, ...lent, ...output, fault));
    }

    /**
     * CHECK KEY: the header's numbers of an accepted key. Refusals: 10, 1 to 5, 11, 12, 13.
     * @param {Uint8Array} key
     * @returns {Header}
     */
    checkKey(key) {
        const header = roomFor(HEADER_NUMBERS);
        this.#write([bytes(key, 'key')], header, (lent, [place]) => this.#calls.check_key(...lent, place));
        const [players, player, positions, width, valueBytes] = numbersIn(header);
        return { players, player, positions, width, valueBytes };
    }

    /**
     * OPEN ONE: the key's share of one position, as many bytes as a value has. Refusals: those of checkKey, 14, 9.
     * @param {Uint8Array} key
     * @param {number} position
     * @param {Uint8Array} [out] lent output
     * @returns {Uint8Array} the share
     */
    openOne(key, position, out) {
        u32(position, 'position');
        const room = () => this.checkKey(key).valueBytes;
        return this.#answer(out, room, [bytes(key, 'key')], (lent, output) => this.#calls.open_one(...lent, position, ...output));
    }

    /**
     * OPEN ALL: the key's full table, its share of each position from 0 on. Refusals: those of checkKey, 9.
     * @param {Uint8Array} key
     * @param {Uint8Array} [out] lent output
     * @returns {Uint8Array} the table, positions × valueBytes bytes
     */
    openAll(key, out) {
        const room = () => tableBytes(this.checkKey(key));
        return this.#answer(out, room, [bytes(key, 'key')], (lent, output) => this.#calls.open_all(...lent, ...output));
    }

    /**
     * DRAW CARD: a phone's answer to whoever wants a card: the XOR of those cards of the deck at whose positions the
     * key's share has its lowest bit set. Of all players' answers joinShares makes the card at the point, where the
     * keys hide an odd value such as 1, and zeros where they hide an even one. Refusals: those of checkKey; 21 where
     * the key's values are wider than one byte; 22 where cardBytes is not 1 to 256 or the deck not positions ×
     * cardBytes bytes; 9.
     * @param {Uint8Array} key
     * @param {Uint8Array} deck the cards one after another, one for each position, the same for all players
     * @param {number} cardBytes
     * @param {Uint8Array} [out] lent output
     * @returns {Uint8Array} the answer, cardBytes bytes
     */
    drawCard(key, deck, cardBytes, out) {
        u32(cardBytes, 'cardBytes');
        // A longer card is refused and needs no room. So is a longer deck than there is: what it has past that is not
        // copied.
        const room = () => Math.min(cardBytes, MOST_SHARE_BYTES);
        const inputs = [bytes(key, 'key'), bytes(deck, 'deck').subarray(0, MOST_DECK_BYTES + 1)];
        const call = (lent, output) => this.#calls.draw_card(...lent, cardBytes, ...output);
        return this.#answer(out, room, inputs, call);
    }

    /**
     * WRITE PAGE: an opened table as a page to be pinned up, in lines of eight squares. A line is its first position in
     * five places, right-aligned; for each square a space and 2 × valueBytes upper-case hexadecimal digits, byte 0 first
     * and of a byte the high digit, or as many spaces where the board has no such square; and a line feed. So every line
     * has 6 + 8 × (2 × valueBytes + 1) characters, and the digits of position a begin at character
     * 6 + (a % 8) × (2 × valueBytes + 1) of line ⌊a / 8⌋, both from 0 on. Refusals: 2; 4; 7 where the table is not
     * positions × valueBytes bytes.
     * @param {number} positions
     * @param {number} valueBytes
     * @param {Uint8Array} table as openAll and joinKeys give it
     * @returns {string} the page, in ASCII
     */
    writePage(positions, valueBytes, table) {
        u32(positions, 'positions');
        u32(valueBytes, 'valueBytes');
        // A table longer than the largest is refused whatever it holds, so the rest of it is not copied.
        const inputs = [bytes(table, 'table').subarray(0, MOST_POSITIONS * MOST_VALUE_BYTES + 1)];
        const page = new Uint8Array(pageBytes(positions, valueBytes));
        const [written] = this.#write(inputs, page, (lent, output, [told]) =>
            this.#calls.write_page(positions, valueBytes, ...lent, ...output, told));
        return new TextDecoder().decode(page.subarray(0, written));
    }

    /**
     * JOIN SHARES: the XOR of all players' shares, or of their answers of drawCard. Refusals: 1; 4 where valueBytes is
     * not 1 to 256; 7; 9.
     * @param {{ players: number, valueBytes: number, shares: Uint8Array }} given the shares one after another
     * @param {Uint8Array} [out] lent output
     * @returns {Uint8Array} the value or the card, valueBytes bytes
     */
    joinShares({ players, valueBytes, shares }, out) {
        u32(players, 'players');
        u32(valueBytes, 'valueBytes');
        // A longer share is refused and needs no room.
        const room = () => Math.min(valueBytes, MOST_SHARE_BYTES);
        const inputs = [bytes(shares, 'shares')];
        return this.#answer(out, room, inputs, (lent, output) => this.#calls.join_shares(players, valueBytes, ...lent, ...output));
    }

    /**
     * JOIN KEYS: the XOR of the full tables of all players' keys: the value on the piece's square and zero on every other, when the keys are
     * of one dealing. Refusals: for the first key 10, 1 to 5, 11; 12; then for each key 10, 1 to 5, 11, 15, 13; last 9.
     * @param {Uint8Array} keys all keys one after another, player 0 first
     * @param {Uint8Array} [out] lent output
     * @returns {Uint8Array} the joined table, positions × valueBytes bytes
     */
    joinKeys(keys, out) {
        const room = () => this.#joinedBytes(keys);
        return this.#answer(out, room, [bytes(keys, 'keys')], (lent, output) => this.#calls.join_keys(...lent, ...output));
    }

    /**
     * HELD SEED: the 32 bytes of the key itself for a grid row and a column, never a copy; an empty part where the key holds none or is not
     * accepted. It is not refused.
     * @param {Uint8Array} key
     * @param {number} gridRow
     * @param {number} column
     * @returns {Uint8Array} a part of the lent key
     */
    heldSeed(key, gridRow, column) {
        u32(gridRow, 'gridRow');
        u32(column, 'column');
        const place = Number(BigInt.asUintN(64,
            this.#lend([bytes(key, 'key')], ([lent]) => this.#calls.held_seed(...lent, gridRow, column))));
        return place === 0 ? key.subarray(0, 0) : key.subarray(place, place + SEED_BYTES);
    }

    /**
     * EXPAND: fills the output with bytes of the seed's key stream, from its byte `start` on; 0 is the first. Refusals:
     * 7; 16 where start and the output's length are together above 4,096.
     * @param {Uint8Array} seed 32 bytes
     * @param {number | bigint} start a whole number up to 2^53 - 1, or a BigInt up to 2^64 - 1
     * @param {Uint8Array} out lent output
     * @returns {Uint8Array} the output
     */
    expand(seed, start, out) {
        const inputs = [bytes(seed, 'seed')];
        // Looked at before the start, so that a call without a start is told that its output is missing.
        bytes(out, 'out');
        const from = u64(start, 'start');
        this.#write(inputs, out, (lent, output) => this.#calls.expand(...lent, from, ...output));
        return out;
    }

    /**
     * CHOOSE WIDTH: the grid's width that makes keys shortest: among the widths 1 to 256 at which the board has at most
     * 256 grid rows, the one whose keyLength, which has the header in it, is least, and the smaller where two tie.
     * Refusals: 1, 2, 4.
     * @param {{ players: number, positions: number, valueBytes: number }} board
     * @returns {number}
     */
    chooseWidth({ players, positions, valueBytes }) {
        const numbers = [u32(players, 'players'), u32(positions, 'positions'), u32(valueBytes, 'valueBytes')];
        return this.#value((place) => this.#calls.choose_width(...numbers, place));
    }

    /**
     * SENSOR POSITION: where a sensor of the spring board lies. Refusal: 17.
     * @param {number} sensor 0 to 71
     * @returns {number}
     */
    sensorPosition(sensor) {
        u32(sensor, 'sensor');
        return this.#value((place) => this.#calls.sensor_position(sensor, place));
    }

    /**
     * TALLY MAKE: a tally's table, all zero. Bytes of a longer lent one past positions × valueBytes are left as they
     * were, here and by tallyAdd. Refusals: 1, 2, 4, 11, 9.
     * @param {TallyNumbers} numbers
     * @param {Uint8Array} [out] lent table
     * @returns {Uint8Array} the table, positions × valueBytes bytes
     */
    tallyMake(numbers, out) {
        const four = tallyArguments(numbers);
        return this.#answer(out, () => tableBytes(numbers), [], (_, output) => this.#calls.tally_make(...four, ...output));
    }

    /**
     * TALLY ADD: XORs a key's full table into the tally's. A key added twice cancels itself. Refusals: those of
     * tallyMake, 9 for the table; those of checkKey; 23 where players, player, positions or valueBytes of the key are
     * not the tally's; its width may be any.
     * @param {TallyNumbers} numbers
     * @param {Uint8Array} key
     * @param {Uint8Array} table lent table, which is changed
     * @returns {Uint8Array} the table, positions × valueBytes bytes of the lent one
     */
    tallyAdd(numbers, key, table) {
        const four = tallyArguments(numbers);
        const inputs = [bytes(key, 'key')];
        return this.#answer(bytes(table, 'table'), () => tableBytes(numbers), inputs, (lent, output) =>
            this.#calls.tally_add(...four, ...lent, ...output));
    }

    /**
     * TALLY LOOK UP: the table's entry at a position: one player's share of the XOR of all values hidden there. Of all
     * players' entries joinShares makes that XOR. Refusals: those of tallyMake, 9 for the table; 14; 9 for the output.
     * @param {TallyNumbers} numbers
     * @param {Uint8Array} table
     * @param {number} position
     * @param {Uint8Array} [out] lent output
     * @returns {Uint8Array} the entry, valueBytes bytes
     */
    tallyLookUp(numbers, table, position, out) {
        u32(position, 'position');
        return this.#entry(numbers, table, out, (four, lent, output) =>
            this.#calls.tally_look_up(...four, ...lent, position, ...output));
    }

    /**
     * TALLY TOTAL: the XOR of all the table's entries: one player's share of the XOR of all values hidden. Of all
     * players' totals joinShares makes that XOR. Refusals: those of tallyMake, 9 for the table; 9 for the output.
     * @param {TallyNumbers} numbers
     * @param {Uint8Array} table
     * @param {Uint8Array} [out] lent output
     * @returns {Uint8Array} the total, valueBytes bytes
     */
    tallyTotal(numbers, table, out) {
        return this.#entry(numbers, table, out, (four, lent, output) =>
            this.#calls.tally_total(...four, ...lent, ...output));
    }

    /** Runs a call that reads a tally's table and writes as much as an entry has. */
    #entry(numbers, table, out, call) {
        const four = tallyArguments(numbers);
        // What a table has past the largest is nobody's, so it is not copied; a longer entry is refused and needs no room.
        const inputs = [bytes(table, 'table').subarray(0, MOST_POSITIONS * MOST_VALUE_BYTES)];
        const room = () => Math.min(numbers.valueBytes, MOST_VALUE_BYTES);
        return this.#answer(out, room, inputs, (lent, output) => call(four, lent, output));
    }

    /** The bytes of the table that these keys join to; 0 where the first of them is not accepted, and they are refused. */
    #joinedBytes(keys) {
        for (let players = 2; players <= MOST_PLAYERS; players += 1) {
            if (keys.length % players !== 0) continue;
            try {
                const header = this.checkKey(keys.subarray(0, keys.length / players));
                if (header.players === players) return tableBytes(header);
            } catch (error) {
                if (!(error instanceof Refused)) throw error;
            }
        }
        return 0;
    }

    /** Runs a call that writes `room()` bytes, to the lent output or to a new one, and answers them. */
    #answer(out, room, inputs, call) {
        // Asked before the call: the output may be the memory of an input.
        const length = room();
        const output = out ?? new Uint8Array(length);
        this.#write(inputs, output, call);
        return output.subarray(0, length);
    }

    /** Runs a call that writes one number. */
    #value(call) {
        const number = roomFor(1);
        this.#write([], number, (lent, [place]) => call(place));
        return numbersIn(number)[0];
    }

    /**
     * Runs a call that writes to a lent output; the output comes back as the module left it, whatever the answer.
     * Beside it the call is given room for numbers that it tells, which are answered.
     */
    #write(inputs, output, call) {
        const told = roomFor(TOLD_NUMBERS);
        const outputs = [bytes(output, 'out'), told];
        const refusal = this.#lend([...inputs, ...outputs], (lent) => {
            const places = lent.slice(inputs.length);
            const answer = call(lent.slice(0, inputs.length).flat(), ...places) >>> 0;
            outputs.forEach((slice, index) => slice.set(new Uint8Array(this.#memory.buffer, places[index][0], slice.length)));
            return answer;
        });
        const numbers = numbersIn(told);
        if (refusal !== 0) throw new Refused(refusal, COLUMN_REFUSALS.includes(refusal) ? placeOf(numbers) : undefined);
        return numbers;
    }

    /** Copies slices behind the module's own memory, runs a call on their places and lengths, and wipes the copies. */
    #lend(slices, call) {
        let end = this.#start;
        const places = slices.map((slice) => {
            const place = end;
            end += Math.ceil((slice.length + 1) / 16) * 16;
            return place;
        });
        const missing = end - this.#memory.buffer.byteLength;
        if (missing > 0) this.#memory.grow(Math.ceil(missing / MEMORY_PAGE_BYTES));
        const memory = new Uint8Array(this.#memory.buffer);
        try {
            slices.forEach((slice, index) => memory.set(slice, places[index]));
            return call(slices.map((slice, index) => [places[index], BigInt(slice.length)]));
        } finally {
            memory.fill(0, this.#start, end);
        }
    }
}

/**
 * A player's tally over many hunts, which owns its table. Each player makes one for the board, adds its own key of each
 * hunt, in any order and whatever the hunts' widths, and hands its table out at the end. Joined, the tallies of all
 * players show on each square the XOR of all values that were hidden there; no tally alone shows anything.
 *
 * All players must add exactly their keys of the same hunts. A hunt that one of them leaves out, or adds twice, makes
 * noise of the joined table, and nothing can check that.
 */
export class Tally {
    #nosingginger;
    #numbers;
    #table;

    /**
     * A new tally, or one that was stored. Refusals: 1, 2, 4, 11; 7 where the stored table is not positions × valueBytes
     * bytes. Any bytes of that length are taken for a tally's.
     * @param {Nosingginger} nosingginger what `load` gave
     * @param {TallyNumbers} numbers a key's header will do
     * @param {Uint8Array} [stored] a tally's `table` of before, which is copied
     */
    constructor(nosingginger, { players, player, positions, valueBytes }, stored) {
        if (stored !== undefined) bytes(stored, 'stored');
        this.#nosingginger = nosingginger;
        this.#numbers = Object.freeze({ players, player, positions, valueBytes });
        this.#table = nosingginger.tallyMake(this.#numbers);
        if (stored === undefined) return;
        if (stored.length !== this.#table.length) throw new Refused(REFUSED_LENT);
        this.#table.set(stored);
    }

    /**
     * The table of all players' tallies joined, by joinShares: on each square the XOR of all values that were hidden
     * there, where all added exactly their keys of the same hunts. The tallies may stand in any order. Refusal: 15 where
     * they are not those of all players of one board, each player's once.
     * @param {Iterable<Tally>} tallies
     * @returns {Uint8Array} the joined table, positions × valueBytes bytes
     */
    static join(tallies) {
        const all = [...tallies];
        const numbers = all.map((tally) => tally.#numbers);
        const { players, positions, valueBytes } = numbers[0] ?? {};
        const isOfBoard = (other) =>
            other.players === players && other.positions === positions && other.valueBytes === valueBytes;
        const isPlayedByAll = all.length === players && new Set(numbers.map(({ player }) => player)).size === players;
        if (!isPlayedByAll || !numbers.every(isOfBoard)) throw new Refused(REFUSED_PLACE);
        const joined = new Uint8Array(all[0].#table.length);
        // Joining goes byte by byte, so as many bytes are joined at once as shares may have, whatever a value has.
        for (let at = 0; at < joined.length; at += MOST_SHARE_BYTES) {
            const out = joined.subarray(at, at + MOST_SHARE_BYTES);
            const shares = new Uint8Array(players * out.length);
            all.forEach((tally, place) => shares.set(tally.#table.subarray(at, at + out.length), place * out.length));
            all[0].#nosingginger.joinShares({ players, valueBytes: out.length, shares }, out);
        }
        return joined;
    }

    /** What the tally is made for; nobody changes it. @type {Readonly<TallyNumbers>} */
    get numbers() {
        return this.#numbers;
    }

    /** A copy of the table, to be stored or handed out: positions × valueBytes bytes. @type {Uint8Array} */
    get table() {
        return this.#table.slice();
    }

    /**
     * Adds this player's key of a hunt. A key added once more is taken out again. Refusals: those of checkKey; 23 where
     * players, player, positions or valueBytes of the key are not the tally's. A refused key leaves the tally as it was.
     * @param {Uint8Array} key
     * @returns {void}
     */
    add(key) {
        this.#nosingginger.tallyAdd(this.#numbers, key, this.#table);
    }

    /**
     * The entry at a position. The table is copied for each call; who wants many entries takes `table`. Refusal: 14.
     * @param {number} position
     * @returns {Uint8Array} valueBytes bytes
     */
    get(position) {
        return this.#nosingginger.tallyLookUp(this.#numbers, this.#table, position);
    }

    /**
     * The XOR of all entries.
     * @returns {Uint8Array} valueBytes bytes
     */
    total() {
        return this.#nosingginger.tallyTotal(this.#numbers, this.#table);
    }
}

/** A tally's numbers in the order in which the module takes them. */
function tallyArguments({ players, player, positions, valueBytes }) {
    return [u32(players, 'players'), u32(player, 'player'), u32(positions, 'positions'), u32(valueBytes, 'valueBytes')];
}

/** The bytes of a board's table; 0 where there is no such board, which is refused and needs no room. */
function tableBytes({ positions, valueBytes }) {
    return positions > MOST_POSITIONS || valueBytes > MOST_VALUE_BYTES ? 0 : positions * valueBytes;
}

/** The bytes of a board's page; 0 where there is no such board. */
function pageBytes(positions, valueBytes) {
    if (tableBytes({ positions, valueBytes }) === 0) return 0;
    return Math.ceil(positions / SQUARES_IN_A_LINE) * (6 + SQUARES_IN_A_LINE * (2 * valueBytes + 1));
}
