// The types of nosingginger.mjs. Assumes TypeScript 4.7 or later; needs neither the browser's types nor node's, and works beside both.

// What only the browser's types or node's declare, so that a program without them can name it. Where they are, nothing is added to them.
declare global {
    interface URL {}
    namespace WebAssembly {
        interface Module {}
        interface Instance {}
    }
}

/** A refusal: its number, its name, and what it means in words. */
export interface Refusal<Num extends number, Name extends string, Words extends string> {
    readonly number: Num;
    readonly name: Name;
    readonly words: Words;
}

/** All refusals in the order of their numbers. There is none of number 8, so one is found by its number and not by its place here. */
export const REFUSALS: readonly [
    Refusal<1, 'REFUSED_PLAYERS', 'the number of players is not 2 to 6'>,
    Refusal<2, 'REFUSED_POSITIONS', 'the number of positions is not 1 to 65,536'>,
    Refusal<3, 'REFUSED_WIDTH', "the grid's width is not 1 to 256">,
    Refusal<4, 'REFUSED_VALUE_BYTES', "a value's width is not 1 to 16 bytes, or the width of shares to be joined not 1 to 256">,
    Refusal<5, 'REFUSED_GRID_ROWS', 'the board has more than 256 grid rows at this width'>,
    Refusal<6, 'REFUSED_POINT', "the piece's point is none of the board's positions">,
    Refusal<7, 'REFUSED_LENT', 'an input does not have the length that the numbers ask for'>,
    Refusal<9, 'REFUSED_ROOM', 'the output is too short for what is to be written'>,
    Refusal<10, 'REFUSED_NUMBER', "a key's header has a number that is cut short, over three groups or not in its shortest form">,
    Refusal<11, 'REFUSED_PLAYER', "a key's player is not below its number of players">,
    Refusal<12, 'REFUSED_LENGTH', 'a key, or all keys together, do not have the length that the header asks for'>,
    Refusal<13, 'REFUSED_MARKS', 'a key marks another number of columns than half in some grid row, or has a spare bit set'>,
    Refusal<14, 'REFUSED_POSITION', "the position is none of the board's">,
    Refusal<15, 'REFUSED_PLACE', 'a key is of another board than the first, or not of the player whose place it stands in'>,
    Refusal<16, 'REFUSED_EXPANSION', 'what is asked of a seed ends past its first 4,096 bytes'>,
    Refusal<17, 'REFUSED_SENSOR', "the sensor is none of the spring board's 72">,
    Refusal<18, 'REFUSED_COLUMN_BIT', "an array's column has a bit of no player">,
    Refusal<19, 'REFUSED_COLUMN_PARITY', "an array's column has the wrong parity for its grid row">,
    Refusal<20, 'REFUSED_COLUMN_TWICE', "an array's column stood earlier in its array">,
    Refusal<21, 'REFUSED_CARD_KEY', "the key's values are wider than the one byte that drawing a card takes">,
    Refusal<22, 'REFUSED_DECK', 'a card is not 1 to 256 bytes long, or the deck is not one card for each position'>,
    Refusal<23, 'REFUSED_TALLY', "the key's players, player, positions or value bytes are not the tally's">,
];

/** Any refusal. */
export type AnyRefusal = (typeof REFUSALS)[number];
/** A refusal's number, from 1 on. */
export type RefusalNumber = AnyRefusal['number'];
/** A refusal's name, as 'REFUSED_LENGTH'. */
export type RefusalName = AnyRefusal['name'];
/** A refusal in words. */
export type RefusalWords = AnyRefusal['words'];
/** The refusals of a bad column in a dealing's arrays. Deal alone gives them, and they say where it stands. */
export type ColumnRefusal = Extract<AnyRefusal, { readonly number: 18 | 19 | 20 }>;

/** Where a column stands in a dealing's arrays. */
export interface ColumnPlace {
    /** the grid row, from 0 on */
    readonly gridRow: number;
    /** the column's index in that grid row's array, from 0 on */
    readonly column: number;
}

/** What every refused call tells: one of some refusals. The message has the number, the words, and the place where there is one. */
export interface RefusedFor<Some extends AnyRefusal> extends Error {
    readonly number: Some['number'];
    readonly name: Some['name'];
    readonly words: Some['words'];
}

/** A deal that was refused for a bad column, with the place of the first. */
export interface RefusedColumn extends RefusedFor<ColumnRefusal>, ColumnPlace {}

/** A call that was refused for anything else: it has no place. */
export interface RefusedElse extends RefusedFor<Exclude<AnyRefusal, ColumnRefusal>> {
    readonly gridRow?: undefined;
    readonly column?: undefined;
}

/**
 * A call that was refused. A lent output is as it was. One whose number is 18, 19 or 20, whose name is one of theirs, or whose gridRow is not
 * undefined, is a RefusedColumn.
 */
export type Refused = RefusedColumn | RefusedElse;

/** The class of what a refused call throws, for `instanceof`; its types are not made for subclasses. */
export const Refused: {
    new (number: RefusedColumn['number'], place: ColumnPlace): RefusedColumn;
    new (number: RefusedElse['number']): RefusedElse;
    readonly prototype: Refused;
};

/** A board's four numbers. */
export interface Board {
    /** 2 to 6 */
    players: number;
    /** the squares, 1 to 65,536 */
    positions: number;
    /** of the grid, 1 to 256; chooseWidth gives the one that makes keys shortest */
    width: number;
    /** bytes of the piece's value, 1 to 16 */
    valueBytes: number;
}

/** What a key's header says: the board, and whose key it is. */
export interface Header extends Board {
    /** whose key it is, from 0 on */
    player: number;
}

/** What a tally is made for. A key's header has these among its numbers. */
export interface TallyNumbers {
    /** 2 to 6 */
    players: number;
    /** whose tally it is, from 0 on and below players */
    player: number;
    /** the squares, 1 to 65,536 */
    positions: number;
    /** bytes of a value, 1 to 16 */
    valueBytes: number;
}

/**
 * A dealing: the board, the piece, and what is drawn. With J = 2 to the power of players - 1 columns, and as many grid rows as
 * positions / width rounded up.
 */
export interface Dealing extends Board {
    /** the piece's position */
    point: number;
    /** the piece's value, valueBytes bytes */
    value: Uint8Array;
    /** J bytes for each grid row: each column of the right parity once, in an order drawn uniformly */
    arrays: Uint8Array;
    /** 32 random bytes for each column of each grid row, never used again */
    seeds: Uint8Array;
    /** (J - 1) × width × valueBytes random bytes */
    words: Uint8Array;
}

/**
 * Makes the operations from the WebAssembly module. The source may be
 *   - nothing: the file nosingginger.wasm that lies beside nosingginger.mjs, wherever that is;
 *   - the module's bytes, or the compiled module;
 *   - a URL: file: (in node), http:, https:, data: or blob:;
 *   - a string. In node it is a path, unless it is a whole URL; a relative one leads from the folder that the program was started in. In a
 *     browser it is what fetch takes: a relative one leads from the page's base address, in a worker from the worker's script.
 * Where nothing can be had, or something else than Nosingginger's module, the promise is rejected.
 */
export function load(source?: ArrayBuffer | ArrayBufferView | (object & WebAssembly.Module) | (object & URL) | string): Promise<Nosingginger>;

/** Makes the operations from the module's bytes in base64, as a page has them that is one file. */
export function loadBase64(text: string): Promise<Nosingginger>;

/**
 * The operations. Every call answers its result, or throws Refused with the first number that fits. A number that 32 bits cannot hold is a
 * RangeError, and what is no Uint8Array a TypeError; the start of expand alone may have 64 bits. A lent output is
 * written from its front on, and the answer is that part of it; without one, the answer is a new array of the right
 * length.
 */
export class Nosingginger {
    /** load makes one. */
    constructor(instance: WebAssembly.Instance);

    /** KEY LENGTH: the bytes of each player's key. Refusals: 1 to 5. */
    keyLength(board: Board): number;

    /**
     * DEAL: the keys of all players one after another, player 0 first. Refusals: 1 to 7; 18, 19 or 20 for the first bad column of the arrays,
     * grid row by grid row and column by column, with its place; 9. A column is bad for a bit at players or above (18), else for a count of
     * ones that is even in the point's grid row or odd in another (19), else where it stood earlier in its array (20). Place and number can
     * tell the point's grid row: they are for the board's maker, not for players.
     */
    deal(dealing: Dealing, out?: Uint8Array): Uint8Array;

    /** CHECK KEY: the header's numbers of an accepted key. Refusals: 10, 1 to 5, 11, 12, 13. */
    checkKey(key: Uint8Array): Header;

    /** OPEN ONE: the key's share of one position, valueBytes bytes. Refusals: those of checkKey, 14, 9. */
    openOne(key: Uint8Array, position: number, out?: Uint8Array): Uint8Array;

    /** OPEN ALL: the key's share of each position from 0 on, positions × valueBytes bytes. Refusals: those of checkKey, 9. */
    openAll(key: Uint8Array, out?: Uint8Array): Uint8Array;

    /**
     * DRAW CARD: a phone's answer to whoever wants a card: the XOR of those cards of the deck at whose positions the
     * key's share has its lowest bit set, cardBytes bytes. The deck has a card of cardBytes bytes, 1 to 256, for each
     * position, one after another, and is the same for all players. Of all players' answers joinShares makes the card
     * at the point, where the keys hide an odd value such as 1, and zeros where they hide an even one. Refusals: those
     * of checkKey; 21 where the key's values are wider than one byte; 22 for cardBytes or the deck's length; 9.
     */
    drawCard(key: Uint8Array, deck: Uint8Array, cardBytes: number, out?: Uint8Array): Uint8Array;

    /**
     * WRITE PAGE: an opened table as a page to be pinned up, a string of ASCII, in lines of eight squares. A line is
     * its first position in five places, right-aligned; for each square a space and 2 × valueBytes upper-case
     * hexadecimal digits, byte 0 first and of a byte the high digit, or as many spaces where the board has no such
     * square; and a line feed. So every line has 6 + 8 × (2 × valueBytes + 1) characters, and the digits of position a
     * begin at character 6 + (a % 8) × (2 × valueBytes + 1) of line ⌊a / 8⌋, both from 0 on. The table has positions × valueBytes bytes,
     * as openAll and joinKeys give it. Refusals: 2, 4, 7.
     */
    writePage(positions: number, valueBytes: number, table: Uint8Array): string;

    /**
     * JOIN SHARES: the XOR of all players' shares, or of their answers of drawCard, which stand one after another. Here
     * valueBytes is 1 to 256. Refusals: 1, 4, 7, 9.
     */
    joinShares(given: { players: number, valueBytes: number, shares: Uint8Array }, out?: Uint8Array): Uint8Array;

    /**
     * JOIN KEYS: the joined table of all players' keys, which stand one after another, player 0's first. Keys of different dealings are not
     * refused. Refusals: for the first key 10, 1 to 5, 11; 12; then for each key 10, 1 to 5, 11, 15, 13; last 9.
     */
    joinKeys(keys: Uint8Array, out?: Uint8Array): Uint8Array;

    /** HELD SEED: the part of the lent key that is the seed of a grid row and a column; empty where there is none. It is not refused. */
    heldSeed(key: Uint8Array, gridRow: number, column: number): Uint8Array;

    /**
     * EXPAND: fills the output with bytes of the seed's key stream, from its byte `start` on; 0 is the first. The start
     * is a whole number up to 2^53 - 1, or a BigInt up to 2^64 - 1; what is neither is a RangeError. Refusals: 7; 16
     * where start and the output's length are together above 4,096.
     */
    expand(seed: Uint8Array, start: number | bigint, out: Uint8Array): Uint8Array;

    /**
     * CHOOSE WIDTH: the grid's width that makes keys shortest: among the widths 1 to 256 at which the board has at most
     * 256 grid rows, the one whose keyLength, which has the header in it, is least, and the smaller where two tie.
     * Refusals: 1, 2, 4.
     */
    chooseWidth(board: { players: number, positions: number, valueBytes: number }): number;

    /** SENSOR POSITION: the position that a sensor of the spring board, 0 to 71, lies under. Refusal: 17. */
    sensorPosition(sensor: number): number;

    /**
     * TALLY MAKE: a tally's table, positions × valueBytes bytes, all zero. Bytes of a longer lent one past these are left
     * as they were, here and by tallyAdd. Refusals: 1, 2, 4, 11, 9. The class Tally keeps numbers and table together.
     */
    tallyMake(numbers: Readonly<TallyNumbers>, out?: Uint8Array): Uint8Array;

    /**
     * TALLY ADD: XORs a key's full table into the lent table, and answers the part of it that is the tally's. A key added
     * twice cancels itself. Refusals: those of tallyMake, 9 for the table; those of checkKey; 23 where players, player,
     * positions or valueBytes of the key are not the tally's; its width may be any.
     */
    tallyAdd(numbers: Readonly<TallyNumbers>, key: Uint8Array, table: Uint8Array): Uint8Array;

    /**
     * TALLY LOOK UP: the table's entry at a position, valueBytes bytes. Of all players' entries joinShares makes the XOR
     * of all values hidden there. Refusals: those of tallyMake, 9 for the table; 14; 9 for the output.
     */
    tallyLookUp(numbers: Readonly<TallyNumbers>, table: Uint8Array, position: number, out?: Uint8Array): Uint8Array;

    /**
     * TALLY TOTAL: the XOR of all the table's entries, valueBytes bytes. Of all players' totals joinShares makes the XOR
     * of all values hidden. Refusals: those of tallyMake, 9 for the table; 9 for the output.
     */
    tallyTotal(numbers: Readonly<TallyNumbers>, table: Uint8Array, out?: Uint8Array): Uint8Array;
}

/**
 * A player's tally over many hunts, which owns its table. Each player makes one for the board, adds its own key of each
 * hunt, in any order and whatever the hunts' widths, and hands its table out at the end. Joined, the tallies of all
 * players show on each square the XOR of all values that were hidden there; no tally alone shows anything.
 *
 * All players must add exactly their keys of the same hunts. A hunt that one of them leaves out, or adds twice, makes
 * noise of the joined table, and nothing can check that.
 */
export class Tally {
    /**
     * A new tally, or one that was stored: `stored` is a tally's table of before, and is copied. Any bytes of its length
     * are taken for a tally's. Refusals: 1, 2, 4, 11; 7 where the stored table is not positions × valueBytes bytes.
     */
    constructor(nosingginger: Nosingginger, numbers: Readonly<TallyNumbers>, stored?: Uint8Array);

    /**
     * The table of all players' tallies joined: on each square the XOR of all values that were hidden there, where all
     * added exactly their keys of the same hunts. The tallies may stand in any order. Refusal: 15 where they are not those
     * of all players of one board, each player's once.
     */
    static join(tallies: Iterable<Tally>): Uint8Array;

    /** what the tally is made for */
    readonly numbers: Readonly<TallyNumbers>;
    /** a copy of the table, to be stored or handed out: positions × valueBytes bytes */
    readonly table: Uint8Array;

    /**
     * Adds this player's key of a hunt; added once more, it is taken out again. Refusals: those of checkKey; 23 where
     * players, player, positions or valueBytes of the key are not the tally's. A refused key leaves the tally as it was.
     */
    add(key: Uint8Array): void;

    /**
     * The entry at a position, valueBytes bytes. The table is copied for each call; who wants many entries takes `table`.
     * Refusal: 14.
     */
    get(position: number): Uint8Array;

    /** The XOR of all entries, valueBytes bytes. */
    total(): Uint8Array;
}
