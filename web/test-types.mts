// Uses that the types must allow, and uses that they must refuse: tsc fails where a line under @ts-expect-error is allowed. Nothing here runs.
import { load, loadBase64, Nosingginger, Refused, REFUSALS, Tally } from 'nosingginger';
import type { Board, ColumnPlace, ColumnRefusal, Dealing, Header, RefusalName, RefusalNumber, RefusalWords, RefusedColumn, TallyNumbers } from 'nosingginger';
import { cardDealing, randomDealing, systemBytes } from 'nosingginger/draw';

// What the sources' own comments say of the types is what the declarations say. (Refusals are literals in the declarations alone.)
type Said = Omit<typeof import('nosingginger'), 'REFUSALS' | 'Refused'>;
export const said: Said = await import('./nosingginger.mjs');
export const saidOfDrawing: typeof import('nosingginger/draw') = await import('./draw.mjs');

export async function loaded(bytes: Uint8Array, instance: WebAssembly.Instance, module: WebAssembly.Module): Promise<Nosingginger[]> {
    return [new Nosingginger(instance), await load(), await load(bytes), await load(bytes.buffer), await load(new DataView(bytes.buffer)),
        await load(module), await load(new URL('nosingginger.wasm', import.meta.url)), await load('nosingginger.wasm'), await loadBase64('')];
}

export function called(nosingginger: Nosingginger, bytes: Uint8Array): RefusalNumber | undefined {
    const width: number = nosingginger.chooseWidth({ players: 2, positions: 6, valueBytes: 1 });
    const board: Board = { players: 2, positions: 6, width, valueBytes: 1 };
    const dealing: Dealing = randomDealing(board);
    const keys: Uint8Array = nosingginger.deal(randomDealing(dealing, systemBytes), new Uint8Array(2 * nosingginger.keyLength(board)));
    const header: Header = nosingginger.checkKey(keys);
    const answers: Uint8Array[] = [nosingginger.openOne(keys, 0, bytes), nosingginger.openAll(keys), nosingginger.joinKeys(keys, bytes),
        nosingginger.joinShares({ players: 2, valueBytes: 1, shares: keys }), nosingginger.heldSeed(keys, 0, 0),
        nosingginger.expand(bytes, 0, bytes), nosingginger.expand(bytes, 64n, bytes),
        nosingginger.drawCard(keys, bytes, 32), nosingginger.drawCard(keys, bytes, 256, bytes),
        nosingginger.deal(cardDealing(board, 5, systemBytes)),
        cardDealing({ players: 2, positions: 6, width: 4 }, 5).value];
    const page: string = nosingginger.writePage(board.positions, board.valueBytes, nosingginger.joinKeys(keys));
    console.log(page.split('\n').length);
    try {
        nosingginger.keyLength({ ...header, positions: nosingginger.sensorPosition(answers.length) });
        return undefined;
    } catch (error) {
        if (!(error instanceof Refused)) throw error;
        const name: RefusalName = error.name;
        const words: RefusalWords = REFUSALS[13].words;
        if (name === 'REFUSED_PLACE') console.log(words, error.message, new Refused(17).stack);
        return REFUSALS.find((refusal) => refusal.name === name)?.number;
    }
}

// A key's header makes a tally, and what a tally tells of itself makes it once more.
export function tallied(nosingginger: Nosingginger, key: Uint8Array, bytes: Uint8Array): Uint8Array[] {
    const numbers: TallyNumbers = { players: 2, player: 1, positions: 6, valueBytes: 1 };
    const table: Uint8Array = nosingginger.tallyMake(nosingginger.checkKey(key));
    const tally: Tally = new Tally(nosingginger, numbers);
    const nothing: void = tally.add(key);
    const stored: Readonly<TallyNumbers> = tally.numbers;
    const again = new Tally(nosingginger, { ...stored, player: 0 }, tally.table);
    console.log(nothing, stored.player);
    return [table, nosingginger.tallyMake(stored, bytes), nosingginger.tallyAdd(stored, key, table),
        nosingginger.tallyLookUp(numbers, table, 5), nosingginger.tallyLookUp(numbers, table, 5, bytes),
        nosingginger.tallyTotal(numbers, table), nosingginger.tallyTotal(numbers, table, bytes),
        tally.get(5), tally.total(), Tally.join([tally, again]), Tally.join(new Set([tally, again]))];
}

// A place is there for whoever knows that the refusal is one of a bad column, by its number, by its name or by the place itself.
export function placed(nosingginger: Nosingginger, dealing: Dealing, error: Refused): Array<ColumnPlace | undefined> {
    const byNumber: ColumnPlace | undefined = error.number === 19 ? error : undefined;
    const byName: RefusedColumn | undefined = error.name === 'REFUSED_COLUMN_TWICE' ? error : undefined;
    const byPlace: ColumnRefusal['number'] | undefined = error.gridRow !== undefined ? error.number : undefined;
    const either: number | undefined = error.column;
    console.log(byPlace, either);
    try {
        nosingginger.deal(dealing);
    } catch (thrown) {
        if (!(thrown instanceof Refused)) throw thrown;
        switch (thrown.number) {
            case 18:
            case 19:
            case 20:
                return [{ gridRow: thrown.gridRow, column: thrown.column }];
            default: {
                const none: undefined = thrown.gridRow;
                return [none];
            }
        }
    }
    return [byNumber, byName, new Refused(18, { gridRow: 3, column: 5 })];
}

export async function refused(nosingginger: Nosingginger, bytes: Uint8Array, board: Board, dealing: Dealing, tally: Tally, error: Refused): Promise<void> {
    // @ts-expect-error a number is no source
    await load(5);
    // @ts-expect-error nothing is undefined, not null
    await load(null);
    // @ts-expect-error base64 is text
    await loadBase64(bytes);
    // @ts-expect-error load has to be awaited
    load().keyLength(board);
    // @ts-expect-error a board has four numbers
    nosingginger.keyLength({ players: 2, positions: 6, width: 4 });
    // @ts-expect-error a number is not text
    nosingginger.keyLength({ ...board, players: '2' });
    // @ts-expect-error a width is chosen for values of some length
    nosingginger.chooseWidth({ players: 2, positions: 6 });
    // @ts-expect-error nor a BigInt
    nosingginger.sensorPosition(8n);
    // @ts-expect-error a dealing has seeds
    nosingginger.deal({ ...board, point: 0, value: bytes, arrays: bytes, words: bytes });
    // @ts-expect-error bytes are a Uint8Array
    nosingginger.checkKey([1, 2, 3]);
    // @ts-expect-error and no buffer
    nosingginger.checkKey(bytes.buffer);
    // @ts-expect-error nor 16 bits wide
    nosingginger.openAll(bytes, new Uint16Array(4));
    // @ts-expect-error a position is asked for
    nosingginger.openOne(bytes);
    // @ts-expect-error keys stand one after another in one array
    nosingginger.joinKeys([bytes, bytes]);
    // @ts-expect-error shares are lent by name
    nosingginger.joinShares(2, 1, bytes);
    // @ts-expect-error a card has a length
    nosingginger.drawCard(bytes, bytes);
    // @ts-expect-error which is a number
    nosingginger.drawCard(bytes, bytes, 32n);
    // @ts-expect-error a deck's cards stand one after another in one array
    nosingginger.drawCard(bytes, [bytes, bytes], 32);
    // @ts-expect-error an output is bytes
    nosingginger.drawCard(bytes, bytes, 32, 32);
    // @ts-expect-error a page has a table
    nosingginger.writePage(72, 1);
    // @ts-expect-error which is bytes
    nosingginger.writePage(72, 1, '00');
    // @ts-expect-error a board's numbers stand one by one
    nosingginger.writePage(board, bytes);
    // @ts-expect-error no output is lent to it
    nosingginger.writePage(72, 1, bytes, bytes);
    // @ts-expect-error and a page is text
    nosingginger.checkKey(nosingginger.writePage(72, 1, bytes));
    // @ts-expect-error a tally is somebody's
    nosingginger.tallyMake(board);
    // @ts-expect-error a table is added to
    nosingginger.tallyAdd(nosingginger.checkKey(bytes), bytes);
    // @ts-expect-error a position stands behind the table
    nosingginger.tallyLookUp(nosingginger.checkKey(bytes), 5, bytes);
    // @ts-expect-error a tally's numbers come first
    nosingginger.tallyTotal(bytes);
    // @ts-expect-error a tally is made by what load gave
    new Tally(nosingginger.checkKey(bytes));
    // @ts-expect-error once that has been awaited
    new Tally(load(), nosingginger.checkKey(bytes));
    // @ts-expect-error nothing is stored as undefined, not as null
    new Tally(nosingginger, nosingginger.checkKey(bytes), null);
    // @ts-expect-error all tallies are joined together
    Tally.join(tally, tally);
    // @ts-expect-error and not their tables
    Tally.join([tally.table, tally.table]);
    // @ts-expect-error nor is one joined to the others
    tally.join([tally]);
    // @ts-expect-error a tally's table is handed out, and not given to it
    tally.table = bytes;
    // @ts-expect-error nobody changes whose it is
    tally.numbers.player = 1;
    // @ts-expect-error a key is added
    tally.add();
    // @ts-expect-error an entry is asked for by its position
    tally.get();
    // @ts-expect-error what was added is not told
    tally.add(bytes).length;
    // @ts-expect-error a card is asked for
    cardDealing(board);
    // @ts-expect-error expand has no length to make an output of
    nosingginger.expand(bytes, 0);
    // @ts-expect-error and a start before its output
    nosingginger.expand(bytes, bytes);
    // @ts-expect-error which is a number or a BigInt
    nosingginger.expand(bytes, '0', bytes);
    // @ts-expect-error a key's player is not called number
    nosingginger.checkKey(bytes).number;
    // @ts-expect-error there is no such call
    nosingginger.dealAll(dealing);
    // @ts-expect-error there is no such name
    console.log(error.name === 'REFUSED_LENGHT');
    // @ts-expect-error there are 22 refusals
    REFUSALS[22];
    // @ts-expect-error which nobody changes
    REFUSALS[0].words = 'too many';
    // @ts-expect-error 24 is no refusal
    new Refused(24);
    // @ts-expect-error nor is 8
    console.log(error.number === 8);
    // @ts-expect-error 18 has a place
    new Refused(18);
    // @ts-expect-error 17 has none
    new Refused(17, { gridRow: 0, column: 0 });
    // @ts-expect-error a refusal may have no place
    console.log(error.gridRow + error.column);
    // @ts-expect-error 9 never has one
    console.log(error.number === 9 && error.column + 1);
    // @ts-expect-error and nobody changes it
    if (error.number === 20) error.column = 0;
    // @ts-expect-error a source of random bytes answers bytes
    randomDealing(board, (length) => new Array(length));
}
