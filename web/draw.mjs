// Draws a dealing from a source of random bytes: what a board's noise chip does. Nothing here is proved, nor that the bytes are random.
// Assumes that a source answers as many bytes as it is asked for, drawn uniformly, and never the same again.

// The system gives at most this many bytes at once.
const SYSTEM_BYTES = 65536;

/**
 * Random bytes from the system, as many as are asked for.
 * @param {number} length
 * @returns {Uint8Array}
 */
export function systemBytes(length) {
    const bytes = new Uint8Array(length);
    for (let at = 0; at < length; at += SYSTEM_BYTES) crypto.getRandomValues(bytes.subarray(at, at + SYSTEM_BYTES));
    return bytes;
}

/** A whole number below `bound` (at most 2 to the power of 24), each as likely as another: draws that would favour some are thrown away. */
function below(bound, random) {
    const most = Math.floor(2 ** 24 / bound) * bound;
    for (;;) {
        const [low, middle, high] = random(3);
        const number = low + middle * 256 + high * 65536;
        if (number < most) return number % bound;
    }
}

function requireNumber(name, number, least, most) {
    if (!Number.isInteger(number) || number < least || number > most) throw new RangeError(`${name} is not ${least} to ${most}: ${String(number)}`);
}

/** The columns of one parity for this many players, each exactly once, in an order drawn uniformly. */
function shuffledArray(players, parity, random) {
    const ones = (column) => column.toString(2).replaceAll('0', '').length;
    const array = Array.from({ length: 2 ** players }, (_, column) => column).filter((column) => ones(column) % 2 === parity);
    for (let last = array.length - 1; last > 0; last -= 1) {
        const other = below(last + 1, random);
        [array[last], array[other]] = [array[other], array[last]];
    }
    return array;
}

function requireBoard({ players, positions, width, valueBytes }) {
    requireNumber('players', players, 2, 6);
    requireNumber('positions', positions, 1, 65536);
    requireNumber('width', width, Math.ceil(positions / 256), 256);
    requireNumber('valueBytes', valueBytes, 1, 16);
}

/** A dealing that hides this value at this point: what a noise chip draws for it. */
function dealingOf({ players, positions, width, valueBytes }, point, value, random) {
    const columns = 2 ** (players - 1);
    const gridRows = Math.ceil(positions / width);
    const pieceRow = Math.floor(point / width);
    const arrays = Uint8Array.from(
        Array.from({ length: gridRows }, (_, gridRow) => shuffledArray(players, gridRow === pieceRow ? 1 : 0, random)).flat());
    const seeds = random(gridRows * columns * 32);
    const words = random((columns - 1) * width * valueBytes);
    return { players, positions, width, valueBytes, point, value, arrays, seeds, words };
}

/**
 * A dealing of this board with a drawn point and a drawn value that is not zero. A board that cannot be dealt is a
 * RangeError.
 * @param {import('./nosingginger.mjs').Board} board
 * @param {(length: number) => Uint8Array} [random] the source of random bytes; the system's where none is given
 * @returns {import('./nosingginger.mjs').Dealing}
 */
export function randomDealing(board, random = systemBytes) {
    requireBoard(board);
    const point = below(board.positions, random);
    let value = random(board.valueBytes);
    while (value.every((byte) => byte === 0)) value = random(board.valueBytes);
    return dealingOf(board, point, value, random);
}

/**
 * A dealing by whose keys a card is drawn: it hides the value 1, of one byte, at the wanted card. The deck has as many
 * cards as there are positions. A board that cannot be dealt is a RangeError, and so is a card that the deck has not.
 * @param {{ players: number, positions: number, width: number }} board
 * @param {number} card the wanted card, from 0 on
 * @param {(length: number) => Uint8Array} [random] the source of random bytes; the system's where none is given
 * @returns {import('./nosingginger.mjs').Dealing}
 */
export function cardDealing({ players, positions, width }, card, random = systemBytes) {
    const board = { players, positions, width, valueBytes: 1 };
    requireBoard(board);
    requireNumber('card', card, 0, positions - 1);
    return dealingOf(board, card, Uint8Array.of(1), random);
}
