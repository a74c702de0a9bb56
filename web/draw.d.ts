// The types of draw.mjs. TypeScript finds nosingginger.d.ts under the name of the import.
import type { Board, Dealing } from './nosingginger.js';

/** Random bytes from the system, by crypto.getRandomValues, as many as are asked for. */
export function systemBytes(length: number): Uint8Array;

/**
 * A dealing of this board with a drawn point and a drawn value that is not zero. A board that cannot be dealt is a RangeError. The source of random bytes, the system where none is
 * given, answers as many bytes as it is asked for, drawn uniformly, and never the same again.
 */
export function randomDealing(board: Board, random?: (length: number) => Uint8Array): Dealing;

/**
 * A dealing by whose keys a card is drawn: it hides the value 1, of one byte, at the wanted card, which is counted from
 * 0 on. The deck has as many cards as there are positions. A board that cannot be dealt is a RangeError, and so is a
 * card that the deck has not. The source of random bytes is as above.
 */
export function cardDealing(board: Omit<Board, 'valueBytes'>, card: number,
    random?: (length: number) => Uint8Array): Dealing;
