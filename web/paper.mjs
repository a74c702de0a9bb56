// The joined board as it is printed and pinned up: the library's page of it, under a heading, a line that counts the
// columns, and a sentence that tells how a square is found. It is kept in the document and not shown on the screen, so
// that it is there however printing begins. Assumes page.html's elements.
import { element, make, say } from './elements.mjs';
import { SQUARES_IN_A_LINE } from './match.mjs';

// A line of values that are longer is printed across a sheet that lies on its side.
const MOST_UPRIGHT_BYTES = 6;
const FIRST_SIGNS = 5;

/** How many characters of a line a square takes, with the space in front of it. */
function squareSigns({ valueBytes }) {
    return 2 * valueBytes + 1;
}

/** How many characters a line of a board's page has, without its line feed. */
function lineSigns(board) {
    return FIRST_SIGNS + SQUARES_IN_A_LINE * squareSigns(board);
}

/** The line above the page: what to add to a line's number for each of its squares. */
function columnsLine(board) {
    const columns = Array.from({ length: SQUARES_IN_A_LINE }, (_, column) => ` +${column}`.padEnd(squareSigns(board)));
    return 'first'.padStart(FIRST_SIGNS) + columns.join('');
}

/** A page cut in three: what stands before a square's digits, the digits, and what stands behind them. */
function aroundSquare(page, board, position) {
    const [line, column] = [Math.floor(position / SQUARES_IN_A_LINE), position % SQUARES_IN_A_LINE];
    const start = line * (lineSigns(board) + 1) + FIRST_SIGNS + 1 + column * squareSigns(board);
    const end = start + 2 * board.valueBytes;
    return [page.slice(0, start), page.slice(start, end), page.slice(end)];
}

function findingWords(piece) {
    const rule = 'A square is the number at the left of its line plus the number above its column.';
    if (piece === null) return rule;
    const column = piece % SQUARES_IN_A_LINE;
    return `${rule} The piece\u2019s is ${piece - column} + ${column} = ${piece}.`;
}

/**
 * Puts a board's page where it is printed from.
 * @param {string} page as the library writes it
 * @param {{ positions: number, valueBytes: number }} board
 * @param {number | null} piece the piece's square, where there is one; its digits stand out
 * @param {string} heading
 */
export function putOnPaper(page, board, piece, heading) {
    const [before, digits, behind] = piece === null ? [page, '', ''] : aroundSquare(page, board, piece);
    say('paper-heading', heading);
    say('paper-finding', findingWords(piece));
    say('paper-columns', columnsLine(board));
    element('paper-page').replaceChildren(before, ...(piece === null ? [] : [make('strong', {}, digits)]), behind);
    // The type is as large as the sheet allows: page.css works it out from these.
    element('paper').style.setProperty('--signs', String(lineSigns(board)));
    element('paper').style.setProperty('--lines', String(Math.ceil(board.positions / SQUARES_IN_A_LINE)));
    document.body.classList.toggle('sideways', board.valueBytes > MOST_UPRIGHT_BYTES);
}

/** Nothing is joined: there is no board to be printed. */
export function clearPaper() {
    for (const id of ['paper-heading', 'paper-finding', 'paper-columns']) say(id, '');
    element('paper-page').replaceChildren();
    document.body.classList.remove('sideways');
}
