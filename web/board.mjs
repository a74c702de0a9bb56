// A table of squares as the web page shows it: lines of eight under their headings, zeros as dots, the piece. It makes elements and tells where a
// pressed key leads; what is shown where is the web page's.
import { capital, make } from './elements.mjs';
import { entry, hexadecimal, SQUARES_IN_A_LINE, squareWords } from './match.mjs';

const SMALL_BYTES = 2;
// A board of so many squares is shown whole; of a larger one nine lines at a time, which is a screen.
const MOST_SHOWN_WHOLE = 256;
const SQUARES_IN_A_PART = 72;

export function isShownWhole({ positions }) {
    return positions <= MOST_SHOWN_WHOLE;
}

export function shownAtOnce(board) {
    return isShownWhole(board) ? MOST_SHOWN_WHOLE : SQUARES_IN_A_PART;
}

/** The first square of the part that a square is shown in. */
export function partOf(board, position) {
    return Math.floor(position / shownAtOnce(board)) * shownAtOnce(board);
}

/** The digits that a square has room for; a longer value stands whole in the square's name and in its shares. */
function shownDigits(digits) {
    return digits.length > 8 ? `${digits.slice(0, 4)}\n\u2026` : digits.match(/.{1,4}/g).join('\n');
}

/** One square. In a joined table a zero is a dot; the piece has its look only where it is alone. */
function squareCell({ table, board, isJoined, pieces, chosen, sensorOf, withSensors }, position) {
    const value = entry(table, board, position);
    const isZero = isJoined && value.every((byte) => byte === 0);
    const isPiece = isJoined && !isZero && pieces.length === 1;
    const digits = hexadecimal(value);
    const words = isZero ? 'zero' : `value ${digits}${isPiece ? ', the piece' : ''}`;
    const cell = make('td', {
        tabIndex: -1, className: !isJoined ? 'noise' : isZero ? 'zero' : isPiece ? 'piece' : 'wrong',
        aria: { role: 'gridcell', 'data-position': position, 'aria-selected': String(position === chosen),
            'aria-label': `${capital(squareWords(position, sensorOf(position)))}: ${words}` },
    }, make('span', { className: 'value' }, isZero ? '\u00B7' : shownDigits(digits)),
    ...(withSensors ? [make('span', { className: 'sensor' }, String(sensorOf(position)))] : []));
    cell.style.setProperty('--level', String(value[0] / 255));
    return cell;
}

function heading(role, scope, name, className, ...words) {
    return make('th', { className, scope, aria: { role, 'aria-label': name } }, ...words);
}

function lineOf(view, start, last) {
    const line = start / SQUARES_IN_A_LINE;
    const squares = Array.from({ length: Math.min(SQUARES_IN_A_LINE, last - start) }, (_, column) => squareCell(view, start + column));
    return make('tr', { aria: { role: 'row' } }, heading('rowheader', 'row', `Line ${line}`, '', String(line)), ...squares);
}

/**
 * A table as a grid, from square `first` on. One square can be reached by the keyboard: `entered`, or else the chosen one or the first.
 * @param {object} view the table and its board; whether it is joined from all keys, and its squares that are not zero; the square that is chosen
 *     and the one that is entered; the sensor of a square, and whether sensors are shown; the grid's name
 */
export function boardGrid(view) {
    const { board, first, chosen, entered, withSensors, label } = view;
    const last = Math.min(board.positions, first + shownAtOnce(board));
    const columns = Array.from({ length: Math.min(SQUARES_IN_A_LINE, board.positions) }, (_, column) =>
        heading('columnheader', 'col', `Column ${column}`, '', String(column)));
    const lines = Array.from({ length: Math.ceil((last - first) / SQUARES_IN_A_LINE) }, (_, line) =>
        lineOf(view, first + line * SQUARES_IN_A_LINE, last));
    const rows = (tag, ...children) => make(tag, { aria: { role: 'rowgroup' } }, ...children);
    const grid = make('table', { className: 'squares', aria: { role: 'grid', 'aria-label': label, 'aria-describedby': 'grid-help' } },
        rows('thead', make('tr', { aria: { role: 'row' } }, heading('columnheader', 'col', 'Line', 'corner'), ...columns)), rows('tbody', ...lines));
    grid.classList.toggle('tall', board.valueBytes > SMALL_BYTES);
    grid.classList.toggle('with-sensors', withSensors);
    (squareIn(grid, entered ?? chosen) ?? grid.querySelector('td')).tabIndex = 0;
    return grid;
}

/** A square's element, where it is shown. */
export function squareIn(place, position) {
    return place.querySelector(`td[data-position="${position}"]`);
}

/** Where a pressed key leads from a square; undefined where it leads nowhere. */
export function squareAfter({ key, ctrlKey }, board, position) {
    const last = board.positions - 1;
    const lineStart = position - position % SQUARES_IN_A_LINE;
    const to = {
        ArrowLeft: position - 1, ArrowRight: position + 1, ArrowUp: position - SQUARES_IN_A_LINE, ArrowDown: position + SQUARES_IN_A_LINE,
        Home: ctrlKey ? 0 : lineStart, End: ctrlKey ? last : Math.min(last, lineStart + SQUARES_IN_A_LINE - 1),
        PageUp: Math.max(0, position - shownAtOnce(board)), PageDown: Math.min(last, position + shownAtOnce(board)),
    }[key];
    return to === undefined ? undefined : to >= 0 && to <= last ? to : position;
}
