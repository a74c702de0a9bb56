// The web page that reopens a match: it reads keys, asks the library, and shows what it answers. Assumes page.html's elements.
import { loadBase64 } from './nosingginger.mjs';
import { randomDealing } from './draw.mjs';
import { fingerprint } from './fingerprint.mjs';
import { answerOf, examine, hexadecimal, joinedWords, joinTables, keysApart, keysOfFile, keysOfText, listed, marked, matchText, MOST_FILE_BYTES,
    printedDeal, sentence, squareWords, together } from './match.mjs';
import { boardGrid, isShownWhole, partOf, shownAtOnce, squareAfter, squareIn } from './board.mjs';
import { clearPaper, putOnPaper } from './paper.mjs';
import { capital, element, make, say, shape } from './elements.mjs';
import { WORDS } from './words.mjs';

const SENSORS = 72;
const DEALT_HERE = 'An example: your browser hid this piece and dealt these keys just now, and nobody wrote their fingerprints down.';
const ALWAYS_THE_SAME = 'An example: a board of six squares for two players, always the same.';

const library = await loadBase64(element('module').textContent).catch((error) => {
    element('problems').replaceChildren(make('li', {}, `The library cannot be opened in this browser: ${error.message}.`));
    throw error;
});

// What is here: the keys as they were given, those set aside while an example is shown, what the library says of them, and what is looked at.
const state = {
    keys: [], aside: null, problems: [], note: '', named: 0,
    found: null, rivals: new Set(), pieces: [],
    chosen: null, first: 0, members: new Set(), sensors: false, together: null,
};

function counted(number, one, more = `${one}s`) {
    return `${WORDS.numbers[number] ?? number.toLocaleString('en')} ${number === 1 ? one : more}`;
}

/** A refusal as the one list of them has it, for whoever wants the number. */
function refusalWords({ number, name, words }) {
    return `Refusal ${number}, ${name}: ${words}.`;
}

// ---- keys ----

/** Takes keys in beside those that are here, or in their place where they are a whole match by themselves. Keys that a reader gives end an
    example. */
function addKeys(keys) {
    if (keys.length > 0 && state.aside !== null) leaveExample();
    const isWhole = examine(library, keys).joined !== null;
    const note = isWhole && state.keys.length > 0 ? 'They took the place of those that were here.' : '';
    state.keys = [...(isWhole ? [] : state.keys), ...keys.map(named)];
    keysChanged(note);
    if (keys.length > 0) toAnswer();
}

function named(key) {
    state.named += 1;
    return { ...key, bytes: key.bytes.slice(), id: state.named, fingerprint: fingerprint(key.bytes) };
}

function keysChanged(note = '') {
    state.note = note;
    state.found = examine(library, state.keys);
    const { keys, board, joined } = state.found;
    state.rivals = new Set(keys.filter((key) => key.state === 'conflict').map(({ header }) => header.player));
    state.pieces = joined === null ? [] : marked(joined, board);
    state.members = new Set(holders().map(({ player }) => player).slice(0, Math.max(1, (board?.players ?? 1) - 1)));
    const isKept = joined === null && board !== null && state.chosen < board.positions;
    choose(state.pieces.length === 1 ? state.pieces[0] : isKept ? state.chosen : null);
    element('intake').open = joined === null;
    for (const id of ['square-part', 'group-part']) if (board === null) element(id).open = false;
    show();
}

/** The answer comes into view, and a reader by ear or keyboard is there. */
function toAnswer() {
    element('answer').focus({ preventScroll: true });
    element('result').scrollIntoView({ block: 'start' });
}

function choose(position) {
    state.chosen = position;
    state.first = position === null ? 0 : partOf(state.found.board, position);
}

/** The keys that can be opened, by player. Of two that speak against each other nobody knows which one counts. */
function holders() {
    return state.found.players.flatMap((key, player) => (key === null || state.rivals.has(player) ? [] : [{ player, key }]));
}

function isRival({ state: standing, header }) {
    return standing === 'used' && state.rivals.has(header.player);
}

/** What a key's line says: whose it is, where it is from, its fingerprint, and what is to be said of it. A tick means that it can be opened on the
    match's board, and stands only where nothing warns. */
function keyLine(key) {
    const { state: standing, header, from, fingerprint: print } = key;
    const fits = (standing === 'used' && !isRival(key)) || standing === 'copy';
    const words = isRival(key) ? sentence('conflict', header) : key.words;
    const whose = header === null || standing === 'other' ? [] : [make('strong', {}, `Player ${header.player}`), ' '];
    const isWarned = ['warning', 'zero'].includes(document.body.dataset.looks);
    const [look, sign, heard] = !fits ? ['fails', '\u2717', ' does not fit'] : isWarned ? ['from', '\u2022', ''] : ['fits', '\u2713', ' can be read'];
    return [...whose, make('span', { className: look }, sign, make('span', { className: 'unseen' }, heard)), ' ', make('span', { className: 'from' }, from),
        ...(['used', 'conflict'].includes(standing) ? [' ', make('span', { className: 'print' }, `${print.slice(0, 4)}\u2026`)] : []),
        ...(words === null ? [] : [' ', make('span', { className: 'wrong' }, capital(words))])];
}

function boardWords({ players, positions, valueBytes }) {
    const [squares, values] = [counted(positions, 'square'), counted(valueBytes, 'byte')];
    return `${WORDS.numbers[players]} players, ${squares}, values of ${values}`;
}

function keyItem(key) {
    const { id, header, refusal, bytes, from, fingerprint: print } = key;
    const numbers = [['Fingerprint (SHA-256)', print], ['Length', counted(bytes.length, 'byte')]];
    if (header !== null) numbers.push(['Board', boardWords(header)], ['Grid', `${header.width} wide`]);
    return make('li', { className: isRival(key) ? 'conflict' : key.state }, make('details', { aria: { 'data-key': id } },
        make('summary', {}, ...keyLine(key)),
        ...(refusal === null ? [] : [make('p', { className: 'note-line' }, refusalWords(refusal))]),
        make('dl', { className: 'numbers' }, ...numbers.map(([name, value]) => make('div', {}, make('dt', {}, name), make('dd', {}, value)))),
        make('button', { type: 'button', onclick: () => removeKey(id), aria: { 'aria-label': `Remove the key ${from}` } }, 'Remove this key')));
}

function missingItem(player) {
    return make('li', { className: 'missing' }, make('strong', {}, `Player ${player}`), ' ', make('span', {}, 'missing'));
}

/** The keys of the match by player, what is missing in its place, and behind them whatever does not belong. */
function showKeys() {
    const open = new Set([...document.querySelectorAll('#keys details[open]')].map(({ dataset }) => dataset.key));
    const { keys, players } = state.found;
    const others = keys.filter((key) => !players.includes(key));
    const rivalsOf = (player) => others.filter((key) => key.state === 'conflict' && key.header.player === player);
    const items = [...players.flatMap((key, player) => [key === null ? missingItem(player) : keyItem(key), ...rivalsOf(player).map(keyItem)]),
        ...others.filter((key) => key.state !== 'conflict').map(keyItem)];
    element('keys').replaceChildren(...items);
    for (const details of document.querySelectorAll('#keys details')) details.open = open.has(details.dataset.key);
}

function removeKey(id) {
    const summaries = () => [...document.querySelectorAll('#keys summary')];
    const place = summaries().findIndex((summary) => summary.parentElement.dataset.key === String(id));
    state.keys = state.keys.filter((key) => key.id !== id);
    keysChanged();
    const left = summaries();
    (left[Math.min(place, left.length - 1)] ?? element('files')).focus();
}

// ---- boards ----

// Position by position, the sensor of the spring board that lies there.
const sensorAt = new Map(Array.from({ length: SENSORS }, (_, sensor) => [library.sensorPosition(sensor), sensor]));

function sensorOf(position) {
    return state.found.board.positions === SENSORS ? sensorAt.get(position) : undefined;
}

function placeWords(position) {
    return squareWords(position, sensorOf(position));
}

/** Shows a table in its place, from the first square that is looked at; who was on a square stays there. */
function showTable(id, table, label, isJoined) {
    const place = element(id);
    const entered = place.contains(document.activeElement) ? Number(document.activeElement.dataset.position) : null;
    const { board } = state.found;
    const { first, chosen, pieces } = state;
    const withSensors = state.sensors && board.positions === SENSORS;
    const grid = boardGrid({ table, board, first, chosen, entered, pieces, isJoined, sensorOf, withSensors, label });
    grid.addEventListener('keydown', moveInGrid);
    grid.addEventListener('click', chooseInGrid);
    place.replaceChildren(grid);
    if (entered !== null) grid.querySelector('td[tabindex="0"]').focus();
}

function moveInGrid(event) {
    const cell = event.target.closest('td[data-position]');
    if (cell === null || event.altKey) return;
    const position = Number(cell.dataset.position);
    const to = squareAfter(event, state.found.board, position);
    const isChosen = event.key === 'Enter' || event.key === ' ';
    if (to === undefined && !isChosen) return;
    event.preventDefault();
    if (isChosen) chooseSquare(position);
    else focusSquare(cell.closest('.table'), to);
}

function focusSquare(place, position) {
    const first = partOf(state.found.board, position);
    if (first !== state.first) turnTo(first);
    for (const other of place.querySelectorAll('td[tabindex="0"]')) other.tabIndex = -1;
    const next = squareIn(place, position);
    next.tabIndex = 0;
    next.focus();
}

function chooseInGrid(event) {
    const cell = event.target.closest('td[data-position]');
    if (cell !== null) chooseSquare(Number(cell.dataset.position));
}

function chooseSquare(position) {
    choose(position);
    element('square-part').open = true;
    showBoards();
    showShares();
}

// ---- what is shown ----

function show() {
    const { keys, board, joined } = state.found;
    document.body.dataset.state = keys.length === 0 ? 'empty' : joined === null ? 'waiting' : 'joined';
    for (const id of ['result', 'keys-part']) element(id).hidden = keys.length === 0;
    element('folded').hidden = board === null;
    element('example-note').hidden = state.aside === null;
    say('leave-example', state.aside?.length > 0 ? 'Back to your keys' : 'Close the example');
    say('intake-title', joined === null ? 'Give the keys' : 'Give other keys');
    showProblems();
    showVerdict();
    showKeys();
    showBoards();
    showShares();
    showFingerprints();
    showPaper();
}

/** The one sentence that a reader came for, and what has to stand beside it. */
function verdict() {
    const { keys, board, joined, missingWords, refusal } = state.found;
    if (joined !== null) {
        const looks = ['zero', 'piece'][state.pieces.length] ?? 'warning';
        return { looks, words: joinedWords(joined, board, sensorOf), beside: sentence('caution') };
    }
    const rival = keys.find((key) => key.state === 'conflict');
    if (rival !== undefined) {
        const beside = 'Compare their fingerprints, and remove the one that does not belong to the match.';
        return { looks: 'warning', words: `${capital(rival.words)}.`, beside, refusal };
    }
    const unfit = keys.find((key) => ['refused', 'other'].includes(key.state));
    const wrong = unfit === undefined ? state.problems[0] : `${unfit.from}: ${unfit.words}`;
    if (missingWords !== null) {
        const beside = wrong === undefined ? 'The board appears when the keys of all players are here.' : `${wrong}.`;
        return { looks: wrong === undefined ? 'waiting' : 'warning', words: `${capital(missingWords)}.`, beside, refusal };
    }
    return { looks: 'warning', words: `${capital(unfit.words)}.`, beside: `It was read from ${unfit.from}.`, refusal: unfit.refusal };
}

function showVerdict() {
    if (state.found.keys.length === 0) return;
    const { looks, words, beside, refusal = null } = verdict();
    element('verdict').className = `verdict ${looks}`;
    element('board-part').className = looks;
    document.body.dataset.looks = looks;
    say('answer', words);
    say('caution', beside);
    element('refusal').hidden = refusal === null;
    if (refusal !== null) element('refusal').querySelector('p').textContent = refusalWords(refusal);
    const { board, keys } = state.found;
    const here = holders().length;
    const unfit = keys.filter((key) => ['refused', 'conflict', 'other'].includes(key.state) || isRival(key)).length;
    const count = board === null ? '' : here === board.players ? `${here === 2 ? 'Both' : `All ${WORDS.numbers[here]}`} keys are here.`
        : `${capital(WORDS.numbers[here])} of ${WORDS.numbers[board.players]} keys ${here === 1 ? 'is' : 'are'} here.`;
    const rest = unfit === 0 ? '' : `${capital(counted(unfit, 'key does', 'keys do'))} not fit.`;
    say('standing', [count, state.note, rest].filter((words) => words !== '').join(' '));
}

function showBoards() {
    const { board, joined } = state.found;
    element('board-part').hidden = joined === null;
    element('clear').hidden = state.aside !== null;
    element('save').hidden = joined === null;
    if (board === null) return;
    element('sensors-switch').hidden = board.positions !== SENSORS;
    element('pages').hidden = isShownWhole(board);
    const last = Math.min(board.positions, state.first + shownAtOnce(board)) - 1;
    const [from, to, all] = [state.first, last, board.positions].map((number) => number.toLocaleString('en'));
    say('range', `Squares ${from} to ${to} of ${all}`);
    element('earlier').disabled = state.first === 0;
    element('later').disabled = last + 1 === board.positions;
    element('to-piece').hidden = state.pieces.length !== 1;
    if (joined !== null) showTable('joined', joined, 'The board, all keys together', true);
    showGroup(board);
}

function showGroup(board) {
    const members = holders().filter(({ player }) => state.members.has(player));
    const focused = document.activeElement?.dataset?.member;
    element('members').replaceChildren(...holders().map(({ player }) => make('label', {},
        make('input', { type: 'checkbox', checked: state.members.has(player), onchange: (event) => changeMembers(player, event.target.checked),
            aria: { 'data-member': player } }), ` Player ${player}`)));
    if (focused !== undefined) element('members').querySelector(`[data-member="${focused}"]`)?.focus();
    say('all-but-one', `${WORDS.numbers[board.players - 1]} of ${WORDS.numbers[board.players]} players ${board.players === 2 ? 'learns' : 'learn'}`);
    element('group').hidden = members.length === 0;
    const names = listed(members.map(({ player }) => player));
    const left = board.players - members.length;
    say('group-words', members.length === 0 ? 'Nobody is chosen.'
        : `${capital(WORDS.numbers[members.length])} of ${WORDS.numbers[board.players]} players: ${names}. ${left === 0
            ? 'With everybody it is the board above.' : `${capital(WORDS.numbers[left])} ${left === 1 ? 'is' : 'are'} left out, and it looks like noise.`}`);
    element('group').classList.toggle('piece', left === 0 && state.pieces.length === 1);
    const isJoined = left === 0 && state.found.joined !== null;
    if (members.length > 0) showTable('group', tableOfMembers(members), `What players ${names} see together`, isJoined);
}

/** The members' tables joined, worked out once for these keys. */
function tableOfMembers(members) {
    const keys = members.map(({ key }) => key.id).join();
    if (state.together?.keys !== keys) state.together = { keys, table: joinTables(library, members.map(({ key }) => library.openAll(key.bytes))) };
    return state.together.table;
}

function changeMembers(player, isMember) {
    if (isMember) state.members.add(player);
    else state.members.delete(player);
    showGroup(state.found.board);
}

function showShares() {
    const { board } = state.found;
    const position = state.chosen;
    const field = element('square');
    field.value = position === null ? '' : String(position);
    say('square-problem', '');
    if (board === null || position === null) {
        say('square-place', '');
        say('square-words', state.found.joined === null ? 'Write a square\u2019s number.' : 'Choose a square on the board, or write its number.');
        element('shares').replaceChildren();
        return;
    }
    field.max = String(board.positions - 1);
    say('square-place', placeWords(position).replace(/^square \d+ /, ''));
    const here = holders();
    const shares = here.map(({ player, key }) => ({ player, share: library.openOne(key.bytes, position) }));
    const row = (name, bytes) => make('tr', {}, make('th', { scope: 'row' }, name), make('td', {}, hexadecimal(bytes)));
    const isWhole = here.length === board.players;
    const value = isWhole ? library.joinShares({ ...board, shares: together(shares.map(({ share }) => share)) }) : null;
    element('shares').replaceChildren(
        make('caption', {}, capital(placeWords(position))),
        make('thead', {}, make('tr', {}, make('th', { scope: 'col' }, 'Whose key'), make('th', { scope: 'col' }, 'What it says, in hexadecimal'))),
        make('tbody', {}, ...shares.map(({ player, share }) => row(`Player ${player}`, share))),
        ...(isWhole ? [make('tfoot', {}, row('Together', value))] : []));
    say('square-words', isWhole ? `Together they are ${hexadecimal(value)}.`
        : `${capital(WORDS.numbers[here.length])} of ${WORDS.numbers[board.players]} keys. All are needed.`);
}

function showFingerprints() {
    const shown = state.found.keys.filter((key) => ['used', 'conflict'].includes(key.state))
        .sort((one, other) => one.header.player - other.header.player);
    const name = ({ header, from }) => `Player ${header.player}${state.rivals.has(header.player) ? `, ${from}` : ''}`;
    const rows = shown.map((key) => make('tr', {}, make('th', { scope: 'row' }, name(key)), make('td', {}, key.fingerprint)));
    element('fingerprints').hidden = rows.length === 0;
    element('fingerprint-table').replaceChildren(make('table', { className: 'plain' },
        make('caption', {}, 'Fingerprints of the keys (SHA-256)'), make('tbody', {}, ...rows)));
}

/** The joined board as the library writes it on a page. */
function boardPage() {
    const { board, joined } = state.found;
    return library.writePage(board.positions, board.valueBytes, joined);
}

function showPaper() {
    const { board, joined } = state.found;
    if (joined === null) clearPaper();
    else putOnPaper(boardPage(), board, state.pieces.length === 1 ? state.pieces[0] : null, capital(boardWords(board)));
}

// ---- what a reader does ----

/** Takes in what was found somewhere; what could not be read stands beside the answer, or where keys are given while there is none. */
function take(found) {
    state.problems = found.flatMap(({ problems }) => problems);
    addKeys(found.flatMap((one) => one.keys));
}

function showProblems() {
    const list = element('problems');
    list.replaceChildren(...state.problems.map((words) => make('li', {}, words)));
    if (state.keys.length > 0) element('verdict').after(list);
    else element('intake').querySelector('summary').after(list);
}

/** What was pasted stays where something in it could not be read, so that it can be set right. */
function takeText(text) {
    take([keysOfText(library, text)]);
    if (state.problems.length === 0) element('paste').value = '';
    else element('intake').open = true;
}

async function takeFiles(files) {
    const byName = [...files].sort((one, other) => one.name.localeCompare(other.name, 'en', { numeric: true }));
    const found = [];
    for (const file of byName) {
        try {
            found.push(keysOfFile(library, new Uint8Array(await file.slice(0, MOST_FILE_BYTES + 1).arrayBuffer()), file.name));
        } catch {
            found.push({ keys: [], problems: [`${file.name} cannot be read`] });
        }
    }
    take(found);
}

function showExample(dealing, from, words) {
    state.aside ??= state.keys;
    say('example-words', words);
    state.keys = keysApart(library, library.deal(dealing)).map((bytes) => named({ bytes, from, label: null }));
    state.chosen = null;
    state.problems = [];
    keysChanged();
    toAnswer();
}

function leaveExample() {
    state.keys = state.aside;
    state.aside = null;
}

function springBoard(players) {
    const board = { players, positions: SENSORS, valueBytes: 1 };
    return randomDealing({ ...board, width: library.chooseWidth(board) });
}

/** Gives a text to the reader as a file of this name. */
function save(name, text) {
    const link = make('a', { href: URL.createObjectURL(new Blob([text], { type: 'text/plain' })), download: name });
    link.click();
    setTimeout(() => URL.revokeObjectURL(link.href), 60000);
}

function saveMatch() {
    save('match.txt', matchText(state.found.players.map(({ bytes }) => bytes)));
}

function saveBoard() {
    save('board.txt', boardPage());
}

function turnTo(first) {
    state.first = first;
    showBoards();
}

/** The picture on the empty page: three players' noise above, and below what they are together; a drawn board of 24 squares. */
function drawPicture() {
    const [lines, along, side] = [4, 6, 12];
    const dealing = randomDealing({ players: 3, positions: lines * along, width: along, valueBytes: 1 });
    const keys = keysApart(library, library.deal(dealing));
    const board = (table, left, top, size, lookOf) => Array.from(table, (byte, position) => shape('rect', { ...lookOf(byte, position), rx: 2,
        x: left + (position % along) * size + 1, y: top + Math.floor(position / along) * size + 1, width: size - 2, height: size - 2 }));
    const picture = element('picture');
    keys.forEach((key, player) => picture.append(...board(library.openAll(key), player * 97, 0, side,
        (byte) => ({ class: 'noise', 'fill-opacity': 0.12 + byte / 330 }))));
    picture.append(shape('rect', { class: 'ground', x: 72, y: 67, width: 6 * 20 + 6, height: 4 * 20 + 6, rx: 5 }),
        ...board(library.joinKeys(together(keys)), 75, 70, 20, (byte) => ({ class: byte === 0 ? 'zero' : 'piece' })));
    for (const [sign, x, y] of [['+', 84, 30], ['+', 181, 30], ['=', 50, 117]]) {
        const word = shape('text', { x, y, 'text-anchor': 'middle' });
        word.textContent = sign;
        picture.append(word);
    }
}

element('paste-form').addEventListener('submit', (event) => {
    event.preventDefault();
    takeText(element('paste').value);
});
element('paste').addEventListener('paste', () => setTimeout(() => takeText(element('paste').value)));
element('files').addEventListener('change', async (event) => {
    await takeFiles(event.target.files);
    event.target.value = '';
});
document.addEventListener('dragover', (event) => {
    event.preventDefault();
    document.body.classList.add('over');
});
document.addEventListener('dragleave', (event) => {
    if (event.relatedTarget === null) document.body.classList.remove('over');
});
document.addEventListener('drop', (event) => {
    event.preventDefault();
    document.body.classList.remove('over');
    const { files } = event.dataTransfer;
    if (files.length > 0) takeFiles(files);
    else takeText(event.dataTransfer.getData('text'));
});
element('spring').addEventListener('click', () => showExample(springBoard(4), 'dealt here', DEALT_HERE));
element('spring-six').addEventListener('click', () => showExample(springBoard(6), 'dealt here', DEALT_HERE));
element('small').addEventListener('click', () => showExample(printedDeal(), 'the small board', ALWAYS_THE_SAME));
element('leave-example').addEventListener('click', () => {
    state.problems = [];
    leaveExample();
    keysChanged();
    (state.keys.length > 0 ? element('answer') : element('spring')).focus();
});
element('save').addEventListener('click', saveMatch);
element('save-board').addEventListener('click', saveBoard);
element('print').addEventListener('click', () => window.print());
element('clear').addEventListener('click', () => {
    state.keys = [];
    state.problems = [];
    keysChanged();
    element('files').focus();
});
// Paper has the fingerprints whole, whether or not they are unfolded on the screen.
let unfolded = false;
window.addEventListener('beforeprint', () => {
    unfolded = element('fingerprints').open;
    element('fingerprints').open = true;
});
window.addEventListener('afterprint', () => {
    element('fingerprints').open = unfolded;
});
element('sensors').addEventListener('change', (event) => {
    state.sensors = event.target.checked;
    showBoards();
});
element('earlier').addEventListener('click', () => turnTo(state.first - shownAtOnce(state.found.board)));
element('later').addEventListener('click', () => turnTo(state.first + shownAtOnce(state.found.board)));
element('to-piece').addEventListener('click', () => chooseSquare(state.pieces[0]));
element('square').addEventListener('change', (event) => {
    const position = event.target.value.trim() === '' ? NaN : Number(event.target.value);
    if (!Number.isInteger(position) || position < 0 || position > 0xFFFFFFFF) {
        say('square-problem', 'A square is a whole number from 0 on.');
        return;
    }
    const { refusal } = answerOf(() => library.openOne(holders()[0].key.bytes, position));
    if (refusal === null) chooseSquare(position);
    else say('square-problem', `This board has squares 0 to ${state.found.board.positions - 1}. ${refusalWords(refusal)}`);
});

drawPicture();
keysChanged();
document.body.dataset.ready = 'yes';
