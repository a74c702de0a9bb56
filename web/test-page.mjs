// Tests of the built page in a headless Chromium, as a club's players use it: the empty page, examples, each way to give keys, keys missing, damaged,
// changed, of two dealings, of two boards, large boards, keyboard, screen reader, the board saved and printed, light
// and dark, a phone's window. What is shown is held against the answers of nosingginger.mjs in node, and a board's page
// against one that is worked out apart from the library; what is printed is read from the PDF by pdftotext. Pictures go
// to target/web/pictures; KEEP_PICTURE makes one of them README's, which carries a digest of the page's sources so that
// an old one is noticed. Assumes that web/build has run, and poppler's pdftotext.
import assert from 'node:assert/strict';
import { execFileSync } from 'node:child_process';
import { existsSync, mkdirSync, readFileSync, rmSync, writeFileSync } from 'node:fs';
import { after, test } from 'node:test';
import { fileURLToPath } from 'node:url';
import { openBrowser } from './chromium.mjs';
import { randomDealing } from './draw.mjs';
import { pageOf } from './expected.mjs';
import { fingerprint } from './fingerprint.mjs';
import { hexadecimal, joinTables, keysApart, keysOfText, matchText, printedDeal, sentence, squareWords } from './match.mjs';
import { load, REFUSALS } from './nosingginger.mjs';
import { pageDigest, withWords, wordsIn } from './picture.mjs';
import { sameEachTime } from './random.mjs';

const target = new URL('../target/', import.meta.url);
const place = new URL('web/nosingginger.html', target);
const pictures = fileURLToPath(new URL('web/pictures/', target));
const files = fileURLToPath(new URL('web/files/', target));
for (const folder of [pictures, files]) mkdirSync(folder, { recursive: true });

const library = await load(new URL('targets/wasm32/nosingginger.wasm', target));
const browser = openBrowser();
after(() => browser.close());

const DESK = { width: 1280, height: 900 };
const PHONE = { width: 390, height: 844, phone: true };

/** A test on a newly opened page with the library open, on which no script fails and the browser has nothing to complain of. */
function onPage(name, work, look = DESK) {
    test(name, { timeout: 60000 }, async () => {
        const page = await browser.open(place, look);
        await page.until(() => document.body.dataset.ready === 'yes');
        await work(page);
        assert.deepEqual(page.complaints, []);
        assert.deepEqual(page.requests, [place.href]);
        assert.ok(await page.run(() => document.documentElement.scrollWidth <= innerWidth), 'the page is wider than its window');
        assert.deepEqual(await page.run(() => [...document.querySelectorAll('.squares td[data-position]')].filter((cell) => cell.checkVisibility())
            .filter((cell) => cell.scrollWidth > cell.clientWidth || cell.scrollHeight > cell.clientHeight).map((cell) => cell.innerText)), []);
        await page.close();
    });
}

/** A dealing of a board of so many players, squares and bytes of a value, the same each time. */
function drawnDealing(players, positions, valueBytes, start = positions + valueBytes) {
    const board = { players, positions, valueBytes };
    return randomDealing({ ...board, width: library.chooseWidth(board) }, sameEachTime(start));
}

function springDealing(players = 6, start = players) {
    return drawnDealing(players, 72, 1, start);
}

const springKeys = (players, start) => keysApart(library, library.deal(springDealing(players, start)));

function stored(name, bytes) {
    writeFileSync(`${files}${name}`, bytes);
    return `${files}${name}`;
}

const changed = (key, at, by = 1) => key.map((byte, place) => (place === at ? byte ^ by : byte));
const sensors = new Map(Array.from({ length: 72 }, (_, sensor) => [library.sensorPosition(sensor), sensor]));
const inWords = (position, board) => squareWords(position, board.positions === 72 ? sensors.get(position) : undefined);
const capital = (words) => words[0].toUpperCase() + words.slice(1);

/** What the page must say of a dealing whose keys are all here. */
function pieceWords(dealing) {
    return sentence('piece', { place: inWords(dealing.point, dealing), value: hexadecimal(dealing.value) });
}

const refusalWords = (number) => {
    const { name, words } = REFUSALS.find((refusal) => refusal.number === number);
    return `Refusal ${number}, ${name}: ${words}.`;
};
const answer = (page) => page.text('#answer');
const keyLines = (page) => page.run(() => [...document.querySelectorAll('#keys li')].map((item) =>
    (item.querySelector('summary') ?? item).innerText.replace(/\s+/g, ' ').trim()));
const keyStates = (page) => page.run(() => [...document.querySelectorAll('#keys li')].map((item) => item.className));
const problems = (page) => page.run(() => [...document.querySelectorAll('#problems li')].map((item) => item.textContent));
const isShown = (page, selector) => page.run((name) => document.querySelector(name).checkVisibility(), selector);
const labels = (page, id) => page.run((name) =>
    [...document.querySelectorAll(`#${name} td[data-position]`)].map((cell) => cell.getAttribute('aria-label')), id);
const looking = (page, id, look) => page.run((name, kind) =>
    [...document.querySelectorAll(`#${name} td.${kind}`)].map((cell) => Number(cell.dataset.position)), id, look);
const sharesShown = (page) => page.run(() =>
    [...document.querySelectorAll('#shares tbody tr, #shares tfoot tr')].map((row) => [...row.children].map((cell) => cell.textContent)));
const open = (page, id) => page.run((name) => { document.getElementById(name).open = true; }, id);

/** Gives files, and waits until the page has as many keys in its list. */
async function give(page, given, many) {
    await page.giveFiles('#files', given);
    await page.until((count) => document.querySelectorAll('#keys li').length === count, many);
}

/** Writes a square's number where it is asked for. */
function askSquare(page, number) {
    return page.run((given) => {
        const field = document.getElementById('square');
        field.value = given;
        field.dispatchEvent(new Event('change'));
    }, number);
}

/** What the squares of a table must be called. */
function squareLabels(table, board, isJoined, piece = null, [first, last] = [0, board.positions]) {
    return Array.from({ length: last - first }, (_, index) => {
        const position = first + index;
        const value = table.subarray(position * board.valueBytes, (position + 1) * board.valueBytes);
        const isZero = isJoined && value.every((byte) => byte === 0);
        return `${capital(inWords(position, board))}: ${isZero ? 'zero' : `value ${hexadecimal(value)}${position === piece ? ', the piece' : ''}`}`;
    });
}

function joinedTable(dealing) {
    const table = new Uint8Array(dealing.positions * dealing.valueBytes);
    table.set(dealing.value, dealing.point * dealing.valueBytes);
    return table;
}

for (const [size, look] of [['1280', DESK], ['390', PHONE]]) {
    onPage(`${size} pixels: the empty page says what a key is and where it comes from`, async (page) => {
        assert.equal(await isShown(page, '#result'), false);
        assert.equal(await isShown(page, '#keys-part'), false);
        for (const words of ['What is a key?', 'Where do keys come from?', 'No keys at hand?']) {
            assert.ok((await page.run(() => document.body.innerText)).includes(words), words);
        }
        assert.equal(await page.run(() => document.querySelectorAll('#picture .piece').length), 1);
        await page.screenshot(`${pictures}${size}-empty.png`);
    }, look);

    onPage(`${size} pixels: after loading, the answer is on the first screen`, async (page) => {
        const dealing = springDealing(4, 305);
        await give(page, [stored('match.txt', matchText(keysApart(library, library.deal(dealing))))], 4);
        assert.equal(await answer(page), pieceWords(dealing));
        const seen = await page.run(() => ['#answer', '#caution', '#joined td.piece'].map((name) => {
            const { top, bottom } = document.querySelector(name).getBoundingClientRect();
            return top >= 0 && bottom <= innerHeight;
        }));
        assert.deepEqual(seen, [true, true, true]);
        assert.equal(await page.run(() => document.activeElement.id), 'answer');
        await page.settled();
        await page.screenshot(`${pictures}${size}-loaded.png`);
    }, look);

    onPage(`${size} pixels: six players`, async (page) => {
        await give(page, springKeys(6).map((key, player) => stored(`player-${player}.key`, key)), 6);
        assert.equal(await page.text('#standing'), 'All six keys are here.');
        await page.settled();
        await page.screenshot(`${pictures}${size}-six.png`);
    }, look);

    onPage(`${size} pixels: a damaged key`, async (page) => {
        const keys = springKeys(4);
        await give(page, keys.map((key, player) => stored(`player-${player}.key`, player === 1 ? changed(key, 5) : key)), 5);
        assert.equal(await answer(page), 'Player 1\u2019s key is missing.');
        assert.equal(await page.text('#caution'), `player-1.key: ${sentence('damaged')}.`);
        await page.screenshot(`${pictures}${size}-damaged.png`);
    }, look);

    onPage(`${size} pixels: keys of two dealings look like no success`, async (page) => {
        const keys = springKeys(4).map((key, player) => (player === 3 ? springKeys(4, 77)[3] : key));
        await give(page, keys.map((key, player) => stored(`player-${player}.key`, key)), 4);
        const count = library.joinKeys(Buffer.concat(keys)).filter((byte) => byte !== 0).length;
        assert.equal(await answer(page), sentence('several', { count }));
        assert.deepEqual(await page.run(() => [document.getElementById('verdict').className, document.querySelectorAll('main .piece').length,
            document.querySelectorAll('#joined .wrong').length]), ['verdict warning', 0, count]);
        assert.deepEqual(await page.run(() => [document.querySelectorAll('.fits, td[aria-selected="true"]').length, document.getElementById('keys').textContent.includes('\u2713')]),
            [0, false]);
        const colours = await page.run(() => ['verdict', 'answer'].map((id) => getComputedStyle(document.getElementById(id)).color));
        assert.notEqual(colours[1], colours[0]);
        await page.screenshot(`${pictures}${size}-several.png`);
    }, look);
}

onPage('the small board', async (page) => {
    await page.click('#small');
    const dealing = printedDeal();
    const keys = keysApart(library, library.deal(dealing));
    assert.equal(await answer(page), 'The piece lies on square 4 (line 0, column 4). Its value is A5.');
    assert.equal(await page.text('#caution'), sentence('caution'));
    assert.deepEqual(await keyLines(page), keys.map((key, player) => `Player ${player} \u2713 can be read the small board ${fingerprint(key).slice(0, 4)}\u2026`));
    assert.deepEqual(await labels(page, 'joined'), squareLabels(joinedTable(dealing), dealing, true, 4));
    assert.deepEqual(await looking(page, 'joined', 'piece'), [4]);
    assert.equal(await isShown(page, '#sensors-switch'), false);
    assert.deepEqual(await sharesShown(page), [
        ...keys.map((key, player) => [`Player ${player}`, hexadecimal(library.openOne(key, 4))]), ['Together', 'A5']]);
    assert.deepEqual(await labels(page, 'group'), squareLabels(library.openAll(keys[0]), dealing, false));
});

onPage('the spring board with six players: headings, sensors, shares, groups', async (page) => {
    const dealing = springDealing();
    const keys = keysApart(library, library.deal(dealing));
    const joined = joinedTable(dealing);
    await give(page, keys.map((key, player) => stored(`player-${player}.key`, key)), 6);
    assert.equal(await answer(page), pieceWords(dealing));
    assert.deepEqual(await labels(page, 'joined'), squareLabels(joined, dealing, true, dealing.point));
    assert.deepEqual(await page.run(() => [...document.querySelectorAll('#joined thead th:not(.corner)')].map((cell) => cell.textContent)), [...'01234567']);
    assert.deepEqual(await page.run(() => [...document.querySelectorAll('#joined tbody th')].map((cell) => cell.textContent)), [...'012345678']);
    const shown = () => page.run(() => [...document.querySelectorAll('#joined td[data-position]')].map((cell) => cell.innerText.replace(/\s+/g, ' ')));
    assert.deepEqual(await shown(), [...joined].map((byte) => (byte === 0 ? '\u00B7' : hexadecimal([byte]))));
    await page.click('#sensors');
    assert.deepEqual(await shown(), [...joined].map((byte, position) => `${byte === 0 ? '\u00B7' : hexadecimal([byte])} ${sensors.get(position)}`));
    const tables = keys.map((key) => library.openAll(key));
    // Five by themselves, then two, then nobody, then everybody.
    await open(page, 'group-part');
    assert.equal(await page.text('#group-words'), 'Five of six players: 0, 1, 2, 3 and 4. One is left out, and it looks like noise.');
    assert.deepEqual(await labels(page, 'group'), squareLabels(joinTables(library, tables.slice(0, 5)), dealing, false));
    assert.match(await page.text('#group-part .aside'), /^That five of six players learn nothing of the piece cannot be seen in a picture/);
    assert.match(await page.text('#group-part .aside'), /A theorem shows it, for rows that are drawn freely/);
    for (const player of [0, 1, 2]) await page.click(`[data-member="${player}"]`);
    assert.equal(await page.text('#group-words'), 'Two of six players: 3 and 4. Four are left out, and it looks like noise.');
    assert.deepEqual(await labels(page, 'group'), squareLabels(tables[3].map((byte, position) => byte ^ tables[4][position]), dealing, false));
    for (const player of [3, 4]) await page.click(`[data-member="${player}"]`);
    assert.equal(await page.text('#group-words'), 'Nobody is chosen.');
    assert.equal(await isShown(page, '#group'), false);
    for (const player of [0, 1, 2, 3, 4, 5]) await page.click(`[data-member="${player}"]`);
    assert.deepEqual(await labels(page, 'group'), squareLabels(joined, dealing, true, dealing.point));
    // The shares of any square.
    await page.click('#group [data-position="15"]');
    assert.equal(await page.text('#shares caption'), 'Square 15 (line 1, column 7, sensor 8)');
    assert.deepEqual(await sharesShown(page), [...tables.map((table, player) => [`Player ${player}`, hexadecimal(table.subarray(15, 16))]),
        ['Together', hexadecimal(joined.subarray(15, 16))]]);
    await askSquare(page, '72');
    assert.equal(await page.text('#square-problem'), `This board has squares 0 to 71. ${refusalWords(14)}`);
    await askSquare(page, '');
    assert.equal(await page.text('#square-problem'), 'A square is a whole number from 0 on.');
});

onPage('two bytes changed in a published key move the piece: the caution stands beside it, and the fingerprint differs', async (page) => {
    const dealing = springDealing(4);
    const keys = keysApart(library, library.deal(dealing));
    const { width } = dealing;
    // A column's word is XORed into every grid row in which the key marks the column. Where it marks one in the piece's grid row alone, the value
    // taken out of one cell of its word and put into another moves the piece.
    const [from, to] = [dealing.point % width, (dealing.point + 7) % width];
    const moving = (key, column) => {
        const word = key.length - (8 - column) * width;
        return changed(changed(key, word + from, dealing.value[0]), word + to, dealing.value[0]);
    };
    const tries = keys.flatMap((key, holder) => Array.from({ length: 8 }, (_, column) => ({ holder, moved: moving(key, column) })));
    const { holder, moved } = tries.find((one) =>
        library.joinKeys(Buffer.concat(keys.map((key, player) => (player === one.holder ? one.moved : key)))).filter((byte) => byte !== 0).length === 1);
    await give(page, keys.map((key, player) => stored(`player-${player}.key`, player === holder ? moved : key)), 4);
    const wrong = dealing.point - from + to;
    assert.equal(await answer(page), pieceWords({ ...dealing, point: wrong }));
    assert.equal(await page.text('#caution'), sentence('caution'));
    assert.ok(await isShown(page, '#caution'));
    const lines = await keyLines(page);
    keys.forEach((key, player) => assert.equal(lines[player].endsWith(` ${fingerprint(key).slice(0, 4)}\u2026`), player !== holder));
    await open(page, 'fingerprints');
    const whole = await page.run(() => [...document.querySelectorAll('#fingerprint-table td')].map((cell) => cell.textContent));
    assert.deepEqual(whole, keys.map((key, player) => fingerprint(player === holder ? moved : key)));
});

onPage('keys that come one after another: what is missing is said, and its number is folded', async (page) => {
    const keys = springKeys(6);
    await give(page, [4, 0, 3].map((player) => stored(`later-${player}.key`, keys[player])), 6);
    assert.equal(await answer(page), 'The keys of players 1, 2 and 5 are missing.');
    assert.equal(await page.text('#standing'), 'Three of six keys are here.');
    assert.deepEqual(await keyStates(page), ['used', 'missing', 'missing', 'used', 'used', 'missing']);
    assert.equal(await isShown(page, '#board-part'), false);
    assert.equal(await isShown(page, '#refusal p'), false);
    assert.equal(await page.text('#refusal p'), refusalWords(12));
    await open(page, 'square-part');
    assert.equal(await page.text('#square-words'), 'Write a square\u2019s number.');
    await askSquare(page, '15');
    assert.equal(await page.text('#square-words'), 'Three of six keys. All are needed.');
    const says = (words) => page.until((wanted) => document.getElementById('answer').textContent === wanted, words);
    await page.giveFiles('#files', [1, 2].map((player) => stored(`later-${player}.key`, keys[player])));
    await says('Player 5\u2019s key is missing.');
    await page.giveFiles('#files', [stored('later-5.key', keys[5])]);
    await says(pieceWords(springDealing(6)));
});

onPage('damaged keys: plain words beside the key, number and detail folded', async (page) => {
    const keys = springKeys(3);
    const long = keys[1].length;
    const damaged = [[13, changed(keys[1], 5), sentence('damaged')],
        [12, keys[1].subarray(0, long - 1), sentence('cut short', { bytes: long - 1, asked: long })],
        [12, Buffer.concat([keys[1], Buffer.of(9)]), sentence('too many bytes', { bytes: long + 1, asked: long })],
        [10, keys[1].map((byte, at) => (at < 3 ? 0xFF : byte)), sentence('no key')],
        [1, keys[1].map((byte, at) => (at === 0 ? 7 : byte)), sentence('no key')],
        [11, keys[1].map((byte, at) => (at === 1 ? 3 : byte)), sentence('no such player')]];
    for (const [number, key, words] of damaged) {
        await give(page, [stored('a.key', keys[0]), stored('b.key', key), stored('c.key', keys[2])], 4);
        assert.deepEqual(await keyStates(page), ['used', 'missing', 'used', 'refused']);
        assert.equal((await keyLines(page))[3], `\u2717 does not fit b.key ${capital(words)}`);
        assert.equal(await page.text('#keys li.refused .note-line'), refusalWords(number));
        assert.equal(await isShown(page, '#keys li.refused .note-line'), false);
        assert.equal(await answer(page), 'Player 1\u2019s key is missing.');
        assert.equal(await page.text('#caution'), `b.key: ${words}.`);
        assert.equal(await isShown(page, '#board-part'), false);
        await page.click('#clear');
        assert.equal(await isShown(page, '#result'), false);
    }
    await give(page, [stored('b.key', damaged[0][1])], 1);
    assert.equal(await answer(page), `${capital(sentence('damaged'))}.`);
    assert.equal(await page.text('#refusal p'), refusalWords(13));
});

onPage('any order, copies, another board\u2019s key, two keys of one player', async (page) => {
    const dealing = springDealing();
    const keys = keysApart(library, library.deal(dealing));
    await give(page, [0, 1, 4, 3, 2, 5].map((player, index) => stored(`order-${index}.key`, keys[player])), 6);
    assert.equal(await answer(page), pieceWords(dealing));
    assert.match((await keyLines(page))[2], /^Player 2 \u2713 can be read order-4.key /);
    // A copy and a key of another board are named, and do not stop the match.
    await give(page, [stored('again.key', keys[0]), stored('other.key', springKeys(3)[1])], 8);
    assert.equal(await answer(page), pieceWords(dealing));
    assert.deepEqual((await keyLines(page)).slice(6), [`Player 0 \u2713 can be read again.key ${capital(sentence('copy', { player: 0 }))}`,
        '\u2717 does not fit other.key This key is of a board for three players']);
    assert.equal(await page.text('#standing'), 'All six keys are here. One key does not fit.');
    // Another key of player 0 does.
    await give(page, [stored('rival.key', springKeys(6, 99)[0])], 9);
    assert.equal(await answer(page), `${capital(sentence('conflict', { player: 0 }))}.`);
    assert.equal(await page.text('#refusal p'), refusalWords(12));
    assert.equal(await isShown(page, '#board-part'), false);
    // Nothing shows them together by another way, and neither of the two looks right.
    assert.equal(await page.text('#standing'), 'Five of six keys are here. Three keys do not fit.');
    assert.deepEqual((await keyStates(page)).filter((look) => look === 'conflict').length, 2);
    await open(page, 'group-part');
    assert.deepEqual(await page.run(() => [...document.querySelectorAll('[data-member]')].map((box) => box.dataset.member)), [...'12345']);
    await askSquare(page, '5');
    assert.equal(await page.text('#square-words'), 'Five of six keys. All are needed.');
    assert.deepEqual(await page.run(() => [...document.querySelectorAll('#fingerprint-table th')].map((cell) => cell.textContent).slice(0, 3)),
        ['Player 0, order-0.key', 'Player 0, rival.key', 'Player 1']);
    const rival = '#keys li.conflict:nth-child(2)';
    await page.click(`${rival} summary`);
    await page.click(`${rival} button`);
    assert.equal(await answer(page), pieceWords(dealing));
});

onPage('another whole match takes the place of the one that is here; a label that is wrong is said', async (page) => {
    const [one, other] = [springDealing(4), springDealing(4, 77)];
    const keysOf = (dealing) => keysApart(library, library.deal(dealing));
    await give(page, [stored('one.txt', matchText(keysOf(one)))], 4);
    await page.giveFiles('#files', [stored('other.txt', matchText(keysOf(other)))]);
    await page.until((words) => document.getElementById('answer').textContent === words, pieceWords(other));
    assert.equal((await keyLines(page)).length, 4);
    assert.equal(await page.text('#standing'), 'All four keys are here. They took the place of those that were here.');
    await page.click('#clear');
    const fromOne = keysOf(one).map((key, player) => `player ${player + 1}: ${hexadecimal(key)}\n`).join('');
    await give(page, [stored('from-one.txt', fromOne)], 4);
    assert.equal(await answer(page), pieceWords(one));
    assert.ok((await keyLines(page))[0].endsWith(capital(sentence('other label', { label: 1, player: 0 }))));
});

onPage('zero everywhere is said', async (page) => {
    await give(page, [stored('nobody.key', library.deal({ ...printedDeal(), value: Uint8Array.of(0) }))], 2);
    assert.equal(await answer(page), sentence('zero'));
    assert.equal(await page.text('#caution'), sentence('caution'));
    assert.deepEqual(await looking(page, 'joined', 'piece'), []);
    assert.equal(await page.run(() => document.getElementById('verdict').className), 'verdict zero');
});

onPage('text: pasted, typed, quoted, numbered, wrapped, wrong; dropped files', async (page) => {
    const all = library.deal(printedDeal());
    const keys = keysApart(library, all);
    const isGood = async () => {
        await page.until((words) => document.getElementById('answer').textContent === words, pieceWords(printedDeal()));
        assert.deepEqual(await problems(page), []);
        await page.click('#clear');
    };
    const lines = keys.map(hexadecimal);
    const byLine = lines.join('\n');
    // A real paste, through the clipboard.
    await page.type('#paste', matchText(keys));
    await page.press('a', { commands: ['selectAll'] });
    await page.press('x', { commands: ['cut'] });
    assert.equal(await page.run(() => document.getElementById('paste').value), '');
    await page.press('v', { commands: ['paste'] });
    await isGood();
    assert.equal(await page.run(() => document.getElementById('paste').value), '');
    const ways = [byLine.toLowerCase(), hexadecimal(all).replace(/.{60}/g, '$&\n'), lines.map((line) => `> ${line}`).join('\n'),
        lines.map((line, place) => `${place + 1}. \u201C${line}\u201D`).reverse().join('\n'), `\r\n${lines.join('\r\n')}\r\n`];
    for (const text of ways) {
        await page.type('#paste', text);
        await page.click('#paste-form button');
        await isGood();
    }
    for (const file of [stored('all.keys', all), stored('all.txt', byLine), stored('match', matchText(keys))]) {
        await give(page, [file], 2);
        await isGood();
    }
    const wrong = async (text, ...words) => {
        await page.run((given) => { document.getElementById('paste').value = given; }, text);
        await page.click('#paste-form button');
        assert.deepEqual(await problems(page), words);
    };
    await wrong('02 00 0G', 'line 1: \u201CG\u201D is no hexadecimal digit');
    assert.equal(await isShown(page, '#result'), false);
    await wrong('020', sentence('odd digits', { where: 'line 1', count: 3 }));
    await wrong(' ', 'the text is empty');
    await wrong(`${matchText(keys)}\nPlayed on Sunday`, 'line 4: \u201CP\u201D is no hexadecimal digit');
    assert.equal(await answer(page), pieceWords(printedDeal()));
    assert.ok(await isShown(page, '#problems'));
    assert.match(await page.run(() => document.getElementById('paste').value), /Played on Sunday$/);
    await page.click('#clear');
    await page.run(() => { document.getElementById('paste').value = ''; });
    await page.run((given) => {
        const dropped = new DataTransfer();
        given.forEach((bytes, index) => dropped.items.add(new File([Uint8Array.from(bytes)], `${index}.key`)));
        document.body.dispatchEvent(new DragEvent('drop', { dataTransfer: dropped, bubbles: true, cancelable: true }));
    }, keys.map((key) => [...key]).reverse());
    await isGood();
});

onPage('a file that is too long or empty is named, and the others are read', async (page) => {
    const keys = keysApart(library, library.deal(printedDeal()));
    await give(page, [stored('a-photo.jpg', new Uint8Array(17 * 1024 * 1024)), stored('nothing.key', ''), ...keys.map((key, player) => stored(`z-${player}.key`, key))], 2);
    assert.equal(await answer(page), pieceWords(printedDeal()));
    assert.deepEqual(await problems(page), ['a-photo.jpg is too long: no board has so many bytes of keys', 'nothing.key is empty']);
    const { top, bottom } = await page.run(() => document.getElementById('problems').getBoundingClientRect().toJSON());
    assert.ok(top > 0 && bottom < DESK.height, 'what could not be read is out of sight');
    await page.click('#clear');
    await page.giveFiles('#files', [stored('nothing.key', '')]);
    await page.until(() => document.querySelectorAll('#problems li').length === 1);
    assert.ok(await isShown(page, '#problems'));
    assert.equal(await isShown(page, '#result'), false);
});

onPage('an example does not throw loaded keys away', async (page) => {
    const dealing = springDealing(4);
    const keys = keysApart(library, library.deal(dealing));
    await give(page, keys.map((key, player) => stored(`player-${player}.key`, key)), 4);
    await open(page, 'intake');
    await page.click('#spring-six');
    assert.equal((await keyLines(page)).length, 6);
    assert.equal(await page.text('#example-words'), 'An example: your browser hid this piece and dealt these keys just now, and nobody wrote their fingerprints down.');
    await open(page, 'intake');
    await page.click('#small');
    assert.equal(await page.text('#example-words'), 'An example: a board of six squares for two players, always the same.');
    assert.equal(await page.text('#leave-example'), 'Back to your keys');
    assert.equal(await isShown(page, '#clear'), false);
    // A file without keys does not end it.
    await page.giveFiles('#files', [stored('nothing.key', '')]);
    await page.until(() => document.querySelectorAll('#problems li').length === 1);
    assert.equal((await keyLines(page)).length, 2);
    await page.click('#leave-example');
    assert.equal(await answer(page), pieceWords(dealing));
    assert.equal(await isShown(page, '#example-note'), false);
    // Keys that come during an example come to the reader's own.
    await page.click('#clear');
    await give(page, [stored('player-0.key', keys[0])], 4);
    await page.click('#spring');
    await open(page, 'intake');
    await give(page, keys.slice(1).map((key, player) => stored(`player-${player + 1}.key`, key)), 4);
    await page.until((words) => document.getElementById('answer').textContent === words, pieceWords(dealing));
});

onPage('a drawn spring board has one piece', async (page) => {
    const seen = new Set();
    for (let times = 0; times < 5; times += 1) {
        await page.click('#spring');
        assert.match(await answer(page), /^The piece lies on square \d+ \(line \d, column \d, sensor \d+\)\. Its value is [0-9A-F]{2}\.$/);
        assert.equal((await looking(page, 'joined', 'piece')).length, 1);
        assert.equal((await keyLines(page)).length, 4);
        seen.add(await answer(page));
        await page.click('#leave-example');
        assert.equal(await isShown(page, '#explained'), true);
    }
    assert.ok(seen.size > 1);
});

/** Presses a button that saves, and waits for the file. */
async function savedBy(page, button, name) {
    const saved = `${files}${name}`;
    rmSync(saved, { force: true });
    await browser.saveTo(files);
    await page.click(button);
    for (let times = 0; !existsSync(saved) && times < 2000; times += 1) await new Promise((resolve) => { setTimeout(resolve, 25); });
    page.requests.splice(1);
    return saved;
}

const savedMatch = (page) => savedBy(page, '#save', 'match.txt');

onPage('a match is saved as text, and that text is the match', async (page) => {
    const keys = springKeys(5);
    await give(page, [stored('all.keys', Buffer.concat(keys.slice().reverse()))], 5);
    const text = readFileSync(await savedMatch(page), 'utf8');
    assert.equal(text, matchText(keys));
    assert.deepEqual(keysOfText(library, text).keys.map(({ bytes }) => bytes), keys);
});

onPage('README\u2019s first minute: deal a spring board, save it, close the example, reopen it', async (page) => {
    await page.click('#spring');
    const [found, prints] = [await answer(page), (await keyLines(page)).map((line) => line.slice(-5))];
    const saved = await savedMatch(page);
    await page.click('#leave-example');
    assert.equal(await isShown(page, '#result'), false);
    await give(page, [saved], 4);
    assert.equal(await answer(page), found);
    assert.deepEqual((await keyLines(page)).map((line) => line.slice(-5)), prints);
});

/** The page of the board that a dealing's keys join to. */
function pageOfDealing(dealing) {
    return pageOf(dealing.positions, dealing.valueBytes, joinedTable(dealing));
}

onPage('the joined board is saved as text: the board\u2019s page, byte for byte', async (page) => {
    for (const [players, positions, valueBytes] of [[4, 72, 1], [2, 6, 1], [3, 10, 2], [4, 77, 16], [2, 65536, 1]]) {
        const dealing = drawnDealing(players, positions, valueBytes);
        await give(page, [stored('saved.keys', library.deal(dealing))], players);
        const saved = readFileSync(await savedBy(page, '#save-board', 'board.txt'));
        assert.ok(saved.equals(Buffer.from(pageOfDealing(dealing))), `${positions} squares of ${valueBytes} bytes`);
        await page.click('#clear');
    }
    // A board that is no success is saved as it is.
    const keys = springKeys(4).map((key, player) => (player === 3 ? springKeys(4, 77)[3] : key));
    await give(page, keys.map((key, player) => stored(`player-${player}.key`, key)), 4);
    const saved = readFileSync(await savedBy(page, '#save-board', 'board.txt'), 'utf8');
    assert.equal(saved, pageOf(72, 1, library.joinKeys(Buffer.concat(keys))));
    assert.equal(saved.length, 9 * 30);
    // Where nothing is joined there is nothing to be saved.
    await page.click('#clear');
    await give(page, [stored('player-0.key', keys[0])], 4);
    for (const button of ['#save-board', '#print']) assert.equal(await isShown(page, button), false);
});

const MILLIMETRES = { A4: [210, 297], A5: [148, 210], Letter: [215.9, 279.4] };
const MARGIN = 12;
const points = (millimetres) => millimetres / 25.4 * 72;
const WORD = /<word xMin="([\d.-]+)" yMin="([\d.-]+)" xMax="([\d.-]+)" yMax="([\d.-]+)">(.*?)<\/word>/g;

/** Prints the page, and answers the sheets: each its size, and its words with their places, in points. */
async function printed(page, name, paper = 'A4') {
    const [paperWidth, paperHeight] = MILLIMETRES[paper].map((size) => size / 25.4);
    const { data } = await page.send('Page.printToPDF', { paperWidth, paperHeight, printBackground: true });
    const file = stored(`${name}.pdf`, Buffer.from(data, 'base64'));
    const found = execFileSync('pdftotext', ['-bbox', file, '-'], { encoding: 'utf8', maxBuffer: 2 ** 28 });
    return found.split('<page ').slice(1).map((sheet) => {
        const [, width, height] = /^width="([\d.]+)" height="([\d.]+)"/.exec(sheet);
        const words = [...sheet.matchAll(WORD)].map(([, left, top, right, bottom, text]) =>
            ({ left: Number(left), top: Number(top), right: Number(right), bottom: Number(bottom), text }));
        return { width: Number(width), height: Number(height), words };
    });
}

/** The lines of a board's page on a sheet, each as its words: those below the line that counts the columns. */
function linesBelow(words, valueBytes) {
    const start = words.findIndex(({ text }) => text === 'first');
    const columns = words.slice(start, start + 9);
    assert.deepEqual(columns.map(({ text }) => text), ['first', '+0', '+1', '+2', '+3', '+4', '+5', '+6', '+7']);
    const digits = new RegExp(`^[0-9A-F]{${2 * valueBytes}}$`);
    const lines = [];
    for (const word of words.slice(start + 9)) {
        const line = lines.at(-1);
        const isBeside = line !== undefined && Math.abs(word.top - line[0].top) < 1;
        if (isBeside ? !digits.test(word.text) : !/^\d+$/.test(word.text)) break;
        if (isBeside) line.push(word);
        else lines.push([word]);
    }
    // Each square stands below what counts its column.
    for (const [, ...squares] of lines) {
        squares.forEach(({ left }, column) => {
            assert.ok(Math.abs(left - columns[column + 1].left) < 1, `column ${column}`);
        });
    }
    return lines;
}

/** The sheets have the whole page of a dealing's board in order, and nothing is cut off or runs into the margin. */
function holdsBoard(sheets, dealing) {
    const lines = [];
    for (const { width, height, words } of sheets) {
        const edge = points(MARGIN) - 1;
        const outside = words.filter(({ left, top, right, bottom }) =>
            left < edge || top < edge || right > width - edge || bottom > height - edge);
        assert.deepEqual(outside, []);
        if (words.some(({ text }) => text === 'first')) lines.push(...linesBelow(words, dealing.valueBytes));
    }
    const texts = lines.map((line) => line.map(({ text }) => text).join(' '));
    assert.deepEqual(texts, pageOfDealing(dealing).trimEnd().split('\n').map((line) => line.trim()));
    return lines;
}

const controlsShown = (page) => page.run(() => [...document.querySelectorAll('button, input, select, textarea')]
    .filter((control) => control.checkVisibility()).map((control) => control.id || control.textContent));

const BOARDS_ON_PAPER = [
    // players, squares, bytes of a value, paper; how many sheets there are at most, and whether they lie on their sides
    [4, 72, 1, 'A4', 1, false], [6, 72, 1, 'A4', 1, false], [6, 72, 1, 'Letter', 1, false], [3, 72, 2, 'A5', 2, false],
    [2, 6, 1, 'A4', 1, false], [4, 256, 1, 'A4', 1, false], [4, 77, 6, 'A4', 1, false], [4, 77, 7, 'A4', 1, true],
    [4, 72, 16, 'A4', 1, true], [4, 72, 16, 'Letter', 1, true], [4, 72, 16, 'A5', 2, true],
    [2, 65536, 1, 'A4', 150, false], [2, 65536, 16, 'A4', 150, true],
];

for (const [players, positions, valueBytes, paper, most, isSideways] of BOARDS_ON_PAPER) {
    const name = `${positions} squares of ${valueBytes} bytes for ${players}`;
    onPage(`on paper, ${paper}: ${name}, and nothing is cut off`, async (page) => {
        const dealing = drawnDealing(players, positions, valueBytes);
        const keys = keysApart(library, library.deal(dealing));
        await give(page, [stored('paper.txt', matchText(keys))], players);
        const sheets = await printed(page, `paper-${positions}-${valueBytes}-${paper}`, paper);
        const lines = holdsBoard(sheets, dealing);
        assert.ok(sheets.length <= most, `${sheets.length} sheets`);
        const [short, long] = MILLIMETRES[paper].map(points);
        for (const { width, height } of sheets) {
            const [wanted, other] = isSideways ? [long, short] : [short, long];
            assert.ok(Math.abs(width - wanted) < 1 && Math.abs(height - other) < 1, `${width} by ${height}`);
        }
        // What is read first: the answer, the board's numbers, how a square is found, and at the end the fingerprints.
        const text = sheets.flatMap(({ words }) => words.map((word) => word.text)).join(' ');
        const numbers = ['two', 'three', 'four', 'five', 'six'];
        const squares = positions === 6 ? 'six' : positions.toLocaleString('en');
        const value = valueBytes === 1 ? 'one byte' : `${{ 2: 'two', 6: 'six' }[valueBytes] ?? valueBytes} bytes`;
        const column = dealing.point % 8;
        for (const words of [pieceWords(dealing), sentence('caution'),
            `${capital(numbers[players - 2])} players, ${squares} squares, values of ${value}`,
            'A square is the number at the left of its line plus the number above its column.',
            `The piece\u2019s is ${dealing.point - column} + ${column} = ${dealing.point}.`,
            ...keys.map(fingerprint)]) assert.ok(text.includes(words), words);
        // The type is as large as the line allows: it fills the sheet where values are long, and a few lines are large.
        const [last] = lines[0].slice(-1);
        if (valueBytes >= 6) assert.ok(last.right > sheets[0].width * 0.85, `the line ends at ${last.right}`);
        const high = last.bottom - last.top;
        if (positions === 72 && valueBytes === 1) assert.ok(high > 14, `${high} points high`);
    });
}

onPage('on paper: the board\u2019s page in the place of buttons and fields, and the screen as it was', async (page) => {
    const dealing = springDealing(3);
    const keys = keysApart(library, library.deal(dealing));
    await give(page, [stored('match.txt', matchText(keys))], 3);
    const paper = () => page.run(() => [document.getElementById('paper').getClientRects().length,
        document.getElementById('paper-page').textContent, document.querySelector('#paper-page strong').textContent]);
    assert.deepEqual(await paper(), [0, pageOfDealing(dealing), hexadecimal(dealing.value)]);
    const screen = await page.run(() => document.body.innerText);
    await page.run(() => window.dispatchEvent(new Event('beforeprint')));
    const dark = [{ name: 'prefers-color-scheme', value: 'dark' }];
    await page.send('Emulation.setEmulatedMedia', { media: 'print', features: dark });
    assert.deepEqual(await paper(), [1, pageOfDealing(dealing), hexadecimal(dealing.value)]);
    for (const selector of ['#answer', '#caution', '#paper', '#fingerprint-table']) {
        assert.ok(await isShown(page, selector), selector);
    }
    for (const selector of ['#joined', '.tools', '#intake', '#keys', '#proved-part']) {
        assert.equal(await isShown(page, selector), false, selector);
    }
    assert.deepEqual(await controlsShown(page), []);
    // Dark ink on white, also for a reader whose screen is dark.
    const grounds = await page.run(() => [...document.querySelectorAll('html, body, body *')]
        .filter((found) => found.checkVisibility()).map((found) => getComputedStyle(found).backgroundColor));
    assert.deepEqual([...new Set(grounds)].sort(), ['rgb(255, 255, 255)', 'rgba(0, 0, 0, 0)']);
    const found = await page.run(contrasts);
    assert.deepEqual(found.filter(([, contrast]) => contrast < 4.5), []);
    for (const key of keys) assert.ok((await page.run(() => document.body.innerText)).includes(fingerprint(key)));
    await page.screenshot(`${pictures}paper.png`);
    await page.run(() => window.dispatchEvent(new Event('afterprint')));
    await page.send('Emulation.setEmulatedMedia', { media: '', features: dark });
    assert.equal(await page.run(() => document.body.innerText), screen);
    assert.equal(await page.run(() => document.getElementById('fingerprints').open), false);
}, { ...DESK, scheme: 'dark' });

onPage('on paper: several squares that are not zero are printed, and none looks like a piece', async (page) => {
    const keys = springKeys(4).map((key, player) => (player === 3 ? springKeys(4, 77)[3] : key));
    await give(page, keys.map((key, player) => stored(`player-${player}.key`, key)), 4);
    const [sheet, ...others] = await printed(page, 'paper-several');
    assert.deepEqual(others, []);
    const lines = linesBelow(sheet.words, 1).map((line) => line.map(({ text }) => text).join(' '));
    const table = library.joinKeys(Buffer.concat(keys));
    assert.deepEqual(lines, pageOf(72, 1, table).trimEnd().split('\n').map((line) => line.trim()));
    const text = sheet.words.map((word) => word.text).join(' ');
    assert.ok(text.includes(sentence('several', { count: table.filter((byte) => byte !== 0).length })));
    assert.ok(!text.includes('The piece'));
    assert.equal(await page.run(() => document.querySelectorAll('#paper-page strong').length), 0);
});

onPage('on paper without a joined board: what is there, and no board of an earlier match', async (page) => {
    const text = async (name) => {
        const sheets = await printed(page, name);
        assert.equal(sheets.length, 1);
        return sheets[0].words.map((word) => word.text).join(' ');
    };
    const empty = await text('paper-empty');
    for (const words of ['Where did the piece lie?', 'What is a key?', 'Where do keys come from?']) {
        assert.ok(empty.includes(words), words);
    }
    assert.ok(!empty.includes('first'));
    const keys = springKeys(4);
    await give(page, [stored('match.txt', matchText(keys))], 4);
    assert.ok((await text('paper-joined')).includes('first +0'));
    await page.run(() => document.querySelector('#keys summary').click());
    await page.click('#keys li button');
    assert.equal(await answer(page), 'Player 0\u2019s key is missing.');
    const waiting = await text('paper-waiting');
    for (const words of ['Player 0\u2019s key is missing.', 'The keys', 'Three of four keys are here.',
        'Player 0 missing', ...keys.slice(1).map(fingerprint)]) assert.ok(waiting.includes(words), words);
    assert.ok(!waiting.includes('first'));
    assert.equal((await page.text('#paper')).trim(), '');
    for (const times of [1, 2]) {
        await page.send('Emulation.setEmulatedMedia', { media: 'print' });
        assert.deepEqual(await controlsShown(page), []);
        await page.send('Emulation.setEmulatedMedia', { media: '' });
        if (times === 1) await page.click('#clear');
    }
});

onPage('the largest board is shown in parts', async (page) => {
    const board = { players: 2, positions: 65536, width: 256, valueBytes: 16 };
    const dealing = randomDealing(board, sameEachTime(8));
    const keys = library.deal(dealing);
    await give(page, [stored('large.keys', keys)], 2);
    assert.equal(await answer(page), pieceWords(dealing));
    const first = dealing.point - dealing.point % 72;
    assert.equal(await page.text('#range'), `Squares ${first.toLocaleString('en')} to ${(first + 71).toLocaleString('en')} of 65,536`);
    assert.deepEqual(await looking(page, 'joined', 'piece'), [dealing.point]);
    const table = library.openAll(keysApart(library, keys)[0]);
    await open(page, 'group-part');
    assert.deepEqual(await labels(page, 'group'), squareLabels(table, board, false, null, [first, first + 72]));
    await page.screenshot(`${pictures}largest-board.png`, '#result');
    await page.click(first === 0 ? '#later' : '#earlier');
    const other = first === 0 ? 72 : first - 72;
    assert.deepEqual(await labels(page, 'group'), squareLabels(table, board, false, null, [other, other + 72]));
    await page.click('#to-piece');
    assert.equal(await page.text('#shares caption'), capital(inWords(dealing.point, dealing)));
    await page.run(() => document.querySelector('#joined td[tabindex="0"]').focus());
    await page.press('PageDown');
    assert.equal(await page.run(() => Number(document.activeElement.dataset.position)), Math.min(65535, dealing.point + 72));
});

onPage('values of two to five bytes', async (page) => {
    for (const valueBytes of [2, 3, 5, 4]) {
        const dealing = randomDealing({ players: 4, positions: 30, width: 8, valueBytes }, sameEachTime(valueBytes));
        await give(page, [stored('values.keys', library.deal(dealing))], 4);
        assert.equal(await answer(page), pieceWords(dealing));
        await page.settled();
        await page.screenshot(`${pictures}values-${valueBytes}.png`, '#result');
        if (valueBytes !== 4) await page.click('#clear');
    }
}, PHONE);

onPage('by keyboard alone', async (page) => {
    const focused = () => page.run(() => {
        const found = document.activeElement;
        return found.id || found.getAttribute('aria-label') || found.textContent.trim().replace(/\s+/g, ' ') || (found.closest('label') ?? found).textContent.trim();
    });
    const tabbed = async (times) => {
        const order = [];
        for (let time = 0; time < times; time += 1) {
            await page.press('Tab');
            order.push(await focused());
        }
        return order;
    };
    assert.deepEqual(await tabbed(7), ['files', 'paste', 'Read this text', 'spring', 'spring-six', 'small', 'What is proved, and what is not']);
    await page.press('Tab', { shift: true });
    await page.press('Enter');
    assert.equal(await focused(), 'answer');
    const lines = await keyLines(page);
    assert.deepEqual(await tabbed(10), ['leave-example', 'Square 4 (line 0, column 4): value A5, the piece',
        'save-board', 'print', ...lines, 'save', 'All fingerprints, whole', 'Give other keys',
        'One square, key by key']);
    // In a board: arrows move, Enter chooses, and the board is one stop.
    await page.run(() => document.querySelector('#joined td[tabindex="0"]').focus());
    await page.press('ArrowLeft');
    await page.press('ArrowLeft');
    assert.match(await focused(), /^Square 2 /);
    await page.press('Enter');
    assert.match(await focused(), /^Square 2 /);
    assert.match(await page.text('#shares caption'), /^Square 2 /);
    assert.ok(await isShown(page, '#shares'));
    assert.equal(await page.run(() => document.querySelector('#joined [aria-selected="true"]').dataset.position), '2');
    await page.press('End');
    assert.match(await focused(), /^Square 5 /);
    await page.press('ArrowRight');
    await page.press('ArrowDown');
    assert.match(await focused(), /^Square 5 /);
    await page.press('Home');
    await page.press(' ');
    assert.match(await page.text('#shares caption'), /^Square 0 /);
    // A key unfolds by Enter; removing keys leaves the focus where the next one stands, and with the files when none is left.
    await page.run(() => document.querySelector('#keys summary').focus());
    await page.press('Enter');
    await page.press('Tab');
    assert.equal(await focused(), 'Remove the key the small board');
    await page.press('Enter');
    assert.equal(await focused(), (await keyLines(page))[1]);
    assert.equal(await answer(page), 'Player 0\u2019s key is missing.');
    await page.press('Enter');
    await page.press('Tab');
    await page.press('Enter');
    assert.equal(await focused(), 'files');
});

onPage('for a screen reader', async (page) => {
    await page.click('#spring-six');
    for (const id of ['intake', 'square-part', 'group-part', 'proved-part', 'fingerprints']) await open(page, id);
    const nodes = await page.accessible();
    const roles = ['button', 'textbox', 'combobox', 'checkbox', 'switch', 'spinbutton', 'grid', 'gridcell', 'list', 'link', 'rowheader', 'columnheader', 'group',
        'table', 'DisclosureTriangle', 'image', 'region'];
    const controls = nodes.filter(({ role }) => roles.includes(role));
    assert.deepEqual(controls.filter(({ name, role }) => name.trim() === '' && !['list', 'group'].includes(role)), []);
    const named = (role) => controls.filter((node) => node.role === role).map(({ name }) => name);
    assert.deepEqual(named('textbox'), ['Or paste the keys as text']);
    assert.deepEqual(named('switch'), ['Sensors']);
    assert.deepEqual(named('spinbutton'), ['Square']);
    assert.deepEqual(named('checkbox'), [0, 1, 2, 3, 4, 5].map((player) => `Player ${player}`));
    assert.deepEqual(named('grid').sort(), ['The board, all keys together', 'What players 0, 1, 2, 3 and 4 see together']);
    assert.equal(named('gridcell').length, 2 * 72);
    assert.equal(named('gridcell').filter((name) => name.endsWith(', the piece')).length, 1);
    assert.equal(named('rowheader').filter((name) => name.startsWith('Line ')).length, 18);
    assert.equal(named('columnheader').filter((name) => name.startsWith('Column ')).length, 16);
    assert.ok(named('list').includes('The keys'));
    const headings = nodes.filter(({ role }) => role === 'heading').map(({ name }) => name);
    for (const name of ['Where did the piece lie?', 'The keys', 'Give other keys', 'One square, key by key', 'What some of the players see together',
        'What is proved, and what is not', await answer(page)]) assert.ok(headings.includes(name), name);
    const live = nodes.filter(({ live: how }) => how === 'polite' || how === 'assertive').map(({ role }) => role);
    assert.deepEqual(live.sort(), ['alert', 'alert', 'status', 'status', 'status']);
    assert.equal(await page.run(() => document.documentElement.lang), 'en');
});

/** The contrasts of all texts against their grounds, each with its place, in the page. */
function contrasts() {
    const canvas = document.createElement('canvas');
    canvas.width = 1;
    canvas.height = 1;
    const paper = canvas.getContext('2d', { willReadFrequently: true });
    const painted = (...colours) => {
        paper.clearRect(0, 0, 1, 1);
        for (const [colour, alpha] of colours) {
            paper.globalAlpha = alpha;
            paper.fillStyle = colour;
            paper.fillRect(0, 0, 1, 1);
        }
        return [...paper.getImageData(0, 0, 1, 1).data].slice(0, 3);
    };
    const light = (rgb) => {
        const [red, green, blue] = rgb.map((part) => (part / 255 <= 0.04045 ? part / 255 / 12.92 : ((part / 255 + 0.055) / 1.055) ** 2.4));
        return 0.2126 * red + 0.7152 * green + 0.0722 * blue;
    };
    const worst = new Map();
    for (const found of document.querySelectorAll('body *')) {
        const hasText = [...found.childNodes].some((node) => node.nodeType === 3 && node.textContent.trim() !== '');
        if (!hasText || !found.checkVisibility() || found.matches('script, .unseen, :disabled, option')) continue;
        const grounds = [];
        let opacity = 1;
        for (let above = found; above !== null; above = above.parentElement) {
            const style = getComputedStyle(above);
            grounds.unshift([style.backgroundColor, 1]);
            opacity *= Number(style.opacity);
        }
        const ground = painted(...grounds);
        const text = painted(...grounds, [getComputedStyle(found).color, opacity]);
        const [dark, bright] = [light(ground), light(text)].sort((one, other) => one - other);
        const contrast = (bright + 0.05) / (dark + 0.05);
        const name = `${found.tagName}.${found.className} in ${found.parentElement.tagName}.${found.parentElement.className}`;
        worst.set(name, Math.min(contrast, worst.get(name) ?? 21));
    }
    return [...worst];
}

for (const scheme of ['light', 'dark']) {
    for (const [size, look] of [['1280', DESK], ['390', PHONE]]) {
        for (const kind of ['empty', 'loaded', 'damaged', 'several', 'zero']) {
            onPage(`${scheme}, ${size} pixels, ${kind}: texts stand out, controls are large enough`, async (page) => {
                const keys = springKeys(6);
                const given = { loaded: keys, damaged: [changed(keys[0], 5), ...keys.slice(1)], several: [springKeys(6, 99)[0], ...keys.slice(1)],
                    zero: keysApart(library, library.deal({ ...printedDeal(), value: Uint8Array.of(0) })) }[kind];
                if (given !== undefined) {
                    await page.giveFiles('#files', given.map((key, player) => stored(`${kind}-${player}.key`, key)));
                    await page.until((count) => document.querySelectorAll('#keys details').length === count, given.length);
                    for (const id of ['intake', 'square-part', 'group-part', 'proved-part', 'fingerprints']) await open(page, id);
                    if (kind === 'loaded') await page.click('#sensors');
                    await page.run(() => document.querySelectorAll('#keys details').forEach((details) => { details.open = true; }));
                    await page.settled();
                }
                const found = await page.run(contrasts);
                assert.ok(found.length > 15);
                assert.deepEqual(found.filter(([, contrast]) => contrast < 4.5), []);
                const small = await page.run(() => [...document.querySelectorAll('button, select, input, summary, td[role="gridcell"]')]
                    .filter((control) => control.checkVisibility())
                    .map((control) => [control.id || control.textContent, (control.closest('label') ?? control).getBoundingClientRect()])
                    .filter(([, { width, height }]) => width < 24 || height < 24).map(([control]) => control));
                assert.deepEqual(small, []);
                await page.screenshot(`${pictures}${scheme}-${size}-${kind}-unfolded.png`);
                const ground = await page.run(() => getComputedStyle(document.documentElement).backgroundColor);
                assert.equal(ground, scheme === 'light' ? 'rgb(247, 244, 236)' : 'rgb(19, 23, 26)');
            }, { ...look, scheme });
        }
    }
}

test('README\u2019s picture is one of this page', async () => {
    const kept = new URL('../docs/page.png', import.meta.url);
    const page = await browser.open(place, { width: 1280, height: 912 });
    await page.until(() => document.body.dataset.ready === 'yes');
    const keys = keysApart(library, library.deal(springDealing(4, 305)));
    await give(page, keys.map((key, player) => stored(`player-${player}.key`, key)), 4);
    await page.settled();
    await page.run(() => scrollTo(0, 0));
    await page.screenshot(`${pictures}readme.png`, null);
    await page.close();
    const made = withWords(readFileSync(`${pictures}readme.png`), pageDigest());
    if (process.env.KEEP_PICTURE) writeFileSync(kept, made);
    assert.equal(wordsIn(readFileSync(kept)), pageDigest(), 'docs/page.png shows an older page; `tests/run-web --keep` makes it anew');
});

test('a library that cannot be opened is said', async () => {
    const broken = readFileSync(place, 'utf8').replace(/(id="module">\s*)AGFzbQ/, '$1AGFzbg');
    const page = await browser.open(`file://${stored('broken.html', broken)}`);
    await page.until(() => document.getElementById('problems').textContent.startsWith('The library cannot be opened in this browser: '));
    await page.close();
});

test('the page can send nothing: its own policy forbids it', async () => {
    const page = await browser.open(place);
    const answer = await page.run(async () => {
        const tried = [() => fetch('data:text/plain,x'), () => import('data:text/javascript,0')];
        return Promise.all(tried.map((attempt) => attempt().then(() => 'done', () => 'forbidden')));
    });
    assert.deepEqual(answer, ['forbidden', 'forbidden']);
    assert.ok(page.complaints.length >= 2 && page.complaints.every((complaint) => /Content Security Policy/.test(complaint)),
        page.complaints.join('\n'));
    assert.match(readFileSync(place, 'utf8'), /default-src 'none'; script-src 'sha256-/);
    await page.close();
});
