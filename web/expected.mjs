// A board's page for tests, worked out square by square as it is defined, with nothing of the library's.
const DIGITS = '0123456789ABCDEF';

export function pageOf(positions, valueBytes, table) {
    let page = '';
    for (let position = 0; position % 8 !== 0 || position < positions; position += 1) {
        if (position % 8 === 0) page += `${' '.repeat(5 - String(position).length)}${position}`;
        page += ' ';
        for (let at = position * valueBytes; at < (position + 1) * valueBytes; at += 1) {
            page += position < positions ? DIGITS[table[at] >> 4] + DIGITS[table[at] % 16] : '  ';
        }
        if (position % 8 === 7) page += '\n';
    }
    return page;
}
