// Words inside a PNG, for README's picture: which page it shows. A text chunk stands in front of the picture's end; viewers leave it alone.
import { createHash } from 'node:crypto';
import { readFileSync } from 'node:fs';

const END_BYTES = 12;
const KEYWORD = 'Page';

/** What the picture shows depends on these; the library's own bytes are not among them. */
export function pageDigest() {
    const sources = ['page.html', 'page.css', 'page.mjs', 'board.mjs', 'words.mjs'].map((name) => readFileSync(new URL(name, import.meta.url)));
    return createHash('sha256').update(Buffer.concat(sources)).digest('hex');
}

function checksum(bytes) {
    let rest = 0xFFFFFFFF;
    for (const byte of bytes) {
        rest ^= byte;
        for (let bit = 0; bit < 8; bit += 1) rest = (rest >>> 1) ^ (rest & 1 ? 0xEDB88320 : 0);
    }
    return (rest ^ 0xFFFFFFFF) >>> 0;
}

/** A picture with these words in it. */
export function withWords(png, words) {
    const body = Buffer.from(`tEXt${KEYWORD}\0${words}`, 'latin1');
    const [length, check] = [Buffer.alloc(4), Buffer.alloc(4)];
    length.writeUInt32BE(body.length - 4);
    check.writeUInt32BE(checksum(body));
    return Buffer.concat([png.subarray(0, -END_BYTES), length, body, check, png.subarray(-END_BYTES)]);
}

/** The words in a picture; null where it has none. */
export function wordsIn(png) {
    return /tEXtPage\0([0-9a-f]{64})/.exec(png.toString('latin1'))?.[1] ?? null;
}
