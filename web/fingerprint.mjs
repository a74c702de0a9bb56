// A key's fingerprint: SHA-256 of its bytes (FIPS 180-4), in hexadecimal. Written here because a browser has its own only in pages that it
// calls secure, and only later than asked; a page opened from a file or from a club's own machine may have none. Not proved, held to other
// implementations by the tests.

const PRIMES = Array.from({ length: 400 }, (_, number) => number)
    .filter((number) => number > 1 && Array.from({ length: number - 2 }, (_, i) => i + 2).every((divisor) => number % divisor !== 0)).slice(0, 64);

/** The first 32 bits behind the point of a prime's square or cube root. */
function rootBits(prime, root) {
    return Math.floor((root(prime) % 1) * 2 ** 32) | 0;
}

const START = PRIMES.slice(0, 8).map((prime) => rootBits(prime, Math.sqrt));
const CONSTANTS = PRIMES.map((prime) => rootBits(prime, Math.cbrt));

function turned(word, by) {
    return (word >>> by) | (word << (32 - by));
}

/** The message behind its bytes: a one, zeros, and its length in bits, to whole blocks of 64 bytes. */
function padded(bytes) {
    const whole = new Uint8Array(Math.ceil((bytes.length + 9) / 64) * 64);
    whole.set(bytes);
    whole[bytes.length] = 0x80;
    const view = new DataView(whole.buffer);
    view.setUint32(whole.length - 8, Math.floor(bytes.length / 2 ** 29));
    view.setUint32(whole.length - 4, (bytes.length << 3) >>> 0);
    return view;
}

/** The schedule of one block: its sixteen words, and forty-eight made from them. */
function schedule(view, at) {
    const words = new Int32Array(64);
    for (let place = 0; place < 16; place += 1) words[place] = view.getInt32(at + 4 * place);
    for (let place = 16; place < 64; place += 1) {
        const [early, late] = [words[place - 15], words[place - 2]];
        const small = turned(early, 7) ^ turned(early, 18) ^ (early >>> 3);
        const great = turned(late, 17) ^ turned(late, 19) ^ (late >>> 10);
        words[place] = words[place - 16] + small + words[place - 7] + great;
    }
    return words;
}

/** The state after one block. */
function compressed(state, words) {
    let [a, b, c, d, e, f, g, h] = state;
    for (let place = 0; place < 64; place += 1) {
        const great = turned(e, 6) ^ turned(e, 11) ^ turned(e, 25);
        const first = (h + great + ((e & f) ^ (~e & g)) + CONSTANTS[place] + words[place]) | 0;
        const second = ((turned(a, 2) ^ turned(a, 13) ^ turned(a, 22)) + ((a & b) ^ (a & c) ^ (b & c))) | 0;
        [a, b, c, d, e, f, g, h] = [(first + second) | 0, a, b, c, (d + first) | 0, e, f, g];
    }
    return [a, b, c, d, e, f, g, h].map((word, place) => (word + state[place]) | 0);
}

/** SHA-256 of these bytes, as 64 digits in groups of four. */
export function fingerprint(bytes) {
    const view = padded(bytes);
    let state = START;
    for (let at = 0; at < view.byteLength; at += 64) state = compressed(state, schedule(view, at));
    return state.map((word) => (word >>> 0).toString(16).toUpperCase().padStart(8, '0').replace(/.{4}$/, ' $&')).join(' ');
}
