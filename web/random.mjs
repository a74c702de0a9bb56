// Bytes for tests that look drawn and are the same each time: the upper bytes of a linear congruence. Never for play.
export function sameEachTime(start) {
    let state = BigInt(start);
    return (length) => Uint8Array.from({ length }, () => {
        state = (state * 6364136223846793005n + 1442695040888963407n) & 0xFFFFFFFFFFFFFFFFn;
        return Number(state >> 56n);
    });
}
