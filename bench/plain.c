/* A plain ChaCha20 by RFC 8439, one block at a time, the state in sixteen locals, no intrinsics: the peer that the library is timed against.
   The nonce is zero and the block counter starts at 0. */
#include "contenders.h"
#include <string.h>

#define ROTATE(v, n) (((v) << (n)) | ((v) >> (32 - (n))))
#define QUARTER_ROUND(a, b, c, d)                                                                                                      \
    (a += b, d = ROTATE(d ^ a, 16), c += d, b = ROTATE(b ^ c, 12), a += b, d = ROTATE(d ^ a, 8), c += d, b = ROTATE(b ^ c, 7))

/* gcc makes one load or store of these on a little-endian machine. */
static uint32_t load(const uint8_t *p)
{
    return (uint32_t)p[0] | (uint32_t)p[1] << 8 | (uint32_t)p[2] << 16 | (uint32_t)p[3] << 24;
}

static void store(uint8_t *p, uint32_t v)
{
    p[0] = (uint8_t)v;
    p[1] = (uint8_t)(v >> 8);
    p[2] = (uint8_t)(v >> 16);
    p[3] = (uint8_t)(v >> 24);
}

/* The state of the block that byte `start` of the key stream is in. */
static void open_state(const uint8_t *seed, uint64_t start, uint32_t s[16])
{
    s[0] = 0x61707865, s[1] = 0x3320646e, s[2] = 0x79622d32, s[3] = 0x6b206574;
    for (int i = 0; i < 8; i++)
        s[4 + i] = load(seed + 4 * i);
    s[12] = (uint32_t)(start / 64);
    s[13] = s[14] = s[15] = 0;
}

/* Writes the state's block, and counts one block on. */
static void block(uint32_t s[16], uint8_t *out)
{
    uint32_t x0 = s[0], x1 = s[1], x2 = s[2], x3 = s[3], x4 = s[4], x5 = s[5], x6 = s[6], x7 = s[7];
    uint32_t x8 = s[8], x9 = s[9], x10 = s[10], x11 = s[11], x12 = s[12], x13 = s[13], x14 = s[14], x15 = s[15];
    for (int i = 0; i < 10; i++) {
        QUARTER_ROUND(x0, x4, x8, x12);
        QUARTER_ROUND(x1, x5, x9, x13);
        QUARTER_ROUND(x2, x6, x10, x14);
        QUARTER_ROUND(x3, x7, x11, x15);
        QUARTER_ROUND(x0, x5, x10, x15);
        QUARTER_ROUND(x1, x6, x11, x12);
        QUARTER_ROUND(x2, x7, x8, x13);
        QUARTER_ROUND(x3, x4, x9, x14);
    }
    store(out, x0 + s[0]), store(out + 4, x1 + s[1]), store(out + 8, x2 + s[2]), store(out + 12, x3 + s[3]);
    store(out + 16, x4 + s[4]), store(out + 20, x5 + s[5]), store(out + 24, x6 + s[6]), store(out + 28, x7 + s[7]);
    store(out + 32, x8 + s[8]), store(out + 36, x9 + s[9]), store(out + 40, x10 + s[10]), store(out + 44, x11 + s[11]);
    store(out + 48, x12 + s[12]), store(out + 52, x13 + s[13]), store(out + 56, x14 + s[14]), store(out + 60, x15 + s[15]);
    s[12]++;
}

/* Writes `length` bytes of the state's block, from its byte `from` on. */
static void cut_block(uint32_t s[16], size_t from, uint8_t *out, size_t length)
{
    uint8_t stream[64];
    block(s, stream);
    memcpy(out, stream + from, length);
}

uint32_t plain_expand(const uint8_t *seed, uint64_t seed_length, uint64_t start, uint8_t *out, uint64_t length)
{
    uint32_t s[16];
    if (seed_length != NSG_SEED_BYTES || length > NSG_MOST_EXPANDED_BYTES || start > NSG_MOST_EXPANDED_BYTES - length)
        return 1;
    open_state(seed, start, s);
    size_t head = head_bytes(start, length);
    if (head > 0)
        cut_block(s, start % 64, out, head);
    for (out += head, length -= head; length >= 64; length -= 64, out += 64)
        block(s, out);
    if (length > 0)
        cut_block(s, 0, out, length);
    return 0;
}

/* XORs `length` bytes of the state's block, from its byte `from` on, straight into the output: faster than a row of its own. */
static void add_block(uint32_t s[16], size_t from, uint8_t *restrict out, size_t length)
{
    uint8_t stream[64];
    block(s, stream);
    for (size_t i = 0; i < length; i++)
        out[i] ^= stream[from + i];
}

/* Head, whole blocks and the rest apart are one or two in a hundred faster than one loop over them all. */
void plain_add_stretch(const uint8_t *seed, size_t start, uint8_t *out, size_t length)
{
    uint32_t s[16];
    open_state(seed, start, s);
    size_t head = head_bytes(start, length);
    if (head > 0)
        add_block(s, start % 64, out, head);
    for (out += head, length -= head; length >= 64; length -= 64, out += 64)
        add_block(s, 0, out, 64);
    if (length > 0)
        add_block(s, 0, out, length);
}
