/* libsodium's ChaCha20 in the shapes of contenders.h. */
#include "contenders.h"
#include <sodium.h>
#include <string.h>

static const uint8_t nonce[12];

/* Straight into the output: crypto_stream_chacha20_ietf into a row and an XOR of the row take up to a quarter more. libsodium begins with a
   block, so a stretch that begins inside of one has its head in a buffer. For a cell that is the fastest of the ways that were tried: a
   buffer that is cut where the cell ends takes up to a fifth more, one that holds both blocks of a cell up to a tenth. */
void libsodium_add_stretch(const uint8_t *seed, size_t start, uint8_t *out, size_t length)
{
    size_t head = head_bytes(start, length);
    if (head > 0) {
        uint8_t block[64] = {0};
        memcpy(block + start % 64, out, head);
        crypto_stream_chacha20_ietf_xor_ic(block, block, 64, nonce, (uint32_t)(start / 64), seed);
        memcpy(out, block + start % 64, head);
    }
    if (length > head)
        crypto_stream_chacha20_ietf_xor_ic(out + head, out + head, length - head, nonce, (uint32_t)((start + head) / 64), seed);
}

/* crypto_stream_chacha20_ietf, which has no counter, takes a fifth more for one block. */
uint32_t libsodium_expand(const uint8_t *seed, uint64_t seed_length, uint64_t start, uint8_t *out, uint64_t length)
{
    if (seed_length != NSG_SEED_BYTES || length > NSG_MOST_EXPANDED_BYTES || start > NSG_MOST_EXPANDED_BYTES - length)
        return 1;
    memset(out, 0, length);
    libsodium_add_stretch(seed, start, out, length);
    return 0;
}
