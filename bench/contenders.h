/* What bench.c times side by side: the library, and two peers that have the library's calls. A slice is a pointer and a length; 0 is
   accepted. The peers are scheme.c over plain.c's ChaCha20, and scheme.c over libsodium's. Write page and Choose width
   need no cipher: their peers are page.c and width.c. */
#include "../include/nosingginger.h"
#include <stddef.h>

typedef uint32_t deal_call(uint32_t players, uint32_t positions, uint32_t width, uint32_t value_bytes, uint32_t point,
                           const uint8_t *value, uint64_t value_length, const uint8_t *arrays, uint64_t arrays_length,
                           const uint8_t *seeds, uint64_t seeds_length, const uint8_t *words, uint64_t words_length, uint8_t *keys,
                           uint64_t keys_length, uint32_t fault[2]);
/* Open all and Join keys: from a key, from all keys. */
typedef uint32_t one_slice_call(const uint8_t *in, uint64_t in_length, uint8_t *out, uint64_t out_length);
typedef uint32_t open_one_call(const uint8_t *key, uint64_t key_length, uint32_t position, uint8_t *out, uint64_t out_length);
typedef uint32_t draw_card_call(const uint8_t *key, uint64_t key_length, const uint8_t *deck, uint64_t deck_length,
                                uint32_t card_bytes, uint8_t *out, uint64_t out_length);
typedef uint32_t write_page_call(uint32_t positions, uint32_t value_bytes, const uint8_t *table, uint64_t table_length,
                                 uint8_t *out, uint64_t out_length, uint32_t *written);
typedef uint32_t choose_width_call(uint32_t players, uint32_t positions, uint32_t value_bytes, uint32_t *width);
typedef uint32_t expand_call(const uint8_t *seed, uint64_t seed_length, uint64_t start, uint8_t *out, uint64_t out_length);

deal_call plain_deal, libsodium_deal;
one_slice_call plain_open_all, libsodium_open_all;
one_slice_call plain_join_keys, libsodium_join_keys;
open_one_call plain_open_one, libsodium_open_one;
draw_card_call plain_draw_card, libsodium_draw_card;
write_page_call plain_write_page;
choose_width_call plain_choose_width;
expand_call plain_expand, libsodium_expand;

/* What scheme.c is given by a cipher: XORs a stretch of a seed's key stream, `length` bytes from byte `start` on, into `out`. */
void plain_add_stretch(const uint8_t *seed, size_t start, uint8_t *out, size_t length);
void libsodium_add_stretch(const uint8_t *seed, size_t start, uint8_t *out, size_t length);

/* The XOR of all bytes: what reading them once takes (reading.c). */
uint8_t read_once(const uint8_t *bytes, size_t length);

/* What a stretch has of a block of 64 bytes that it begins inside of; 0 where it begins with a block. */
static inline size_t head_bytes(uint64_t start, uint64_t length)
{
    size_t head = (64 - start % 64) % 64;
    return head < length ? head : length;
}
