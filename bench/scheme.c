/* The scheme of document 01 written plainly in C, over the cipher that PEER names (plain or libsodium): Deal, Open one,
   Open all, Join keys and document 02's Draw card. It turns away what these documents turn away, so that no bytes lead it
   out of its slices: a bad column with its number and place, all else with one number; a refusal writes nothing else. */
#include "contenders.h"
#include <string.h>

#define JOINED(a, b) a##_##b
#define NAMED(a, b) JOINED(a, b)
#define OF(name) NAMED(PEER, name)

enum { SEED = NSG_SEED_BYTES, MOST_ROW = NSG_MOST_EXPANDED_BYTES };

struct board {
    uint32_t players, player, positions, width, value_bytes;
    size_t columns, grid_rows, row_bytes, mark_bytes, stride, body_bytes, table_bytes;
};

static void xor_into(uint8_t *restrict out, const uint8_t *restrict in, size_t length)
{
    for (size_t i = 0; i < length; i++)
        out[i] ^= in[i];
}

/* Works the sizes out of the five numbers; 0 where there is no such board. */
static int sized(struct board *b)
{
    if (b->players < NSG_LEAST_PLAYERS || b->players > NSG_MOST_PLAYERS || b->player >= b->players)
        return 0;
    if (b->positions < 1 || b->positions > NSG_MOST_POSITIONS || b->width < 1 || b->width > NSG_MOST_WIDTH)
        return 0;
    if (b->value_bytes < 1 || b->value_bytes > NSG_MOST_VALUE_BYTES)
        return 0;
    b->columns = NSG_COLUMNS(b->players);
    b->grid_rows = NSG_GRID_ROWS(b->positions, b->width);
    b->row_bytes = (size_t)b->width * b->value_bytes;
    b->mark_bytes = (b->columns + 7) / 8;
    b->stride = b->mark_bytes + b->columns / 2 * SEED;
    b->body_bytes = b->grid_rows * b->stride + b->columns * b->row_bytes;
    b->table_bytes = (size_t)b->positions * b->value_bytes;
    return b->grid_rows <= NSG_MOST_GRID_ROWS;
}

/* Reads a header number in groups of seven bits; NULL where it is cut short, too long or not in its shortest form. */
static const uint8_t *read_number(const uint8_t *at, const uint8_t *end, uint32_t *number)
{
    *number = 0;
    for (int shift = 0; shift < 21 && at < end; shift += 7) {
        uint32_t group = *at++;
        *number |= (group & 0x7f) << shift;
        if (group < 0x80)
            return group == 0 && shift > 0 ? NULL : at;
    }
    return NULL;
}

/* Reads the header; answers where the body begins, or NULL. */
static const uint8_t *read_header(const uint8_t *key, const uint8_t *end, struct board *b)
{
    uint32_t *numbers[] = {&b->players, &b->player, &b->positions, &b->width, &b->value_bytes};
    for (int i = 0; i < 5; i++)
        if ((key = read_number(key, end, numbers[i])) == NULL)
            return NULL;
    return sized(b) ? key : NULL;
}

static uint32_t read_marks(const struct board *b, const uint8_t *part)
{
    uint32_t marks = 0;
    for (size_t i = 0; i < b->mark_bytes; i++)
        marks |= (uint32_t)part[i] << (8 * i);
    return marks;
}

/* Whether each grid row marks as many columns as it has seeds, and none that does not exist. */
static int marks_good(const struct board *b, const uint8_t *body)
{
    for (size_t g = 0; g < b->grid_rows; g++) {
        uint32_t marks = read_marks(b, body + g * b->stride);
        if ((uint64_t)marks >> b->columns != 0 || (size_t)__builtin_popcount(marks) != b->columns / 2)
            return 0;
    }
    return 1;
}

/* Reads a key as a whole; answers where the body begins, or NULL. */
static const uint8_t *read_key(const uint8_t *key, uint64_t key_length, struct board *b)
{
    const uint8_t *end = key + key_length, *body = read_header(key, end, b);
    return body != NULL && (size_t)(end - body) == b->body_bytes && marks_good(b, body) ? body : NULL;
}

/* XORs a stretch of grid row g's shares into `out`, `length` bytes from byte `start` on: over the marked columns, word and row. */
static void add_shares(const struct board *b, const uint8_t *body, size_t g, size_t start, uint8_t *out, size_t length)
{
    const uint8_t *words = body + b->grid_rows * b->stride + start, *part = body + g * b->stride, *seed = part + b->mark_bytes;
    for (uint32_t marks = read_marks(b, part); marks != 0; marks &= marks - 1, seed += SEED) {
        xor_into(out, words + (size_t)__builtin_ctz(marks) * b->row_bytes, length);
        OF(add_stretch)(seed, start, out, length);
    }
}

/* XORs the key's table into `out`, grid row by grid row. */
static void add_table(const struct board *b, const uint8_t *body, uint8_t *out)
{
    size_t left = b->table_bytes;
    for (size_t g = 0; g < b->grid_rows; g++) {
        size_t length = left < b->row_bytes ? left : b->row_bytes;
        add_shares(b, body, g, 0, out, length);
        out += length;
        left -= length;
    }
}

uint32_t OF(open_one)(const uint8_t *key, uint64_t key_length, uint32_t position, uint8_t *out, uint64_t out_length)
{
    struct board b;
    const uint8_t *body = read_key(key, key_length, &b);
    if (body == NULL || position >= b.positions || out_length < b.value_bytes)
        return 1;
    memset(out, 0, b.value_bytes);
    add_shares(&b, body, position / b.width, (size_t)(position % b.width) * b.value_bytes, out, b.value_bytes);
    return 0;
}

uint32_t OF(open_all)(const uint8_t *key, uint64_t key_length, uint8_t *out, uint64_t out_length)
{
    struct board b;
    const uint8_t *body = read_key(key, key_length, &b);
    if (body == NULL || out_length < b.table_bytes)
        return 1;
    memset(out, 0, b.table_bytes);
    add_table(&b, body, out);
    return 0;
}

uint32_t OF(join_keys)(const uint8_t *keys, uint64_t keys_length, uint8_t *out, uint64_t out_length)
{
    struct board first, b;
    const uint8_t *body = read_header(keys, keys + keys_length, &first);
    if (body == NULL)
        return 1;
    size_t key_bytes = (size_t)(body - keys) + first.body_bytes;
    if (keys_length != first.players * key_bytes || out_length < first.table_bytes)
        return 1;
    for (uint32_t i = 0; i < first.players; i++) {
        const uint8_t *key = keys + i * key_bytes, *end = key + key_bytes;
        body = read_header(key, end, &b);
        if (body == NULL || b.players != first.players || b.positions != first.positions || b.width != first.width ||
            b.value_bytes != first.value_bytes || b.player != i || !marks_good(&b, body))
            return 1;
    }
    memset(out, 0, first.table_bytes);
    for (uint32_t i = 0; i < first.players; i++)
        add_table(&first, keys + (i + 1) * key_bytes - first.body_bytes, out);
    return 0;
}

static uint8_t odd_mask(uint8_t share)
{
    return (uint8_t)-(share & 1);
}

/* XORs the cards with odd shares into `sum`. Every card goes under a mask: half of them are wanted, at random, and no
   processor foresees a branch on that. Two cards at a time are faster than one; ./run tells what else was tried. */
static void add_cards(uint8_t *restrict sum, const uint8_t *restrict cards, size_t card_bytes,
                      const uint8_t *restrict shares, size_t count)
{
    size_t i = 0;
    for (; i + 2 <= count; i += 2, cards += 2 * card_bytes) {
        const uint8_t mask = odd_mask(shares[i]), next_mask = odd_mask(shares[i + 1]), *next = cards + card_bytes;
        for (size_t k = 0; k < card_bytes; k++)
            sum[k] ^= (cards[k] & mask) ^ (next[k] & next_mask);
    }
    if (i < count)
        for (size_t k = 0; k < card_bytes; k++)
            sum[k] ^= cards[k] & odd_mask(shares[i]);
}

uint32_t OF(draw_card)(const uint8_t *key, uint64_t key_length, const uint8_t *deck, uint64_t deck_length,
                       uint32_t card_bytes, uint8_t *out, uint64_t out_length)
{
    struct board b;
    const uint8_t *body = read_key(key, key_length, &b);
    if (body == NULL || b.value_bytes != 1 || card_bytes < 1 || card_bytes > NSG_MOST_SHARE_BYTES ||
        deck_length != (uint64_t)b.positions * card_bytes || out_length < card_bytes)
        return 1;
    memset(out, 0, card_bytes);
    for (size_t g = 0, left = b.positions; g < b.grid_rows; g++) {
        uint8_t shares[NSG_MOST_WIDTH] = {0};
        size_t count = left < b.width ? left : b.width;
        add_shares(&b, body, g, 0, shares, count);
        add_cards(out, deck, card_bytes, shares, count);
        deck += count * card_bytes;
        left -= count;
    }
    return 0;
}

static uint8_t *put_number(uint8_t *at, uint32_t number)
{
    for (; number >= 0x80; number >>= 7)
        *at++ = (uint8_t)(number | 0x80);
    *at++ = (uint8_t)number;
    return at;
}

static uint8_t *put_header(uint8_t *at, const struct board *b)
{
    at = put_number(put_number(put_number(at, b->players), b->player), b->positions);
    return put_number(put_number(at, b->width), b->value_bytes);
}

/* What is wrong with a column: a bit at p or above, the wrong parity, or it is one of those seen before it in its array. */
static uint32_t column_fault(const struct board *b, int odd, uint64_t seen, uint8_t column)
{
    const uint64_t odd_columns = 0x6996966996696996;
    if (column >> b->players != 0)
        return NSG_REFUSED_COLUMN_BIT;
    const uint64_t bit = (uint64_t)1 << column;
    if (((odd_columns & bit) != 0) != odd)
        return NSG_REFUSED_COLUMN_PARITY;
    return (seen & bit) != 0 ? NSG_REFUSED_COLUMN_TWICE : NSG_ACCEPTED;
}

/* The number of the first bad column, and its grid row and column. */
static uint32_t first_fault(const struct board *b, uint32_t point, const uint8_t *arrays, uint32_t fault[2])
{
    for (size_t g = 0; g < b->grid_rows; g++, arrays += b->columns) {
        uint64_t seen = 0;
        for (size_t j = 0; j < b->columns; j++) {
            const uint32_t number = column_fault(b, g == point / b->width, seen, arrays[j]);
            if (number != NSG_ACCEPTED) {
                fault[0] = (uint32_t)g;
                fault[1] = (uint32_t)j;
                return number;
            }
            seen |= (uint64_t)1 << arrays[j];
        }
    }
    return NSG_ACCEPTED;
}

/* Writes a player's marks and held seeds of one grid row. */
static void put_part(const struct board *b, const uint8_t *array, const uint8_t *seeds, uint8_t *part)
{
    uint32_t marks = 0;
    uint8_t *held = part + b->mark_bytes;
    for (size_t j = 0; j < b->columns; j++)
        if (array[j] >> b->player & 1) {
            marks |= (uint32_t)1 << j;
            memcpy(held, seeds + j * SEED, SEED);
            held += SEED;
        }
    for (size_t i = 0; i < b->mark_bytes; i++)
        part[i] = (uint8_t)(marks >> (8 * i));
}

uint32_t OF(deal)(uint32_t players, uint32_t positions, uint32_t width, uint32_t value_bytes, uint32_t point, const uint8_t *value,
                  uint64_t value_length, const uint8_t *arrays, uint64_t arrays_length, const uint8_t *seeds, uint64_t seeds_length,
                  const uint8_t *words, uint64_t words_length, uint8_t *keys, uint64_t keys_length, uint32_t fault[2])
{
    struct board b = {.players = players, .positions = positions, .width = width, .value_bytes = value_bytes};
    uint8_t header[16], last[MOST_ROW];
    if (!sized(&b) || point >= positions || value_length != value_bytes || arrays_length != b.grid_rows * b.columns ||
        seeds_length != arrays_length * SEED || words_length != (b.columns - 1) * b.row_bytes)
        return 1;
    const uint32_t number = first_fault(&b, point, arrays, fault);
    if (number != NSG_ACCEPTED)
        return number;
    if (keys_length < players * ((size_t)(put_header(header, &b) - header) + b.body_bytes))
        return 1;
    memset(last, 0, b.row_bytes);
    memcpy(last + point % width * value_bytes, value, value_bytes);
    for (size_t j = 0; j + 1 < b.columns; j++)
        xor_into(last, words + j * b.row_bytes, b.row_bytes);
    for (size_t j = 0; j < b.columns; j++)
        OF(add_stretch)(seeds + (point / width * b.columns + j) * SEED, 0, last, b.row_bytes);
    for (; b.player < players; b.player++) {
        keys = put_header(keys, &b);
        for (size_t g = 0; g < b.grid_rows; g++, keys += b.stride)
            put_part(&b, arrays + g * b.columns, seeds + g * b.columns * SEED, keys);
        memcpy(keys, words, words_length);
        memcpy(keys + words_length, last, b.row_bytes);
        keys += b.columns * b.row_bytes;
    }
    return 0;
}
