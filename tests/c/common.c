#include "common.h"
#include <stdio.h>
#include <stdlib.h>
#include <string.h>

unsigned long checks_made, checks_failed;

void check(int fact, const char *text, const char *file, int line)
{
    checks_made++;
    if (!fact) {
        checks_failed++;
        printf("%s:%d: fails: %s\n", file, line, text);
    }
}

static void *block_of(uint64_t length)
{
    void *block = malloc(length == 0 ? 1 : (size_t)length);
    if (block == NULL) {
        printf("no memory\n");
        exit(1);
    }
    return block;
}

struct lent lend_filled(uint8_t fill, uint64_t length)
{
    struct lent lent;
    lent.length = length;
    lent.block = block_of(length);
    lent.bytes = length == 0 ? lent.block + 1 : lent.block;
    lent.before = block_of(length);
    memset(lent.bytes, fill, (size_t)length);
    memset(lent.before, fill, (size_t)length);
    return lent;
}

struct lent lend(const uint8_t *bytes, uint64_t length)
{
    struct lent lent = lend_filled(0, length);
    memcpy(lent.bytes, bytes, (size_t)length);
    memcpy(lent.before, bytes, (size_t)length);
    return lent;
}

struct lent lend_fault(void)
{
    return lend_filled(0xD8, NSG_FAULT_NUMBERS * sizeof(uint32_t));
}

struct lent lend_number(void)
{
    return lend_filled(0xD8, sizeof(uint32_t));
}

uint32_t told(const struct lent *number)
{
    uint32_t value;
    memcpy(&value, number->bytes, sizeof value);
    return value;
}

int tells(const struct lent *fault, uint32_t grid_row, uint32_t column)
{
    const uint32_t place[NSG_FAULT_NUMBERS] = {grid_row, column};
    return memcmp(fault->bytes, place, sizeof place) == 0;
}

int untouched_past(const struct lent *lent, uint64_t written)
{
    return memcmp(lent->bytes + written, lent->before + written, (size_t)(lent->length - written)) == 0;
}

int untouched(const struct lent *lent)
{
    return untouched_past(lent, 0);
}

void give_back(struct lent *lent)
{
    free(lent->block);
    free(lent->before);
    lent->block = lent->bytes = lent->before = NULL;
}

/* splitmix64 */
uint64_t next_number(void)
{
    static uint64_t state = 72;
    uint64_t z = state += 0x9E3779B97F4A7C15u;
    z = (z ^ z >> 30) * 0xBF58476D1CE4E5B9u;
    z = (z ^ z >> 27) * 0x94D049BB133111EBu;
    return z ^ z >> 31;
}

uint32_t next_below(uint32_t limit)
{
    return (uint32_t)(next_number() % limit);
}

struct lent lend_drawn(uint64_t length)
{
    struct lent lent = lend_filled(0, length);
    for (uint64_t i = 0; i < length; i++)
        lent.bytes[i] = lent.before[i] = (uint8_t)next_number();
    return lent;
}

static unsigned ones(unsigned column)
{
    unsigned count = 0;
    for (; column != 0; column >>= 1)
        count += column & 1u;
    return count;
}

/* One array: every column with that parity of ones, in the sequence's order. */
static void draw_array(uint32_t players, unsigned parity, uint8_t *array)
{
    uint32_t columns = 0;
    for (unsigned column = 0; column < 1u << players; column++)
        if (ones(column) % 2 == parity)
            array[columns++] = (uint8_t)column;
    for (uint32_t left = columns; left > 1; left--) {
        uint32_t other = next_below(left);
        uint8_t last = array[left - 1];
        array[left - 1] = array[other];
        array[other] = last;
    }
}

struct draw draw_dealing(struct board board, uint32_t point)
{
    struct draw draw;
    uint32_t columns = NSG_COLUMNS(board.players), grid_rows = NSG_GRID_ROWS(board.positions, board.width);
    draw.board = board;
    draw.point = point;
    draw.value = lend_drawn(board.value_bytes);
    draw.arrays = lend_filled(0, NSG_ARRAYS_BYTES(board.players, board.positions, board.width));
    for (uint32_t row = 0; row < grid_rows; row++)
        draw_array(board.players, row == point / board.width, draw.arrays.bytes + row * columns);
    memcpy(draw.arrays.before, draw.arrays.bytes, (size_t)draw.arrays.length);
    draw.seeds = lend_drawn(NSG_SEEDS_BYTES(board.players, board.positions, board.width));
    draw.words = lend_drawn(NSG_WORDS_BYTES(board.players, board.width, board.value_bytes));
    return draw;
}

uint32_t deal(const struct draw *draw, struct lent *keys, struct lent *fault)
{
    return nsg_deal(draw->board.players, draw->board.positions, draw->board.width, draw->board.value_bytes, draw->point,
                    draw->value.bytes, draw->value.length, draw->arrays.bytes, draw->arrays.length, draw->seeds.bytes, draw->seeds.length,
                    draw->words.bytes, draw->words.length, keys->bytes, keys->length, (uint32_t *)(void *)fault->bytes);
}

uint32_t draw_card(const struct lent *key, const struct lent *deck, uint32_t card_bytes, struct lent *out)
{
    return nsg_draw_card(key->bytes, key->length, deck->bytes, deck->length, card_bytes, out->bytes, out->length);
}

uint32_t write_page(uint32_t positions, uint32_t value_bytes, const struct lent *table, struct lent *out,
                    struct lent *written)
{
    return nsg_write_page(positions, value_bytes, table->bytes, table->length, out->bytes, out->length,
                          (uint32_t *)(void *)written->bytes);
}

struct tally tally_of(struct board board, uint32_t player)
{
    return (struct tally){board.players, player, board.positions, board.value_bytes};
}

uint32_t tally_make(struct tally tally, struct lent *table)
{
    return nsg_tally_make(tally.players, tally.player, tally.positions, tally.value_bytes, table->bytes, table->length);
}

uint32_t tally_add(struct tally tally, const struct lent *key, struct lent *table)
{
    return nsg_tally_add(tally.players, tally.player, tally.positions, tally.value_bytes, key->bytes, key->length,
                         table->bytes, table->length);
}

uint32_t tally_look_up(struct tally tally, const struct lent *table, uint32_t position, struct lent *out)
{
    return nsg_tally_look_up(tally.players, tally.player, tally.positions, tally.value_bytes, table->bytes,
                             table->length, position, out->bytes, out->length);
}

uint32_t tally_total(struct tally tally, const struct lent *table, struct lent *out)
{
    return nsg_tally_total(tally.players, tally.player, tally.positions, tally.value_bytes, table->bytes,
                           table->length, out->bytes, out->length);
}

void give_back_draw(struct draw *draw)
{
    give_back(&draw->value);
    give_back(&draw->arrays);
    give_back(&draw->seeds);
    give_back(&draw->words);
}

uint32_t key_length(struct board board)
{
    uint32_t length = 0;
    CHECK(nsg_key_length(board.players, board.positions, board.width, board.value_bytes, &length) == NSG_ACCEPTED);
    return length;
}

struct lent key_of(struct board board, const struct lent *keys, uint32_t player)
{
    const uint32_t length = key_length(board);
    return lend(keys->bytes + (uint64_t)player * length, length);
}

struct lent dealt_keys(const struct draw *draw)
{
    struct lent keys = lend_filled(0xEE, (uint64_t)draw->board.players * key_length(draw->board)), fault = lend_fault();
    CHECK(deal(draw, &keys, &fault) == NSG_ACCEPTED);
    CHECK(untouched(&fault));
    memcpy(keys.before, keys.bytes, (size_t)keys.length);
    give_back(&fault);
    return keys;
}
