/* What branches and addresses can tell of a secret. Bytes are marked as undefined, and valgrind's memcheck reports every branch and every
   address that depends on them; not a conditional move, nor an instruction whose own time depends on what it works on, nor a read whose
   result is never used. Without memcheck the test fails.

     secrets           What is secret is marked, and no call may cause a report, accepted or refused:
                         nsg_deal              the value, the seeds and the words
                         nsg_check_key, nsg_held_seed, nsg_open_one, nsg_open_all, nsg_join_keys
                                               of a key all but the header and the marks: the seeds and the words
                         nsg_draw_card         the same of the key, and the deck
                         nsg_join_shares       the shares
                         nsg_tally_add         of the key all but the header and the marks, and the table
                         nsg_tally_make, nsg_tally_look_up, nsg_tally_total
                                               the table
                         nsg_write_page        the table, where the call is refused
                         nsg_expand            the seed
                       What the calls write shows that something was marked: it must be undefined bit for bit where it is secret and
                       defined elsewhere, and be the bytes that the same call writes where nothing is marked.
     secrets depends   What is not kept: one thing is marked on which a call does depend, and the call must cause a report. Reports are wanted
                       here, so the status is that of the checks alone. */
#include "common.h"
#include <stdio.h>
#include <string.h>
#include <valgrind/memcheck.h>

enum { FILL = 0x3C, DEFINED = 0x00, UNDEFINED = 0xFF };   /* the last two are memcheck's bits of a byte */

static uint8_t undefined[1 << 17];   /* the bits of as many undefined bytes */

static void hide(const void *bytes, uint64_t length) { (void)VALGRIND_MAKE_MEM_UNDEFINED(bytes, length); }
static void show(const void *bytes, uint64_t length) { (void)VALGRIND_MAKE_MEM_DEFINED(bytes, length); }

/* How many reports there were since this was last asked. */
static unsigned new_reports(void)
{
    static unsigned before;
    const unsigned all = VALGRIND_COUNT_ERRORS, since = all - before;
    before = all;
    return since;
}

/* Whether an answer is the one wanted, and neither the call nor the answer caused a report. */
static int quietly(uint64_t answer, uint64_t wanted) { return answer == wanted && new_reports() == 0; }

/* Whether a call caused a report. */
static int reported(uint64_t answer)
{
    (void)answer;
    return new_reports() != 0;
}

/* Whether memcheck's bits of the bytes are these, and the bytes, in a copy that is marked as defined, those wanted. */
static int secret(const uint8_t *bytes, uint64_t length, const uint8_t *bits, const uint8_t *wanted)
{
    struct lent found = lend_filled(DEFINED, length), copy = lend(bytes, length);
    int good = VALGRIND_GET_VBITS(bytes, found.bytes, length) == 1 && memcmp(found.bytes, bits, (size_t)length) == 0;
    show(copy.bytes, length);
    good &= memcmp(copy.bytes, wanted, (size_t)length) == 0;
    give_back(&found);
    give_back(&copy);
    return good;
}

/* Memcheck's bits for a key: those of its header, of its marks, and of its seeds and words. */
static struct lent key_bits(struct board board, uint8_t header, uint8_t marks, uint8_t rest)
{
    const uint32_t columns = NSG_COLUMNS(board.players), grid_rows = NSG_GRID_ROWS(board.positions, board.width);
    const uint32_t mark_bytes = (columns + 7) / 8, seeds_bytes = columns / 2 * NSG_SEED_BYTES;
    struct lent bits = lend_filled(rest, key_length(board));
    uint8_t *at = bits.bytes + bits.length - columns * board.width * board.value_bytes - grid_rows * (mark_bytes + seeds_bytes);
    memset(bits.bytes, header, (size_t)(at - bits.bytes));
    for (uint32_t row = 0; row < grid_rows; row++, at += mark_bytes + seeds_bytes)
        memset(at, marks, mark_bytes);
    return bits;
}

/* The positions that are opened alone: all of a small board, of a large one every 29th and the last. */
static uint32_t next_position(uint32_t positions, uint32_t position)
{
    const uint32_t next = position + (positions <= 64 ? 1 : 29);
    if (next < positions)
        return next;
    return position + 1 < positions ? positions - 1 : positions;
}

/* ---- what must cause no report */

/* Shares of more bytes than a value has, as answers for cards are. */
static void test_wide_shares(void)
{
    static const uint32_t widths[] = {17, 63, 64, 100, 255, 256};
    for (uint32_t players = NSG_LEAST_PLAYERS; players <= NSG_MOST_PLAYERS; players++)
        for (unsigned i = 0; i < sizeof widths / sizeof widths[0]; i++) {
            const uint32_t width = widths[i];
            struct lent shares = lend_drawn(players * width), out = lend_filled(FILL, width);
            struct lent wanted = lend_filled(0, width);
            for (uint64_t j = 0; j < shares.length; j++)
                wanted.bytes[j % width] ^= shares.bytes[j];
            hide(shares.bytes, shares.length);
            CHECK(quietly(nsg_join_shares(players, width, shares.bytes, shares.length, out.bytes, width), 0));
            CHECK(secret(out.bytes, out.length, undefined, wanted.bytes));
            give_back(&shares);
            give_back(&out);
            give_back(&wanted);
        }
}

static void test_expand(void)
{
    static const uint64_t lengths[] = {0, 1, 63, 64, 65, 256, 257, 320, 321, 384, 385, 640, 4095, 4096};
    static const uint64_t starts[] = {0, 1, 60, 63, 64, 65, 128, 255, 256, 3456, 4032, 4095, 4096};
    struct lent seed = lend_filled(0x81, NSG_SEED_BYTES), wanted = lend_filled(FILL, NSG_MOST_EXPANDED_BYTES);
    CHECK(nsg_expand(seed.bytes, seed.length, 0, wanted.bytes, wanted.length) == NSG_ACCEPTED);
    hide(seed.bytes, seed.length);
    for (unsigned i = 0; i < sizeof starts / sizeof starts[0]; i++)
        for (unsigned j = 0; j < sizeof lengths / sizeof lengths[0] && lengths[j] <= wanted.length - starts[i]; j++) {
            struct lent out = lend_filled(FILL, lengths[j]);
            CHECK(quietly(nsg_expand(seed.bytes, seed.length, starts[i], out.bytes, out.length), NSG_ACCEPTED));
            CHECK(secret(out.bytes, out.length, undefined, wanted.bytes + starts[i]));
            give_back(&out);
        }
    CHECK(quietly(nsg_expand(seed.bytes, seed.length - 1, 0, wanted.bytes, wanted.length), NSG_REFUSED_LENT));
    CHECK(quietly(nsg_expand(seed.bytes, seed.length, 1, wanted.bytes, wanted.length), NSG_REFUSED_EXPANSION));
    CHECK(quietly(nsg_expand(seed.bytes, seed.length, UINT64_MAX, wanted.bytes, wanted.length), NSG_REFUSED_EXPANSION));
    give_back(&seed);
    give_back(&wanted);
}

/* A table that is refused for its length or for the room is not looked at; one that is written is (test_page_depends). */
static void test_page(uint32_t positions, uint32_t width)
{
    struct lent table = lend_drawn(NSG_TABLE_BYTES(positions, width)), written = lend_number();
    struct lent out = lend_filled(FILL, NSG_PAGE_BYTES(positions, width));
    hide(table.bytes, table.length);
    out.length--;
    CHECK(quietly(write_page(positions, width, &table, &out, &written), NSG_REFUSED_ROOM));
    table.length--;
    CHECK(quietly(write_page(positions, width, &table, &out, &written), NSG_REFUSED_LENT));
    CHECK(quietly(untouched(&out) && untouched(&written), 1));
    give_back(&out);
    give_back(&written);
    give_back(&table);
}

static void test_pages(void)
{
    static const uint32_t positions[] = {1, 7, 8, 9, 16, 72, 520};
    for (unsigned i = 0; i < sizeof positions / sizeof positions[0]; i++)
        for (uint32_t width = 1; width <= NSG_MOST_VALUE_BYTES; width++)
            test_page(positions[i], width);
}

/* What a key answers for a card. All players hold the deck, yet it is marked too: nothing has to depend on it. Keys
   with more value bytes than one are refused. `known` has the key's bytes, defined. */
static void test_answer(struct board board, const struct lent *key, const uint8_t *known, uint32_t card_bytes)
{
    struct lent deck = lend_drawn(NSG_DECK_BYTES(board.positions, card_bytes)), out = lend_filled(FILL, card_bytes);
    struct lent wanted = lend_filled(FILL, card_bytes), own = lend(known, key->length);
    const uint32_t first = board.value_bytes == 1 ? NSG_ACCEPTED : NSG_REFUSED_CARD_KEY;
    CHECK(draw_card(&own, &deck, card_bytes, &wanted) == first);
    hide(deck.bytes, deck.length);
    CHECK(quietly(draw_card(key, &deck, card_bytes, &out), first));
    if (first == NSG_ACCEPTED)
        CHECK(secret(out.bytes, out.length, undefined, wanted.bytes));
    out.length--;
    CHECK(quietly(draw_card(key, &deck, card_bytes, &out), first == NSG_ACCEPTED ? NSG_REFUSED_ROOM : first));
    deck.length--;
    CHECK(quietly(draw_card(key, &deck, card_bytes, &out), first == NSG_ACCEPTED ? NSG_REFUSED_DECK : first));
    give_back(&own);
    give_back(&wanted);
    give_back(&out);
    give_back(&deck);
}

/* Cards of several lengths, fewer from a large deck. */
static void test_answers(struct board board, const struct lent *key, const uint8_t *known)
{
    static const uint32_t lengths[] = {1, 16, 256, 2, 15, 17, 33, 64, 255};
    const unsigned count = board.positions > 64 ? 3 : sizeof lengths / sizeof lengths[0];
    for (unsigned i = 0; i < (board.value_bytes == 1 ? count : 1); i++)
        test_answer(board, key, known, lengths[i]);
}

/* Entries looked up and the total of a tally whose table is marked, and is this one. */
static void test_entries(struct tally tally, const struct lent *table, const struct lent *wanted)
{
    const uint32_t positions = tally.positions, width = tally.value_bytes;
    struct lent out = lend_filled(FILL, width), total = lend_filled(0, width);
    for (uint32_t position = 0; position < positions; position = next_position(positions, position)) {
        CHECK(quietly(tally_look_up(tally, table, position, &out), NSG_ACCEPTED));
        CHECK(secret(out.bytes, width, undefined, wanted->bytes + position * width));
    }
    for (uint64_t i = 0; i < wanted->length; i++)
        total.bytes[i % width] ^= wanted->bytes[i];
    CHECK(quietly(tally_total(tally, table, &out), NSG_ACCEPTED));
    CHECK(secret(out.bytes, width, undefined, total.bytes));
    CHECK(quietly(tally_look_up(tally, table, positions, &out), NSG_REFUSED_POSITION));
    out.length--;
    CHECK(quietly(tally_look_up(tally, table, 0, &out), NSG_REFUSED_ROOM));
    CHECK(quietly(tally_total(tally, table, &out), NSG_REFUSED_ROOM));
    give_back(&total);
    give_back(&out);
}

/* A key added to a tally that is marked, as one of earlier hunts is; then to a new one, made in that table. `opened` is
   the key's table, defined. */
static void test_tally(struct tally tally, const struct lent *key, const struct lent *opened)
{
    const struct tally other = {tally.players, (tally.player + 1) % tally.players, tally.positions, tally.value_bytes};
    struct lent table = lend_drawn(opened->length), wanted = lend(table.bytes, table.length);
    struct lent zeros = lend_filled(DEFINED, table.length);
    for (uint64_t i = 0; i < wanted.length; i++)
        wanted.bytes[i] ^= opened->bytes[i];
    hide(table.bytes, table.length);
    CHECK(quietly(tally_add(other, key, &table), NSG_REFUSED_TALLY));
    CHECK(quietly(tally_add(tally, key, &table), NSG_ACCEPTED));
    CHECK(secret(table.bytes, table.length, undefined, wanted.bytes));
    test_entries(tally, &table, &wanted);
    CHECK(quietly(tally_make(tally, &table), NSG_ACCEPTED));
    CHECK(secret(table.bytes, table.length, zeros.bytes, zeros.bytes));
    CHECK(quietly(tally_add(tally, key, &table), NSG_ACCEPTED));
    CHECK(secret(table.bytes, table.length, undefined, opened->bytes));
    table.length--;
    CHECK(quietly(tally_make(tally, &table), NSG_REFUSED_ROOM));
    CHECK(quietly(tally_add(tally, key, &table), NSG_REFUSED_ROOM));
    CHECK(quietly(tally_look_up(tally, &table, 0, &zeros), NSG_REFUSED_ROOM));
    CHECK(quietly(tally_total(tally, &table, &zeros), NSG_REFUSED_ROOM));
    give_back(&zeros);
    give_back(&wanted);
    give_back(&table);
}

/* One key: what is read of it, where its seeds are, its table, squares opened alone, and a tally that it is added to.
   `known` has the same bytes, defined. */
static void test_key(struct board board, const struct lent *key, const uint8_t *known, struct lent *table)
{
    const uint32_t columns = NSG_COLUMNS(board.players), grid_rows = NSG_GRID_ROWS(board.positions, board.width);
    uint32_t header[NSG_HEADER_NUMBERS], known_header[NSG_HEADER_NUMBERS];
    struct lent wanted = lend_filled(FILL, table->length);
    CHECK(nsg_check_key(known, key->length, known_header) == NSG_ACCEPTED);
    CHECK(nsg_open_all(known, key->length, wanted.bytes, wanted.length) == NSG_ACCEPTED);

    CHECK(quietly(nsg_check_key(key->bytes, key->length, header), NSG_ACCEPTED));
    CHECK(memcmp(header, known_header, sizeof header) == 0 && new_reports() == 0);
    for (uint32_t row = 0; row < grid_rows; row++)
        for (uint32_t column = 0; column < columns; column++)
            CHECK(quietly(nsg_held_seed(key->bytes, key->length, row, column), nsg_held_seed(known, key->length, row, column)));
    CHECK(quietly(nsg_open_all(key->bytes, key->length, table->bytes, table->length), NSG_ACCEPTED));
    CHECK(secret(table->bytes, table->length, undefined, wanted.bytes));
    for (uint32_t position = 0; position < board.positions; position = next_position(board.positions, position)) {
        struct lent share = lend_filled(FILL, board.value_bytes);
        CHECK(quietly(nsg_open_one(key->bytes, key->length, position, share.bytes, share.length), NSG_ACCEPTED));
        CHECK(secret(share.bytes, share.length, undefined, wanted.bytes + position * board.value_bytes));
        give_back(&share);
    }
    test_answers(board, key, known);
    test_tally(tally_of(board, known_header[1]), key, &wanted);
    CHECK(quietly(nsg_open_one(key->bytes, key->length, board.positions, table->bytes, table->length), NSG_REFUSED_POSITION));
    CHECK(quietly(nsg_open_all(key->bytes, key->length, table->bytes, table->length - 1), NSG_REFUSED_ROOM));
    CHECK(quietly(nsg_open_all(key->bytes, key->length - 1, table->bytes, table->length), NSG_REFUSED_LENGTH));
    give_back(&wanted);
}

/* Deals that are refused for a column: the first of the first grid row or the last of the last, spoiled in each way. `keys` have no room. */
static void test_columns(struct draw *draw, struct lent *keys)
{
    const uint32_t columns = NSG_COLUMNS(draw->board.players), last_row = NSG_GRID_ROWS(draw->board.positions, draw->board.width) - 1;
    uint8_t *const first = draw->arrays.bytes, *const last = first + draw->arrays.length - 1, right[2] = {*first, *last};
    struct lent fault = lend_fault();
    *last = last[-1];
    CHECK(quietly(deal(draw, keys, &fault), NSG_REFUSED_COLUMN_TWICE));
    CHECK(quietly(tells(&fault, last_row, columns - 1), 1));
    *first = right[0] | 0x80;
    CHECK(quietly(deal(draw, keys, &fault), NSG_REFUSED_COLUMN_BIT));
    CHECK(quietly(tells(&fault, 0, 0), 1));
    *first = right[0];
    *last = right[1] ^ 1;
    CHECK(quietly(deal(draw, keys, &fault), NSG_REFUSED_COLUMN_PARITY));
    CHECK(quietly(tells(&fault, last_row, columns - 1), 1));
    *last = right[1];
    give_back(&fault);
}

/* One dealing with its secrets marked, through every call that takes something of it. */
static void test_dealing(struct board board, uint32_t point)
{
    const uint32_t length = key_length(board), width = board.value_bytes;
    struct draw draw = draw_dealing(board, point);
    struct lent known = dealt_keys(&draw), keys = lend_filled(FILL, known.length), bits = key_bits(board, DEFINED, DEFINED, UNDEFINED);
    struct lent joined = lend_filled(0, NSG_TABLE_BYTES(board.positions, width)), table = lend_filled(FILL, joined.length), tables[NSG_MOST_PLAYERS];
    struct lent fault = lend_fault();
    memcpy(joined.bytes + point * width, draw.value.bytes, width);
    hide(draw.value.bytes, draw.value.length);
    hide(draw.seeds.bytes, draw.seeds.length);
    hide(draw.words.bytes, draw.words.length);

    CHECK(quietly(deal(&draw, &keys, &fault), NSG_ACCEPTED));
    CHECK(secret(draw.value.bytes, draw.value.length, undefined, draw.value.before));
    CHECK(secret(draw.seeds.bytes, draw.seeds.length, undefined, draw.seeds.before));
    CHECK(secret(draw.words.bytes, draw.words.length, undefined, draw.words.before));
    for (uint32_t player = 0; player < board.players; player++) {
        struct lent key = lend(keys.bytes + player * length, length);
        CHECK(secret(key.bytes, length, bits.bytes, known.bytes + player * length));
        tables[player] = lend_filled(FILL, joined.length);
        test_key(board, &key, known.bytes + player * length, &tables[player]);
        give_back(&key);
    }
    for (uint32_t position = 0; position < board.positions; position = next_position(board.positions, position)) {
        struct lent shares = lend_filled(FILL, (uint64_t)board.players * width), out = lend_filled(FILL, width);
        for (uint32_t player = 0; player < board.players; player++)
            memcpy(shares.bytes + player * width, tables[player].bytes + position * width, width);
        CHECK(quietly(nsg_join_shares(board.players, width, shares.bytes, shares.length, out.bytes, out.length), NSG_ACCEPTED));
        CHECK(secret(out.bytes, width, undefined, joined.bytes + position * width));
        give_back(&shares);
        give_back(&out);
    }
    CHECK(quietly(nsg_join_keys(keys.bytes, keys.length, table.bytes, table.length), NSG_ACCEPTED));
    CHECK(secret(table.bytes, table.length, undefined, joined.bytes));

    CHECK(quietly(nsg_join_keys(keys.bytes, keys.length, table.bytes, table.length - 1), NSG_REFUSED_ROOM));
    keys.length--;
    CHECK(quietly(nsg_join_keys(keys.bytes, keys.length, table.bytes, table.length), NSG_REFUSED_LENGTH));
    CHECK(quietly(deal(&draw, &keys, &fault), NSG_REFUSED_ROOM));
    CHECK(quietly(untouched(&fault), 1));
    test_columns(&draw, &keys);
    for (uint32_t player = 0; player < board.players; player++)
        give_back(&tables[player]);
    give_back(&fault);
    give_back(&table);
    give_back(&joined);
    give_back(&bits);
    give_back(&keys);
    give_back(&known);
    give_back_draw(&draw);
}

/* ---- what must cause a report */

/* The bytes of one key that have undefined bits here are marked, in every call that takes it. */
static void test_key_depends(struct board board, const struct lent *known, struct lent bits)
{
    const uint32_t length = key_length(board);
    struct lent keys = lend(known->bytes, known->length), table = lend_filled(FILL, NSG_TABLE_BYTES(board.positions, board.value_bytes));
    uint32_t header[NSG_HEADER_NUMBERS];
    CHECK(VALGRIND_SET_VBITS(keys.bytes, bits.bytes, length) == 1);
    CHECK(reported(nsg_check_key(keys.bytes, length, header)));
    CHECK(reported(nsg_held_seed(keys.bytes, length, 0, 0)));
    CHECK(reported(nsg_open_one(keys.bytes, length, 0, table.bytes, table.length)));
    CHECK(reported(nsg_open_all(keys.bytes, length, table.bytes, table.length)));
    CHECK(reported(nsg_draw_card(keys.bytes, length, known->bytes, board.positions, 1, table.bytes, table.length)));
    CHECK(reported(nsg_join_keys(keys.bytes, keys.length, table.bytes, table.length)));
    keys.length = length;   /* player 0's alone */
    CHECK(reported(tally_add(tally_of(board, 0), &keys, &table)));
    give_back(&table);
    give_back(&keys);
    give_back(&bits);
}

/* The arrays of a dealing are marked, and then its point; with neither the answer is the one wanted. */
static void test_deal_depends(struct draw *draw, struct lent *keys, struct lent *fault, uint32_t wanted)
{
    hide(draw->arrays.bytes, draw->arrays.length);
    CHECK(reported(deal(draw, keys, fault)));
    show(draw->arrays.bytes, draw->arrays.length);
    hide(&draw->point, sizeof draw->point);
    CHECK(reported(deal(draw, keys, fault)));
    show(&draw->point, sizeof draw->point);
    show(fault->bytes, fault->length);
    CHECK(quietly(deal(draw, keys, fault), wanted));
}

/* The table of a page is marked, of which the page shows every digit. */
static void test_page_depends(struct board board)
{
    struct lent table = lend_drawn(NSG_TABLE_BYTES(board.positions, board.value_bytes)), written = lend_number();
    struct lent out = lend_filled(FILL, NSG_PAGE_BYTES(board.positions, board.value_bytes));
    hide(table.bytes, table.length);
    CHECK(reported(write_page(board.positions, board.value_bytes, &table, &out, &written)));
    CHECK(quietly(told(&written), out.length));
    give_back(&out);
    give_back(&written);
    give_back(&table);
}

static void test_depends(struct board board, uint32_t point)
{
    struct draw draw = draw_dealing(board, point);
    struct lent known = dealt_keys(&draw), keys = lend(known.bytes, known.length), share = lend_filled(FILL, board.value_bytes), fault = lend_fault();
    struct lent table = lend_drawn(NSG_TABLE_BYTES(board.positions, board.value_bytes));
    const uint32_t length = key_length(board);
    uint32_t number = 0;
    uint8_t *const last = draw.arrays.bytes + draw.arrays.length - 1, right = *last;
    *last = last[-1];   /* refused for this column, and then accepted */
    test_deal_depends(&draw, &keys, &fault, NSG_REFUSED_COLUMN_TWICE);
    *last = right;
    test_deal_depends(&draw, &keys, &fault, NSG_ACCEPTED);
    test_key_depends(board, &known, key_bits(board, UNDEFINED, DEFINED, DEFINED));
    test_key_depends(board, &known, key_bits(board, DEFINED, UNDEFINED, DEFINED));
    hide(&number, sizeof number);   /* still 0: a position, a grid row, a column */
    CHECK(reported(nsg_open_one(known.bytes, length, number, share.bytes, share.length)));
    CHECK(reported(nsg_held_seed(known.bytes, length, number, 0)));
    CHECK(reported(nsg_held_seed(known.bytes, length, 0, number)));
    CHECK(reported(tally_look_up(tally_of(board, 0), &table, number, &share)));
    test_page_depends(board);
    give_back(&table);
    give_back(&fault);
    give_back(&share);
    give_back(&keys);
    give_back(&known);
    give_back_draw(&draw);
}

int main(int count, char **words)
{
    /* Positions, width and value bytes, for every number of players. Rows of less than a block, of one, of two, of four
       and of more, whole and cut, and the longest; three grid rows each, the last one short. Cards are drawn on those
       with values of one byte. */
    static const struct board boards[] = {{0, 11, 4, 1}, {0, 28, 12, 5}, {0, 10, 4, 16}, {0, 40, 17, 5}, {0, 41, 20, 16},
                                          {0, 150, 72, 5}, {0, 200, 90, 5}, {0, 130, 64, 1}, {0, 520, 255, 1},
                                          {0, 520, 256, 1}, {0, 520, 256, 16}};
    const int depends = count == 2 && strcmp(words[1], "depends") == 0;
    unsigned dealings = 0;
    if (!RUNNING_ON_VALGRIND) {
        printf("secrets: valgrind is not there, so nothing is seen\n");
        return 1;
    }
    memset(undefined, UNDEFINED, sizeof undefined);
    for (uint32_t players = NSG_LEAST_PLAYERS; players <= NSG_MOST_PLAYERS; players++)
        for (unsigned i = 0; i < sizeof boards / sizeof boards[0]; i++) {
            const struct board board = {players, boards[i].positions, boards[i].width, boards[i].value_bytes};
            const uint32_t points[3] = {0, board.width + board.width / 2, board.positions - 1};   /* in each grid row */
            for (unsigned j = 0; j < 3 && checks_failed == 0; j++, dealings++)
                (depends ? test_depends : test_dealing)(board, points[j]);
        }
    if (!depends) {
        test_expand();
        test_wide_shares();
        test_pages();
    }
    printf("secrets%s: %u dealings; %lu checks, %lu failed\n", depends ? " depends" : "", dealings, checks_made, checks_failed);
    return checks_failed != 0;
}
