/* Accepted calls: document 01's printed deal and RFC 8439's key stream byte by byte; dealings of many boards, dealt,
   checked, opened and joined; shares of every width joined; cards drawn from decks of every kind; evenings of many
   hunts in tallies; pages beside what sprintf writes. */
#include "common.h"
#include <stdio.h>
#include <string.h>

enum { SPARE = 5, FILL = 0xC3 };   /* outputs are lent with some bytes more than are written, to see that those stay */

/* Document 01's printed deal, with seeds 0x00 to 0x7F and words 0xF0 to 0xF3: the bytes on the dealing program's stored input. */
static const uint8_t printed_arrays[4] = {0x00, 0x03, 0x01, 0x02};
static const uint8_t printed_words[4] = {0xF0, 0xF1, 0xF2, 0xF3};
static const uint8_t printed_last_word[4] = {0x0C, 0xD2, 0x3A, 0xD3};   /* as the second implementation gives it */

/* A key of the printed deal: player, its mark bytes, and the first byte of the two seeds that it holds (each counts on from there). */
static void printed_key(uint8_t player, const uint8_t marks[2], const uint8_t seeds[2], uint8_t key[79])
{
    const uint8_t header[5] = {2, player, 6, 4, 1};
    memcpy(key, header, 5);
    for (int row = 0; row < 2; row++) {
        uint8_t *part = key + 5 + 33 * row;
        part[0] = marks[row];
        for (int i = 0; i < 32; i++)
            part[1 + i] = (uint8_t)(seeds[row] + i);
    }
    memcpy(key + 71, printed_words, 4);
    memcpy(key + 75, printed_last_word, 4);
}

static void test_printed_deal(void)
{
    static const uint8_t marks[2][2] = {{0x02, 0x01}, {0x02, 0x02}}, held[2][2] = {{0x20, 0x40}, {0x20, 0x60}};
    static const uint8_t joined[6] = {0, 0, 0, 0, 0xA5, 0};
    const uint8_t value = 0xA5;
    uint8_t seeds[128], wanted[158], keys[158 + SPARE], table[6 + SPARE];
    uint32_t fault[NSG_FAULT_NUMBERS] = {77, 78};
    for (int i = 0; i < 128; i++)
        seeds[i] = (uint8_t)i;
    for (uint8_t player = 0; player < 2; player++)
        printed_key(player, marks[player], held[player], wanted + 79 * player);
    memset(keys, FILL, sizeof keys);
    CHECK(nsg_deal(2, 6, 4, 1, 4, &value, 1, printed_arrays, 4, seeds, 128, printed_words, 4, keys, sizeof keys, fault) == NSG_ACCEPTED);
    CHECK(fault[0] == 77 && fault[1] == 78);
    CHECK(memcmp(keys, wanted, 158) == 0);
    CHECK(keys[158] == FILL && keys[158 + SPARE - 1] == FILL);
    memset(table, FILL, sizeof table);
    CHECK(nsg_join_keys(keys, 158, table, sizeof table) == NSG_ACCEPTED);
    CHECK(memcmp(table, joined, 6) == 0);
    CHECK(table[6] == FILL && table[6 + SPARE - 1] == FILL);
    CHECK(nsg_held_seed(keys, 79, 0, 0) == 0);
    CHECK(nsg_held_seed(keys, 79, 0, 1) == 6);
    CHECK(nsg_held_seed(keys, 79, 1, 0) == 39);
    CHECK(nsg_held_seed(keys, 79, 1, 1) == 0);
}

/* A seed's bytes from a start on: those of its row, which is given, and no byte more. */
static void test_stretch(const struct lent *seed, const uint8_t *row, uint64_t start, uint64_t length)
{
    struct lent out = lend_filled(FILL, length);
    CHECK(nsg_expand(seed->bytes, seed->length, start, out.bytes, out.length) == NSG_ACCEPTED);
    CHECK(memcmp(out.bytes, row + start, (size_t)length) == 0);
    give_back(&out);
}

/* RFC 8439, A.1 #1 and #2: the key stream of the seed of zeros, its first two blocks. Then the row's first bytes, bytes
   from every border of two blocks and from beside it, up to the row's end too, and the row in pieces of any length. */
static void test_expand(void)
{
    static const uint8_t stream[128] = {
        0x76, 0xb8, 0xe0, 0xad, 0xa0, 0xf1, 0x3d, 0x90, 0x40, 0x5d, 0x6a, 0xe5, 0x53, 0x86, 0xbd, 0x28, 0xbd, 0xd2, 0x19, 0xb8, 0xa0, 0x8d,
        0xed, 0x1a, 0xa8, 0x36, 0xef, 0xcc, 0x8b, 0x77, 0x0d, 0xc7, 0xda, 0x41, 0x59, 0x7c, 0x51, 0x57, 0x48, 0x8d, 0x77, 0x24, 0xe0, 0x3f,
        0xb8, 0xd8, 0x4a, 0x37, 0x6a, 0x43, 0xb8, 0xf4, 0x15, 0x18, 0xa1, 0x1c, 0xc3, 0x87, 0xb6, 0x69, 0xb2, 0xee, 0x65, 0x86, 0x9f, 0x07,
        0xe7, 0xbe, 0x55, 0x51, 0x38, 0x7a, 0x98, 0xba, 0x97, 0x7c, 0x73, 0x2d, 0x08, 0x0d, 0xcb, 0x0f, 0x29, 0xa0, 0x48, 0xe3, 0x65, 0x69,
        0x12, 0xc6, 0x53, 0x3e, 0x32, 0xee, 0x7a, 0xed, 0x29, 0xb7, 0x21, 0x76, 0x9c, 0xe6, 0x4e, 0x43, 0xd5, 0x71, 0x33, 0xb0, 0x74, 0xd8,
        0x39, 0xd5, 0x31, 0xed, 0x1f, 0x28, 0x51, 0x0a, 0xfb, 0x45, 0xac, 0xe1, 0x0a, 0x1f, 0x4b, 0x79, 0x4d, 0x6f};
    static const uint64_t lengths[] = {0, 1, 2, 16, 63, 64, 65, 127, 128, 129, 255, 256, 257};
    struct lent seed = lend_filled(0, NSG_SEED_BYTES), most = lend_filled(FILL, NSG_MOST_EXPANDED_BYTES);
    CHECK(nsg_expand(seed.bytes, seed.length, 0, most.bytes, most.length) == NSG_ACCEPTED);
    CHECK(memcmp(most.bytes, stream, 128) == 0);
    for (uint64_t length = 0; length <= most.length; length = length < 200 ? length + 1 : length + 487)
        test_stretch(&seed, most.bytes, 0, length);
    for (uint64_t border = 0; border <= most.length; border += 64)
        for (uint64_t start = border - (border > 0); start <= border + 1 && start <= most.length; start++) {
            const uint64_t left = most.length - start;
            test_stretch(&seed, most.bytes, start, left);
            for (unsigned i = 0; i < sizeof lengths / sizeof lengths[0] && lengths[i] <= left; i++)
                test_stretch(&seed, most.bytes, start, lengths[i]);
        }
    for (uint32_t longest = 5; longest < 500; longest *= 3)
        for (uint64_t start = 0, length; start < most.length; start += length) {
            length = 1 + next_below(longest);
            length = length < most.length - start ? length : most.length - start;
            test_stretch(&seed, most.bytes, start, length);
        }
    CHECK(untouched(&seed));
    give_back(&seed);
    give_back(&most);
}

/* Key lengths by document 01's formula, for every width of a board. */
static void test_key_lengths(uint32_t players, uint32_t positions)
{
    const uint32_t columns = NSG_COLUMNS(players), value_bytes = 1 + positions % NSG_MOST_VALUE_BYTES;
    for (uint32_t width = 1; width <= NSG_MOST_WIDTH; width++) {
        uint32_t header = 5 + (positions >= 128) + (positions >= 16384) + (width >= 128), rows = NSG_GRID_ROWS(positions, width);
        uint32_t number = 0, answer = nsg_key_length(players, positions, width, value_bytes, &number);
        CHECK(answer == (rows > NSG_MOST_GRID_ROWS ? NSG_REFUSED_GRID_ROWS : NSG_ACCEPTED));
        CHECK(number == (answer == NSG_ACCEPTED ? header + rows * ((columns + 7) / 8 + 16 * columns) + columns * width * value_bytes : 0));
    }
}

/* The width of the shortest key, by request (vi): all widths at which Key length accepts the board are tried, and the
   first that is shortest is kept. */
static void test_width(uint32_t players, uint32_t positions, uint32_t value_bytes)
{
    uint32_t best = 0, least = UINT32_MAX, length, chosen = 0;
    for (uint32_t width = 1; width <= NSG_MOST_WIDTH; width++)
        if (nsg_key_length(players, positions, width, value_bytes, &length) == NSG_ACCEPTED && length < least) {
            best = width;
            least = length;
        }
    CHECK(nsg_choose_width(players, positions, value_bytes, &chosen) == NSG_ACCEPTED && chosen == best);
}

/* Request (vi)'s widths, three boards at which two widths tie, and all kinds of boards. */
static void test_widths(void)
{
    static const struct {
        uint32_t players, positions, value_bytes, width;
    } given[] = {{2, 64, 1, 32}, {4, 72, 1, 36}, {6, 65536, 1, 256},
                 {4, 892, 1, 112}, {2, 36, 11, 6}, {3, 400, 13, 20}};
    static const uint32_t values[] = {1, 2, 5, 11, 13, 16};
    for (unsigned i = 0; i < sizeof given / sizeof given[0]; i++) {
        uint32_t width = 0;
        CHECK(nsg_choose_width(given[i].players, given[i].positions, given[i].value_bytes, &width) == NSG_ACCEPTED);
        CHECK(width == given[i].width);
    }
    for (uint32_t players = NSG_LEAST_PLAYERS; players <= NSG_MOST_PLAYERS; players++)
        for (unsigned i = 0; i < sizeof values / sizeof values[0]; i++)
            for (uint32_t positions = 1; positions <= NSG_MOST_POSITIONS;
                 positions = positions < 80 ? positions + 1 : positions * 6 / 5)
                test_width(players, positions, values[i]);
}

/* Document 01's lines on lengths and sensors, and what must hold of all of them. */
static void test_numbers(void)
{
    uint32_t number = 0;
    CHECK(nsg_key_length(4, 72, 36, 1, &number) == NSG_ACCEPTED && number == 551);
    CHECK(nsg_key_length(4, 72, 24, 1, &number) == NSG_ACCEPTED && number == 584);
    for (uint32_t players = NSG_LEAST_PLAYERS; players <= NSG_MOST_PLAYERS; players++)
        for (uint32_t positions = 1; positions <= NSG_MOST_POSITIONS; positions = positions < 300 ? positions + 1 : positions * 5 / 4)
            test_key_lengths(players, positions);
    CHECK(nsg_key_length(6, 65536, 256, 16, &number) == NSG_ACCEPTED && number == NSG_MOST_KEY_BYTES);
    CHECK(NSG_MOST_KEYS_BYTES == NSG_MOST_PLAYERS * NSG_MOST_KEY_BYTES);
    CHECK(NSG_MOST_TABLE_BYTES == NSG_TABLE_BYTES(NSG_MOST_POSITIONS, NSG_MOST_VALUE_BYTES));
    CHECK(NSG_MOST_COLUMNS == NSG_COLUMNS(NSG_MOST_PLAYERS));
    CHECK(nsg_sensor_position(8, &number) == NSG_ACCEPTED && number == 15);
    CHECK(nsg_sensor_position(71, &number) == NSG_ACCEPTED && number == 71);
    for (uint32_t sensor = 0; sensor < NSG_SENSORS; sensor++) {
        uint32_t line = sensor / 8, along = sensor % 8;
        CHECK(nsg_sensor_position(sensor, &number) == NSG_ACCEPTED);
        CHECK(number == 8 * line + (line % 2 == 0 ? along : 7 - along));
    }
}

/* A key's numbers, and where its seeds are: those of the columns that the player marks, as they were lent to Deal. */
static void test_key(const struct draw *draw, const struct lent *key, uint32_t player)
{
    const struct board board = draw->board;
    const uint32_t columns = NSG_COLUMNS(board.players), grid_rows = NSG_GRID_ROWS(board.positions, board.width);
    const uint32_t step = grid_rows > 16 ? 37 : 1;
    uint32_t header[NSG_HEADER_NUMBERS + 1] = {0, 0, 0, 0, 0, 77};
    CHECK(nsg_check_key(key->bytes, key->length, header) == NSG_ACCEPTED);
    CHECK(header[0] == board.players && header[1] == player && header[2] == board.positions && header[3] == board.width);
    CHECK(header[4] == board.value_bytes && header[5] == 77);
    for (uint32_t row = 0; row < grid_rows; row += step)
        for (uint32_t column = 0; column < columns; column++) {
            uint32_t place = row * columns + column;
            int marked = draw->arrays.bytes[place] >> player & 1;
            uint64_t held = nsg_held_seed(key->bytes, key->length, row, column);
            CHECK((held != 0) == marked);
            CHECK(held + 32 <= key->length);
            CHECK(!marked || memcmp(key->bytes + held, draw->seeds.bytes + 32 * place, 32) == 0);
        }
    CHECK(nsg_held_seed(key->bytes, key->length, grid_rows, 0) == 0);
    CHECK(nsg_held_seed(key->bytes, key->length, 0, columns) == 0);
    CHECK(nsg_held_seed(key->bytes, key->length, UINT32_MAX, UINT32_MAX) == 0);
    CHECK(nsg_held_seed(key->bytes, key->length - 1, 0, 0) == 0 && nsg_held_seed(key->bytes, key->length - 1, 0, 1) == 0);
    CHECK(untouched(key));
}

/* Shares that join to the bytes wanted, in an output with so many bytes more than are written. */
static void test_joining(uint32_t players, uint32_t width, const struct lent *shares, const uint8_t *wanted,
                         uint32_t spare)
{
    struct lent out = lend_filled(FILL, width + spare);
    CHECK(nsg_join_shares(players, width, shares->bytes, shares->length, out.bytes, out.length) == NSG_ACCEPTED);
    CHECK(memcmp(out.bytes, wanted, width) == 0 && untouched_past(&out, width));
    give_back(&out);
}

/* How far apart the positions are that are looked at by themselves: all of a small board, and some of a large one. */
static uint32_t step_of(uint32_t positions)
{
    return positions > 300 ? positions / 97 : 1;
}

/* One dealing: each key by itself, its table, squares opened alone, the shares joined, and the keys joined. */
static void test_dealing(struct board board, uint32_t point)
{
    struct draw draw = draw_dealing(board, point);
    struct lent keys = dealt_keys(&draw), tables[NSG_MOST_PLAYERS];
    const uint32_t width = board.value_bytes, table = NSG_TABLE_BYTES(board.positions, width);
    const uint32_t step = step_of(board.positions);
    CHECK(untouched(&draw.value) && untouched(&draw.arrays) && untouched(&draw.seeds) && untouched(&draw.words));
    for (uint32_t player = 0; player < board.players; player++) {
        struct lent key = key_of(board, &keys, player);
        test_key(&draw, &key, player);
        tables[player] = lend_filled(FILL, table + SPARE);
        CHECK(nsg_open_all(key.bytes, key.length, tables[player].bytes, tables[player].length) == NSG_ACCEPTED);
        CHECK(untouched_past(&tables[player], table));
        for (uint32_t position = 0; position < board.positions; position += step) {
            struct lent share = lend_filled(FILL, width + position % 2);
            CHECK(nsg_open_one(key.bytes, key.length, position, share.bytes, share.length) == NSG_ACCEPTED);
            CHECK(memcmp(share.bytes, tables[player].bytes + position * width, width) == 0);
            CHECK(untouched_past(&share, width));
            give_back(&share);
        }
        CHECK(untouched(&key));
        give_back(&key);
    }
    struct lent joined = lend_filled(FILL, table + SPARE);
    CHECK(nsg_join_keys(keys.bytes, keys.length, joined.bytes, joined.length) == NSG_ACCEPTED);
    CHECK(untouched(&keys) && untouched_past(&joined, table));
    for (uint32_t position = 0; position < board.positions; position++) {
        static const uint8_t zeros[NSG_MOST_VALUE_BYTES];
        CHECK(memcmp(joined.bytes + position * width, position == point ? draw.value.bytes : zeros, width) == 0);
        if (position % step != 0)
            continue;
        struct lent shares = lend_filled(0, (uint64_t)board.players * width);
        for (uint32_t player = 0; player < board.players; player++)
            memcpy(shares.bytes + player * width, tables[player].bytes + position * width, width);
        test_joining(board.players, width, &shares, joined.bytes + position * width, position % 2);
        give_back(&shares);
    }
    for (uint32_t player = 0; player < board.players; player++)
        give_back(&tables[player]);
    give_back(&joined);
    give_back(&keys);
    give_back_draw(&draw);
}

static int all_zeros(const uint8_t *bytes, uint64_t length)
{
    uint8_t all = 0;
    for (uint64_t i = 0; i < length; i++)
        all |= bytes[i];
    return all == 0;
}

/* Shares of every width that can be joined, by every number of players. */
static void test_join_shares(void)
{
    for (uint32_t players = NSG_LEAST_PLAYERS; players <= NSG_MOST_PLAYERS; players++)
        for (uint32_t width = 1; width <= NSG_MOST_SHARE_BYTES; width++) {
            struct lent shares = lend_drawn(players * width), out = lend_filled(FILL, width + width % 3);
            CHECK(nsg_join_shares(players, width, shares.bytes, shares.length, out.bytes, out.length) == NSG_ACCEPTED);
            CHECK(untouched(&shares) && untouched_past(&out, width));
            for (uint64_t i = 0; i < shares.length; i++)
                out.bytes[i % width] ^= shares.bytes[i];
            CHECK(all_zeros(out.bytes, width));
            give_back(&shares);
            give_back(&out);
        }
}

/* What one player answers: the XOR of the cards at the positions where the key's table has an odd byte. */
static void test_answer(struct board board, const struct lent *key, const struct lent *deck, uint32_t card_bytes,
                        uint8_t *answer)
{
    struct lent table = lend_filled(FILL, board.positions), out = lend_filled(FILL, card_bytes + card_bytes % 3);
    CHECK(draw_card(key, deck, card_bytes, &out) == NSG_ACCEPTED);
    CHECK(untouched(key) && untouched(deck) && untouched_past(&out, card_bytes));
    memcpy(answer, out.bytes, card_bytes);
    CHECK(nsg_open_all(key->bytes, key->length, table.bytes, table.length) == NSG_ACCEPTED);
    for (uint32_t position = 0; position < board.positions; position++)
        for (uint32_t i = 0; table.bytes[position] % 2 == 1 && i < card_bytes; i++)
            out.bytes[i] ^= deck->bytes[position * card_bytes + i];
    CHECK(all_zeros(out.bytes, card_bytes));
    give_back(&table);
    give_back(&out);
}

/* A value hidden at the point, and a card drawn by all players: the point's where the value is odd, else zeros. */
static void test_draw(struct board board, uint32_t point, uint8_t value, const struct lent *deck)
{
    static const uint8_t zeros[NSG_MOST_SHARE_BYTES];
    const uint32_t card_bytes = (uint32_t)(deck->length / board.positions);
    struct draw draw = draw_dealing(board, point);
    draw.value.bytes[0] = value;
    struct lent keys = dealt_keys(&draw), answers = lend_filled(FILL, board.players * card_bytes);
    for (uint32_t player = 0; player < board.players; player++) {
        struct lent key = key_of(board, &keys, player);
        test_answer(board, &key, deck, card_bytes, answers.bytes + player * card_bytes);
        give_back(&key);
    }
    test_joining(board.players, card_bytes, &answers, value % 2 == 1 ? deck->bytes + point * card_bytes : zeros, SPARE);
    give_back(&answers);
    give_back(&keys);
    give_back_draw(&draw);
}

/* One deck: its first and its last card, and any with an odd value and with an even one. */
static void test_deck(struct board board, uint32_t card_bytes)
{
    struct lent deck = lend_drawn(NSG_DECK_BYTES(board.positions, card_bytes));
    test_draw(board, 0, 1, &deck);
    test_draw(board, board.positions - 1, 1, &deck);
    test_draw(board, next_below(board.positions), (uint8_t)(next_number() | 1), &deck);
    test_draw(board, next_below(board.positions), (uint8_t)(next_number() << 1), &deck);
    give_back(&deck);
}

/* Every length of a card, each with an odd value and with an even one; together these are all values. */
static void test_card_lengths(uint32_t players)
{
    for (uint32_t card_bytes = 1; card_bytes <= NSG_MOST_SHARE_BYTES; card_bytes++) {
        struct lent deck = lend_drawn(NSG_DECK_BYTES(3, card_bytes));
        test_draw((struct board){players, 3, 2, 1}, card_bytes % 3, (uint8_t)card_bytes, &deck);
        test_draw((struct board){players, 3, 2, 1}, card_bytes % 3, (uint8_t)(card_bytes ^ 1), &deck);
        give_back(&deck);
    }
}

/* Two players draw from the largest deck there is. */
static void test_largest_deck(void)
{
    const struct board board = {2, NSG_MOST_POSITIONS, NSG_MOST_WIDTH, 1};
    struct lent deck = lend_filled(0, NSG_MOST_DECK_BYTES);
    CHECK(NSG_MOST_DECK_BYTES == NSG_DECK_BYTES(NSG_MOST_POSITIONS, NSG_MOST_SHARE_BYTES));
    for (uint64_t i = 0; i < deck.length; i += 8) {
        const uint64_t number = next_number();
        memcpy(deck.bytes + i, &number, 8);
    }
    memcpy(deck.before, deck.bytes, (size_t)deck.length);
    test_draw(board, NSG_MOST_POSITIONS - 2, 1, &deck);
    give_back(&deck);
}

/* Decks of many shapes: one card, one grid row, grid rows of one card, a last one that is short or whole, and rows of
   about a block's bytes; each with three lengths of cards, and others for each number of players. */
static void test_cards(void)
{
    static const struct board boards[] = {{0, 1, 1, 1}, {0, 1, 256, 1}, {0, 2, 1, 1}, {0, 6, 4, 1}, {0, 8, 4, 1},
                                          {0, 72, 24, 1}, {0, 256, 1, 1}, {0, 130, 63, 1}, {0, 128, 64, 1},
                                          {0, 131, 65, 1}, {0, 257, 256, 1}};
    static const uint32_t lengths[] = {1, 16, 256, 2, 17, 255, 3, 31, 100, 8, 32, 64, 15, 33, 52};
    const unsigned count = sizeof boards / sizeof boards[0];
    for (uint32_t players = NSG_LEAST_PLAYERS; players <= NSG_MOST_PLAYERS; players++) {
        test_card_lengths(players);
        for (unsigned i = 0; i < 3 * count; i++) {
            const struct board board = {players, boards[i / 3].positions, boards[i / 3].width, 1};
            test_deck(board, lengths[(i + 3 * players) % 15]);
        }
    }
    test_largest_deck();
    printf("cards: %u decks for each number of players\n", 3 * count);
}

static void xor_into(uint8_t *sum, const uint8_t *bytes, uint64_t length)
{
    for (uint64_t i = 0; i < length; i++)
        sum[i] ^= bytes[i];
}

/* A new tally, in a table that is full of other bytes: its entries are zeros, and the bytes past them stay. */
static struct lent made_tally(struct tally tally, uint32_t spare)
{
    const uint32_t length = NSG_TABLE_BYTES(tally.positions, tally.value_bytes);
    struct lent table = lend_filled(FILL, length + spare);
    CHECK(tally_make(tally, &table) == NSG_ACCEPTED);
    CHECK(all_zeros(table.bytes, length) && untouched_past(&table, length));
    return table;
}

/* Adds a key to a tally: the key's table is XORed into its entries, and the bytes past them stay. */
static void test_add(struct tally tally, const struct lent *key, struct lent *table)
{
    const uint32_t length = NSG_TABLE_BYTES(tally.positions, tally.value_bytes);
    struct lent wanted = lend_filled(FILL, length);
    CHECK(nsg_open_all(key->bytes, key->length, wanted.bytes, length) == NSG_ACCEPTED);
    xor_into(wanted.bytes, table->bytes, length);
    CHECK(tally_add(tally, key, table) == NSG_ACCEPTED);
    CHECK(memcmp(table->bytes, wanted.bytes, length) == 0 && untouched_past(table, length) && untouched(key));
    give_back(&wanted);
}

/* A tally's entries and its total, of a table of any bytes. */
static void test_entries(struct tally tally, uint32_t spare)
{
    const uint32_t width = tally.value_bytes, length = NSG_TABLE_BYTES(tally.positions, width);
    struct lent table = lend_drawn(length + spare), total = lend_filled(FILL, width + spare);
    for (uint32_t position = 0; position < tally.positions; position += step_of(tally.positions)) {
        struct lent out = lend_filled(FILL, width + position % 2);
        CHECK(tally_look_up(tally, &table, position, &out) == NSG_ACCEPTED);
        CHECK(memcmp(out.bytes, table.bytes + position * width, width) == 0 && untouched_past(&out, width));
        give_back(&out);
    }
    CHECK(tally_total(tally, &table, &total) == NSG_ACCEPTED);
    CHECK(untouched(&table) && untouched_past(&total, width));
    for (uint32_t i = 0; i < length; i++)
        total.bytes[i % width] ^= table.bytes[i];
    CHECK(all_zeros(total.bytes, width));
    give_back(&total);
    give_back(&table);
}

enum { HUNTS = 7 };   /* of an evening: a prime number, so that players may go through them by any step */

/* The hunts of an evening: their boards, what each hid and where, and the keys. */
struct evening {
    uint32_t players, positions, value_bytes;
    struct board boards[HUNTS];
    struct draw draws[HUNTS];
    struct lent keys[HUNTS];
};

/* Hunts on grids of any width. Three hide on one square, the first two of them the same value; the next two on the
   first and on the last square. */
static struct evening play_evening(uint32_t players, uint32_t positions, uint32_t value_bytes)
{
    struct evening evening = {.players = players, .positions = positions, .value_bytes = value_bytes};
    const uint32_t least = NSG_GRID_ROWS(positions, NSG_MOST_GRID_ROWS), square = next_below(positions);
    for (unsigned h = 0; h < HUNTS; h++) {
        const uint32_t width = least + next_below(NSG_MOST_WIDTH + 1 - least);
        const uint32_t point = h < 3 ? square : h == 3 ? 0 : h == 4 ? positions - 1 : next_below(positions);
        evening.boards[h] = (struct board){players, positions, width, value_bytes};
        evening.draws[h] = draw_dealing(evening.boards[h], point);
        if (h == 1)
            memcpy(evening.draws[h].value.bytes, evening.draws[0].value.bytes, value_bytes);
        evening.keys[h] = dealt_keys(&evening.draws[h]);
    }
    return evening;
}

static void give_back_evening(struct evening *evening)
{
    for (unsigned h = 0; h < HUNTS; h++) {
        give_back(&evening->keys[h]);
        give_back_draw(&evening->draws[h]);
    }
}

/* A player adds the own key of one hunt. */
static void add_hunt(const struct evening *evening, unsigned hunt, uint32_t player, struct lent *table)
{
    struct lent key = key_of(evening->boards[hunt], &evening->keys[hunt], player);
    test_add(tally_of(evening->boards[hunt], player), &key, table);
    give_back(&key);
}

/* What all players look up at a position, and their totals, join to what was hidden there and in all. */
static void test_joined(const struct evening *evening, const struct lent *tables, const struct lent *hidden)
{
    const uint32_t width = evening->value_bytes, step = step_of(evening->positions);
    struct lent totals = lend_filled(FILL, (uint64_t)evening->players * width), all = lend_filled(0, width);
    for (uint32_t position = 0; position < evening->positions; position++) {
        const uint8_t *wanted = hidden->bytes + position * width;
        if (position % step != 0 && all_zeros(wanted, width))
            continue;
        struct lent shares = lend_filled(FILL, totals.length);
        for (uint32_t player = 0; player < evening->players; player++) {
            struct lent out = {.bytes = shares.bytes + player * width, .length = width};
            CHECK(tally_look_up(tally_of(evening->boards[0], player), &tables[player], position, &out) == NSG_ACCEPTED);
        }
        test_joining(evening->players, width, &shares, wanted, position % 2);
        xor_into(all.bytes, wanted, width);
        give_back(&shares);
    }
    for (uint32_t player = 0; player < evening->players; player++) {
        struct lent out = {.bytes = totals.bytes + player * width, .length = width};
        CHECK(tally_total(tally_of(evening->boards[0], player), &tables[player], &out) == NSG_ACCEPTED);
    }
    test_joining(evening->players, width, &totals, all.bytes, SPARE);
    give_back(&all);
    give_back(&totals);
}

/* An evening: each player adds the own keys in an order of its own. Then all take one hunt out again, by adding it once
   more. */
static void test_evening(uint32_t players, uint32_t positions, uint32_t value_bytes)
{
    struct evening evening = play_evening(players, positions, value_bytes);
    struct lent tables[NSG_MOST_PLAYERS], hidden = lend_filled(0, NSG_TABLE_BYTES(positions, value_bytes));
    for (unsigned h = 0; h < HUNTS; h++)
        xor_into(hidden.bytes + evening.draws[h].point * value_bytes, evening.draws[h].value.bytes, value_bytes);
    for (uint32_t player = 0; player < players; player++) {
        tables[player] = made_tally(tally_of(evening.boards[0], player), player);
        for (unsigned i = 0; i < HUNTS; i++)
            add_hunt(&evening, (player + i * (player + 1)) % HUNTS, player, &tables[player]);
    }
    test_joined(&evening, tables, &hidden);
    for (uint32_t player = 0; player < players; player++)
        add_hunt(&evening, 2, player, &tables[player]);
    xor_into(hidden.bytes + evening.draws[2].point * value_bytes, evening.draws[2].value.bytes, value_bytes);
    test_joined(&evening, tables, &hidden);
    for (uint32_t player = 0; player < players; player++)
        give_back(&tables[player]);
    give_back_evening(&evening);
    give_back(&hidden);
}

/* A key added twice leaves the tally as it was, whatever was added in between. */
static void test_key_twice(void)
{
    struct evening evening = play_evening(3, 20, 2);
    const struct tally tally = tally_of(evening.boards[0], 1);
    struct lent once = made_tally(tally, SPARE), between = made_tally(tally, SPARE);
    add_hunt(&evening, 0, 1, &between);
    for (unsigned h = 1; h < HUNTS; h++) {
        add_hunt(&evening, h, 1, &once);
        add_hunt(&evening, h, 1, &between);
    }
    CHECK(memcmp(once.bytes, between.bytes, (size_t)once.length) != 0);
    add_hunt(&evening, 0, 1, &between);
    CHECK(memcmp(once.bytes, between.bytes, (size_t)once.length) == 0);
    give_back(&once);
    give_back(&between);
    give_back_evening(&evening);
}

/* Tables of every width, new ones and full ones, for every player; the largest one; and evenings. */
static void test_tallies(void)
{
    static const uint32_t positions[] = {1, 2, 3, 17, 64, 72, 257};
    static const struct { uint32_t players, positions, value_bytes; } evenings[] = {
        {2, 1, 1}, {2, 6, 1}, {2, 65536, 16}, {3, 2, 16}, {3, 100, 5}, {3, 65536, 1}, {4, 72, 1}, {4, 300, 7},
        {5, 72, 2}, {5, 4000, 1}, {6, 3, 1}, {6, 72, 3}, {6, 1000, 16},
    };
    const unsigned count = sizeof evenings / sizeof evenings[0];
    for (uint32_t players = NSG_LEAST_PLAYERS; players <= NSG_MOST_PLAYERS; players++)
        for (uint32_t width = 1; width <= NSG_MOST_VALUE_BYTES; width++)
            for (uint32_t player = 0; player < players; player++)
                for (unsigned i = 0; i < sizeof positions / sizeof positions[0]; i++) {
                    const struct tally tally = {players, player, positions[i], width};
                    struct lent table = made_tally(tally, (player + i) % 3 * width);
                    give_back(&table);
                    test_entries(tally, player % 2 * SPARE);
                }
    for (uint32_t width = 1; width <= NSG_MOST_VALUE_BYTES; width += 15)
        test_entries((struct tally){2, 1, NSG_MOST_POSITIONS, width}, SPARE);
    for (unsigned i = 0; i < count; i++)
        test_evening(evenings[i].players, evenings[i].positions, evenings[i].value_bytes);
    test_key_twice();
    printf("tallies: %u evenings of %u hunts\n", count, (unsigned)HUNTS);
}

/* A table's page as sprintf writes it. */
static struct lent printed_page(uint32_t positions, uint32_t width, const uint8_t *entries)
{
    struct lent page = lend_filled(FILL, NSG_PAGE_BYTES(positions, width) + 1);   /* sprintf ends with a zero byte */
    char *at = (char *)page.bytes;
    for (uint32_t line = 0; line < positions; line += 8) {
        at += sprintf(at, "%5u", (unsigned)line);
        for (uint32_t position = line; position < line + 8; position++) {
            at += sprintf(at, "%*s", position < positions ? 1 : 2 * (int)width + 1, "");
            for (uint32_t i = 0; position < positions && i < width; i++)
                at += sprintf(at, "%02X", (unsigned)*entries++);
        }
        at += sprintf(at, "\n");
    }
    page.length--;
    CHECK((uint8_t *)at == page.bytes + page.length);
    return page;
}

static unsigned digit_at(const uint8_t *at)
{
    return *at <= '9' ? *at - (unsigned)'0' : *at - (unsigned)'A' + 10;
}

/* Reads the entry of a position off a page, by its line and column alone. */
static void read_entry(const uint8_t *page, uint32_t position, uint32_t width, uint8_t *entry)
{
    const uint8_t *at = page + position / 8 * (6 + 8 * (2 * width + 1)) + 6 + position % 8 * (2 * width + 1);
    CHECK(at == page + NSG_PAGE_PLACE(position, width));
    for (uint32_t i = 0; i < width; i++, at += 2)
        entry[i] = (uint8_t)(16 * digit_at(at) + digit_at(at + 1));
}

/* One table's page: the bytes that sprintf writes and no byte more, their number, and every entry read back. */
static void test_page_of(uint32_t positions, uint32_t width, const struct lent *table, uint32_t spare)
{
    struct lent wanted = printed_page(positions, width, table->bytes), read = lend_filled(0, table->length);
    struct lent out = lend_filled(FILL, wanted.length + spare), written = lend_number();
    CHECK(write_page(positions, width, table, &out, &written) == NSG_ACCEPTED);
    CHECK(told(&written) == wanted.length);
    CHECK(memcmp(out.bytes, wanted.bytes, (size_t)wanted.length) == 0);
    CHECK(untouched(table) && untouched_past(&out, wanted.length));
    for (uint32_t position = 0; position < positions; position++)
        read_entry(out.bytes, position, width, read.bytes + position * width);
    CHECK(memcmp(read.bytes, table->bytes, (size_t)table->length) == 0);
    give_back(&written);
    give_back(&out);
    give_back(&read);
    give_back(&wanted);
}

static void test_page(uint32_t positions, uint32_t width)
{
    struct lent table = lend_drawn(NSG_TABLE_BYTES(positions, width));
    test_page_of(positions, width, &table, positions % 3);
    give_back(&table);
}

/* Ten squares, two of them in the last line, letter by letter. */
static void test_printed_page(void)
{
    static const char page[] = "    0 00 01 02 03 04 05 06 07\n    8 08 09                  \n";
    static const uint8_t counted[10] = {0, 1, 2, 3, 4, 5, 6, 7, 8, 9};
    struct lent table = lend(counted, 10), out = lend_filled(FILL, 60), written = lend_number();
    CHECK(write_page(10, 1, &table, &out, &written) == NSG_ACCEPTED);
    CHECK(told(&written) == 60 && memcmp(out.bytes, page, 60) == 0);
    give_back(&written);
    give_back(&out);
    give_back(&table);
}

/* Every width with last lines of every length; every byte; first positions of one to five places; the largest page. */
static void test_pages(void)
{
    static const uint32_t others[] = {96, 97, 104, 105, 999, 1000, 1001, 9992, 9993, 10000, 65527, 65528, 65529, 65535};
    struct lent bytes = lend_filled(0, 256);
    CHECK(NSG_PAGE_LINE_BYTES(1) == 30 && NSG_PAGE_BYTES(NSG_SENSORS, 1) == 9 * 30);
    CHECK(NSG_MOST_PAGE_BYTES == NSG_PAGE_BYTES(NSG_MOST_POSITIONS, NSG_MOST_VALUE_BYTES));
    test_printed_page();
    for (unsigned i = 0; i < 256; i++)
        bytes.bytes[i] = bytes.before[i] = (uint8_t)i;
    for (uint32_t width = 1; width <= NSG_MOST_VALUE_BYTES; width++) {
        for (uint32_t positions = 1; positions <= 33; positions++)
            test_page(positions, width);
        test_page(NSG_SENSORS, width);
        if (256 % width == 0)
            test_page_of(256 / width, width, &bytes, 0);
    }
    for (unsigned i = 0; i < sizeof others / sizeof others[0]; i++)
        test_page(others[i], 1 + i % 3);
    test_page(NSG_MOST_POSITIONS, 1);
    test_page(NSG_MOST_POSITIONS, NSG_MOST_VALUE_BYTES);
    give_back(&bytes);
    printf("pages: of every width, up to %u bytes\n", NSG_MOST_PAGE_BYTES);
}

void test_operations(void)
{
    static const struct board boards[] = {{2, 6, 4, 1}, {2, 1, 1, 1}, {2, 1, 256, 16}, {2, 64, 12, 1}, {3, 100, 17, 16}, {3, 130, 128, 5},
                                          {4, 72, 24, 1}, {4, 256, 1, 16}, {5, 300, 34, 3}, {6, 72, 48, 2}, {6, 4000, 255, 1},
                                          {2, 65536, 256, 16}, {6, 65536, 256, 1},
                                          /* cells in two blocks of a row */
                                          {2, 300, 256, 15}, {4, 60, 27, 12}, {6, 30, 19, 7}};
    test_printed_deal();
    test_expand();
    test_widths();
    test_numbers();
    for (unsigned i = 0; i < sizeof boards / sizeof boards[0]; i++) {
        test_dealing(boards[i], 0);
        test_dealing(boards[i], boards[i].positions - 1);
        test_dealing(boards[i], next_below(boards[i].positions));
    }
    test_join_shares();
    test_cards();
    test_tallies();
    test_pages();
    printf("operations: %u boards\n", (unsigned)(sizeof boards / sizeof boards[0]));
}
