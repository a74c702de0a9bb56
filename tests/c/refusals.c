/* Every refusal of every function: the number, every lent byte as it was, and the first number where several fit. Of Deal's bad columns the place
   too, which is the one thing that a refused call writes. Each function's numbers are listed, and one that was never met fails. */
#include "common.h"
#include <stdio.h>
#include <string.h>

enum function { KEY_LENGTH, DEAL, CHECK_KEY, OPEN_ONE, OPEN_ALL, DRAW_CARD, JOIN_SHARES, JOIN_KEYS, TALLY_MAKE,
                TALLY_ADD, TALLY_LOOK_UP, TALLY_TOTAL, WRITE_PAGE, EXPAND, CHOOSE_WIDTH, SENSOR_POSITION, FUNCTIONS };
enum { NUMBERS = 24, FILL = 0x5C };

static const char *const names[FUNCTIONS] = {"nsg_key_length", "nsg_deal", "nsg_check_key", "nsg_open_one", "nsg_open_all",
                                             "nsg_draw_card", "nsg_join_shares", "nsg_join_keys", "nsg_tally_make",
                                             "nsg_tally_add", "nsg_tally_look_up", "nsg_tally_total", "nsg_write_page",
                                             "nsg_expand", "nsg_choose_width", "nsg_sensor_position"};

/* Document 01, request (i) for Deal, (iii) for Draw card, (iv) for Write page, (vi) for Choose width and (vii) for the
   tally: which numbers each operation gives. A row ends with 0. */
static const uint8_t given[FUNCTIONS][NUMBERS] = {
    {1, 2, 3, 4, 5},
    {1, 2, 3, 4, 5, 6, 7, 9, 18, 19, 20},
    {1, 2, 3, 4, 5, 10, 11, 12, 13},
    {1, 2, 3, 4, 5, 9, 10, 11, 12, 13, 14},
    {1, 2, 3, 4, 5, 9, 10, 11, 12, 13},
    {1, 2, 3, 4, 5, 9, 10, 11, 12, 13, 21, 22},
    {1, 4, 7, 9},
    {1, 2, 3, 4, 5, 9, 10, 11, 12, 13, 15},
    {1, 2, 4, 9, 11},
    {1, 2, 3, 4, 5, 9, 10, 11, 12, 13, 23},
    {1, 2, 4, 9, 11, 14},
    {1, 2, 4, 9, 11},
    {2, 4, 7, 9},
    {7, 16},
    {1, 2, 4},
    {17},
};

static unsigned met[FUNCTIONS][NUMBERS];

static void expect(enum function function, uint32_t answer, uint32_t wanted)
{
    CHECK(answer == wanted);
    if (answer != wanted)
        printf("  %s gives %u, not %u\n", names[function], (unsigned)answer, (unsigned)wanted);
    if (answer < NUMBERS)
        met[function][answer]++;
}

/* Numbers outside of their ranges, for the four numbers of a board. */
static void refuse_key_length(uint32_t players, uint32_t positions, uint32_t width, uint32_t value_bytes, uint32_t wanted)
{
    uint32_t length = 0xDEADBEEF;
    expect(KEY_LENGTH, nsg_key_length(players, positions, width, value_bytes, &length), wanted);
    CHECK(length == 0xDEADBEEF);
}

static void refuse_width(uint32_t players, uint32_t positions, uint32_t value_bytes, uint32_t wanted)
{
    uint32_t width = 0xDEADBEEF;
    expect(CHOOSE_WIDTH, nsg_choose_width(players, positions, value_bytes, &width), wanted);
    CHECK(width == 0xDEADBEEF);
}

static void test_numbers_refused(void)
{
    static const uint32_t players[] = {0, 1, 7, 256 + 2, UINT32_MAX}, positions[] = {0, 65537, UINT32_MAX}, widths[] = {0, 257, UINT32_MAX};
    static const uint32_t values[] = {0, 17, 256, 256 + 1, UINT32_MAX}, sensors[] = {72, 73, 256, UINT32_MAX};
    uint32_t number = 0xDEADBEEF;
    for (int i = 0; i < 5; i++) {
        refuse_key_length(players[i], 72, 24, 1, NSG_REFUSED_PLAYERS);
        refuse_key_length(players[i], 0, 0, 0, NSG_REFUSED_PLAYERS);
        refuse_width(players[i], 72, 1, NSG_REFUSED_PLAYERS);
        refuse_width(players[i], 72, 0, NSG_REFUSED_PLAYERS);
        refuse_width(players[i], 0, 0, NSG_REFUSED_PLAYERS);
        refuse_width(4, 72, values[i], NSG_REFUSED_VALUE_BYTES);
        refuse_width(6, 65536, values[i], NSG_REFUSED_VALUE_BYTES);
        refuse_key_length(4, 72, 24, values[i], NSG_REFUSED_VALUE_BYTES);
        refuse_key_length(4, 65536, 255, values[i], NSG_REFUSED_VALUE_BYTES);
    }
    for (int i = 0; i < 3; i++) {
        refuse_key_length(4, positions[i], 24, 1, NSG_REFUSED_POSITIONS);
        refuse_key_length(4, positions[i], 0, 0, NSG_REFUSED_POSITIONS);
        refuse_key_length(4, 72, widths[i], 1, NSG_REFUSED_WIDTH);
        refuse_key_length(4, 72, widths[i], 0, NSG_REFUSED_WIDTH);
        refuse_width(4, positions[i], 1, NSG_REFUSED_POSITIONS);
        refuse_width(4, positions[i], 17, NSG_REFUSED_POSITIONS);
    }
    for (int i = 0; i < 4; i++)
        expect(SENSOR_POSITION, nsg_sensor_position(sensors[i], &number), NSG_REFUSED_SENSOR);
    refuse_key_length(4, 65536, 255, 1, NSG_REFUSED_GRID_ROWS);
    refuse_key_length(4, 257, 1, 1, NSG_REFUSED_GRID_ROWS);
    CHECK(number == 0xDEADBEEF);
}

static int untouched_draw(const struct draw *draw)
{
    return untouched(&draw->value) && untouched(&draw->arrays) && untouched(&draw->seeds) && untouched(&draw->words);
}

/* A call of Deal that is refused for no column, with all that was lent to it as it was, the fault's place too. */
static void refuse_deal(const struct draw *draw, uint64_t room, uint32_t wanted)
{
    struct lent keys = lend_filled(FILL, room), fault = lend_fault();
    expect(DEAL, deal(draw, &keys, &fault), wanted);
    CHECK(untouched(&fault) && untouched(&keys) && untouched_draw(draw));
    give_back(&fault);
    give_back(&keys);
}

/* A call of Deal that is refused for the column at this byte of the arrays: the place is told, and all else is as it was. Whether the keys have
   room does not matter. */
static void refuse_column(const struct draw *draw, uint32_t wanted, uint32_t at)
{
    const uint32_t columns = NSG_COLUMNS(draw->board.players);
    for (uint64_t room = 0; room <= 1; room++) {
        struct lent keys = lend_filled(FILL, room * draw->board.players * key_length(draw->board)), fault = lend_fault();
        expect(DEAL, deal(draw, &keys, &fault), wanted);
        CHECK(tells(&fault, at / columns, at % columns));
        CHECK(untouched(&keys) && untouched_draw(draw));
        give_back(&fault);
        give_back(&keys);
    }
}

/* Deal with one input a byte shorter or longer than it should be. */
static void refuse_deal_lengths(struct draw *draw, uint64_t room)
{
    struct lent *inputs[4] = {&draw->value, &draw->arrays, &draw->seeds, &draw->words};
    for (int i = 0; i < 4; i++) {
        struct lent right = *inputs[i];
        for (int more = -1; more <= 1; more += 2) {
            *inputs[i] = lend_filled(FILL, right.length + (uint64_t)more);
            refuse_deal(draw, room, NSG_REFUSED_LENT);
            give_back(inputs[i]);
        }
        *inputs[i] = right;
    }
}

/* Puts a column into the arrays, at one byte. */
static void put_column(struct draw *draw, uint32_t at, unsigned column)
{
    draw->arrays.bytes[at] = draw->arrays.before[at] = (uint8_t)column;
}

/* Spoils one column so that Deal refuses it with this number. 20 repeats the column before it. */
static void spoil(struct draw *draw, uint32_t at, uint32_t number)
{
    const uint8_t *right = draw->arrays.bytes + at;
    put_column(draw, at, number == NSG_REFUSED_COLUMN_BIT ? *right ^ 0x80u : number == NSG_REFUSED_COLUMN_PARITY ? *right ^ 1u : right[-1]);
}

/* Every column of a dealing spoiled in every way, one at a time. */
static void refuse_each_column(struct draw *draw)
{
    const uint32_t players = draw->board.players, columns = NSG_COLUMNS(players);
    for (uint32_t at = 0; at < draw->arrays.length; at++) {
        const uint8_t right = draw->arrays.bytes[at];
        const uint32_t array = at - at % columns;
        for (uint32_t bit = players; bit < 8; bit++) {
            put_column(draw, at, right ^ 1u << bit);   /* its parity is wrong too: that comes later */
            refuse_column(draw, NSG_REFUSED_COLUMN_BIT, at);
            put_column(draw, at, right ^ 1u << bit ^ 1u);
            refuse_column(draw, NSG_REFUSED_COLUMN_BIT, at);
        }
        for (uint32_t bit = 0; bit < players; bit++) {
            put_column(draw, at, right ^ 1u << bit);
            refuse_column(draw, NSG_REFUSED_COLUMN_PARITY, at);
        }
        for (uint32_t other = array; other < array + columns; other++)
            if (other != at) {
                put_column(draw, at, draw->arrays.bytes[other]);
                refuse_column(draw, NSG_REFUSED_COLUMN_TWICE, other < at ? at : other);   /* the second of the two */
            }
        put_column(draw, at, right);
    }
}

/* Two columns spoiled, each in every way: the first is told, whatever the second is. */
static void refuse_two_columns(struct draw *draw)
{
    const uint32_t columns = NSG_COLUMNS(draw->board.players), length = (uint32_t)draw->arrays.length;
    for (uint32_t first = 0; first < length; first++)
        for (uint32_t second = first + 1; second < length; second++)
            for (uint32_t one = NSG_REFUSED_COLUMN_BIT; one <= NSG_REFUSED_COLUMN_TWICE; one++)
                for (uint32_t other = NSG_REFUSED_COLUMN_BIT; other <= NSG_REFUSED_COLUMN_TWICE; other++) {
                    const uint8_t right[2] = {draw->arrays.bytes[first], draw->arrays.bytes[second]};
                    if ((one == NSG_REFUSED_COLUMN_TWICE && first % columns == 0) || (other == NSG_REFUSED_COLUMN_TWICE && second % columns == 0))
                        continue;   /* no column stands before it */
                    spoil(draw, second, other);
                    spoil(draw, first, one);
                    refuse_column(draw, one, first);
                    put_column(draw, first, right[0]);
                    put_column(draw, second, right[1]);
                }
}

/* Bad columns on boards of three grid rows, with the point in each; the first and the last column of the first and the last grid row are among them. */
static void test_columns_refused(void)
{
    static const uint8_t several[4] = {1, 8, 1, 2};   /* an odd array: 8 is no player's, 1 stands twice */
    for (uint32_t players = NSG_LEAST_PLAYERS; players <= NSG_MOST_PLAYERS; players++)
        for (uint32_t point = 0; point < 5; point += 2) {
            struct draw draw = draw_dealing((struct board){players, 5, 2, 1}, point);
            refuse_each_column(&draw);
            if (players <= 3)
                refuse_two_columns(&draw);
            for (draw.point = 0; draw.point < 5; draw.point++)
                if (draw.point / 2 != point / 2)   /* another grid row's array is odd: the first of the two is told */
                    refuse_column(&draw, NSG_REFUSED_COLUMN_PARITY, (draw.point < point ? draw.point : point) / 2 * NSG_COLUMNS(players));
            draw.point = point;
            if (players == 3) {
                for (uint32_t column = 0; column < 4; column++)
                    put_column(&draw, point / 2 * 4 + column, several[column]);
                refuse_column(&draw, NSG_REFUSED_COLUMN_BIT, point / 2 * 4 + 1);
            }
            give_back_draw(&draw);
        }
}

/* The calls in which everything from number `first` on is wrong, 1 to 7, and then columns and room: that number alone is given. */
static void refuse_deal_order(uint32_t first)
{
    struct draw draw = draw_dealing((struct board){3, 10, 4, 2}, 9);
    uint64_t room = 3 * key_length(draw.board) - 1;
    for (uint32_t number = NSG_REFUSED_COLUMN_BIT; number <= NSG_REFUSED_COLUMN_TWICE; number++)
        spoil(&draw, number - NSG_REFUSED_COLUMN_BIT, number);
    give_back(&draw.value);
    draw.value = lend_filled(FILL, 0);
    if (first <= 6)
        draw.point = UINT32_MAX;
    if (first == 5)
        draw.board.positions = 2000;
    if (first <= 4)
        draw.board.value_bytes = 0;
    if (first <= 3)
        draw.board.width = 0;
    if (first <= 2)
        draw.board.positions = 0;
    if (first == 1)
        draw.board.players = 7;
    refuse_deal(&draw, room, first);
    give_back_draw(&draw);
}

static void test_deal_refused(void)
{
    struct draw draw = draw_dealing((struct board){4, 72, 24, 1}, 30);
    const uint64_t room = 4 * key_length(draw.board);
    for (uint32_t first = 1; first <= 7; first++)
        refuse_deal_order(first);
    draw.point = 72;
    refuse_deal(&draw, room, NSG_REFUSED_POINT);
    draw.point = 30;
    refuse_deal_lengths(&draw, room);
    refuse_deal(&draw, room - 1, NSG_REFUSED_ROOM);
    refuse_deal(&draw, 0, NSG_REFUSED_ROOM);
    give_back_draw(&draw);
    test_columns_refused();
}

/* How a key is damaged: its length, a place, and the bytes written there; and the number that Check key gives. */
struct damage {
    uint32_t wanted;
    uint32_t place, count;
    uint8_t bytes[9];
};

/* Of a key of document 01's printed board (2 players, 6 squares, width 4, 1 byte; 79 bytes). All keep the length. */
static const struct damage damages[] = {
    {10, 0, 2, {0x82, 0x00}},                                     /* not shortest */
    {10, 1, 3, {0x80, 0x80, 0x80}},                               /* over three groups */
    {10, 4, 2, {0x81, 0x00}},                                     /* the last of the five */
    {10, 0, 6, {0x07, 0x09, 0x00, 0x00, 0x80, 0x00}},             /* all are read before 1 to 5 */
    {1, 0, 1, {0x01}}, {1, 0, 1, {0x00}}, {1, 0, 5, {0x07, 0x09, 0x00, 0x00, 0x00}},
    {2, 2, 1, {0x00}}, {2, 2, 5, {0x81, 0x80, 0x04, 0x04, 0x01}}, {2, 1, 4, {0x09, 0x00, 0x00, 0x00}},
    {3, 3, 1, {0x00}}, {3, 3, 2, {0x81, 0x02}}, {3, 1, 4, {0x09, 0x06, 0x00, 0x00}},
    {4, 4, 1, {0x00}}, {4, 4, 1, {0x11}}, {4, 4, 2, {0x80, 0x02}}, {4, 1, 4, {0x09, 0x7F, 0x01, 0x11}},
    {5, 2, 6, {0x80, 0x80, 0x04, 0xFF, 0x01, 0x01}}, {5, 1, 8, {0x09, 0x81, 0x02, 0x01, 0x01, 0x01}},
    {11, 1, 1, {0x02}}, {11, 1, 1, {0x7F}},
    {13, 5, 1, {0x00}}, {13, 5, 1, {0x03}}, {13, 38, 1, {0x00}}, {13, 38, 1, {0x05}}, {13, 38, 1, {0x41}},   /* marks; spare bits */
};
enum { DAMAGES = sizeof damages / sizeof damages[0], KEY = 79 };

static struct lent damaged(const uint8_t *bytes, uint64_t length, uint64_t from, const struct damage *damage)
{
    struct lent lent = lend(bytes, length);
    memcpy(lent.bytes + from + damage->place, damage->bytes, damage->count);
    memcpy(lent.before, lent.bytes, (size_t)length);
    return lent;
}

/* A key that a tally refuses, with all that was lent as it was: a table that is full, and longer than it must be. */
static void refuse_add(struct tally tally, const struct lent *key, uint32_t wanted)
{
    struct lent table = lend_filled(FILL, NSG_TABLE_BYTES(tally.positions, tally.value_bytes) + 3);
    expect(TALLY_ADD, tally_add(tally, key, &table), wanted);
    CHECK(untouched(&table) && untouched(key));
    give_back(&table);
}

/* A refused key, in the six calls that take one. Outputs have no room, the position is none, the card has no bytes and
   the deck is too long for that, and a tally is another's in all its numbers: those come later. */
static void refuse_key(const struct lent *key, uint32_t wanted)
{
    static const struct tally tallies[] = {{2, 0, 6, 1}, {2, 1, 6, 1}, {3, 2, 7, 2}};
    static const uint32_t untold[NSG_HEADER_NUMBERS] = {1000, 1001, 1002, 1003, 1004};
    uint32_t header[NSG_HEADER_NUMBERS];
    struct lent deck = lend_filled(0x33, 6);
    for (uint32_t room = 0; room <= 6; room += 6) {
        struct lent out = lend_filled(FILL, room);
        expect(OPEN_ONE, nsg_open_one(key->bytes, key->length, room == 0 ? 6 : 0, out.bytes, room), wanted);
        expect(OPEN_ALL, nsg_open_all(key->bytes, key->length, out.bytes, room), wanted);
        expect(DRAW_CARD, draw_card(key, &deck, room / 6, &out), wanted);
        CHECK(untouched(&out) && untouched(&deck));
        give_back(&out);
    }
    give_back(&deck);
    for (unsigned i = 0; i < sizeof tallies / sizeof tallies[0]; i++)
        refuse_add(tallies[i], key, wanted);
    memcpy(header, untold, sizeof header);
    expect(CHECK_KEY, nsg_check_key(key->bytes, key->length, header), wanted);
    CHECK(memcmp(header, untold, sizeof header) == 0);
    CHECK(nsg_held_seed(key->bytes, key->length, 0, 0) == 0 && nsg_held_seed(key->bytes, key->length, 0, 1) == 0);
    CHECK(untouched(key));
}

static void refuse_join(const struct lent *keys, uint64_t room, uint32_t wanted)
{
    struct lent out = lend_filled(FILL, room);
    expect(JOIN_KEYS, nsg_join_keys(keys->bytes, keys->length, out.bytes, out.length), wanted);
    CHECK(untouched(keys) && untouched(&out));
    give_back(&out);
}

/* The first key's own number, before 12 and 9; the 13 of marks comes after 12. */
static void refuse_join_first(const struct lent *keys, const struct damage *damage)
{
    struct lent spoiled = damaged(keys->bytes, keys->length, 0, damage);
    refuse_join(&spoiled, 6, damage->wanted);
    refuse_join(&spoiled, 0, damage->wanted);
    give_back(&spoiled);
    struct lent cut = damaged(keys->bytes, keys->length - 1, 0, damage);
    refuse_join(&cut, 6, damage->wanted == 13 ? 12 : damage->wanted);
    give_back(&cut);
}

static void refuse_join_second(const struct lent *keys, const struct damage *damage)
{
    struct lent spoiled = damaged(keys->bytes, keys->length, KEY, damage);
    refuse_join(&spoiled, 6, damage->wanted);
    refuse_join(&spoiled, 0, damage->wanted);
    give_back(&spoiled);
}

/* 15: a later key of another board with the same first K bytes to read, or of another player than its place. */
static void test_places_refused(const struct lent *keys)
{
    static const struct damage others[] = {{15, 0, 1, {0x03}}, {15, 2, 1, {0x05}}, {15, 3, 1, {0x03}}, {15, 4, 1, {0x02}}, {15, 1, 1, {0x00}},
                                           {15, 1, 8, {0x00, 0x06, 0x04, 0x01, 0x00}} /* before its 13 */};
    for (unsigned i = 0; i < sizeof others / sizeof others[0]; i++)
        refuse_join_second(keys, &others[i]);
    struct lent swapped = lend(keys->bytes, keys->length);
    memcpy(swapped.bytes, keys->bytes + KEY, KEY);
    memcpy(swapped.bytes + KEY, keys->bytes, KEY);
    memcpy(swapped.before, swapped.bytes, 2 * KEY);
    refuse_join(&swapped, 6, NSG_REFUSED_PLACE);
    give_back(&swapped);
}

/* Keys cut at every length, and one byte too long. */
static void test_lengths_refused(const struct lent *keys)
{
    for (uint64_t length = 0; length <= 2 * KEY + 1; length++) {
        struct lent cut = lend_filled(0, length);
        memcpy(cut.bytes, keys->bytes, (size_t)(length < 2 * KEY ? length : 2 * KEY));
        memcpy(cut.before, cut.bytes, (size_t)length);
        if (length != KEY)
            refuse_key(&cut, length < 5 ? NSG_REFUSED_NUMBER : NSG_REFUSED_LENGTH);
        if (length != 2 * KEY)
            refuse_join(&cut, 6, length < 5 ? NSG_REFUSED_NUMBER : NSG_REFUSED_LENGTH);
        give_back(&cut);
    }
}

static void test_keys_refused(void)
{
    struct draw draw = draw_dealing((struct board){2, 6, 4, 1}, 4);
    struct lent keys = dealt_keys(&draw), key = lend(keys.bytes, KEY), out = lend_filled(FILL, 6);
    CHECK(keys.length == 2 * KEY);
    for (int i = 0; i < DAMAGES; i++) {
        struct lent spoiled = damaged(keys.bytes, KEY, 0, &damages[i]);
        refuse_key(&spoiled, damages[i].wanted);
        give_back(&spoiled);
        refuse_join_first(&keys, &damages[i]);
        refuse_join_second(&keys, &damages[i]);
    }
    test_lengths_refused(&keys);
    test_places_refused(&keys);
    refuse_join(&keys, 5, NSG_REFUSED_ROOM);
    refuse_join(&keys, 0, NSG_REFUSED_ROOM);
    expect(OPEN_ONE, nsg_open_one(key.bytes, KEY, 6, out.bytes, 6), NSG_REFUSED_POSITION);
    expect(OPEN_ONE, nsg_open_one(key.bytes, KEY, UINT32_MAX, out.bytes, 0), NSG_REFUSED_POSITION);
    expect(OPEN_ONE, nsg_open_one(key.bytes, KEY, 5, out.bytes, 0), NSG_REFUSED_ROOM);
    expect(OPEN_ALL, nsg_open_all(key.bytes, KEY, out.bytes, 5), NSG_REFUSED_ROOM);
    expect(OPEN_ALL, nsg_open_all(key.bytes, KEY, out.bytes, 0), NSG_REFUSED_ROOM);
    CHECK(untouched(&out) && untouched(&key));
    give_back(&out);
    give_back(&key);
    give_back(&keys);
    give_back_draw(&draw);
}

static void refuse_draw(const struct lent *key, uint32_t card_bytes, uint64_t length, uint64_t room, uint32_t wanted)
{
    struct lent deck = lend_filled(0x33, length), out = lend_filled(FILL, room);
    expect(DRAW_CARD, draw_card(key, &deck, card_bytes, &out), wanted);
    CHECK(untouched(key) && untouched(&deck) && untouched(&out));
    give_back(&deck);
    give_back(&out);
}

/* A card and a deck that do not go together: 22 with enough room and with none. */
static void refuse_deck(const struct lent *key, uint32_t card_bytes, uint64_t length)
{
    refuse_draw(key, card_bytes, length, 600, NSG_REFUSED_DECK);
    refuse_draw(key, card_bytes, length, 0, NSG_REFUSED_DECK);
}

/* 21: keys of every other width of values, with all that comes later right and wrong. Check key's own come before
   it. */
static void test_wide_keys_refused(void)
{
    static const struct damage player = {11, 1, 1, {0x03}}, marks = {13, 5, 1, {0x00}};
    for (uint32_t width = 2; width <= NSG_MOST_VALUE_BYTES; width++) {
        struct draw draw = draw_dealing((struct board){3, 6, 4, width}, 4);
        struct lent keys = dealt_keys(&draw), key = key_of(draw.board, &keys, 0);
        struct lent of_none = damaged(key.bytes, key.length, 0, &player), cut = lend(key.bytes, key.length - 1);
        struct lent unmarked = damaged(key.bytes, key.length, 0, &marks);
        refuse_draw(&of_none, 0, 0, 0, NSG_REFUSED_PLAYER);
        refuse_draw(&cut, 0, 0, 0, NSG_REFUSED_LENGTH);
        refuse_draw(&unmarked, 0, 0, 0, NSG_REFUSED_MARKS);
        give_back(&unmarked);
        give_back(&cut);
        give_back(&of_none);
        refuse_draw(&key, 1, 6, 1, NSG_REFUSED_CARD_KEY);
        refuse_draw(&key, width, 6 * width, width, NSG_REFUSED_CARD_KEY);
        refuse_draw(&key, 256, 6 * 256, 255, NSG_REFUSED_CARD_KEY);
        refuse_draw(&key, 1, 5, 1, NSG_REFUSED_CARD_KEY);
        refuse_draw(&key, 0, 0, 0, NSG_REFUSED_CARD_KEY);
        refuse_draw(&key, 257, 6 * 257, 257, NSG_REFUSED_CARD_KEY);
        refuse_draw(&key, UINT32_MAX, 0, 0, NSG_REFUSED_CARD_KEY);
        give_back(&key);
        give_back(&keys);
        give_back_draw(&draw);
    }
}

/* 22 for one key: lengths of a card that are none, with decks that have them and others; decks of lengths beside the
   right one. 9: an output a byte short, and none. */
static void refuse_decks(const struct lent *key, uint32_t positions)
{
    static const uint32_t others[] = {0, 257, 258, 512, 1u << 16, (1u << 16) + 1, 1u << 31, UINT32_MAX};
    for (unsigned i = 0; i < sizeof others / sizeof others[0]; i++) {
        refuse_deck(key, others[i], 0);
        refuse_deck(key, others[i], positions);
        refuse_deck(key, others[i], positions * 256);
        if (others[i] <= 512)
            refuse_deck(key, others[i], positions * others[i]);
    }
    for (uint32_t card_bytes = 1; card_bytes <= NSG_MOST_SHARE_BYTES; card_bytes += card_bytes < 17 ? 1 : 239) {
        const uint32_t right = NSG_DECK_BYTES(positions, card_bytes);
        refuse_deck(key, card_bytes, 0);
        refuse_deck(key, card_bytes, right - 1);
        refuse_deck(key, card_bytes, right + 1);
        refuse_deck(key, card_bytes, right - card_bytes);
        refuse_deck(key, card_bytes, right + card_bytes);
        refuse_draw(key, card_bytes, right, card_bytes - 1, NSG_REFUSED_ROOM);
        refuse_draw(key, card_bytes, right, 0, NSG_REFUSED_ROOM);
    }
}

/* Boards of 1 to 65,536 positions, each with a card so long that all cards together have the deck's bytes, as they are
   or modulo 2^32. */
static void test_draws_refused(void)
{
    static const struct { struct board board; uint32_t card_bytes, length; } decks[] = {
        {{2, 1, 1, 1}, 257, 257}, {{2, 6, 4, 1}, 715827883, 2}, {{4, 6, 4, 1}, 715827884, 8},
        {{3, 256, 16, 1}, 1u << 24, 0}, {{3, 256, 16, 1}, (1u << 24) + 1, 256},
        {{2, 65536, 256, 1}, 1u << 16, 0}, {{2, 65536, 256, 1}, (1u << 16) + 1, 1u << 16},
    };
    test_wide_keys_refused();
    for (unsigned i = 0; i < sizeof decks / sizeof decks[0]; i++) {
        const struct board board = decks[i].board;
        struct draw draw = draw_dealing(board, board.positions - 1);
        struct lent keys = dealt_keys(&draw), key = key_of(board, &keys, 0);
        CHECK(board.positions * decks[i].card_bytes == decks[i].length);
        refuse_deck(&key, decks[i].card_bytes, decks[i].length);
        if (board.positions <= 256)
            refuse_decks(&key, board.positions);
        give_back(&key);
        give_back(&keys);
        give_back_draw(&draw);
    }
}

static void refuse_shares(uint32_t players, uint32_t value_bytes, uint64_t length, uint64_t room, uint32_t wanted)
{
    struct lent shares = lend_filled(0x33, length), out = lend_filled(FILL, room);
    expect(JOIN_SHARES, nsg_join_shares(players, value_bytes, shares.bytes, shares.length, out.bytes, out.length), wanted);
    CHECK(untouched(&shares) && untouched(&out));
    give_back(&shares);
    give_back(&out);
}

/* A tally's own numbers, or its table: the four calls refuse them with what comes later right, and wrong: no key, none
   of the positions, no room. */
static void refuse_tally(struct tally tally, uint64_t length, const struct lent *key, uint32_t wanted)
{
    struct lent no_key = lend_filled(0, 0);
    for (uint32_t right = 0; right <= 1; right++) {
        struct lent table = lend_filled(FILL, length), out = lend_filled(0x77, right * NSG_MOST_VALUE_BYTES);
        expect(TALLY_MAKE, tally_make(tally, &table), wanted);
        expect(TALLY_ADD, tally_add(tally, right ? key : &no_key, &table), wanted);
        expect(TALLY_LOOK_UP, tally_look_up(tally, &table, right ? 0 : UINT32_MAX, &out), wanted);
        expect(TALLY_TOTAL, tally_total(tally, &table, &out), wanted);
        CHECK(untouched(&table) && untouched(&out) && untouched(key));
        give_back(&out);
        give_back(&table);
    }
    give_back(&no_key);
}

/* Every choice of a tally's numbers and its table that are wrong: the first of them is told. Each in turn is wrong in
   several ways. */
static void refuse_tally_order(struct tally right, const struct lent *key)
{
    static const uint32_t no_players[] = {0, 1, 7, 256 + 2, UINT32_MAX};
    static const uint32_t no_positions[] = {0, 65537, 65536 + 72, 1u << 31, UINT32_MAX};
    static const uint32_t no_values[] = {0, 17, 256, (1u << 16) + 1, UINT32_MAX};
    const uint32_t length = NSG_TABLE_BYTES(right.positions, right.value_bytes);
    const uint32_t no_player[] = {right.players, right.players + 1, 256, 1u << 31, UINT32_MAX};
    const uint32_t lengths[] = {0, length - 1, length - right.value_bytes, length / 2, length * 3 / 4};
    for (unsigned wrong = 1; wrong < 32; wrong++)
        for (unsigned i = 0; i < 5; i++) {
            const uint32_t answer = wrong & 1 ? NSG_REFUSED_PLAYERS : wrong & 2 ? NSG_REFUSED_POSITIONS
                                    : wrong & 4 ? NSG_REFUSED_VALUE_BYTES : wrong & 8 ? NSG_REFUSED_PLAYER
                                    : NSG_REFUSED_ROOM;
            const struct tally tally = {wrong & 1 ? no_players[i] : right.players,
                                        wrong & 8 ? no_player[i] : right.player,
                                        wrong & 2 ? no_positions[i] : right.positions,
                                        wrong & 4 ? no_values[i] : right.value_bytes};
            refuse_tally(tally, wrong & 16 ? lengths[i] : length + i, key, answer);
        }
}

/* What comes after a tally's own numbers, of looking up and of the total: positions past the last, with and without
   room, among them those whose entry begins at 0 modulo 2^32; outputs of every shorter length. */
static void refuse_outputs(struct tally tally)
{
    const uint32_t width = tally.value_bytes, count = tally.positions;
    const uint32_t positions[] = {count, count + 1, 1u << 28, 1u << 31, UINT32_MAX};
    struct lent table = lend_filled(FILL, NSG_TABLE_BYTES(count + 2, width));
    for (uint32_t room = 0; room <= width; room++) {
        struct lent out = lend_filled(0x77, room);
        for (unsigned i = 0; i < 5; i++)
            expect(TALLY_LOOK_UP, tally_look_up(tally, &table, positions[i], &out), NSG_REFUSED_POSITION);
        if (room < width) {
            expect(TALLY_LOOK_UP, tally_look_up(tally, &table, 0, &out), NSG_REFUSED_ROOM);
            expect(TALLY_LOOK_UP, tally_look_up(tally, &table, count - 1, &out), NSG_REFUSED_ROOM);
            expect(TALLY_TOTAL, tally_total(tally, &table, &out), NSG_REFUSED_ROOM);
        }
        CHECK(untouched(&table) && untouched(&out));
        give_back(&out);
    }
    give_back(&table);
}

/* 23: every choice of numbers that differ from the key's, each alone first; and numbers that differ while all entries
   together are as long as the key's. */
static void refuse_others(struct tally right, const struct lent *key)
{
    for (uint32_t by = 1; by < 16; by++)
        for (uint32_t up = 0; up <= 1; up++) {
            const uint32_t players = up ? right.players + 1 : right.players - 1, other = up ? 1 : UINT32_MAX;
            struct tally tally = right;
            tally.players = by & 1 ? players : right.players;
            tally.player = by & 2 ? right.player + other : right.player;
            tally.positions = by & 4 ? right.positions + other : right.positions;
            tally.value_bytes = by & 8 ? right.value_bytes + other : right.value_bytes;
            refuse_add(tally, key, NSG_REFUSED_TALLY);
        }
    refuse_add((struct tally){right.players, right.player, right.positions * 2, right.value_bytes / 2}, key,
               NSG_REFUSED_TALLY);
    refuse_add((struct tally){right.players, right.player, right.positions / 2, right.value_bytes * 2}, key,
               NSG_REFUSED_TALLY);
}

/* Numbers just out of their ranges come with a table that would fit them; those whose product is small modulo 2^32 with
   a table of that length. */
static void test_tallies_refused(void)
{
    static const struct board boards[] = {{2, 1, 1, 1}, {3, 8, 4, 2}, {4, 72, 36, 1}, {5, 9, 3, 7}, {6, 72, 17, 16}};
    const struct board board = {4, 12, 5, 4};
    struct draw draw = draw_dealing(board, 7);
    struct lent keys = dealt_keys(&draw), key = key_of(board, &keys, 1);
    refuse_others(tally_of(board, 1), &key);
    refuse_tally((struct tally){4, 1, 65537, 1}, 65537, &key, NSG_REFUSED_POSITIONS);
    refuse_tally((struct tally){4, 1, 1u << 28 | 1, 16}, 16, &key, NSG_REFUSED_POSITIONS);
    refuse_tally((struct tally){4, 1, 12, 17}, 12 * 17, &key, NSG_REFUSED_VALUE_BYTES);
    refuse_tally((struct tally){4, 1, 65536, (1u << 16) + 1}, 65536, &key, NSG_REFUSED_VALUE_BYTES);
    refuse_tally((struct tally){2, 1, 65536, 16}, NSG_MOST_TABLE_BYTES - 1, &key, NSG_REFUSED_ROOM);
    give_back(&key);
    give_back(&keys);
    give_back_draw(&draw);
    for (unsigned i = 0; i < sizeof boards / sizeof boards[0]; i++) {
        const uint32_t last = boards[i].players - 1;
        draw = draw_dealing(boards[i], 0);
        keys = dealt_keys(&draw);
        key = key_of(boards[i], &keys, last);
        refuse_tally_order(tally_of(boards[i], last), &key);
        refuse_outputs(tally_of(boards[i], last));
        give_back(&key);
        give_back(&keys);
        give_back_draw(&draw);
    }
}

static void refuse_page(uint32_t positions, uint32_t value_bytes, uint64_t length, uint64_t room, uint32_t wanted)
{
    struct lent table = lend_filled(0x33, length), out = lend_filled(FILL, room), written = lend_number();
    expect(WRITE_PAGE, write_page(positions, value_bytes, &table, &out, &written), wanted);
    CHECK(untouched(&table) && untouched(&out) && untouched(&written));
    give_back(&written);
    give_back(&out);
    give_back(&table);
}

/* Every choice of things that are wrong, of a right page with this many positions and bytes: the first of them is told.
   Each number in turn is wrong in several ways. */
static void refuse_page_order(uint32_t positions, uint32_t value_bytes)
{
    static const uint32_t no_positions[] = {0, 65537, 65536 + 72, 1u << 31, UINT32_MAX};
    static const uint32_t no_values[] = {0, 17, 256, (1u << 16) + 1, 1u << 31, UINT32_MAX};
    const uint32_t right = NSG_TABLE_BYTES(positions, value_bytes), page = NSG_PAGE_BYTES(positions, value_bytes);
    const uint32_t line = NSG_PAGE_LINE_BYTES(value_bytes);
    const uint32_t lengths[] = {0, right - 1, right + 1, right - value_bytes, right + value_bytes, 2 * right};
    const uint32_t rooms[] = {0, 1, page - 1, page - line, page / 2, right};
    for (unsigned wrong = 1; wrong < 16; wrong++)
        for (unsigned i = 0; i < 6; i++) {
            const uint32_t answer = wrong & 1 ? NSG_REFUSED_POSITIONS : wrong & 2 ? NSG_REFUSED_VALUE_BYTES
                                    : wrong & 4 ? NSG_REFUSED_LENT : NSG_REFUSED_ROOM;
            refuse_page(wrong & 1 ? no_positions[i % 5] : positions, wrong & 2 ? no_values[i] : value_bytes,
                        wrong & 4 ? lengths[i] : right, wrong & 8 ? rooms[i] : page + i, answer);
        }
}

/* Numbers just out of their ranges come with a table and a room that would fit them; those whose product is small
   modulo 2^32 with a table of that length. */
static void test_pages_refused(void)
{
    for (uint32_t width = 1; width <= NSG_MOST_VALUE_BYTES; width++) {
        refuse_page_order(1, width);
        refuse_page_order(8, width);
        refuse_page_order(9, width);
        refuse_page_order(72, width);
    }
    refuse_page(0, 1, 0, 0, NSG_REFUSED_POSITIONS);
    refuse_page(65537, 1, 65537, NSG_PAGE_BYTES(65537, 1), NSG_REFUSED_POSITIONS);
    refuse_page(1u << 31, 2, 0, 1000, NSG_REFUSED_POSITIONS);
    refuse_page(1u << 28 | 1, 16, 16, 1000, NSG_REFUSED_POSITIONS);
    refuse_page(72, 0, 0, 9 * 14, NSG_REFUSED_VALUE_BYTES);
    refuse_page(72, 17, 72 * 17, NSG_PAGE_BYTES(72, 17), NSG_REFUSED_VALUE_BYTES);
    refuse_page(1, NSG_MOST_SHARE_BYTES, NSG_MOST_SHARE_BYTES, 10000, NSG_REFUSED_VALUE_BYTES);
    refuse_page(65536, 1u << 16, 0, 1000, NSG_REFUSED_VALUE_BYTES);
    refuse_page(65536, (1u << 16) + 1, 65536, 1000, NSG_REFUSED_VALUE_BYTES);
    refuse_page(65536, 16, NSG_MOST_TABLE_BYTES - 1, NSG_MOST_PAGE_BYTES, NSG_REFUSED_LENT);
    refuse_page(65536, 16, NSG_MOST_TABLE_BYTES, NSG_MOST_PAGE_BYTES - 1, NSG_REFUSED_ROOM);
}

static void refuse_expand(uint64_t length, uint64_t start, uint64_t room, uint32_t wanted)
{
    struct lent seed = lend_filled(0x33, length), out = lend_filled(FILL, room);
    expect(EXPAND, nsg_expand(seed.bytes, seed.length, start, out.bytes, out.length), wanted);
    CHECK(untouched(&seed) && untouched(&out));
    give_back(&seed);
    give_back(&out);
}

/* One start that is too far for so many bytes of a row: 16 with a seed, and 7 before it without. */
static void refuse_start(uint64_t start, uint64_t room)
{
    refuse_expand(32, start, room, NSG_REFUSED_EXPANSION);
    refuse_expand(31, start, room, NSG_REFUSED_LENT);
}

static void test_seeds_refused(void)
{
    static const uint64_t rooms[] = {0, 1, 2, 16, 63, 64, 65, 2048, 4095, 4096, 4097, 65536};
    refuse_expand(0, 0, 4097, NSG_REFUSED_LENT);
    refuse_expand(31, 0, 64, NSG_REFUSED_LENT);
    refuse_expand(33, 0, 0, NSG_REFUSED_LENT);
    refuse_expand(33, 4096, 0, NSG_REFUSED_LENT);
    refuse_start(0, 4097);
    refuse_start(0, 65536);
    for (unsigned i = 0; i < sizeof rooms / sizeof rooms[0]; i++) {
        const uint64_t room = rooms[i], last = room < 4096 ? 4096 - room : 0;
        refuse_start(last + 1, room);
        refuse_start(last + 64, room);
        refuse_start(4097, room);
        /* small without the upper 32 bits, or without the highest */
        refuse_start((uint64_t)1 << 32, room);
        refuse_start(((uint64_t)1 << 32) + last, room);
        refuse_start((uint64_t)1 << 63, room);
        /* start + room is 2^64 - 1, then 2^64 and more, which wraps round */
        refuse_start(UINT64_MAX - room, room);
        refuse_start(UINT64_MAX, room);
        if (room > 0) {
            refuse_start(UINT64_MAX - room + 1, room);
            refuse_start(UINT64_MAX - room / 2, room);
        }
    }
}

static void test_shares_refused(void)
{
    refuse_shares(1, 0, 3, 0, NSG_REFUSED_PLAYERS);
    refuse_shares(7, 2, 14, 2, NSG_REFUSED_PLAYERS);
    refuse_shares(3, 0, 3, 0, NSG_REFUSED_VALUE_BYTES);
    refuse_shares(3, 257, 3 * 257, 257, NSG_REFUSED_VALUE_BYTES);
    refuse_shares(3, 257, 0, 0, NSG_REFUSED_VALUE_BYTES);
    refuse_shares(2, 512, 2 * 512, 512, NSG_REFUSED_VALUE_BYTES);
    refuse_shares(2, (1u << 16) + 1, 2, 1, NSG_REFUSED_VALUE_BYTES);
    refuse_shares(2, (1u << 31) + 1, 2, 1, NSG_REFUSED_VALUE_BYTES);   /* twice that is 2^32 + 2 */
    refuse_shares(6, UINT32_MAX, 6, 1, NSG_REFUSED_VALUE_BYTES);
    refuse_shares(7, 257, 7 * 257, 257, NSG_REFUSED_PLAYERS);
    refuse_shares(3, 2, 5, 0, NSG_REFUSED_LENT);
    refuse_shares(3, 2, 7, 2, NSG_REFUSED_LENT);
    refuse_shares(3, 2, 0, 2, NSG_REFUSED_LENT);
    refuse_shares(3, 2, 6, 1, NSG_REFUSED_ROOM);
    refuse_shares(6, 16, 96, 0, NSG_REFUSED_ROOM);
    refuse_shares(3, 17, 50, 17, NSG_REFUSED_LENT);
    refuse_shares(3, 17, 51, 16, NSG_REFUSED_ROOM);
    refuse_shares(6, 256, 6 * 256 - 1, 256, NSG_REFUSED_LENT);
    refuse_shares(6, 256, 6 * 256 + 1, 0, NSG_REFUSED_LENT);
    refuse_shares(6, 256, 6 * 256, 255, NSG_REFUSED_ROOM);
}

void test_refusals(void)
{
    test_numbers_refused();
    test_deal_refused();
    test_keys_refused();
    test_draws_refused();
    test_shares_refused();
    test_tallies_refused();
    test_pages_refused();
    test_seeds_refused();
    for (int f = 0; f < FUNCTIONS; f++) {
        printf("refusals: %s", names[f]);
        for (const uint8_t *number = given[f]; *number != 0; number++) {
            printf(" %u:%u", *number, met[f][*number]);
            CHECK(met[f][*number] != 0);
        }
        printf("\n");
    }
}
