/* Several threads at once, on the same inputs: each gets the bytes that one thread alone gets, and where a column is bad its place. */
#define _POSIX_C_SOURCE 200112L
#include "common.h"
#include <pthread.h>
#include <stdio.h>
#include <string.h>

enum { THREADS = 8, ROUNDS = 12, BOARDS = 4, CARD = 52 };

static struct draw draws[BOARDS];
static struct lent keys[BOARDS], tables[BOARDS], joined[BOARDS];   /* as one thread alone got them */
static struct lent spoiled[BOARDS];                                /* arrays whose last column stands twice */
static struct lent decks[BOARDS], cards[BOARDS];                   /* zeros where values are wide: no card is drawn */
static struct lent pages[BOARDS];                                  /* of the joined table */
static uint8_t totals[BOARDS][NSG_MOST_VALUE_BYTES];               /* of player 0's table */
static pthread_barrier_t start;

struct work {
    pthread_t thread;
    unsigned number, differing;
};

/* Player 0's squares opened alone: how many answers and shares differ. */
static unsigned squares_differing(unsigned i, uint64_t length)
{
    const struct board board = draws[i].board;
    unsigned differing = 0;
    for (uint32_t position = 0; position < board.positions; position += 3) {
        uint8_t share[NSG_MOST_VALUE_BYTES];
        differing += nsg_open_one(keys[i].bytes, length, position, share, board.value_bytes) != NSG_ACCEPTED;
        differing += memcmp(share, tables[i].bytes + position * board.value_bytes, board.value_bytes) != 0;
    }
    return differing;
}

/* A deal that is refused for its last column: how many answers, places and bytes differ. */
static unsigned refusals_differing(unsigned i, struct lent *own)
{
    struct draw draw = draws[i];
    struct lent fault = lend_fault();
    draw.arrays = spoiled[i];
    unsigned differing = deal(&draw, own, &fault) != NSG_REFUSED_COLUMN_TWICE;
    differing += !tells(&fault, NSG_GRID_ROWS(draw.board.positions, draw.board.width) - 1, NSG_COLUMNS(draw.board.players) - 1);
    differing += !untouched(own);
    give_back(&fault);
    return differing;
}

/* A card drawn with player 0's key: whether the answer is the one wanted. */
static int draws_card(unsigned i, uint64_t length, uint8_t *card)
{
    const uint32_t wanted = draws[i].board.value_bytes == 1 ? NSG_ACCEPTED : NSG_REFUSED_CARD_KEY;
    return nsg_draw_card(keys[i].bytes, length, decks[i].bytes, decks[i].length, CARD, card, CARD) == wanted;
}

/* The joined table written as a page: whether that is accepted and tells the page's length. */
static int writes_page(unsigned i, struct lent *page)
{
    const struct board board = draws[i].board;
    struct lent written = lend_number();
    int good = write_page(board.positions, board.value_bytes, &joined[i], page, &written) == NSG_ACCEPTED;
    good &= told(&written) == page->length;
    give_back(&written);
    return good;
}

/* A tally of player 0's key, added three times: once is left. Whether the answers are those wanted, and its table, an
   entry and the total those of player 0's table. */
static int tallies(unsigned i, uint64_t length)
{
    const struct board board = draws[i].board;
    const struct tally tally = tally_of(board, 0);
    struct lent key = lend(keys[i].bytes, length), table = lend_filled(0x3C, tables[i].length);
    struct lent out = lend_filled(0, board.value_bytes);
    int good = tally_make(tally, &table) == NSG_ACCEPTED;
    for (unsigned times = 0; times < 3; times++)
        good &= tally_add(tally, &key, &table) == NSG_ACCEPTED;
    good &= tally_add(tally_of(board, 1), &key, &table) == NSG_REFUSED_TALLY;
    good &= memcmp(table.bytes, tables[i].bytes, (size_t)table.length) == 0;
    good &= tally_look_up(tally, &table, board.positions - 1, &out) == NSG_ACCEPTED;
    good &= memcmp(out.bytes, tables[i].bytes + tables[i].length - out.length, (size_t)out.length) == 0;
    good &= tally_total(tally, &table, &out) == NSG_ACCEPTED;
    good &= memcmp(out.bytes, totals[i], (size_t)out.length) == 0;
    give_back(&out);
    give_back(&table);
    give_back(&key);
    return good;
}

/* One board: deals, opens player 0's table and squares of it, draws a card, joins, adds up a tally, writes the page;
   counts answers and bytes that differ. */
static unsigned differences(unsigned i)
{
    const struct board board = draws[i].board;
    struct lent own = lend_filled(0, keys[i].length), table = lend_filled(0, tables[i].length), whole = lend_filled(0, joined[i].length);
    struct lent fault = lend_fault(), page = lend_filled(0, pages[i].length);
    uint64_t length = keys[i].length / board.players;
    uint8_t card[CARD] = {0};
    unsigned differing = refusals_differing(i, &own);
    differing += deal(&draws[i], &own, &fault) != NSG_ACCEPTED;
    differing += memcmp(own.bytes, keys[i].bytes, (size_t)own.length) != 0 || !untouched(&fault);
    differing += nsg_open_all(keys[i].bytes, length, table.bytes, table.length) != NSG_ACCEPTED;
    differing += memcmp(table.bytes, tables[i].bytes, (size_t)table.length) != 0;
    differing += squares_differing(i, length);
    differing += !draws_card(i, length, card) || memcmp(card, cards[i].bytes, CARD) != 0;
    differing += nsg_join_keys(keys[i].bytes, keys[i].length, whole.bytes, whole.length) != NSG_ACCEPTED;
    differing += memcmp(whole.bytes, joined[i].bytes, (size_t)whole.length) != 0;
    differing += !tallies(i, length);
    differing += !writes_page(i, &page) || memcmp(page.bytes, pages[i].bytes, (size_t)page.length) != 0;
    differing += nsg_open_all(keys[i].bytes, length - 1, table.bytes, table.length) != NSG_REFUSED_LENGTH;
    give_back(&page);
    give_back(&fault);
    give_back(&own);
    give_back(&table);
    give_back(&whole);
    return differing;
}

static void *run(void *argument)
{
    struct work *work = argument;
    pthread_barrier_wait(&start);
    for (unsigned round = 0; round < ROUNDS; round++)
        work->differing += differences((work->number + round) % BOARDS);
    return NULL;
}

void test_threads(void)
{
    static const struct board boards[BOARDS] = {{2, 64, 12, 16}, {4, 72, 24, 1}, {5, 300, 34, 3}, {6, 1000, 179, 4}};
    struct work works[THREADS];
    for (unsigned i = 0; i < BOARDS; i++) {
        draws[i] = draw_dealing(boards[i], boards[i].positions / 2);
        keys[i] = dealt_keys(&draws[i]);
        spoiled[i] = lend(draws[i].arrays.bytes, draws[i].arrays.length);
        spoiled[i].bytes[spoiled[i].length - 1] = spoiled[i].bytes[spoiled[i].length - 2];
        tables[i] = lend_filled(0, NSG_TABLE_BYTES(boards[i].positions, boards[i].value_bytes));
        joined[i] = lend_filled(0, tables[i].length);
        CHECK(nsg_open_all(keys[i].bytes, key_length(boards[i]), tables[i].bytes, tables[i].length) == NSG_ACCEPTED);
        CHECK(nsg_join_keys(keys[i].bytes, keys[i].length, joined[i].bytes, joined[i].length) == NSG_ACCEPTED);
        for (uint64_t j = 0; j < tables[i].length; j++)
            totals[i][j % boards[i].value_bytes] ^= tables[i].bytes[j];
        decks[i] = lend_drawn(NSG_DECK_BYTES(boards[i].positions, CARD));
        cards[i] = lend_filled(0, CARD);
        CHECK(draws_card(i, key_length(boards[i]), cards[i].bytes));
        pages[i] = lend_filled(0, NSG_PAGE_BYTES(boards[i].positions, boards[i].value_bytes));
        CHECK(writes_page(i, &pages[i]));
    }
    CHECK(pthread_barrier_init(&start, NULL, THREADS) == 0);
    for (unsigned t = 0; t < THREADS; t++) {
        works[t].number = t;
        works[t].differing = 0;
        CHECK(pthread_create(&works[t].thread, NULL, run, &works[t]) == 0);
    }
    for (unsigned t = 0; t < THREADS; t++) {
        CHECK(pthread_join(works[t].thread, NULL) == 0);
        CHECK(works[t].differing == 0);
    }
    pthread_barrier_destroy(&start);
    for (unsigned i = 0; i < BOARDS; i++) {
        give_back_draw(&draws[i]);
        give_back(&keys[i]);
        give_back(&spoiled[i]);
        give_back(&tables[i]);
        give_back(&joined[i]);
        give_back(&decks[i]);
        give_back(&cards[i]);
        give_back(&pages[i]);
    }
    printf("threads: %u threads, %u rounds each\n", (unsigned)THREADS, (unsigned)ROUNDS);
}
