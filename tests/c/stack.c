/* How much stack each call uses: it runs once on a painted stack of its own, and the paint that is gone is counted. A
   call of nothing is measured first and taken off. Fails where a call is refused, but for the one that has to be, or
   needs more than NSG_STACK_BYTES; where a draw or a tally's call, which keep no table of their own, needs more than
   NO_TABLE_STACK. */
#define _XOPEN_SOURCE 600
#include "common.h"
#include <stdio.h>
#include <string.h>
#include <ucontext.h>

enum { STACK = 256 * 1024, PAINT = 0xB7, NO_TABLE_STACK = 4096 };

static uint8_t stack[STACK];
static ucontext_t outside, inside;

/* What the calls work on: the largest rows and the most columns that there are, and a joined table that is not too long. The spoiled draw has
   its last column twice; the narrow one has cells of 15 bytes, and the fifth lies across two blocks of its row. The
   tallies are of these boards' first players. */
static struct draw draw, spoiled, narrow;
static const struct tally tally = {6, 0, 1024, 16}, narrow_tally = {3, 0, 1024, 15};
static struct lent keys, first, across, table, share, fault, narrow_table, page, written;
static uint32_t length, number, header[NSG_HEADER_NUMBERS], answer;

/* A player's key, a deck and a card's length, for a draw. */
static struct lent key, deck;
static uint32_t card_bytes;

static void call_nothing(void) { answer = NSG_ACCEPTED; }
static void call_key_length(void) { answer = nsg_key_length(6, 1024, 256, 16, &number); }
static void call_deal(void) { answer = deal(&draw, &keys, &fault); }
static void call_bad_deal(void) { answer = deal(&spoiled, &keys, &fault) != NSG_REFUSED_COLUMN_TWICE; }
static void call_check_key(void) { answer = nsg_check_key(keys.bytes, length, header); }
static void call_open_one(void) { answer = nsg_open_one(keys.bytes, length, 1023, table.bytes, table.length); }
static void call_open_across(void) { answer = nsg_open_one(across.bytes, across.length, 4, table.bytes, table.length); }
static void call_open_all(void) { answer = nsg_open_all(keys.bytes, length, table.bytes, table.length); }
static void call_draw_card(void) { answer = draw_card(&key, &deck, card_bytes, &table); }
static void call_join_shares(void) { answer = nsg_join_shares(6, 16, keys.bytes, 6 * 16, table.bytes, table.length); }
static void call_join_wide(void) { answer = nsg_join_shares(6, 256, keys.bytes, 6 * 256, table.bytes, table.length); }
static void call_join_keys(void) { answer = nsg_join_keys(keys.bytes, keys.length, table.bytes, table.length); }
static void call_tally_make(void) { answer = tally_make(tally, &table); }
static void call_tally_add(void) { answer = tally_add(tally, &first, &table); }
static void call_tally_add_narrow(void) { answer = tally_add(narrow_tally, &across, &table); }
static void call_tally_look_up(void) { answer = tally_look_up(tally, &table, 1023, &share); }
static void call_tally_total(void) { answer = tally_total(tally, &table, &share); }
static void call_write_page(void) { answer = write_page(1024, 16, &table, &page, &written); }
static void call_write_narrow(void) { answer = write_page(1023, 1, &narrow_table, &page, &written); }
static void call_held_seed(void) { answer = nsg_held_seed(keys.bytes, length, 3, 31) + nsg_held_seed(keys.bytes, length, 3, 30) == 0; }
static void call_expand(void) { answer = nsg_expand(draw.seeds.bytes, 32, 0, table.bytes, NSG_MOST_EXPANDED_BYTES); }
static void call_expand_later(void) { answer = nsg_expand(draw.seeds.bytes, 32, 63, table.bytes, 4096 - 63); }
static void call_choose_width(void) { answer = nsg_choose_width(6, 65536, 16, &number); }
static void call_sensor_position(void) { answer = nsg_sensor_position(71, &number); }

struct call {
    const char *name;
    void (*call)(void);
};

static const struct call calls[] = {
    {"nsg_key_length", call_key_length}, {"nsg_deal", call_deal}, {"nsg_deal, refused for a column", call_bad_deal},
    {"nsg_check_key", call_check_key}, {"nsg_open_one", call_open_one},
    {"nsg_open_one, three players, a cell in two blocks", call_open_across}, {"nsg_open_all", call_open_all},
    {"nsg_join_shares", call_join_shares}, {"nsg_join_shares, of the widest shares", call_join_wide},
    {"nsg_join_keys", call_join_keys}, {"nsg_write_page", call_write_page},
    {"nsg_write_page, of one byte", call_write_narrow}, {"nsg_held_seed", call_held_seed},
    {"nsg_expand", call_expand}, {"nsg_expand, from within a block", call_expand_later},
    {"nsg_choose_width", call_choose_width}, {"nsg_sensor_position", call_sensor_position},
}, tally_calls[] = {
    {"nsg_tally_make", call_tally_make}, {"nsg_tally_add", call_tally_add},
    {"nsg_tally_add, three players", call_tally_add_narrow}, {"nsg_tally_look_up", call_tally_look_up},
    {"nsg_tally_total", call_tally_total},
};

/* The bytes of the painted stack that a call changed, from the deepest of them up. The stack grows down. */
static unsigned used_by(void (*call)(void))
{
    unsigned untouched_bytes = 0;
    call();   /* once before, so that the loader's own work at a first call is not counted */
    memset(stack, PAINT, sizeof stack);
    getcontext(&inside);
    inside.uc_stack.ss_sp = stack;
    inside.uc_stack.ss_size = sizeof stack;
    inside.uc_link = &outside;
    makecontext(&inside, call, 0);
    swapcontext(&outside, &inside);
    while (untouched_bytes < STACK && stack[untouched_bytes] == PAINT)
        untouched_bytes++;
    return STACK - untouched_bytes;
}

/* The most that these calls use; each may use so many bytes. */
static unsigned used_by_calls(const struct call *these, unsigned count, unsigned nothing, unsigned allowed)
{
    unsigned most = 0;
    for (unsigned i = 0; i < count; i++) {
        unsigned used = used_by(these[i].call) - nothing;
        CHECK(answer == NSG_ACCEPTED);
        CHECK(used <= allowed);
        most = used > most ? used : most;
        printf("stack: %-30s %6u bytes\n", these[i].name, used);
    }
    return most;
}

/* The most that a draw uses: two, three and six players, who hold one seed of a grid row, two and sixteen, draw from
   decks of one grid row and of many, cards of one byte to the longest. */
static unsigned used_by_draws(unsigned nothing)
{
    static const struct board boards[] = {{2, 1, 1, 1}, {2, 65536, 256, 1}, {3, 1000, 256, 1}, {3, 100, 7, 1},
                                          {6, 1024, 256, 1}};
    static const uint32_t lengths[] = {1, 15, 16, 17, 256};
    unsigned most = 0;
    for (unsigned i = 0; i < 5; i++) {
        struct draw cards = draw_dealing(boards[i], 0);
        unsigned here = 0;
        key = dealt_keys(&cards);
        key.length = key_length(boards[i]);   /* player 0's */
        for (unsigned j = 0; j < 5; j++) {
            card_bytes = lengths[j];
            deck = lend_filled(0x6D, NSG_DECK_BYTES(boards[i].positions, card_bytes));
            unsigned used = used_by(call_draw_card) - nothing;
            CHECK(answer == NSG_ACCEPTED);
            CHECK(used <= NO_TABLE_STACK);
            here = used > here ? used : here;
            give_back(&deck);
        }
        printf("stack: nsg_draw_card, players: %u, positions: %u, width: %u   %6u bytes\n", (unsigned)boards[i].players,
               (unsigned)boards[i].positions, (unsigned)boards[i].width, here);
        most = here > most ? here : most;
        give_back(&key);
        give_back_draw(&cards);
    }
    return most;
}

int main(void)
{
    unsigned nothing = used_by(call_nothing), most, other;
    draw = draw_dealing((struct board){6, 1024, 256, 16}, 1000);
    spoiled = draw_dealing(draw.board, 1000);
    spoiled.arrays.bytes[spoiled.arrays.length - 1] = spoiled.arrays.bytes[spoiled.arrays.length - 2];
    narrow = draw_dealing((struct board){3, 1024, 256, 15}, 1000);   /* two seeds held: no four to go side by side */
    length = key_length(draw.board);
    keys = dealt_keys(&draw);
    first = key_of(draw.board, &keys, 0);
    across = dealt_keys(&narrow);
    across.length = key_length(narrow.board);   /* player 0's key */
    table = lend_filled(0, 1024 * 16);
    share = lend_filled(0, 16);
    fault = lend_fault();
    narrow_table = lend_filled(0x6D, 1023);
    page = lend_filled(0, NSG_PAGE_BYTES(1024, 16));
    written = lend_number();
    most = used_by_calls(calls, sizeof calls / sizeof calls[0], nothing, NSG_STACK_BYTES);
    other = used_by_calls(tally_calls, sizeof tally_calls / sizeof tally_calls[0], nothing, NO_TABLE_STACK);
    most = other > most ? other : most;
    other = used_by_draws(nothing);
    most = other > most ? other : most;
    printf("stack: at most %u bytes, %u allowed; %lu checks, %lu failed\n", most, NSG_STACK_BYTES, checks_made, checks_failed);
    give_back(&written);
    give_back(&page);
    give_back(&narrow_table);
    give_back(&fault);
    give_back(&share);
    give_back(&table);
    give_back(&across);
    give_back(&first);
    give_back(&keys);
    give_back_draw(&narrow);
    give_back_draw(&spoiled);
    give_back_draw(&draw);
    return checks_failed != 0;
}
