/* What the C tests share: checks that count, lent bytes that remember what they were, and dealings drawn from a fixed sequence. */
#ifndef NSG_TESTS_COMMON_H
#define NSG_TESTS_COMMON_H

#include <nosingginger.h>

/* Counts a check; one that fails is printed with its place. main's status is 1 where one failed. */
#define CHECK(fact) check(fact, #fact, __FILE__, __LINE__)
void check(int fact, const char *text, const char *file, int line);
extern unsigned long checks_made, checks_failed;

/* Bytes lent to a call: a heap block of exactly that length, so that valgrind and the sanitizers see a byte read or written outside it, and
   a copy of what it held. An empty slice points right behind a block. */
struct lent {
    uint8_t *block, *bytes, *before;
    uint64_t length;
};
struct lent lend(const uint8_t *bytes, uint64_t length);
struct lent lend_filled(uint8_t fill, uint64_t length);
struct lent lend_drawn(uint64_t length);           /* bytes of the sequence below */
struct lent lend_fault(void);                      /* room for what nsg_deal tells of a bad column, filled */
struct lent lend_number(void);                     /* room for a number that a call tells, filled */
uint32_t told(const struct lent *number);          /* what was told there */
int untouched(const struct lent *lent);            /* all bytes are as they were lent */
int untouched_past(const struct lent *lent, uint64_t written);   /* those behind the first `written` are */
void give_back(struct lent *lent);

/* The next number of the test's own fixed sequence, and one below `limit`. No random source: the same numbers in every run. */
uint64_t next_number(void);
uint32_t next_below(uint32_t limit);

struct board {
    uint32_t players, positions, width, value_bytes;
};

/* What nsg_deal takes for a board, drawn from the sequence. */
struct draw {
    struct board board;
    uint32_t point;
    struct lent value, arrays, seeds, words;
};
struct draw draw_dealing(struct board board, uint32_t point);
uint32_t deal(const struct draw *draw, struct lent *keys, struct lent *fault);
int tells(const struct lent *fault, uint32_t grid_row, uint32_t column);   /* whether nsg_deal told this place */
void give_back_draw(struct draw *draw);
uint32_t draw_card(const struct lent *key, const struct lent *deck, uint32_t card_bytes, struct lent *out);
uint32_t write_page(uint32_t positions, uint32_t value_bytes, const struct lent *table, struct lent *out,
                    struct lent *written);

/* A tally's numbers, and its four calls. */
struct tally {
    uint32_t players, player, positions, value_bytes;
};
struct tally tally_of(struct board board, uint32_t player);
uint32_t tally_make(struct tally tally, struct lent *table);
uint32_t tally_add(struct tally tally, const struct lent *key, struct lent *table);
uint32_t tally_look_up(struct tally tally, const struct lent *table, uint32_t position, struct lent *out);
uint32_t tally_total(struct tally tally, const struct lent *table, struct lent *out);

uint32_t key_length(struct board board);           /* of a board that is accepted */
struct lent dealt_keys(const struct draw *draw);   /* the keys of a dealing that is accepted, and tells no place */

/* A player's key, of all keys of a dealing on this board. */
struct lent key_of(struct board board, const struct lent *keys, uint32_t player);

/* The parts of the test. */
void test_operations(void);
void test_refusals(void);
void test_threads(void);

#endif
