/* Times the library against its peers, side by side in one run. Every result that is timed is first compared byte for byte, and a difference
   ends the run. Then contenders take turns, each with a few calls at a time; all races are run several times over, so that a bad moment of the
   machine falls on all alike, and the best and the median time of a call are kept. Prints tables in Markdown. Usage: bench, with no words; see
   ./run. */
#include "contenders.h"
#include <bearssl.h>
#include <sodium.h>
#include <stdio.h>
#include <stdlib.h>
#include <string.h>
#include <time.h>

enum { SEED = NSG_SEED_BYTES, MOST_ROW = NSG_MOST_EXPANDED_BYTES, MOST_CARD = NSG_MOST_SHARE_BYTES };
enum { GUARD = 64, SQUARES = 64, MOST_DECKS = 17 };
enum { PASSES = 8, MOST_TASKS = 9, MOST_ROUNDS = 4000, LEAST_ROUNDS = 10 }; /* rounds of a race in each pass */

static const double TURN = 20e-6; /* seconds that a contender's turn takes about, if one call is not longer */
static const double RACE = 0.3;   /* seconds that a race takes about in each pass */

/* ---- the contenders */

enum { OURS, PLAIN, LIBSODIUM, CONTENDERS };

static const struct contender {
    const char *name;
    deal_call *deal;
    open_one_call *open_one;
    one_slice_call *open_all, *join_keys;
    draw_card_call *draw_card;
    expand_call *expand;
} contenders[CONTENDERS] = {
    {"ours", nsg_deal, nsg_open_one, nsg_open_all, nsg_join_keys, nsg_draw_card, nsg_expand},
    {"plain C", plain_deal, plain_open_one, plain_open_all, plain_join_keys, plain_draw_card, plain_expand},
    {"libsodium", libsodium_deal, libsodium_open_one, libsodium_open_all, libsodium_join_keys, libsodium_draw_card,
     libsodium_expand},
};

/* BearSSL XORs the key stream into the bytes that are there. It begins with a block, so a head goes through a block of its own. */
static uint32_t bearssl_expand(const uint8_t *seed, uint64_t seed_length, uint64_t start, uint8_t *out, uint64_t length)
{
    static const uint8_t nonce[12];
    size_t head = head_bytes(start, length);
    (void)seed_length;
    if (head > 0) {
        uint8_t block[64] = {0};
        memcpy(block + start % 64, out, head);
        br_chacha20_ct_run(seed, nonce, (uint32_t)(start / 64), block, 64);
        memcpy(out, block + start % 64, head);
    }
    br_chacha20_ct_run(seed, nonce, (uint32_t)((start + head) / 64), out + head, length - head);
    return 0;
}

static void fail(const char *what, const char *who, const char *why)
{
    fprintf(stderr, "bench: %s by %s: %s\n", what, who, why);
    exit(1);
}

/* ---- matches: a board, what is lent to Deal, and the keys */

struct match {
    uint32_t players, positions, width, value_bytes, point;
    uint64_t arrays_length, seeds_length, words_length, key_length, keys_length, table_length;
    uint8_t value[16], *arrays, *seeds, *words, *keys;
    uint32_t fault[NSG_FAULT_NUMBERS]; /* where a deal found a bad column */
    uint32_t squares[SQUARES]; /* what Open one opens in turn */
    /* for Draw card, whose calls read its decks in turn, around and around */
    const uint8_t *decks; /* the first; the next begin NSG_MOST_DECK_BYTES on from one another */
    uint32_t card_bytes, deck_count, next_deck;
    uint64_t deck_length;
    const uint8_t *table; /* for Write page, which takes no key */
};

static void *got(void *p)
{
    if (p == NULL) {
        fputs("bench: no memory\n", stderr);
        exit(2);
    }
    return p;
}

static void *bytes(uint64_t length)
{
    return got(malloc(length));
}

/* The same bytes in every run. */
static uint64_t drawn(void)
{
    static uint64_t state = 1;
    uint64_t z = state += 0x9e3779b97f4a7c15;
    z = (z ^ z >> 30) * 0xbf58476d1ce4e5b9;
    z = (z ^ z >> 27) * 0x94d049bb133111eb;
    return z ^ z >> 31;
}

static void draw_bytes(uint8_t *p, uint64_t length)
{
    for (uint64_t i = 0; i < length; i++)
        p[i] = (uint8_t)drawn();
}

static uint8_t *drawn_bytes(uint64_t length)
{
    uint8_t *p = bytes(length);
    draw_bytes(p, length);
    return p;
}

/* Writes every column of the parity once, in an order that is drawn. */
static void draw_array(uint32_t players, int odd, uint8_t *array)
{
    uint32_t count = 0;
    for (uint32_t column = 0; column < 1u << players; column++)
        if ((__builtin_popcount(column) & 1) == odd) {
            uint32_t place = (uint32_t)(drawn() % (count + 1));
            array[count++] = array[place];
            array[place] = (uint8_t)column;
        }
}

static struct match drawn_match(uint32_t players, uint32_t positions, uint32_t width, uint32_t value_bytes)
{
    struct match m = {.players = players, .positions = positions, .width = width, .value_bytes = value_bytes};
    uint32_t columns = NSG_COLUMNS(players), grid_rows = NSG_GRID_ROWS(positions, width), key_length;
    if (nsg_key_length(players, positions, width, value_bytes, &key_length) != NSG_ACCEPTED)
        fail("key length", "ours", "refused");
    m.point = (uint32_t)(drawn() % positions);
    m.arrays_length = NSG_ARRAYS_BYTES(players, positions, width);
    m.seeds_length = NSG_SEEDS_BYTES(players, positions, width);
    m.words_length = NSG_WORDS_BYTES(players, width, value_bytes);
    m.table_length = NSG_TABLE_BYTES(positions, value_bytes);
    m.key_length = key_length;
    m.keys_length = players * m.key_length;
    m.arrays = bytes(m.arrays_length);
    for (uint32_t g = 0; g < grid_rows; g++)
        draw_array(players, g == m.point / width, m.arrays + g * columns);
    m.seeds = drawn_bytes(m.seeds_length);
    m.words = drawn_bytes(m.words_length);
    for (int i = 0; i < 16; i++)
        m.value[i] = (uint8_t)(drawn() | 1);
    m.keys = bytes(m.keys_length + GUARD);
    return m;
}

/* ---- tasks: one call of a contender */

enum work { EXPAND, OPEN_ONE, OPEN_ALL, DEAL, JOIN_KEYS, DRAW_CARD, READ_ONCE, WRITE_PAGE, CHOOSE_WIDTH };

struct task {
    enum work work;
    const struct contender *by;
    struct match *match;
    expand_call *expand; /* for EXPAND */
    uint64_t length;     /* for EXPAND */
    uint32_t player;     /* for DRAW_CARD, whose key it is; the others take the first */
    write_page_call *write_page;
    choose_width_call *choose_width;
    uint8_t *out;        /* has room for what the task writes */
};

static const uint8_t *deck_at(const struct match *m, uint32_t number)
{
    return m->decks + (size_t)number * NSG_MOST_DECK_BYTES;
}

static const uint8_t *deck_in_turn(struct match *m)
{
    const uint8_t *deck = deck_at(m, m->next_deck);
    m->next_deck = (m->next_deck + 1) % m->deck_count;
    return deck;
}

/* Makes the task's call; `before` were made in this turn. */
static uint32_t done(const struct task *t, int before)
{
    static const uint8_t seed[SEED] = {1, 2, 3};
    struct match *m = t->match;
    uint32_t written;
    switch (t->work) {
    case EXPAND:
        return t->expand(seed, SEED, 0, t->out, t->length);
    case OPEN_ONE:
        return t->by->open_one(m->keys, m->key_length, m->squares[before % SQUARES], t->out, m->value_bytes);
    case OPEN_ALL:
        return t->by->open_all(m->keys, m->key_length, t->out, m->table_length);
    case JOIN_KEYS:
        return t->by->join_keys(m->keys, m->keys_length, t->out, m->table_length);
    case DRAW_CARD:
        return t->by->draw_card(m->keys + t->player * m->key_length, m->key_length, deck_in_turn(m), m->deck_length,
                                m->card_bytes, t->out, m->card_bytes);
    case READ_ONCE:
        t->out[0] = read_once(deck_in_turn(m), m->deck_length);
        return NSG_ACCEPTED;
    case WRITE_PAGE:
        return t->write_page(m->positions, m->value_bytes, m->table, m->table_length, t->out, NSG_MOST_PAGE_BYTES,
                             &written);
    case CHOOSE_WIDTH:
        return t->choose_width(m->players, m->positions, m->value_bytes, &m->width);
    default:
        return t->by->deal(m->players, m->positions, m->width, m->value_bytes, m->point, m->value, m->value_bytes, m->arrays,
                           m->arrays_length, m->seeds, m->seeds_length, m->words, m->words_length, t->out, m->keys_length, m->fault);
    }
}

/* ---- bytes, before any time */

static void same(const char *what, const char *who, uint32_t answer, const uint8_t *expected, const uint8_t *given, uint64_t length)
{
    if (answer != NSG_ACCEPTED)
        fail(what, who, "refused");
    if (memcmp(expected, given, length) != 0)
        fail(what, who, "bytes differ");
}

/* All expansions of a row's lengths from some starts are those bytes of BearSSL's whole key stream; bytes past the length stay. */
static void compare_expansions(void)
{
    static const uint64_t starts[] = {0, 1, 63, 64, 65, 127, 128, 777, 1920, 3001, 4080, 4095, 4096};
    const uint64_t room = MOST_ROW + GUARD;
    uint8_t *seed = drawn_bytes(SEED), *whole = bytes(MOST_ROW), *expected = bytes(room), *given = bytes(room);
    memset(whole, 0, MOST_ROW);
    bearssl_expand(seed, SEED, 0, whole, MOST_ROW);
    for (size_t k = 0; k < sizeof starts / sizeof starts[0]; k++)
        for (uint64_t length = 0; starts[k] + length <= MOST_ROW; length++) {
            memset(expected, 0xAA, room);
            memcpy(expected, whole + starts[k], length);
            for (int i = 0; i < CONTENDERS; i++) {
                memset(given, 0xAA, room);
                uint32_t answer = contenders[i].expand(seed, SEED, starts[k], given, length);
                same("expand", contenders[i].name, answer, expected, given, room);
            }
            memset(given, 0xAA, room);
            memset(given, 0, length);
            uint32_t answer = bearssl_expand(seed, SEED, starts[k], given, length);
            same("expand", "BearSSL", answer, expected, given, room);
        }
    free(seed);
    free(whole);
    free(expected);
    free(given);
}

/* All contenders open a square as its entry of the key's table: each square of a small board, some of a large one and its last. */
static void compare_squares(const struct match *m, const uint8_t *key, const uint8_t *table)
{
    uint8_t expected[NSG_MOST_VALUE_BYTES + GUARD], given[sizeof expected];
    const int step = 1 + (int)m->positions / 512;
    for (int position = (int)m->positions - 1; position >= 0; position -= step) {
        memset(expected, 0xAA, sizeof expected);
        memcpy(expected, table + (size_t)position * m->value_bytes, m->value_bytes);
        for (int i = 0; i < CONTENDERS; i++) {
            memset(given, 0xAA, sizeof given);
            uint32_t answer = contenders[i].open_one(key, m->key_length, (uint32_t)position, given, m->value_bytes);
            same("open one", contenders[i].name, answer, expected, given, sizeof given);
        }
    }
}

/* All contenders refuse a dealing for one bad column, with its number and its place: a bit that is no player's, the other parity, the first
   column of its array again. In each place of a small board's arrays, in some of a large one's. */
static void compare_faults(struct match *m)
{
    const uint64_t columns = NSG_COLUMNS(m->players), step = 1 + m->arrays_length / 512;
    uint8_t *given = bytes(m->keys_length);
    for (uint64_t place = 0; place < m->arrays_length; place += step) {
        const uint8_t column = m->arrays[place];
        const struct {
            uint32_t number;
            uint8_t column;
        } bad[] = {
            {NSG_REFUSED_COLUMN_BIT, (uint8_t)(column | 1u << m->players)},
            {NSG_REFUSED_COLUMN_PARITY, column ^ 1},
            {NSG_REFUSED_COLUMN_TWICE, m->arrays[place - place % columns]},
        };
        for (int k = 0; k < (place % columns == 0 ? 2 : 3); k++) {
            m->arrays[place] = bad[k].column;
            for (int i = 0; i < CONTENDERS; i++) {
                struct task t = {.work = DEAL, .by = &contenders[i], .match = m, .out = given};
                m->fault[0] = m->fault[1] = UINT32_MAX;
                if (done(&t, 0) != bad[k].number || m->fault[0] != place / columns || m->fault[1] != place % columns)
                    fail("deal", contenders[i].name, "a bad column is not found where it is");
            }
            m->arrays[place] = column;
        }
    }
    free(given);
}

/* All contenders deal the same keys, open each of them as the same table and squares, and join them to the piece alone. The match keeps
   its keys. */
static void compare_match(struct match *m)
{
    uint64_t keys = m->keys_length + GUARD, table = m->table_length + GUARD;
    uint8_t *dealt = bytes(keys), *joined = bytes(table), *opened = bytes(table), *given = bytes(table);
    memset(m->keys, 0xAA, keys);
    for (int i = 0; i < CONTENDERS; i++) {
        struct task t = {.work = DEAL, .by = &contenders[i], .match = m, .out = i == OURS ? m->keys : dealt};
        memset(t.out, 0xAA, keys);
        uint32_t answer = done(&t, 0);
        same("deal", contenders[i].name, answer, m->keys, t.out, keys);
    }
    memset(joined, 0, table);
    memset(joined + m->table_length, 0xAA, GUARD);
    memcpy(joined + (uint64_t)m->point * m->value_bytes, m->value, m->value_bytes);
    for (int i = 0; i < CONTENDERS; i++) {
        memset(given, 0xAA, table);
        struct task t = {.work = JOIN_KEYS, .by = &contenders[i], .match = m, .out = given};
        uint32_t answer = done(&t, 0);
        same("join keys", contenders[i].name, answer, joined, given, table);
    }
    for (uint32_t player = 0; player < m->players; player++) {
        const uint8_t *key = m->keys + player * m->key_length;
        for (int i = 0; i < CONTENDERS; i++) {
            uint8_t *out = i == OURS ? opened : given;
            memset(out, 0xAA, table);
            uint32_t answer = contenders[i].open_all(key, m->key_length, out, m->table_length);
            same("open all", contenders[i].name, answer, opened, out, table);
        }
        compare_squares(m, key, opened);
    }
    free(dealt);
    free(joined);
    free(opened);
    free(given);
}

/* All contenders draw the same bytes with each key from each deck in turn, and those of all keys join to the deck's
   card of the point. */
static void compare_cards(struct match *m)
{
    const uint32_t length = m->card_bytes;
    uint8_t answers[MOST_DECKS][NSG_MOST_PLAYERS * MOST_CARD], expected[MOST_DECKS][MOST_CARD + GUARD];
    uint8_t given[sizeof expected[0]];
    for (uint32_t player = 0; player < m->players; player++)
        for (int i = 0; i < CONTENDERS; i++)
            for (uint32_t d = 0; d < m->deck_count; d++) {
                struct task t = {.work = DRAW_CARD, .by = &contenders[i], .match = m, .player = player};
                t.out = i == OURS ? expected[d] : given;
                memset(t.out, 0xAA, sizeof given);
                uint32_t answer = done(&t, 0);
                same("draw card", contenders[i].name, answer, expected[d], t.out, sizeof given);
                memcpy(answers[d] + player * length, t.out, length);
            }
    for (uint32_t d = 0; d < m->deck_count; d++) {
        uint32_t answer = nsg_join_shares(m->players, length, answers[d], m->players * length, given, length);
        same("draw card", "all players", answer, deck_at(m, d) + (size_t)m->point * length, given, length);
    }
}

/* Reading gives the XOR of all bytes of each deck in turn. */
static void compare_reading(struct match *m)
{
    for (uint32_t d = 0; d < m->deck_count; d++) {
        uint8_t sum = 0, given;
        struct task t = {.work = READ_ONCE, .match = m, .out = &given};
        for (uint64_t i = 0; i < m->deck_length; i++)
            sum ^= deck_at(m, d)[i];
        uint32_t answer = done(&t, 0);
        same("reading once", "plain C", answer, &sum, &given, 1);
    }
}

/* A page's contenders. */
static const struct {
    const char *name;
    write_page_call *write_page;
} writers[] = {{"ours", nsg_write_page}, {"plain C", plain_write_page}};
enum { WRITERS = sizeof writers / sizeof writers[0] };

static struct match drawn_table(uint32_t positions, uint32_t value_bytes)
{
    struct match m = {.positions = positions, .value_bytes = value_bytes};
    m.table_length = NSG_TABLE_BYTES(positions, value_bytes);
    m.table = drawn_bytes(m.table_length);
    return m;
}

/* Both write the same page, say the same number of bytes, and leave those behind it. */
static void compare_page(const struct match *m)
{
    const uint64_t length = NSG_PAGE_BYTES(m->positions, m->value_bytes), room = length + GUARD;
    uint8_t *expected = bytes(room), *given = bytes(room);
    for (int i = 0; i < WRITERS; i++) {
        uint8_t *out = i == OURS ? expected : given;
        uint32_t written = 0;
        memset(out, 0xAA, room);
        uint32_t answer = writers[i].write_page(m->positions, m->value_bytes, m->table, m->table_length, out, length,
                                                &written);
        same("write page", writers[i].name, answer, expected, out, room);
        if (written != length)
            fail("write page", writers[i].name, "another number of bytes");
    }
    free(expected);
    free(given);
}

/* Pages of every width, with last lines of every length. */
static void compare_pages(void)
{
    for (uint32_t value_bytes = 1; value_bytes <= NSG_MOST_VALUE_BYTES; value_bytes++)
        for (uint32_t positions = 1; positions <= 200; positions++) {
            struct match m = drawn_table(positions, value_bytes);
            compare_page(&m);
            free((void *)m.table);
        }
}

/* The contenders of Choose width. */
static const struct {
    const char *name;
    choose_width_call *choose_width;
} choosers[] = {{"ours", nsg_choose_width}, {"plain C", plain_choose_width}};
enum { CHOOSERS = sizeof choosers / sizeof choosers[0] };

/* Both choose the same width for every board that there is. */
static void compare_widths(void)
{
    for (uint32_t players = NSG_LEAST_PLAYERS; players <= NSG_MOST_PLAYERS; players++)
        for (uint32_t value_bytes = 1; value_bytes <= NSG_MOST_VALUE_BYTES; value_bytes++)
            for (uint32_t positions = 1; positions <= NSG_MOST_POSITIONS; positions++) {
                uint32_t widths[CHOOSERS];
                for (int i = 0; i < CHOOSERS; i++) {
                    uint32_t answer = choosers[i].choose_width(players, positions, value_bytes, &widths[i]);
                    same("choose width", choosers[i].name, answer, (uint8_t *)widths, (uint8_t *)&widths[i], sizeof widths[i]);
                }
            }
}

static void expect_width(uint32_t players, uint32_t positions, uint32_t value_bytes, uint32_t expected)
{
    uint32_t width;
    if (nsg_choose_width(players, positions, value_bytes, &width) != NSG_ACCEPTED || width != expected)
        fail("choose width", "ours", "not the board's");
}

/* ---- races: tasks that take turns */

struct timing {
    double best, median; /* nanoseconds of a call */
};

struct race {
    int count, calls[MOST_TASKS], rounds;
    struct task tasks[MOST_TASKS];
    double *times[MOST_TASKS]; /* seconds of a call, round by round */
    struct timing timings[MOST_TASKS];
};

static double seconds(void)
{
    struct timespec t;
    clock_gettime(CLOCK_MONOTONIC, &t);
    return (double)t.tv_sec + 1e-9 * (double)t.tv_nsec;
}

static double turn(const struct task *t, int calls)
{
    double began = seconds();
    for (int i = 0; i < calls; i++)
        done(t, i);
    return (seconds() - began) / calls;
}

/* How many calls of the task fill a turn. */
static int calls_of_turn(const struct task *t)
{
    double least = 1;
    for (int i = 0; i < 20; i++) {
        double once = turn(t, 1);
        least = once < least ? once : least;
    }
    return least >= TURN ? 1 : (int)(TURN / least);
}

/* Adds a task to a race. All tasks that are timed write to one place, so that none has a better one. */
static void enter(struct race *r, struct task task)
{
    static _Alignas(64) uint8_t out[NSG_MOST_PAGE_BYTES]; /* all keys take less */
    task.out = out;
    r->times[r->count] = bytes(PASSES * MOST_ROUNDS * sizeof(double));
    r->calls[r->count] = calls_of_turn(&task);
    r->tasks[r->count++] = task;
}

/* One pass: the tasks take turns, and who begins changes from round to round. */
static void run(struct race *r)
{
    double end = seconds() + RACE;
    for (int round = 0; round < MOST_ROUNDS && (round < LEAST_ROUNDS || seconds() < end); round++, r->rounds++)
        for (int i = 0; i < r->count; i++) {
            int k = (i + round) % r->count;
            r->times[k][r->rounds] = turn(&r->tasks[k], r->calls[k]);
        }
}

static int order(const void *a, const void *b)
{
    double x = *(const double *)a, y = *(const double *)b;
    return (x > y) - (x < y);
}

static void finish(struct race *r)
{
    for (int i = 0; i < r->count; i++) {
        qsort(r->times[i], (size_t)r->rounds, sizeof(double), order);
        r->timings[i].best = r->times[i][0] * 1e9;
        r->timings[i].median = r->times[i][r->rounds / 2] * 1e9;
        free(r->times[i]);
    }
}

/* ---- what is raced */

struct limits {
    double plain, libsodium; /* 0: none is asked */
};

static const struct {
    const char *name;
    uint64_t length;
    struct limits limits;
} expansions[] = {
    {"64 bytes", 64, {1.10, 0}},
    {"256 bytes", 256, {0.60, 0}},
    {"4,096 bytes", 4096, {0.55, 2.50}},
};
enum { EXPANSIONS = sizeof expansions / sizeof expansions[0] };

/* In each turn Open one opens square `first`, then the one `step` squares on, and so on, around the board's end. The spring board, N 72, has the
   width that Choose width says. The last board is for Open one alone. */
static const struct {
    const char *name;
    uint32_t players, positions, width, value_bytes, first, step;
    struct limits open_one, open_all, deal;
} boards[] = {
    {"p 4, N 72, μ 36, w 1", 4, 72, 36, 1, 71, 25, {1.00, 0}, {0.65, 0.80}, {0.80, 0}},
    {"p 6, N 72, μ 36, w 1", 6, 72, 36, 1, 71, 25, {1.00, 0}, {0.65, 0.80}, {0.80, 0}},
    {"p 2, N 256, μ 256, w 16", 2, 256, 256, 16, 255, 0, {1.00, 0}, {0.58, 0}, {0.80, 0}},
    {"p 3, N 65,536, μ 256, w 1", 3, 65536, 256, 1, 65535, 257, {0, 0}, {0.60, 0}, {0.80, 0}},
    {"p 6, N 4,096, μ 256, w 16", 6, 4096, 256, 16, 4095, 257, {0, 0}, {0.58, 0}, {0.80, 0}},
    {"p 3, N 256, μ 256, w 5, a cell across two blocks", 3, 256, 256, 5, 12, 64, {0, 0}, {0, 0}, {0, 0}},
};
enum { BOARDS = sizeof boards / sizeof boards[0], WHOLE_BOARDS = BOARDS - 1, JOINED_BOARD = 1, EXPANDED_BOARD = 2 };

/* Two families of three boards, of width 256 and values of one byte: N grows at one p, p grows at one N. */
static const struct {
    const char *name;
    uint32_t players, positions;
} families[2][3] = {
    {{"p 3, N 4,096", 3, 4096}, {"p 3, N 16,384", 3, 16384}, {"p 3, N 65,536", 3, 65536}},
    {{"p 2, N 4,096", 2, 4096}, {"p 4, N 4,096", 4, 4096}, {"p 6, N 4,096", 6, 4096}},
};

/* Decks of three players, on grids as wide as Choose width says; goals over plain C and over reading once. The last row
   has more decks in turn than a cache has room for, and an odd number of them, so that all four contenders come to each
   deck. */
static const struct {
    const char *name;
    uint32_t cards, card_bytes, count;
    double plain_goal, reading_goal;
} decks[] = {
    {"72 cards of 16 bytes", 72, 16, 1, 1.0, 0},
    {"4,096 cards of 64 bytes", 4096, 64, 1, 1.0, 0},
    {"65,536 cards of 16 bytes", 65536, 16, 1, 1.0, 0},
    {"65,536 cards of 256 bytes", 65536, 256, 1, 1.0, 1.3},
    {"65,536 cards of 256 bytes, 17 decks in turn, from memory", 65536, 256, MOST_DECKS, 1.0, 1.3},
};
enum { DECKS = sizeof decks / sizeof decks[0], DECK_PLAYERS = 3 };

/* Pages, whose tables are drawn at random: a joined one is zeros but for the piece, and who branches on a digit would
   foresee them. */
static const struct {
    const char *name;
    uint32_t positions, value_bytes;
    double limit;
} pages[] = {
    {"N 72, w 1: the spring board", 72, 1, 1.20},
    {"N 65,536, w 1", 65536, 1, 1.20},
    {"N 65,536, w 16", 65536, 16, 1.20},
};
enum { PAGES = sizeof pages / sizeof pages[0] };

/* What Choose width is asked. */
static const struct {
    const char *name;
    uint32_t players, positions, value_bytes;
    double limit;
} questions[] = {
    {"p 4, N 72, w 1: the spring board", 4, 72, 1, 1.20},
    {"p 2, N 1, w 16", 2, 1, 16, 1.20},
    {"p 6, N 4,096, w 16", 6, 4096, 16, 1.20},
    {"p 3, N 65,536, w 1", 3, 65536, 1, 1.20},
};
enum { QUESTIONS = sizeof questions / sizeof questions[0] };

static struct match matches[BOARDS], growing[2][3], drawing[DECKS], writing[PAGES], choosing[QUESTIONS];

/* All races. BearSSL runs in the races of expansion too, our Expand in one race of Open one, our Open all in the race
   of Join keys and reading once in the races of Draw card, each as the fourth. In those of Write page and Choose width
   ours and plain C run alone. */
static struct {
    struct race expand[EXPANSIONS], open_one[BOARDS], open_all[WHOLE_BOARDS], deal[WHOLE_BOARDS], join_keys, growth[2];
    struct race draw_card[DECKS], write_page[PAGES], choose_width[QUESTIONS];
} races;
enum { RACES = sizeof races / sizeof(struct race) };

static void enter_all(struct race *r, enum work work, struct match *m)
{
    for (int i = 0; i < CONTENDERS; i++)
        enter(r, (struct task){.work = work, .by = &contenders[i], .match = m});
}

/* Rows of one deck have it at one place, so that none has a better one; the row of many has others, which no other row
   leaves in a cache. */
static void prepare_cards(void)
{
    const size_t page = 4096, room = (size_t)(1 + MOST_DECKS) * NSG_MOST_DECK_BYTES;
    uint8_t *first = got(aligned_alloc(page, room));
    draw_bytes(first, room);
    for (int k = 0; k < DECKS; k++) {
        struct match *m = &drawing[k];
        uint32_t width;
        if (nsg_choose_width(DECK_PLAYERS, decks[k].cards, 1, &width) != NSG_ACCEPTED)
            fail("choose width", "ours", "refused");
        *m = drawn_match(DECK_PLAYERS, decks[k].cards, width, 1);
        m->card_bytes = decks[k].card_bytes;
        m->deck_length = (uint64_t)decks[k].cards * m->card_bytes;
        m->decks = decks[k].count == 1 ? first : first + NSG_MOST_DECK_BYTES;
        m->deck_count = decks[k].count;
        compare_match(m);
        compare_cards(m);
        compare_reading(m);
        enter_all(&races.draw_card[k], DRAW_CARD, m);
        enter(&races.draw_card[k], (struct task){.work = READ_ONCE, .match = m});
    }
}

static void prepare_pages(void)
{
    compare_pages();
    for (int k = 0; k < PAGES; k++) {
        writing[k] = drawn_table(pages[k].positions, pages[k].value_bytes);
        compare_page(&writing[k]);
        for (int i = 0; i < WRITERS; i++)
            enter(&races.write_page[k],
                  (struct task){.work = WRITE_PAGE, .match = &writing[k], .write_page = writers[i].write_page});
    }
}

static void prepare_widths(void)
{
    compare_widths();
    for (int k = 0; k < QUESTIONS; k++) {
        choosing[k] = (struct match){.players = questions[k].players, .positions = questions[k].positions,
                                     .value_bytes = questions[k].value_bytes};
        for (int i = 0; i < CHOOSERS; i++)
            enter(&races.choose_width[k],
                  (struct task){.work = CHOOSE_WIDTH, .match = &choosing[k], .choose_width = choosers[i].choose_width});
    }
}

static void prepare(void)
{
    for (int k = 0; k < EXPANSIONS; k++)
        for (int i = 0; i <= CONTENDERS; i++)
            enter(&races.expand[k], (struct task){.work = EXPAND,
                                                  .expand = i < CONTENDERS ? contenders[i].expand : bearssl_expand,
                                                  .length = expansions[k].length});
    for (int k = 0; k < BOARDS; k++) {
        if (boards[k].positions == NSG_SENSORS)
            expect_width(boards[k].players, boards[k].positions, boards[k].value_bytes, boards[k].width);
        matches[k] = drawn_match(boards[k].players, boards[k].positions, boards[k].width, boards[k].value_bytes);
        for (uint32_t i = 0; i < SQUARES; i++)
            matches[k].squares[i] = (boards[k].first + i * boards[k].step) % boards[k].positions;
        compare_match(&matches[k]);
        compare_faults(&matches[k]);
        enter_all(&races.open_one[k], OPEN_ONE, &matches[k]);
        if (k < WHOLE_BOARDS) {
            enter_all(&races.open_all[k], OPEN_ALL, &matches[k]);
            enter_all(&races.deal[k], DEAL, &matches[k]);
        }
    }
    enter(&races.open_one[EXPANDED_BOARD], (struct task){.work = EXPAND, .expand = nsg_expand, .length = MOST_ROW});
    enter_all(&races.join_keys, JOIN_KEYS, &matches[JOINED_BOARD]);
    enter(&races.join_keys, (struct task){.work = OPEN_ALL, .by = &contenders[OURS], .match = &matches[JOINED_BOARD]});
    for (int f = 0; f < 2; f++)
        for (int k = 0; k < 3; k++) {
            growing[f][k] = drawn_match(families[f][k].players, families[f][k].positions, 256, 1);
            compare_match(&growing[f][k]);
            enter_all(&races.growth[f], OPEN_ALL, &growing[f][k]);
        }
    prepare_cards();
    prepare_pages();
    prepare_widths();
}

/* ---- tables */

/* How far the median lies above the best, the largest of the contenders, in percent. */
static double spread(const struct timing *timings, int count)
{
    double most = 0;
    for (int i = 0; i < count; i++) {
        double each = 100 * (timings[i].median / timings[i].best - 1);
        most = each > most ? each : most;
    }
    return most;
}

/* A ratio and the goal for it, 0 where there is none. */
static void print_goal(double ratio, double goal)
{
    if (goal == 0)
        printf(" %.2f | |", ratio);
    else
        printf(" %.2f | %.2f |", ratio, goal);
}

/* A ratio and its limit, 0 where there is none; in bold above it. */
static void print_ratio(double ratio, double limit)
{
    if (limit == 0 || ratio <= limit)
        print_goal(ratio, limit);
    else
        printf(" **%.2f** | %.2f |", ratio, limit);
}

static void print_row(const char *work, const char *of, const struct race *r, struct limits limits)
{
    const struct timing *t = r->timings;
    printf("| %s %s | %.0f | %.0f | %.0f |", work, of, t[OURS].best, t[PLAIN].best, t[LIBSODIUM].best);
    print_ratio(t[OURS].best / t[PLAIN].best, limits.plain);
    print_ratio(t[OURS].best / t[LIBSODIUM].best, limits.libsodium);
    printf(" %.0f %% |\n", spread(t, CONTENDERS));
}

static void print_table(void)
{
    puts("## The table\n\n"
         "| work | ours, ns | plain C, ns | libsodium, ns | ours / plain C | at most | ours / libsodium | at most | spread |\n"
         "|---|---:|---:|---:|---:|---:|---:|---:|---:|");
    for (int k = 0; k < EXPANSIONS; k++)
        print_row("expand", expansions[k].name, &races.expand[k], expansions[k].limits);
    for (int k = 0; k < BOARDS; k++)
        print_row("open one,", boards[k].name, &races.open_one[k], boards[k].open_one);
    for (int k = 0; k < WHOLE_BOARDS; k++)
        print_row("open all,", boards[k].name, &races.open_all[k], boards[k].open_all);
    for (int k = 0; k < WHOLE_BOARDS; k++)
        print_row("deal,", boards[k].name, &races.deal[k], boards[k].deal);
    print_row("join keys,", boards[JOINED_BOARD].name, &races.join_keys, (struct limits){0, 0});
}

static void print_cards(void)
{
    puts("\n## Draw card\n\n"
         "| deck | ours, ns | plain C, ns | libsodium, ns | reading once, ns "
         "| ours / plain C | goal | ours / libsodium | ours / reading once | goal | spread |\n"
         "|---|---:|---:|---:|---:|---:|---:|---:|---:|---:|---:|");
    for (int k = 0; k < DECKS; k++) {
        const struct timing *t = races.draw_card[k].timings;
        printf("| p %u, μ %u: %s |", drawing[k].players, drawing[k].width, decks[k].name);
        for (int i = 0; i <= CONTENDERS; i++)
            printf(" %.0f |", t[i].best);
        print_goal(t[OURS].best / t[PLAIN].best, decks[k].plain_goal);
        printf(" %.2f |", t[OURS].best / t[LIBSODIUM].best);
        print_goal(t[OURS].best / t[CONTENDERS].best, decks[k].reading_goal);
        printf(" %.0f %% |\n", spread(t, CONTENDERS + 1));
    }
}

static void print_pages(void)
{
    puts("\n## Write page\n\n"
         "| page | bytes | ours, ns | plain C, ns | ours / plain C | at most | spread |\n"
         "|---|---:|---:|---:|---:|---:|---:|");
    for (int k = 0; k < PAGES; k++) {
        const struct timing *t = races.write_page[k].timings;
        printf("| %s | %u | %.0f | %.0f |", pages[k].name, NSG_PAGE_BYTES(pages[k].positions, pages[k].value_bytes),
               t[OURS].best, t[PLAIN].best);
        print_ratio(t[OURS].best / t[PLAIN].best, pages[k].limit);
        printf(" %.0f %% |\n", spread(t, WRITERS));
    }
}

static void print_widths(void)
{
    puts("\n## Choose width\n\n"
         "| board | width | ours, ns | plain C, ns | ours / plain C | at most | spread |\n"
         "|---|---:|---:|---:|---:|---:|---:|");
    for (int k = 0; k < QUESTIONS; k++) {
        const struct timing *t = races.choose_width[k].timings;
        printf("| %s | %u | %.0f | %.0f |", questions[k].name, choosing[k].width, t[OURS].best, t[PLAIN].best);
        print_ratio(t[OURS].best / t[PLAIN].best, questions[k].limit);
        printf(" %.0f %% |\n", spread(t, CHOOSERS));
    }
}

static void print_open_one(void)
{
    const struct timing *t = races.open_one[EXPANDED_BOARD].timings, *open = &t[OURS], *expand = &t[CONTENDERS];
    puts("\n## Open one against Expand\n\n"
         "| board | open one, ns | expand 4,096 bytes, ns | open one / expand | at most | goal |\n|---|---:|---:|---:|---:|---:|");
    printf("| %s, position %u | %.0f | %.0f |", boards[EXPANDED_BOARD].name, boards[EXPANDED_BOARD].first, open->best, expand->best);
    print_ratio(open->best / expand->best, 0.25);
    puts(" 0.08 |");
}

static void print_join(void)
{
    const struct timing *join = &races.join_keys.timings[OURS], *open = &races.join_keys.timings[CONTENDERS];
    puts("\n## Join keys against Open all\n\n"
         "| board | join keys, ns | open all, ns | join keys / (p × open all) | at most |\n|---|---:|---:|---:|---:|");
    printf("| %s | %.0f | %.0f |", boards[JOINED_BOARD].name, join->best, open->best);
    print_ratio(join->best / (boards[JOINED_BOARD].players * open->best), 1.10);
    puts("");
}

static void print_peer(void)
{
    puts("\n## The plain C peer against BearSSL\n\n"
         "| work | plain C, ns | BearSSL, ns | plain C / BearSSL | at most |\n|---|---:|---:|---:|---:|");
    for (int k = 0; k < EXPANSIONS; k++) {
        const struct timing *plain = &races.expand[k].timings[PLAIN], *bearssl = &races.expand[k].timings[CONTENDERS];
        printf("| expand %s | %.0f | %.0f |", expansions[k].name, plain->best, bearssl->best);
        print_ratio(plain->best / bearssl->best, 1.00);
        puts("");
    }
}

/* ChaCha20 blocks that Open all takes by the scheme: each held seed, half of the columns in each grid row, is expanded once. */
static double blocks(const struct match *m)
{
    return NSG_GRID_ROWS(m->positions, m->width) * (NSG_COLUMNS(m->players) / 2) * ((m->width * m->value_bytes + 63) / 64);
}

/* What Open all takes on each board, and that over what it takes on the board before. */
static void print_growth(void)
{
    puts("\n## Growth of Open all\n\n"
         "| board | blocks | ours, µs | plain C, µs | libsodium, µs | growth by the scheme | ours | plain C | libsodium | spread |\n"
         "|---|---:|---:|---:|---:|---:|---:|---:|---:|---:|");
    for (int f = 0; f < 2; f++)
        for (int k = 0; k < 3; k++) {
            const struct match *m = &growing[f][k];
            const struct timing *t = &races.growth[f].timings[CONTENDERS * k];
            printf("| %s, μ 256, w 1 | %.0f |", families[f][k].name, blocks(m));
            for (int i = 0; i < CONTENDERS; i++)
                printf(" %.1f |", t[i].best / 1000);
            if (k == 0)
                printf(" | | | |");
            else {
                printf(" %.2f |", blocks(m) / blocks(m - 1));
                for (int i = 0; i < CONTENDERS; i++)
                    printf(" %.2f |", t[i].best / t[i - CONTENDERS].best);
            }
            printf(" %.0f %% |\n", spread(t, CONTENDERS));
        }
}

int main(void)
{
    struct race *all = (struct race *)&races;
    double most = 0;
    if (sodium_init() < 0)
        return 2;
    compare_expansions();
    prepare();
    for (int pass = 0; pass < PASSES; pass++)
        for (int i = 0; i < RACES; i++)
            run(&all[i]);
    for (int i = 0; i < RACES; i++) {
        finish(&all[i]);
        double each = spread(all[i].timings, all[i].count);
        most = each > most ? each : most;
    }
    print_table();
    print_cards();
    print_pages();
    print_widths();
    print_open_one();
    print_join();
    print_peer();
    print_growth();
    printf("\nThe largest spread of this run is %.0f %%.\n", most);
    return 0;
}
