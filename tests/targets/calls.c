/* The test of a target, the same text for all of them: the comparison's data, random calls, and the largest dealings of a small board.
   What it prints is compared with what it prints over the x86-64 library. It needs no C library and no more memory than ROOM bytes, two
   small buffers and a little stack. */
#include "nosingginger.h"
#include "platform.h"

/* ROOM, which the compiler is given, is how many bytes a call's lent slices may take together; BOARD_ROOM is what the small board has. There
   the larger calls are left out; all others are the same on every target. */
#if ROOM < BOARD_ROOM
#error "every target has at least the small board's room"
#endif

enum { ROUNDS = 1000, LARGE_ROUNDS = 60, LARGE_ROOM = 1 << 19 };
enum { GUARD = 16, GUARD_BYTE = 0x5A, CHUNK = 256 };

static uint8_t room[ROOM + GUARD];
static uint32_t wrong;

/* ---- printing */

void text(const char *words)
{
    uint32_t length = 0;
    while (words[length] != 0)
        length++;
    say(words, length);
}

void decimal(uint32_t number)
{
    char digits[10];
    uint32_t at = sizeof digits;
    do {
        digits[--at] = (char)('0' + number % 10);
        number /= 10;
    } while (number != 0);
    say(digits + at, (uint32_t)sizeof digits - at);
}

static void hexadecimal(uint64_t number)
{
    char digits[16];
    for (uint32_t i = 0; i < 16; i++)
        digits[i] = "0123456789abcdef"[number >> (60 - 4 * i) & 15];
    say(digits, 16);
}

/* ---- bytes */

static void fill(uint8_t *bytes, uint32_t length, uint8_t byte)
{
    for (uint32_t i = 0; i < length; i++)
        bytes[i] = byte;
}

static uint32_t all_are(const uint8_t *bytes, uint32_t length, uint8_t byte)
{
    for (uint32_t i = 0; i < length; i++)
        if (bytes[i] != byte)
            return 0;
    return 1;
}

/* FNV-1a, over everything that was answered. */
static uint64_t digest;

static uint64_t mixed(uint64_t sum, const uint8_t *bytes, uint32_t length)
{
    for (uint32_t i = 0; i < length; i++)
        sum = (sum ^ bytes[i]) * 0x100000001b3u;
    return sum;
}

static void record_number(uint64_t number)
{
    uint8_t bytes[8];
    for (uint32_t i = 0; i < 8; i++)
        bytes[i] = (uint8_t)(number >> 8 * i);
    digest = mixed(digest, bytes, 8);
}

static void record_bytes(const uint8_t *bytes, uint32_t length) { digest = mixed(digest, bytes, length); }

/* ---- the comparison's data; reference/FORMAT.md says how it is written */

enum { KEY_LENGTH = 1, DEAL, CHECK_KEY, OPEN_ONE, OPEN_ALL, JOIN_SHARES, JOIN_KEYS, HELD_SEED, EXPAND, CHOOSE_WIDTH,
       SENSOR_POSITION, DEALING_PROGRAM, JOINING_PROGRAM, DRAW_CARD, WRITE_PAGE };
enum { FILE_HEAD = 24, CASE_HEAD = 68, UNTOUCHED = 0x0BADCAFE };

struct one_case {
    uint8_t operation, refusal, filled, kept;
    uint32_t in[5], out[5], lengths[4], lent, answered;
};

static uint32_t number_at(const uint8_t *bytes)
{
    return (uint32_t)bytes[0] | (uint32_t)bytes[1] << 8 | (uint32_t)bytes[2] << 16 | (uint32_t)bytes[3] << 24;
}

static struct one_case read_case(void)
{
    uint8_t head[CASE_HEAD];
    struct one_case c;
    take(head, CASE_HEAD);
    c.operation = head[0];
    c.refusal = head[1];
    c.filled = head[2];
    c.kept = head[3];
    for (uint32_t i = 0; i < 5; i++) {
        c.in[i] = number_at(head + 4 + 4 * i);
        c.out[i] = number_at(head + 24 + 4 * i);
    }
    for (uint32_t i = 0; i < 4; i++)
        c.lengths[i] = number_at(head + 44 + 4 * i);
    c.lent = number_at(head + 60);
    c.answered = number_at(head + 64);
    return c;
}

static void pass_over(uint32_t length)
{
    uint8_t chunk[CHUNK];
    while (length > 0) {
        uint32_t now = length < CHUNK ? length : CHUNK;
        take(chunk, now);
        length -= now;
    }
}

/* The rest of the case's bytes are those answered: 1 where they are these. */
static uint32_t answered_are(const uint8_t *bytes, uint32_t length)
{
    uint8_t chunk[CHUNK];
    uint32_t same = 1;
    while (length > 0) {
        uint32_t now = length < CHUNK ? length : CHUNK;
        take(chunk, now);
        for (uint32_t i = 0; i < now; i++)
            same &= bytes[i] == chunk[i];
        bytes += now;
        length -= now;
    }
    return same;
}

/* Makes the call; the numbers that come out stand in `numbers`, of Deal grid row and column of a fault, and the others are untouched. */
static uint32_t call(const struct one_case *c, const uint8_t *input, uint8_t *out, uint32_t numbers[5])
{
    const uint32_t *in = c->in, *l = c->lengths;
    switch (c->operation) {
    case KEY_LENGTH: return nsg_key_length(in[0], in[1], in[2], in[3], numbers);
    case DEAL:
        return nsg_deal(in[0], in[1], in[2], in[3], in[4], input, l[0], input + l[0], l[1], input + l[0] + l[1], l[2],
                        input + l[0] + l[1] + l[2], l[3], out, c->lent, numbers);
    case CHECK_KEY: return nsg_check_key(input, l[0], numbers);
    case OPEN_ONE: return nsg_open_one(input, l[0], in[0], out, c->lent);
    case OPEN_ALL: return nsg_open_all(input, l[0], out, c->lent);
    case JOIN_SHARES: return nsg_join_shares(in[0], in[1], input, l[0], out, c->lent);
    case JOIN_KEYS: return nsg_join_keys(input, l[0], out, c->lent);
    case HELD_SEED: numbers[0] = (uint32_t)nsg_held_seed(input, l[0], in[0], in[1]); return 0;
    case EXPAND: return nsg_expand(input, l[0], (uint64_t)in[1] << 32 | in[0], out, c->lent);
    case CHOOSE_WIDTH: return nsg_choose_width(in[0], in[1], in[2], numbers);
    case SENSOR_POSITION: return nsg_sensor_position(in[0], numbers);
    case DRAW_CARD: return nsg_draw_card(input, l[0], input + l[0], l[1], in[0], out, c->lent);
    case WRITE_PAGE: return nsg_write_page(in[0], in[1], input, l[0], out, c->lent, numbers);
    }
    return UNTOUCHED;
}

/* How many numbers come out of an accepted call. */
static uint32_t numbers_of(uint32_t operation)
{
    switch (operation) {
    case KEY_LENGTH: case HELD_SEED: case CHOOSE_WIDTH: case SENSOR_POSITION: case WRITE_PAGE: return 1;
    case CHECK_KEY: return 5;
    }
    return 0;
}

/* 1 where a case is of Deal and its answer has a place: the first number that comes out says so, and the place stands behind it. */
static uint32_t has_place(const struct one_case *c) { return c->operation == DEAL && c->out[0] != 0; }

/* 1 where the call left these numbers: those stored where there are some, and the others untouched. */
static uint32_t numbers_are(const uint32_t numbers[5], const struct one_case *c)
{
    const uint32_t *stored = has_place(c) ? c->out + 1 : c->out;
    uint32_t same = 1, written = c->refusal == 0 ? numbers_of(c->operation) : 0;
    if (has_place(c))
        written = NSG_FAULT_NUMBERS;
    for (uint32_t i = 0; i < 5; i++)
        same &= numbers[i] == (i < written ? stored[i] : (uint32_t)UNTOUCHED);
    return same;
}

/* Runs a case whose inputs stand at the front of the room; 1 where all is as the second implementation has it. */
static uint32_t same_as_stored(const struct one_case *c, uint32_t inputs)
{
    uint8_t *out = room + inputs;
    uint32_t numbers[5] = {UNTOUCHED, UNTOUCHED, UNTOUCHED, UNTOUCHED, UNTOUCHED}, same;
    uint64_t before = mixed(0, room, inputs);
    fill(out, c->lent, c->filled);
    fill(out + c->lent, GUARD, GUARD_BYTE);
    same = call(c, room, out, numbers) == c->refusal;
    same &= numbers_are(numbers, c);
    if (c->operation == HELD_SEED) {
        uint32_t place = numbers[0] <= inputs && c->answered <= inputs - numbers[0] ? numbers[0] : 0;
        return (answered_are(room + place, c->answered) & same & (place == numbers[0]));
    }
    if (c->answered > c->lent) {
        pass_over(c->answered);
        return 0;
    }
    same &= answered_are(out, c->answered);
    same &= all_are(out + c->answered, c->lent - c->answered, c->filled);
    same &= all_are(out + c->lent, GUARD, GUARD_BYTE);
    return same & (mixed(0, room, inputs) == before);
}

static void run_cases(void)
{
    uint8_t head[FILE_HEAD];
    uint32_t cases, called = 0, equal = 0, programs = 0, too_large = 0, refused = 0, places = 0, cards = 0, pages = 0;
    uint32_t held = 0, inputs = 0;
    take(head, FILE_HEAD);
    cases = number_at(head + 8);
    for (uint32_t i = 0; i < cases; i++) {
        struct one_case c = read_case();
        if (!c.kept) {
            inputs = c.lengths[0] + c.lengths[1] + c.lengths[2] + c.lengths[3];
            held = inputs <= ROOM;
            if (held)
                take(room, inputs);
            else
                pass_over(inputs);
        }
        if (c.operation == DEALING_PROGRAM || c.operation == JOINING_PROGRAM) {
            programs++;
            pass_over(c.answered);
        } else if (!held || c.lent > ROOM - inputs) {
            too_large++;
            pass_over(c.answered);
        } else {
            called++;
            refused += c.refusal != 0;
            places += has_place(&c);
            cards += c.operation == DRAW_CARD && c.refusal == 0;
            pages += c.operation == WRITE_PAGE && c.refusal == 0;
            if (same_as_stored(&c, inputs)) {
                equal++;
            } else {
                text("DIFFERENT case ");
                decimal(i);
                text(" of operation ");
                decimal(c.operation);
                text("\n");
            }
        }
    }
    wrong += called - equal + (called == 0) + (places == 0) + (cards == 0) + (pages == 0);
    text("cases: ");
    decimal(called);
    text(" called, of which ");
    decimal(refused);
    text(" are refused, ");
    decimal(places);
    text(" with a place, ");
    decimal(cards);
    text(" draw a card and ");
    decimal(pages);
    text(" write a page; ");
    decimal(equal);
    text(" equal; left out ");
    decimal(programs);
    text(" of the two programs and ");
    decimal(too_large);
    text(" that take more than ");
    decimal(ROOM);
    text(" bytes\n");
}

/* ---- random calls */

enum { PLAYERS = NSG_MOST_PLAYERS, POSITIONS = NSG_MOST_POSITIONS, WIDTH = NSG_MOST_WIDTH, VALUE_BYTES = NSG_MOST_VALUE_BYTES };
enum { SEED = NSG_SEED_BYTES, ROW_BYTES = NSG_MOST_EXPANDED_BYTES, BLOCK = 64, CALLS_IN_A_LINE = 5000 };
enum { SHARE_BYTES = NSG_MOST_SHARE_BYTES };

static uint64_t state;
static uint32_t calls;

/* splitmix64 */
static uint64_t next(void)
{
    uint64_t z = state += 0x9e3779b97f4a7c15u;
    z = (z ^ z >> 30) * 0xbf58476d1ce4e5b9u;
    z = (z ^ z >> 27) * 0x94d049bb133111ebu;
    return z ^ z >> 31;
}

static uint32_t below(uint32_t limit) { return (uint32_t)(next() % limit); }

static void draw(uint8_t *bytes, uint32_t length)
{
    for (uint32_t i = 0; i < length; i++)
        bytes[i] = (uint8_t)(next() >> 32);
}

/* Takes an answer into the digest, and a line of it after every so many calls. */
static uint32_t called(uint32_t answer)
{
    record_number(answer);
    if (++calls % CALLS_IN_A_LINE == 0) {
        decimal(calls);
        text(" random calls ");
        hexadecimal(digest);
        text("\n");
    }
    return answer;
}

/* A board, a dealing's places in the room, and the point: value, arrays, seeds, words, keys and a free rest stand one behind another. */
struct dealing {
    uint32_t players, positions, width, value_bytes, point;
    uint32_t columns, grid_rows, key_bytes;
    uint32_t arrays, arrays_bytes, seeds, seeds_bytes, words, words_bytes, keys, keys_bytes, rest;
};

/* 1 where the board is one, its places are set, and all of them end within the limit. */
static uint32_t place(struct dealing *d, uint32_t limit)
{
    if (nsg_key_length(d->players, d->positions, d->width, d->value_bytes, &d->key_bytes) != 0)
        return 0;
    d->columns = NSG_COLUMNS(d->players);
    d->grid_rows = NSG_GRID_ROWS(d->positions, d->width);
    d->arrays = d->value_bytes;
    d->arrays_bytes = NSG_ARRAYS_BYTES(d->players, d->positions, d->width);
    d->seeds = d->arrays + d->arrays_bytes;
    d->seeds_bytes = NSG_SEEDS_BYTES(d->players, d->positions, d->width);
    d->words = d->seeds + d->seeds_bytes;
    d->words_bytes = NSG_WORDS_BYTES(d->players, d->width, d->value_bytes);
    d->keys = d->words + d->words_bytes;
    d->keys_bytes = d->players * d->key_bytes;
    d->rest = d->keys + d->keys_bytes;
    return d->rest <= limit;
}

static uint32_t ones(uint32_t bits)
{
    uint32_t count = 0;
    for (; bits != 0; bits >>= 1)
        count += bits & 1;
    return count;
}

/* Draws a dealing's arrays: the columns of each in any order. */
static void draw_arrays(const struct dealing *d)
{
    for (uint32_t row = 0; row < d->grid_rows; row++) {
        uint8_t *array = room + d->arrays + row * d->columns;
        uint32_t parity = row == d->point / d->width, length = 0;
        for (uint32_t column = 0; column < 2 * d->columns; column++)
            if (ones(column) % 2 == parity)
                array[length++] = (uint8_t)column;
        while (length > 1) {
            uint32_t other = below(length--);
            uint8_t column = array[other];
            array[other] = array[length];
            array[length] = column;
        }
    }
}

/* Draws everything that a dealing is lent. */
static void draw_dealing(const struct dealing *d)
{
    draw(room, d->keys);
    draw_arrays(d);
}

static uint32_t deal(const struct dealing *d, uint32_t arrays_bytes, uint32_t keys_bytes, uint32_t fault[NSG_FAULT_NUMBERS])
{
    return nsg_deal(d->players, d->positions, d->width, d->value_bytes, d->point, room, d->value_bytes, room + d->arrays, arrays_bytes,
                    room + d->seeds, d->seeds_bytes, room + d->words, d->words_bytes, room + d->keys, keys_bytes, fault);
}

/* The same as a random call. What `fault` is left with goes into the digest too; an answer without a place leaves it untouched, and every
   answer the numbers beside it. */
static uint32_t dealt(const struct dealing *d, uint32_t arrays_bytes, uint32_t keys_bytes, uint32_t fault[NSG_FAULT_NUMBERS])
{
    uint32_t numbers[4] = {UNTOUCHED, UNTOUCHED, UNTOUCHED, UNTOUCHED};
    uint32_t answer = called(deal(d, arrays_bytes, keys_bytes, numbers + 1));
    uint32_t placed = answer >= NSG_REFUSED_COLUMN_BIT && answer <= NSG_REFUSED_COLUMN_TWICE;
    wrong += numbers[0] != UNTOUCHED || numbers[3] != UNTOUCHED;
    for (uint32_t i = 0; i < NSG_FAULT_NUMBERS; i++) {
        fault[i] = numbers[1 + i];
        wrong += !placed && fault[i] != UNTOUCHED;
        record_number(fault[i]);
    }
    return answer;
}

/* How many columns were made bad, and at which ends of arrays: a bit for each number, grid row and column that is an end. */
static uint32_t bad_columns, bad_ends;

enum { ALL_ENDS = 0xFFF, KEYS_BEFORE = 0x55 };

/* Makes the first or the last column of the first or the last array bad, so that the first fault is this number there; every other time
   any bytes stand behind it. Then the arrays are drawn anew. Column 0 cannot have stood earlier, so there the first is column 1. */
static void try_bad_column(const struct dealing *d, uint32_t number)
{
    uint32_t least = number == NSG_REFUSED_COLUMN_TWICE, ends = below(4), fault[NSG_FAULT_NUMBERS];
    uint32_t row = ends & 1 ? d->grid_rows - 1 : 0, column = ends & 2 ? d->columns - 1 : least;
    uint32_t at = d->arrays + row * d->columns + column;
    if (number == NSG_REFUSED_COLUMN_BIT)
        room[at] = (uint8_t)(next() >> 32 | 1u << (d->players + ends % (8 - d->players)));
    else if (number == NSG_REFUSED_COLUMN_PARITY)
        room[at] ^= (uint8_t)(1u << below(d->players));
    else
        room[at] = room[at - 1 - below(column)];
    if (below(2) == 0)
        draw(room + at + 1, d->seeds - at - 1);
    /* with too little room as well, which comes after */
    wrong += dealt(d, d->arrays_bytes, d->keys_bytes - below(2), fault) != number;
    wrong += fault[0] != row || fault[1] != column || !all_are(room + d->keys, d->keys_bytes, KEYS_BEFORE);
    record_bytes(room, d->rest);
    bad_columns++;
    if (d->grid_rows > 1 && d->columns > 2)
        bad_ends |= 1u << (4 * (number - NSG_REFUSED_COLUMN_BIT) + ends);
    draw_arrays(d);
}

/* Opens a square by every player alone and joins the shares: 1 where that gives the value on the point and zeros elsewhere. */
static uint32_t square_joins(const struct dealing *d, uint32_t position)
{
    uint8_t shares[PLAYERS * VALUE_BYTES], joined[VALUE_BYTES];
    uint32_t good = 1, w = d->value_bytes;
    fill(shares, sizeof shares, 0x33);
    fill(joined, sizeof joined, 0x44);
    for (uint32_t player = 0; player < d->players; player++)
        good &= called(nsg_open_one(room + d->keys + player * d->key_bytes, d->key_bytes, position, shares + player * w, w)) == 0;
    good &= called(nsg_join_shares(d->players, w, shares, (uint64_t)d->players * w, joined, w)) == 0;
    record_bytes(shares, sizeof shares);
    record_bytes(joined, sizeof joined);
    for (uint32_t i = 0; i < w; i++)
        good &= joined[i] == (position == d->point ? room[i] : 0);
    return good;
}

/* Of which values a cell in two blocks of its row was opened: a bit for each number of bytes. It must be all of those
   that do not divide a block. */
static uint32_t in_two_blocks;

enum { NOT_DIVIDING = 0xFEE8 };

/* Opens a square whose cell lies in two blocks of its row: 1 where that joins, or where the board has none. */
static uint32_t square_in_two_blocks_joins(const struct dealing *d)
{
    uint32_t w = d->value_bytes, position = below(d->positions), left = BLOCK % w == 0 ? 0 : d->positions;
    for (; left > 0; left--) {
        uint32_t first = position % d->width * w;
        if (first / BLOCK != (first + w - 1) / BLOCK) {
            in_two_blocks |= 1u << w;
            return square_joins(d, position);
        }
        position = position + 1 < d->positions ? position + 1 : 0;
    }
    return 1;
}

/* Joins all keys into the rest of the room, where the table fits there: 1 where it is the value on the point and zeros elsewhere. */
static uint32_t keys_join(const struct dealing *d, uint32_t limit)
{
    uint8_t *table = room + d->rest;
    uint32_t good, w = d->value_bytes, table_bytes = d->positions * w;
    if (table_bytes > limit - d->rest)
        return 1;
    fill(table, table_bytes, 0x66);
    good = called(nsg_join_keys(room + d->keys, d->keys_bytes, table, table_bytes)) == 0;
    record_bytes(table, table_bytes);
    for (uint32_t position = 0; position < d->positions; position++)
        for (uint32_t i = 0; i < w; i++)
            good &= table[position * w + i] == (position == d->point ? room[i] : 0);
    return good;
}

/* What was met of cards, of joined shares and of pages, a bit for each; it must be all. */
static uint32_t kinds_met;

enum { ODD_VALUE = 1, EVEN_VALUE = 2, CARD_OF_1 = 4, CARD_OF_256 = 8, CARD_OF_257 = 16, WIDE_KEY = 32, OTHER_DECK = 64,
       WRAPPED_DECK = 128, CARD_WITHOUT_ROOM = 256, SHARES_OF_256 = 512, SHARES_OF_257 = 1024 };
enum { PAGE_OF_1 = 1 << 11, PAGE_OF_16 = 1 << 12, SHORT_LINE = 1 << 13, WHOLE_LINES = 1 << 14, FIVE_PLACES = 1 << 15,
       NO_POSITIONS = 1 << 16, POSITIONS_PAST_ALL = 1 << 17, NO_BYTES = 1 << 18, PAGE_OF_17 = 1 << 19,
       OTHER_TABLE = 1 << 20, PAGE_WITHOUT_ROOM = 1 << 21, ALL_KINDS = (1 << 22) - 1 };

static void meet(uint32_t what, uint32_t met) { kinds_met |= met ? what : 0; }

/* Draws a deck: eight bytes of each number. */
static void draw_deck(uint8_t *deck, uint32_t length)
{
    uint64_t number = 0;
    for (uint32_t i = 0; i < length; i++, number >>= 8) {
        if (i % 8 == 0)
            number = next();
        deck[i] = (uint8_t)number;
    }
}

/* A card drawn by every player, and the answers joined, in the rest of the room: 1 where that is the card at the point
   for an odd value and zeros for an even one, or where values are wider or there is no room. */
static uint32_t cards_join(const struct dealing *d, uint32_t limit)
{
    uint32_t most = (limit - d->rest) / (d->positions + d->players + 1), odd = room[0] & 1, good = 1, bytes, deck_bytes;
    uint8_t *key = room + d->keys, *deck = room + d->rest, *answers, *card;
    if (d->value_bytes != 1 || most == 0)
        return 1;
    most = most < SHARE_BYTES ? most : SHARE_BYTES;
    bytes = below(4) == 0 ? most : 1 + below(most);
    deck_bytes = d->positions * bytes;
    answers = deck + deck_bytes;
    card = answers + d->players * bytes;
    draw_deck(deck, deck_bytes);
    fill(answers, (d->players + 1) * bytes, 0x22);
    for (uint32_t i = 0; i < d->players; i++, key += d->key_bytes)
        good &= called(nsg_draw_card(key, d->key_bytes, deck, deck_bytes, bytes, answers + i * bytes, bytes)) == 0;
    good &= called(nsg_join_shares(d->players, bytes, answers, (uint64_t)d->players * bytes, card, bytes)) == 0;
    record_bytes(answers, (d->players + 1) * bytes);
    for (uint32_t i = 0; i < bytes; i++)
        good &= card[i] == (odd ? deck[d->point * bytes + i] : 0);
    meet(odd ? ODD_VALUE : EVEN_VALUE, 1);
    meet(CARD_OF_1, bytes == 1);
    meet(CARD_OF_256, bytes == SHARE_BYTES);
    return good;
}

/* The bytes of a card: mostly one of the lengths that there are, and whose deck fits; else none, one too many, so many
   that all cards together have 2^32 bytes more than a short deck, or any number. */
static uint32_t draw_card_bytes(uint32_t positions, uint32_t left)
{
    uint32_t most = left / positions;
    switch (below(8)) {
    case 0: return below(2) * (SHARE_BYTES + 1);
    case 1: return (uint32_t)-1 / positions + 1 + below(2);
    case 2: return (uint32_t)(next() >> below(64));
    }
    return 1 + below(most == 0 ? 1 : most < SHARE_BYTES ? most : SHARE_BYTES);
}

/* A card asked of a key that Check key gives this answer and this header, with a deck of about the right length in the
   rest of the room: the number is the first that fits. */
static void try_card(const struct dealing *d, const uint8_t *key, uint32_t key_bytes, uint32_t limit, uint32_t answer,
                     const uint32_t header[5])
{
    enum { OUT = SHARE_BYTES + 2 };
    uint32_t left = limit - d->rest, bytes, deck_bytes, out_bytes, written, all;
    uint8_t *out = room + d->rest, *deck = out + OUT;
    if (left < OUT)
        return;
    left -= OUT;
    bytes = draw_card_bytes(d->positions, left);
    all = d->positions * bytes;   /* modulo 2^32 */
    deck_bytes = below(4) == 0 ? all + below(3) - 1 : all;
    deck_bytes = deck_bytes < left ? deck_bytes : left;
    out_bytes = (bytes < OUT ? bytes : OUT) - (bytes != 0 && below(8) == 0);
    if (answer == NSG_ACCEPTED && header[4] != 1)
        answer = NSG_REFUSED_CARD_KEY;
    if (answer == NSG_ACCEPTED && (bytes == 0 || bytes > SHARE_BYTES || deck_bytes != header[2] * bytes))
        answer = NSG_REFUSED_DECK;
    if (answer == NSG_ACCEPTED && out_bytes < bytes)
        answer = NSG_REFUSED_ROOM;
    draw_deck(deck, deck_bytes);
    fill(out, OUT, 0xCC);
    wrong += called(nsg_draw_card(key, key_bytes, deck, deck_bytes, bytes, out, out_bytes)) != answer;
    written = answer == NSG_ACCEPTED ? bytes : 0;
    wrong += !all_are(out + written, OUT - written, 0xCC);
    record_bytes(out, OUT);
    meet(WIDE_KEY, answer == NSG_REFUSED_CARD_KEY);
    meet(CARD_WITHOUT_ROOM, answer == NSG_REFUSED_ROOM);
    meet(CARD_OF_257, answer == NSG_REFUSED_DECK && bytes == SHARE_BYTES + 1);
    meet(OTHER_DECK, answer == NSG_REFUSED_DECK && bytes - 1 < SHARE_BYTES);
    meet(WRAPPED_DECK, answer == NSG_REFUSED_DECK && bytes > (uint32_t)-1 / d->positions && deck_bytes == all);
}

/* Every call on one player's key, of any length and with any bytes, accepted or refused. */
static void try_key(const struct dealing *d, const uint8_t *key, uint32_t key_bytes, uint32_t limit)
{
    uint32_t header[5] = {UNTOUCHED, UNTOUCHED, UNTOUCHED, UNTOUCHED, UNTOUCHED}, w = d->value_bytes;
    uint32_t table_bytes = d->positions * w + below(3);
    uint8_t share[VALUE_BYTES + 1], *table = room + d->rest;
    uint32_t answer = called(nsg_check_key(key, key_bytes, header));
    for (uint32_t i = 0; i < 5; i++)
        record_number(header[i]);
    try_card(d, key, key_bytes, limit, answer, header);
    fill(share, sizeof share, 0x77);
    called(nsg_open_one(key, key_bytes, below(d->positions + 1), share, w - (below(8) == 0)));
    record_bytes(share, sizeof share);
    record_number(nsg_held_seed(key, key_bytes, below(d->grid_rows + 1), below(d->columns + 1)));
    if (below(8) == 0)
        table_bytes -= 3;
    if (table_bytes <= limit - d->rest) {
        fill(table, table_bytes, 0x88);
        called(nsg_open_all(key, key_bytes, table, table_bytes));
        record_bytes(table, table_bytes);
    }
}

/* A board drawn so that all sizes come often: few squares and many, narrow and wide grids. */
static void draw_board(struct dealing *d, uint32_t limit)
{
    do {
        static const uint32_t reach[] = {4, 72, 1000, POSITIONS};
        d->players = 2 + below(PLAYERS - 1);
        d->positions = 1 + below(reach[below(4)]);
        d->value_bytes = below(2) == 0 ? 1 : 1 + below(VALUE_BYTES);
        d->width = 1 + below(WIDTH);
        if (below(2) == 0)
            nsg_choose_width(d->players, d->positions, d->value_bytes, &d->width);
        d->point = below(d->positions);
    } while (!place(d, limit));
}

/* One dealing with everything that can be done with its keys, and then with one byte changed, a key cut, or two keys exchanged. */
static void random_dealing(uint32_t limit)
{
    struct dealing d;
    uint32_t fault[NSG_FAULT_NUMBERS];
    uint8_t *key;
    draw_board(&d, limit);
    draw_dealing(&d);
    fill(room + d.keys, d.keys_bytes, KEYS_BEFORE);
    if (below(4) == 0)
        for (uint32_t number = NSG_REFUSED_COLUMN_BIT; number <= NSG_REFUSED_COLUMN_TWICE; number++)
            try_bad_column(&d, number);
    if (below(4) == 0) {
        /* a column that may not stand there, a length that is not right, or too little room */
        uint32_t what = below(3), damaged = d.arrays + below(d.arrays_bytes);
        if (what == 0)
            room[damaged] ^= (uint8_t)(1u << below(8));
        dealt(&d, d.arrays_bytes - (what == 1), d.keys_bytes - (what == 2), fault);
        record_bytes(room, d.rest);
        return;
    }
    wrong += dealt(&d, d.arrays_bytes, d.keys_bytes, fault) != 0;
    record_bytes(room, d.rest);
    wrong += !square_joins(&d, d.point);
    wrong += !square_joins(&d, below(d.positions));
    wrong += !square_in_two_blocks_joins(&d);
    wrong += !keys_join(&d, limit);
    wrong += !cards_join(&d, limit);
    key = room + d.keys + below(d.players) * d.key_bytes;
    try_key(&d, key, d.key_bytes, limit);
    /* a change of the header and the first marks comes as often as one anywhere */
    key[below(2) == 0 ? below(d.key_bytes) : below(8)] ^= (uint8_t)(1u << below(8));
    try_key(&d, key, d.key_bytes - (below(4) == 0), limit);
    if (below(3) == 0)
        for (uint32_t i = 0; i < d.key_bytes; i++) {
            uint8_t byte = room[d.keys + i];
            room[d.keys + i] = room[d.keys + d.key_bytes + i];
            room[d.keys + d.key_bytes + i] = byte;
        }
    if (d.positions * d.value_bytes <= limit - d.rest) {
        fill(room + d.rest, d.positions * d.value_bytes, 0x99);
        called(nsg_join_keys(room + d.keys, d.keys_bytes - (below(8) == 0), room + d.rest, d.positions * d.value_bytes));
        record_bytes(room + d.rest, d.positions * d.value_bytes);
    }
}

/* Where so many bytes of a row start: 0, anywhere in the longest row, at or beside the border of two blocks, so that
   they end with the longest row or beside its end, anywhere at all, or so that they end at 2^64 or beside it. */
static uint64_t draw_start(uint32_t length)
{
    uint32_t last = length < ROW_BYTES ? ROW_BYTES - length : 0;
    uint64_t beside = (uint64_t)below(3) - 1;   /* -1, 0 or 1, where sums wrap round */
    switch (below(8)) {
    case 0: return 0;
    case 1: case 2: return below(last + 1);
    case 3: case 4: return BLOCK * below(last / BLOCK + 1) + beside;
    case 5: return last + beside;
    case 6: return next() >> below(64);
    }
    return beside - length;
}

/* Bytes of a row from a start on, mostly of a seed of the right length. What is written is a part of the whole row. */
static void try_expand(void)
{
    uint32_t length = below(4) == 0 ? below(ROW_BYTES + 3) : below(200);
    uint32_t seed_bytes = SEED - (below(16) == 0) + (below(16) == 0), answer = NSG_ACCEPTED;
    uint64_t start = draw_start(length);
    uint8_t *out = room + SEED + 1, *row = out + ROW_BYTES + 3;
    draw(room, SEED + 1);
    fill(out, ROW_BYTES + 3, 0xAA);
    if (length > ROW_BYTES || start > ROW_BYTES - length)
        answer = NSG_REFUSED_EXPANSION;
    if (seed_bytes != SEED)
        answer = NSG_REFUSED_LENT;
    wrong += called(nsg_expand(room, seed_bytes, start, out, length)) != answer;
    record_bytes(out, ROW_BYTES + 3);
    if (answer == NSG_ACCEPTED) {
        wrong += nsg_expand(room, SEED, 0, row, ROW_BYTES) != NSG_ACCEPTED;
        for (uint32_t i = 0; i < length; i++)
            wrong += out[i] != row[start + i];
    }
}

/* Joins shares, of as many bytes as values have or as cards have, mostly in the right length: the number is the first
   that fits, and what is written their XOR. */
static void try_join_shares(void)
{
    enum { MOST = PLAYERS + 1, OUT = SHARE_BYTES + 2 };
    uint32_t bytes = below(4) == 0 ? SHARE_BYTES + below(2) : below(below(2) == 0 ? VALUE_BYTES + 2 : OUT + 1);
    uint32_t players = below(MOST + 1), answer = NSG_ACCEPTED;
    uint32_t length = below(4) == 0 ? below(MOST * OUT) : players * bytes, out_bytes = below(4) == 0 ? below(OUT) : OUT;
    uint8_t *out = room + MOST * OUT;
    draw(room, MOST * OUT);
    fill(out, OUT, 0xBB);
    if (out_bytes < bytes)
        answer = NSG_REFUSED_ROOM;
    if (length != players * bytes)
        answer = NSG_REFUSED_LENT;
    if (bytes == 0 || bytes > SHARE_BYTES)
        answer = NSG_REFUSED_VALUE_BYTES;
    if (players < 2 || players > PLAYERS)
        answer = NSG_REFUSED_PLAYERS;
    wrong += called(nsg_join_shares(players, bytes, room, length, out, out_bytes)) != answer;
    record_bytes(out, OUT);
    for (uint32_t i = 0; answer == NSG_ACCEPTED && i < length; i++)
        out[i % bytes] ^= room[i];
    wrong += answer == NSG_ACCEPTED && !all_are(out, bytes, 0);
    meet(SHARES_OF_256, answer == NSG_ACCEPTED && bytes == SHARE_BYTES);
    meet(SHARES_OF_257, answer == NSG_REFUSED_VALUE_BYTES && bytes == SHARE_BYTES + 1);
}

/* The byte that the page of a table has at a place. */
static uint8_t page_byte(uint32_t at, uint32_t positions, uint32_t w, const uint8_t *table)
{
    uint32_t line = NSG_PAGE_LINE_BYTES(w), cell = 2 * w + 1, column = at % line, first = at / line * 8, position;
    if (column == line - 1)
        return '\n';
    if (column < 5) {
        for (uint32_t place = 4; place > column; place--)
            first /= 10;
        return (uint8_t)(first == 0 && column < 4 ? ' ' : '0' + first % 10);
    }
    position = first + (column - 5) / cell;
    column = (column - 5) % cell;
    if (column == 0 || position >= positions)
        return ' ';
    return (uint8_t)"0123456789ABCDEF"[table[position * w + (column - 1) / 2] >> (column % 2 == 0 ? 0 : 4) & 15];
}

/* 1 where all bytes of a page are those of its table. */
static uint32_t page_is(const uint8_t *page, uint32_t length, uint32_t positions, uint32_t w, const uint8_t *table)
{
    for (uint32_t i = 0; i < length; i++)
        if (page[i] != page_byte(i, positions, w, table))
            return 0;
    return 1;
}

/* What was met by a call of Write page with these numbers. */
static void meet_page(uint32_t answer, uint32_t positions, uint32_t w)
{
    uint32_t accepted = answer == NSG_ACCEPTED;
    meet(PAGE_OF_1, accepted && w == 1);
    meet(PAGE_OF_16, accepted && w == VALUE_BYTES);
    meet(positions % 8 == 0 ? WHOLE_LINES : SHORT_LINE, accepted);
    meet(FIVE_PLACES, accepted && positions > 10000);
    meet(positions == 0 ? NO_POSITIONS : POSITIONS_PAST_ALL, answer == NSG_REFUSED_POSITIONS);
    meet(w == 0 ? NO_BYTES : PAGE_OF_17, answer == NSG_REFUSED_VALUE_BYTES);
    meet(OTHER_TABLE, answer == NSG_REFUSED_LENT);
    meet(PAGE_WITHOUT_ROOM, answer == NSG_REFUSED_ROOM);
}

/* Writes a page, mostly of numbers that there are, with the right table and enough room: the number is the first that
   fits, and every byte of an accepted page is the one that its place asks for. */
static void try_page(uint32_t limit)
{
    static const uint32_t reach[] = {9, 72, 1000, POSITIONS};
    uint32_t positions, w, table_bytes, page_bytes, lent, out_bytes, length, written = UNTOUCHED, answer = NSG_ACCEPTED;
    uint8_t *page;
    do {
        positions = 1 + below(reach[below(4)]);
        w = below(2) == 0 ? 1 : 1 + below(VALUE_BYTES);
        table_bytes = NSG_TABLE_BYTES(positions, w);
        page_bytes = NSG_PAGE_BYTES(positions, w);
        lent = table_bytes + 1 + page_bytes + 2;
    } while (lent > limit);
    page = room + table_bytes + 1;
    draw_deck(room, table_bytes + 1);
    fill(page, page_bytes + 2, 0xDD);
    positions = below(8) == 0 ? below(2) * (POSITIONS + 1) : positions;
    w = below(8) == 0 ? below(2) * (VALUE_BYTES + 1) : w;
    length = table_bytes + (below(8) == 0 ? 1 - 2 * below(2) : 0);
    out_bytes = below(8) == 0 ? page_bytes - 1 - below(page_bytes) : page_bytes + below(3);
    if (out_bytes < page_bytes)
        answer = NSG_REFUSED_ROOM;
    if (length != table_bytes)
        answer = NSG_REFUSED_LENT;
    if (w == 0 || w > VALUE_BYTES)
        answer = NSG_REFUSED_VALUE_BYTES;
    if (positions == 0 || positions > POSITIONS)
        answer = NSG_REFUSED_POSITIONS;
    wrong += called(nsg_write_page(positions, w, room, length, page, out_bytes, &written)) != answer;
    record_number(written);
    record_bytes(room, lent);
    wrong += written != (answer == NSG_ACCEPTED ? page_bytes : (uint32_t)UNTOUCHED);
    page_bytes = answer == NSG_ACCEPTED ? page_bytes : 0;
    wrong += !page_is(page, page_bytes, positions, w, room);
    wrong += !all_are(page + page_bytes, lent - table_bytes - 1 - page_bytes, 0xDD);
    meet_page(answer, positions, w);
}

/* The calls that need no dealing, with numbers and lengths in and out of their ranges. */
static void random_small_calls(uint32_t limit)
{
    uint32_t number = UNTOUCHED;
    try_expand();
    called(nsg_key_length(below(8), below(2) == 0 ? below(POSITIONS + 2) : below(300), below(WIDTH + 2), below(VALUE_BYTES + 2), &number));
    record_number(number);
    called(nsg_choose_width(below(8), below(2) == 0 ? below(POSITIONS + 2) : below(300), below(VALUE_BYTES + 2), &number));
    record_number(number);
    called(nsg_sensor_position(below(NSG_SENSORS + 8), &number));
    record_number(number);
    try_join_shares();
    try_join_shares();
    try_page(limit);
}

static void run_random(uint32_t rounds, uint32_t limit)
{
    for (uint32_t i = 0; i < rounds; i++) {
        random_dealing(limit);
        random_small_calls(limit);
    }
    wrong += (bad_ends != ALL_ENDS) + (in_two_blocks != NOT_DIVIDING) + (kinds_met != ALL_KINDS);
    decimal(calls);
    text(" random calls, those in at most ");
    decimal(limit);
    text(" bytes done, with ");
    decimal(bad_columns);
    text(" bad columns");
    text(bad_ends == ALL_ENDS ? ", each number at each end of an array" : ", NOT at all ends of an array");
    text(in_two_blocks == NOT_DIVIDING ? ", cells in two blocks" : ", NOT of all values cells in two blocks");
    text(kinds_met == ALL_KINDS ? ", and cards and pages of all kinds: " : ", NOT cards and pages of all kinds: ");
    hexadecimal(digest);
    text("\n");
}

/* ---- the largest dealing that a small board can make */

/* The most squares whose dealing stays in the limit, and among these boards the one that takes the fewest bytes. */
static struct dealing largest(uint32_t players, uint32_t value_bytes, uint32_t limit)
{
    struct dealing best, d;
    best.positions = best.rest = 0;
    d.players = players;
    d.value_bytes = value_bytes;
    for (d.width = 1; d.width <= WIDTH; d.width++)
        for (uint32_t rows = 1; rows <= NSG_MOST_GRID_ROWS; rows++) {
            d.positions = rows * d.width;
            if (!place(&d, limit))
                break;
            if (d.positions > best.positions || (d.positions == best.positions && d.rest < best.rest))
                best = d;
        }
    return best;
}

/* Deals it, and finds the piece by opening the point and two other squares. */
static void deal_largest(uint32_t players, uint32_t value_bytes, uint32_t limit)
{
    struct dealing d = largest(players, value_bytes, limit);
    uint32_t good, fault[NSG_FAULT_NUMBERS];
    d.point = d.positions - 1 - d.positions / 3;
    draw_dealing(&d);
    good = dealt(&d, d.arrays_bytes, d.keys_bytes, fault) == 0;
    record_bytes(room, d.rest);
    good &= square_joins(&d, d.point) & square_joins(&d, 0) & square_joins(&d, d.positions - 1);
    wrong += !good;
    text("largest dealing: players ");
    decimal(players);
    text(", value bytes ");
    decimal(value_bytes);
    text(": ");
    decimal(d.positions);
    text(" squares, ");
    decimal(d.grid_rows);
    text(" grid rows of ");
    decimal(d.width);
    text(", ");
    decimal(d.keys);
    text(" bytes lent and ");
    decimal(d.keys_bytes);
    text(" bytes of keys");
    text(good ? "\n" : ", WRONG\n");
}

/* The largest table there is, which two players join. */
static void join_largest_table(void)
{
    struct dealing d = {.players = 2, .positions = POSITIONS, .width = WIDTH, .value_bytes = VALUE_BYTES, .point = POSITIONS - 2};
    uint32_t fault[NSG_FAULT_NUMBERS];
    wrong += !place(&d, ROOM);
    draw_dealing(&d);
    wrong += dealt(&d, d.arrays_bytes, d.keys_bytes, fault) != 0;
    wrong += !keys_join(&d, ROOM);
    text("largest table: ");
    hexadecimal(digest);
    text("\n");
}

/* All positions on a page, with the widest values for which the room holds table and page. */
static void write_largest_page(void)
{
    uint32_t w = VALUE_BYTES, table_bytes, page_bytes, written = UNTOUCHED;
    while (NSG_TABLE_BYTES(POSITIONS, w) + NSG_PAGE_BYTES(POSITIONS, w) > ROOM)
        w--;
    table_bytes = NSG_TABLE_BYTES(POSITIONS, w);
    page_bytes = NSG_PAGE_BYTES(POSITIONS, w);
    draw_deck(room, table_bytes);
    wrong += called(nsg_write_page(POSITIONS, w, room, table_bytes, room + table_bytes, page_bytes, &written)) != 0;
    wrong += written != page_bytes || !page_is(room + table_bytes, page_bytes, POSITIONS, w, room);
    record_bytes(room + table_bytes, page_bytes);
    text("largest page: value bytes ");
    decimal(w);
    text(", ");
    decimal(page_bytes);
    text(" bytes: ");
    hexadecimal(digest);
    text("\n");
}

int test(void)
{
    digest = 0xcbf29ce484222325u;
    state = 0x6e6f73696e67u;
    run_cases();
    run_random(ROUNDS, BOARD_ROOM);
    for (uint32_t players = 2; players <= PLAYERS; players++) {
        deal_largest(players, 1, BOARD_ROOM);
        deal_largest(players, VALUE_BYTES, BOARD_ROOM);
    }
    if (ROOM > LARGE_ROOM) {
        run_random(LARGE_ROUNDS, LARGE_ROOM);
        join_largest_table();
        write_largest_page();
    }
    text(wrong == 0 ? "right\n" : "WRONG\n");
    return wrong != 0;
}

/* ---- for measuring: a dealing that stays, and its first player's table opened */

static struct dealing timed;

void deal_timed(uint32_t players, uint32_t positions, uint32_t width, uint32_t value_bytes)
{
    uint32_t fault[NSG_FAULT_NUMBERS];
    timed.players = players;
    timed.positions = positions;
    timed.width = width;
    timed.value_bytes = value_bytes;
    timed.point = 0;
    place(&timed, ROOM);
    draw_dealing(&timed);
    deal(&timed, timed.arrays_bytes, timed.keys_bytes, fault);
}

uint32_t open_timed(void)
{
    return nsg_open_all(room + timed.keys, timed.key_bytes, room + timed.rest, timed.positions * timed.value_bytes);
}
