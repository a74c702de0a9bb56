/* A player's phone and the board's tables for demo/hunt, over the proved library. Standard input to standard output:
     player check           reads keys, in front of each a line with its length in bytes; writes at once for each its five header numbers
     player open            reads a key; writes its five header numbers on a line, then each position's share in hexadecimal, one on a line
     player join            reads all keys of a match one after another; writes each position's joined value in hexadecimal, one on a line
     player card L          reads a key, in front of it a line with its length in bytes, and then a deck of cards of L
                            bytes; writes what this key's phone answers, in hexadecimal
     player shares P L      reads shares or answers of P players, L bytes each; writes their XOR in hexadecimal
     player shares P L T    reads T times the shares or answers of P players, L bytes each; writes the XOR of each time's
                            in hexadecimal, one on a line
     player tally-make P I N W
                            reads bytes to make a table of, at least N * W; writes the table of a new tally for P players,
                            player I, N positions and values of W bytes: each entry in hexadecimal, one on a line
     player tally-add P I N W
                            reads a key, in front of it a line with its length in bytes, and then the tally's table;
                            writes the table with the key added, in the same way
     player tally-look-up P I N W A..
                            reads the tally's table; writes its entry at each position A in hexadecimal, one on a line
     player tally-total P I N W
                            reads the tally's table; writes the XOR of all its entries in hexadecimal
     player page N W        reads a table of N positions with values of W bytes; writes its page
     player length P N M W  writes the length of a key for P players, N positions, width M and values of W bytes
     player width P N W     writes the grid's width for P players, N positions and values of W bytes
     player expand START N  reads a seed; writes N bytes of its row in hexadecimal, from byte START on
     player sensor S        writes the position of sensor S of the spring board
     player sensors         writes the position of each sensor, one on a line
   A refused call is the line `refused n`. The status is 2 when the words are not understood. */
#include <nosingginger.h>
#include <stdio.h>
#include <stdlib.h>
#include <string.h>

static uint8_t input[NSG_MOST_KEYS_BYTES + 1], deck[NSG_MOST_DECK_BYTES + 1], output[NSG_MOST_PAGE_BYTES];

static uint32_t number_of(const char *word)
{
    return (uint32_t)strtoul(word, NULL, 10);
}

static int refused(uint32_t number)
{
    printf("refused %u\n", (unsigned)number);
    return 0;
}

static void put_line(const uint8_t *bytes, uint32_t count)
{
    for (uint32_t i = 0; i < count; i++)
        printf("%02X", bytes[i]);
    printf("\n");
}

static void put_header(const uint32_t header[NSG_HEADER_NUMBERS])
{
    printf("%u %u %u %u %u\n", (unsigned)header[0], (unsigned)header[1], (unsigned)header[2], (unsigned)header[3], (unsigned)header[4]);
}

static void put_table(uint32_t positions, uint32_t value_bytes)
{
    for (uint32_t position = 0; position < positions; position++)
        put_line(output + position * value_bytes, value_bytes);
}

/* Reads a line with a key's length, and the key. Answers 1; 0 where no number stands there, -1 where no such key
   does. */
static int read_key(unsigned long *length)
{
    if (scanf("%lu", length) != 1)
        return 0;
    return getchar() == '\n' && *length <= sizeof input && fread(input, 1, *length, stdin) == *length ? 1 : -1;
}

static int check_keys(void)
{
    uint32_t header[NSG_HEADER_NUMBERS];
    unsigned long length;
    int read;
    while ((read = read_key(&length)) != 0) {
        if (read < 0)
            return 2;
        uint32_t number = nsg_check_key(input, length, header);
        if (number != NSG_ACCEPTED)
            refused(number);
        else
            put_header(header);
        fflush(stdout);
    }
    return 0;
}

static int open_key(void)
{
    uint32_t header[NSG_HEADER_NUMBERS];
    uint64_t length = fread(input, 1, sizeof input, stdin);
    uint32_t number = nsg_check_key(input, length, header);
    if (number == NSG_ACCEPTED)
        number = nsg_open_all(input, length, output, sizeof output);
    if (number != NSG_ACCEPTED)
        return refused(number);
    put_header(header);
    put_table(header[2], header[4]);
    return 0;
}

/* Where all keys are accepted together, the first one's length is an equal part of theirs, and its header is that of the match. */
static int join_keys(void)
{
    uint32_t header[NSG_HEADER_NUMBERS];
    uint64_t length = fread(input, 1, sizeof input, stdin);
    uint32_t number = nsg_join_keys(input, length, output, sizeof output);
    if (number == NSG_ACCEPTED)
        number = nsg_check_key(input, length / input[0], header);
    if (number != NSG_ACCEPTED)
        return refused(number);
    put_table(header[2], header[4]);
    return 0;
}

/* Of a deck that is too long, one byte more than the longest deck is read, and refused. */
static int draw_card(uint32_t card_bytes)
{
    unsigned long length;
    if (read_key(&length) != 1)
        return 2;
    uint64_t deck_length = fread(deck, 1, sizeof deck, stdin);
    uint32_t number = nsg_draw_card(input, length, deck, deck_length, card_bytes, output, sizeof output);
    if (number != NSG_ACCEPTED)
        return refused(number);
    put_line(output, card_bytes);
    return 0;
}

/* Each time's shares are an equal part of what is read. */
static int join_shares(uint32_t players, uint32_t share_bytes, uint32_t times)
{
    uint64_t length = fread(deck, 1, sizeof deck, stdin);
    if (times == 0 || length % times != 0)
        return 2;
    for (uint32_t i = 0; i < times; i++) {
        const uint8_t *shares = deck + length / times * i;
        uint32_t number = nsg_join_shares(players, share_bytes, shares, length / times, output, sizeof output);
        if (number != NSG_ACCEPTED)
            refused(number);
        else
            put_line(output, share_bytes);
    }
    return 0;
}

/* A tally as the library's calls take it: four numbers, and a table that is lent, here the first bytes of `output`. */
struct tally {
    uint32_t players, player, positions, value_bytes;
    uint64_t length;
};

/* A tally by its four numbers as words, with the table that stands on standard input. */
static struct tally read_tally(char **words)
{
    struct tally tally = {number_of(words[0]), number_of(words[1]), number_of(words[2]), number_of(words[3]), 0};
    tally.length = fread(output, 1, sizeof output, stdin);
    return tally;
}

/* The tally's table as a call left it, or the call's refusal. */
static int put_tally(const struct tally *tally, uint32_t number)
{
    if (number != NSG_ACCEPTED)
        return refused(number);
    put_table(tally->positions, tally->value_bytes);
    return 0;
}

/* The entry or the total that a call wrote, or the call's refusal. */
static int put_value(const uint8_t *value, const struct tally *tally, uint32_t number)
{
    if (number != NSG_ACCEPTED)
        return refused(number);
    put_line(value, tally->value_bytes);
    return 0;
}

static int tally_make(char **words)
{
    struct tally tally = read_tally(words);
    return put_tally(&tally, nsg_tally_make(tally.players, tally.player, tally.positions, tally.value_bytes,
                                            output, tally.length));
}

static int tally_add(char **words)
{
    unsigned long length;
    if (read_key(&length) != 1)
        return 2;
    struct tally tally = read_tally(words);
    return put_tally(&tally, nsg_tally_add(tally.players, tally.player, tally.positions, tally.value_bytes,
                                           input, length, output, tally.length));
}

static int tally_look_up(char **words, int positions)
{
    struct tally tally = read_tally(words);
    uint8_t entry[NSG_MOST_VALUE_BYTES];
    for (int i = 0; i < positions; i++)
        put_value(entry, &tally, nsg_tally_look_up(tally.players, tally.player, tally.positions, tally.value_bytes,
                                                   output, tally.length, number_of(words[4 + i]), entry, sizeof entry));
    return 0;
}

static int tally_total(char **words)
{
    struct tally tally = read_tally(words);
    uint8_t total[NSG_MOST_VALUE_BYTES];
    return put_value(total, &tally, nsg_tally_total(tally.players, tally.player, tally.positions, tally.value_bytes,
                                                    output, tally.length, total, sizeof total));
}

/* Of a table that is too long, more than the longest table is read, and refused. */
static int write_page(uint32_t positions, uint32_t value_bytes)
{
    uint64_t length = fread(input, 1, sizeof input, stdin);
    uint32_t written = 0;
    uint32_t number = nsg_write_page(positions, value_bytes, input, length, output, sizeof output, &written);
    if (number != NSG_ACCEPTED)
        return refused(number);
    return fwrite(output, 1, written, stdout) == written ? 0 : 2;
}

static int key_length(char **words)
{
    uint32_t players = number_of(words[0]), positions = number_of(words[1]), width = number_of(words[2]), value_bytes = number_of(words[3]);
    uint32_t length = 0, number = nsg_key_length(players, positions, width, value_bytes, &length);
    if (number != NSG_ACCEPTED)
        return refused(number);
    printf("%u\n", (unsigned)length);
    return 0;
}

static int choose_width(char **words)
{
    uint32_t players = number_of(words[0]), positions = number_of(words[1]), value_bytes = number_of(words[2]);
    uint32_t width = 0, number = nsg_choose_width(players, positions, value_bytes, &width);
    if (number != NSG_ACCEPTED)
        return refused(number);
    printf("%u\n", (unsigned)width);
    return 0;
}

static int expand(const char *start, const char *count)
{
    uint64_t length = fread(input, 1, sizeof input, stdin);
    uint64_t from = strtoull(start, NULL, 10), wanted = strtoull(count, NULL, 10);
    uint32_t number = nsg_expand(input, length, from, output, wanted < sizeof output ? wanted : sizeof output);
    if (number != NSG_ACCEPTED)
        return refused(number);
    put_line(output, (uint32_t)wanted);
    return 0;
}

static int sensor_position(uint32_t sensor)
{
    uint32_t position = 0, number = nsg_sensor_position(sensor, &position);
    if (number != NSG_ACCEPTED)
        return refused(number);
    printf("%u\n", (unsigned)position);
    return 0;
}

static int sensors(void)
{
    for (uint32_t sensor = 0; sensor < NSG_SENSORS; sensor++)
        sensor_position(sensor);
    return 0;
}

int main(int count, char **words)
{
    if (count == 2 && strcmp(words[1], "check") == 0)
        return check_keys();
    if (count == 2 && strcmp(words[1], "open") == 0)
        return open_key();
    if (count == 2 && strcmp(words[1], "join") == 0)
        return join_keys();
    if (count == 3 && strcmp(words[1], "card") == 0)
        return draw_card(number_of(words[2]));
    if ((count == 4 || count == 5) && strcmp(words[1], "shares") == 0)
        return join_shares(number_of(words[2]), number_of(words[3]), count == 5 ? number_of(words[4]) : 1);
    if (count == 6 && strcmp(words[1], "tally-make") == 0)
        return tally_make(words + 2);
    if (count == 6 && strcmp(words[1], "tally-add") == 0)
        return tally_add(words + 2);
    if (count >= 7 && strcmp(words[1], "tally-look-up") == 0)
        return tally_look_up(words + 2, count - 6);
    if (count == 6 && strcmp(words[1], "tally-total") == 0)
        return tally_total(words + 2);
    if (count == 4 && strcmp(words[1], "page") == 0)
        return write_page(number_of(words[2]), number_of(words[3]));
    if (count == 6 && strcmp(words[1], "length") == 0)
        return key_length(words + 2);
    if (count == 5 && strcmp(words[1], "width") == 0)
        return choose_width(words + 2);
    if (count == 4 && strcmp(words[1], "expand") == 0)
        return expand(words[2], words[3]);
    if (count == 3 && strcmp(words[1], "sensor") == 0)
        return sensor_position(number_of(words[2]));
    if (count == 2 && strcmp(words[1], "sensors") == 0)
        return sensors();
    fprintf(stderr, "player: check | open | join | card L | shares P L [T] | tally-make P I N W | tally-add P I N W"
                    " | tally-look-up P I N W A.. | tally-total P I N W | page N W | length P N M W | width P N W"
                    " | expand START N | sensor S | sensors\n");
    return 2;
}
