/* Deals with the C example of docs/DEALING.md, over a counted sequence in the place of a noise chip.

     dealing_example                    on every point of the spring board. Every deal joins to its piece and finds no bad column; it takes 778
                                        bytes and those drawn again, of which most deals have none.
     dealing_example POINT              once, with the bad column that the example tells: number, grid row, column and byte.
     dealing_example PLAYERS POSITIONS WIDTH VALUE_BYTES POINT COLUMN..
                                        the call itself with these arrays, seeds and words of zeros: its number, and with one the place of the
                                        bad column. */
#include <nosingginger.h>
#include <stdio.h>
#include <stdlib.h>

uint8_t noise_byte(void);
void bad_column(uint32_t number, uint32_t grid_row, uint32_t column, uint8_t byte);
uint32_t deal_spring_board(uint32_t point, const uint8_t *value, uint8_t *keys);

enum { POINTS = 72, KEYS = 4 * 551, LEAST = 778, NUMBERS = 5, MOST = 4096, UNTOLD = 0xFFFF };

static unsigned long drawn;
static unsigned told;
static uint8_t keys[KEYS];

uint8_t noise_byte(void)
{
    static uint64_t state = 1;
    state = state * 6364136223846793005u + 1442695040888963407u;
    drawn++;
    return (uint8_t)(state >> 56);
}

void bad_column(uint32_t number, uint32_t grid_row, uint32_t column, uint8_t byte)
{
    told++;
    printf("%u %u %u %u\n", (unsigned)number, (unsigned)grid_row, (unsigned)column, byte);
}

static int deal_every_point(void)
{
    static uint8_t table[POINTS];
    unsigned without_more = 0;
    for (uint32_t point = 0; point < POINTS; point++) {
        const uint8_t value = (uint8_t)(point + 1);
        drawn = 0;
        if (deal_spring_board(point, &value, keys) != NSG_ACCEPTED || nsg_join_keys(keys, KEYS, table, POINTS) != NSG_ACCEPTED)
            return 1;
        for (uint32_t square = 0; square < POINTS; square++)
            if (table[square] != (square == point ? value : 0))
                return 1;
        if (drawn < LEAST || drawn > LEAST + 10 || told != 0)
            return 1;
        without_more += drawn == LEAST;
    }
    printf("run-dealing: the C example dealt %d times, %u of them with %d bytes of noise\n", (int)POINTS, without_more, (int)LEAST);
    return without_more < POINTS / 2;
}

static int deal_arrays(const uint32_t *numbers, const uint8_t *arrays, uint64_t count)
{
    static const uint8_t zeros[MOST];
    uint32_t fault[NSG_FAULT_NUMBERS] = {UNTOLD, UNTOLD};
    const uint64_t seeds = NSG_SEEDS_BYTES(numbers[0], numbers[1], numbers[2]), words = NSG_WORDS_BYTES(numbers[0], numbers[2], numbers[3]);
    if (seeds > MOST || words > MOST)
        return 1;
    uint32_t answer = nsg_deal(numbers[0], numbers[1], numbers[2], numbers[3], numbers[4], zeros, numbers[3], arrays, count, zeros, seeds,
                               zeros, words, keys, KEYS, fault);
    if (fault[0] == UNTOLD && fault[1] == UNTOLD)
        printf("%u\n", (unsigned)answer);
    else
        printf("%u %u %u\n", (unsigned)answer, (unsigned)fault[0], (unsigned)fault[1]);
    return 0;
}

int main(int count, char **words)
{
    static uint8_t arrays[MOST];
    uint32_t numbers[NUMBERS];
    const uint8_t value = 0xA5;
    if (count == 1)
        return deal_every_point();
    if (count == 2)
        return deal_spring_board((uint32_t)strtoul(words[1], NULL, 10), &value, keys) == NSG_ACCEPTED || told != 1;
    if (count < 1 + NUMBERS || count > 1 + NUMBERS + MOST)
        return 2;
    for (int i = 0; i < NUMBERS; i++)
        numbers[i] = (uint32_t)strtoul(words[1 + i], NULL, 10);
    for (int i = 1 + NUMBERS; i < count; i++)
        arrays[i - 1 - NUMBERS] = (uint8_t)strtoul(words[i], NULL, 10);
    return deal_arrays(numbers, arrays, (uint64_t)(count - 1 - NUMBERS));
}
