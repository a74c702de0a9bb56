/* Draws every card of a deck with the C example of docs/CARDS.md, over a counted sequence in the place of a noise chip.
   The status is 1 where another card is joined, a phone's answer is the card by itself, or what is no key is
   answered. */
#include <nosingginger.h>
#include <stdio.h>
#include <string.h>

enum { PHONES = 3, CARDS = 52, CARD_BYTES = 32, WIDTH = 26, KEY_BYTES = 239, COLUMNS = NSG_COLUMNS(PHONES) };

uint32_t ask_for(uint32_t card, uint8_t *keys);
uint32_t answer(const uint8_t *key, uint64_t key_length, const uint8_t *deck, uint8_t *out);
uint32_t join_answers(const uint8_t *answers, uint8_t *card);
void draw_dealing(uint32_t odd_row, uint8_t *arrays, uint8_t *seeds, uint8_t *words);

static uint8_t counted_byte(void)
{
    static uint64_t state = 1;
    state = state * 6364136223846793005u + 1442695040888963407u;
    return (uint8_t)(state >> 56);
}

static void fill(uint8_t *bytes, uint32_t count)
{
    for (uint32_t i = 0; i < count; i++)
        bytes[i] = counted_byte();
}

/* The arrays are only turned round, which is enough for a test and for nothing else. */
void draw_dealing(uint32_t odd_row, uint8_t *arrays, uint8_t *seeds, uint8_t *words)
{
    static const uint8_t even[COLUMNS] = {0, 3, 5, 6}, odd[COLUMNS] = {1, 2, 4, 7};
    for (uint32_t row = 0; row < NSG_GRID_ROWS(CARDS, WIDTH); row++) {
        uint32_t turn = counted_byte();
        for (uint32_t column = 0; column < COLUMNS; column++)
            arrays[row * COLUMNS + column] = (row == odd_row ? odd : even)[(column + turn) % COLUMNS];
    }
    fill(seeds, NSG_SEEDS_BYTES(PHONES, CARDS, WIDTH));
    fill(words, NSG_WORDS_BYTES(PHONES, WIDTH, 1));
}

static int draw(uint32_t wanted, const uint8_t *deck)
{
    static uint8_t keys[PHONES * KEY_BYTES];
    uint8_t answers[PHONES * CARD_BYTES], card[CARD_BYTES];
    if (ask_for(wanted, keys) != NSG_ACCEPTED)
        return 1;
    for (uint32_t phone = 0; phone < PHONES; phone++) {
        const uint8_t *key = keys + phone * KEY_BYTES;
        uint8_t *out = answers + phone * CARD_BYTES;
        if (answer(key, KEY_BYTES - 1, deck, out) != NSG_REFUSED_LENGTH)
            return 1;
        if (answer(key, KEY_BYTES, deck, out) != NSG_ACCEPTED)
            return 1;
        if (memcmp(out, deck + wanted * CARD_BYTES, CARD_BYTES) == 0)
            return 1;
    }
    return join_answers(answers, card) != NSG_ACCEPTED || memcmp(card, deck + wanted * CARD_BYTES, CARD_BYTES) != 0;
}

int main(void)
{
    static uint8_t deck[CARDS * CARD_BYTES];
    fill(deck, sizeof deck);
    for (uint32_t wanted = 0; wanted < CARDS; wanted++)
        if (draw(wanted, deck) != 0)
            return 1;
    printf("run-dealing: the C example drew %d cards\n", (int)CARDS);
    return 0;
}
