/* What the test of a target needs of the machine below it: linux.c, board.c or wasm.mjs gives it. */
#ifndef PLATFORM_H
#define PLATFORM_H
#include <stdint.h>

/* Reads exactly this many bytes of the data; ends the program where there are not so many. */
void take(uint8_t *bytes, uint32_t length);

/* Writes this many bytes of text. */
void say(const char *text, uint32_t length);

/* The whole test, in calls.c; the answer is the program's exit status. It expects its own memory to be zeros. */
int test(void);

/* Deals a board, and opens its first player's table, for measuring; in calls.c. */
void deal_timed(uint32_t players, uint32_t positions, uint32_t width, uint32_t value_bytes);
uint32_t open_timed(void);

/* Both print, in calls.c. */
void text(const char *words);
void decimal(uint32_t number);
#endif
