/* nosingginger.h: keys for a hidden piece on a square-root grid, for board makers and app makers.

   A board hides a piece: it deals each of 2 to 6 players a key and forgets where the piece is. One player opens any square of the board
   as noise; when all players open the same square, the XOR of their bytes is the piece's value on the piece's square and zero on every
   other. What all players but one can learn side by side is said at the end of this comment.

   The words used below
     players       2 to 6, numbered from 0.
     positions     the squares of the board, 1 to 65,536, numbered from 0. The point is the piece's position.
     width         of the grid, 1 to 256: position a lies in grid row a / width, in cell a % width. nsg_choose_width
                   gives the one that makes keys shortest.
     value_bytes   bytes of the piece's value, 1 to 16. A value of zeros is allowed, and is nowhere to be seen when joined.
     columns       NSG_COLUMNS(players): each grid row has that many columns, each with a column byte, a seed and a row.
     grid rows     NSG_GRID_ROWS(positions, width), at most 256.
     seed          32 bytes. Its row is the first width * value_bytes bytes of ChaCha20's key stream (RFC 8439; nonce 0, counter from 0).
     share         what one player's key says of one position: value_bytes bytes, noise by themselves.
     table         the shares of all positions of one player, or all of them joined: entry a is the value_bytes bytes from a * value_bytes on.
     deck          a card for each position, card_bytes bytes each, 1 to 256: card a is those from a * card_bytes on.
     page          a table as text, in lines of eight cells: nsg_write_page says how.
     tally         a table of one player, into which the tables of that player's keys of many hunts are XORed.

   What holds of every call
     - It returns NSG_ACCEPTED, or the first refusal number that fits, in the order that is given at the function. (nsg_held_seed alone has
       no refusal numbers.) Numbers and bytes may be of any kind: no call is undefined by what they say.
     - A refused call leaves every lent byte as it was, outputs too. The one exception is `fault`, in which nsg_deal says where a bad column
       stands. An accepted call writes exactly the bytes named, from the output's first on; bytes of the output past those keep what they had.
     - Bytes are lent as a pointer and a length in bytes. Lengths are uint64_t on all targets, 32-bit ones too.
     - NO POINTER MAY BE NULL, not even with length 0. For an empty slice pass any valid pointer that is not NULL, and length 0.
     - The bytes written must not overlap other bytes lent to the same call: an output or a uint32_t result that shares memory with an
       input is undefined. Inputs may overlap each other. Every pointer must be good for the whole length that is passed with it.
     - uint32_t results are aligned as the machine wants a uint32_t. Byte pointers need no alignment.
     - A call holds no state: it keeps no pointer, allocates nothing, reads no file, draws no random bytes, and calls at most memcpy, memmove
       and memset, and on 32-bit machines what the compiler divides by. Calls may run on several threads at once, also on the same input;
       outputs of calls that run at once must be apart.
     - A call needs stack: see NSG_STACK_BYTES.

   How long a call takes is proved nowhere. Measured is which branches and which addresses in memory depend on what a
   call is lent: in the archive for x86-64, under valgrind's memcheck and on boards of 2 to 6 players with rows of 4 to
   4,096 bytes, and with rows of 4 to 256 bytes where cards of 1 to 256 bytes are drawn, none depends on the value, a
   seed, a word, a share, a card or a tally's entry, in any call but nsg_write_page. They do depend
     - in nsg_deal on the arrays, which say whose the seeds are, and on the point: on its grid row, and on its cell by the address at which
       the value is put. Who can watch branches or addresses while a board deals can learn where the piece is. The same holds of a deal
       refused with 18, 19 or 20. Its number and `fault` can tell the point's grid row by themselves: they are for the board's maker, not
       for players;
     - in the calls that take a key on its header and its marks, and on the position, grid row or column that is asked
       for; in nsg_tally_look_up on the position too;
     - in nsg_write_page, where it is accepted, on the table: each digit is looked up. A page shows its table to
       everybody who reads it; a table that nobody may see is not for a page.
   Every call may depend on its numbers and lengths. Instructions whose own time depends on what they work on were not looked at, nor
   other targets.

   What all players but one learn side by side: for freely drawn rows it is proved, as a count of dealings, that whichever player is left out,
   for every point and every value that may be named just as many dealings give everybody else the same keys. So nothing in those keys
   speaks for one piece against another, where arrays are shuffled uniformly and rows are drawn freely. Drawing at random is the caller's
   part. The rows that a call makes are ChaCha20's, of the lent seeds: that they are as good as freely drawn ones is believed, not proved. */
#ifndef NOSINGGINGER_H
#define NOSINGGINGER_H

#include <stdint.h>

#ifdef __cplusplus
extern "C" {
#endif

/* The version, which `pkg-config --modversion nosingginger` tells too. */
#define NSG_VERSION "0.8.0"

/* THE BOUNDS. */
#define NSG_LEAST_PLAYERS 2u
#define NSG_MOST_PLAYERS 6u
#define NSG_MOST_POSITIONS 65536u   /* the least is 1, as for the four below */
#define NSG_MOST_WIDTH 256u
#define NSG_MOST_VALUE_BYTES 16u
#define NSG_MOST_SHARE_BYTES 256u   /* of what nsg_join_shares joins, and of a card */
#define NSG_MOST_GRID_ROWS 256u
#define NSG_MOST_COLUMNS 32u
#define NSG_SEED_BYTES 32u
#define NSG_MOST_EXPANDED_BYTES 4096u   /* the longest row there is, and how far nsg_expand goes into one */
#define NSG_SENSORS 72u                 /* of the spring board, nine lines of eight squares */
#define NSG_PAGE_CELLS 8u               /* of each line of a page */
#define NSG_HEADER_NUMBERS 5u           /* what nsg_check_key gives */
#define NSG_FAULT_NUMBERS 2u            /* what nsg_deal gives of a bad column */

/* Stack that a call may need: a thread with this much to spare is enough. Measured on x86-64 Linux nsg_open_one takes
   1.6 KiB and no call more than 2.4; the tests measure every call and fail above this figure. A board with less to
   spare measures its own build. */
#define NSG_STACK_BYTES 32768u

/* SIZES OF BUFFERS, for numbers in the bounds above (a macro evaluates an argument more than once; pass plain unsigned numbers). */
#define NSG_COLUMNS(players) (1u << ((players) - 1u))
#define NSG_GRID_ROWS(positions, width) (((positions) + (width) - 1u) / (width))
#define NSG_ARRAYS_BYTES(players, positions, width) (NSG_GRID_ROWS(positions, width) * NSG_COLUMNS(players))
#define NSG_SEEDS_BYTES(players, positions, width) (NSG_ARRAYS_BYTES(players, positions, width) * NSG_SEED_BYTES)
#define NSG_WORDS_BYTES(players, width, value_bytes) ((NSG_COLUMNS(players) - 1u) * (width) * (value_bytes))
#define NSG_TABLE_BYTES(positions, value_bytes) ((positions) * (value_bytes))
#define NSG_DECK_BYTES(positions, card_bytes) ((positions) * (card_bytes))
#define NSG_PAGE_LINE_BYTES(value_bytes) (6u + NSG_PAGE_CELLS * (2u * (value_bytes) + 1u))
#define NSG_PAGE_BYTES(positions, value_bytes) \
    (((positions) + NSG_PAGE_CELLS - 1u) / NSG_PAGE_CELLS * NSG_PAGE_LINE_BYTES(value_bytes))
/* Where the digits of a position begin on a page. */
#define NSG_PAGE_PLACE(position, value_bytes) \
    ((position) / NSG_PAGE_CELLS * NSG_PAGE_LINE_BYTES(value_bytes) + 6u + \
     (position) % NSG_PAGE_CELLS * (2u * (value_bytes) + 1u))

/* A key's length is what nsg_key_length gives. These are the largest there are: one key, all players' keys, a table, a
   deck, a page. */
#define NSG_MOST_KEY_BYTES 263176u
#define NSG_MOST_KEYS_BYTES 1579056u
#define NSG_MOST_TABLE_BYTES 1048576u
#define NSG_MOST_DECK_BYTES 16777216u
#define NSG_MOST_PAGE_BYTES 2211840u

/* WHAT A CALL RETURNS, and what each number means. There is no 8: 18, 19 and 20 are in its place. A program that shows numbers to people has
   their names and words from the header beside this one, nosingginger_words.h. */
#define NSG_ACCEPTED 0u               /* the call did what it says */
#define NSG_REFUSED_PLAYERS 1u        /* the number of players is not 2 to 6 */
#define NSG_REFUSED_POSITIONS 2u      /* the number of positions is not 1 to 65,536 */
#define NSG_REFUSED_WIDTH 3u          /* the grid's width is not 1 to 256 */
#define NSG_REFUSED_VALUE_BYTES 4u    /* a value's width is not 1 to 16 bytes, or the width of shares to be joined not 1 to 256 */
#define NSG_REFUSED_GRID_ROWS 5u      /* the board has more than 256 grid rows at this width */
#define NSG_REFUSED_POINT 6u          /* the piece's point is none of the board's positions */
#define NSG_REFUSED_LENT 7u           /* an input does not have the length that the numbers ask for */
#define NSG_REFUSED_ROOM 9u           /* the output is too short for what is to be written */
#define NSG_REFUSED_NUMBER 10u        /* a key's header has a number that is cut short, over three groups or not in its shortest form */
#define NSG_REFUSED_PLAYER 11u        /* a key's player is not below its number of players */
#define NSG_REFUSED_LENGTH 12u        /* a key, or all keys together, do not have the length that the header asks for */
#define NSG_REFUSED_MARKS 13u         /* a key marks another number of columns than half in some grid row, or has a spare bit set */
#define NSG_REFUSED_POSITION 14u      /* the position is none of the board's */
#define NSG_REFUSED_PLACE 15u         /* a key is of another board than the first, or not of the player whose place it stands in */
#define NSG_REFUSED_EXPANSION 16u     /* what is asked of a seed ends past its first 4,096 bytes */
#define NSG_REFUSED_SENSOR 17u        /* the sensor is none of the spring board's 72 */
#define NSG_REFUSED_COLUMN_BIT 18u    /* an array's column has a bit of no player */
#define NSG_REFUSED_COLUMN_PARITY 19u /* an array's column has the wrong parity for its grid row */
#define NSG_REFUSED_COLUMN_TWICE 20u  /* an array's column stood earlier in its array */
#define NSG_REFUSED_CARD_KEY 21u      /* the key's values are wider than the one byte that drawing a card takes */
#define NSG_REFUSED_DECK 22u          /* a card is not 1 to 256 bytes long, or the deck is not one card for each position */
#define NSG_REFUSED_TALLY 23u         /* the key's players, player, positions or value bytes are not the tally's */

/* ---- THE BOARD: what its numbers ask for, before anything is dealt. ---- */

/* CHOOSE WIDTH: the grid's width that makes keys shortest: among the widths 1 to 256 at which the board has at most 256
   grid rows, the one whose key length, as nsg_key_length gives it, is least, and the smaller where two tie. That length
   has the key's header in it, so a width of 128 or more costs a byte there.
   Refusals, in this order: 1, 2, 4. Writes *width. */
uint32_t nsg_choose_width(uint32_t players, uint32_t positions, uint32_t value_bytes, uint32_t *width);

/* KEY LENGTH: how many bytes each player's key has.
   Refusals, in this order: 1, 2, 3, 4, 5. Writes *length, at most NSG_MOST_KEY_BYTES. */
uint32_t nsg_key_length(uint32_t players, uint32_t positions, uint32_t width, uint32_t value_bytes, uint32_t *length);

/* SENSOR POSITION: the position that a sensor of the spring board lies under. Sensors run to and fro over nine lines of eight squares: with
   line l = sensor / 8 and c = sensor % 8, position 8 * l + c on even lines and 8 * l + 7 - c on odd ones.
   Refusals: 17. Writes *position. */
uint32_t nsg_sensor_position(uint32_t sensor, uint32_t *position);

/* ---- DEALING: the board hides a piece. ---- */

/* DEAL: writes the keys of all players one after another, player 0 first: players * K bytes, with K from nsg_key_length.
     point    the piece's position.
     value    what the piece is: value_bytes bytes.
     arrays   NSG_ARRAYS_BYTES: for each grid row one byte for each column; bit i of it is player i's mark. The point's grid row has each number
              below 2^players with an odd count of ones exactly once; every other grid row each with an even count exactly once; both in an
              order drawn uniformly and anew for every grid row and every deal.
     seeds    NSG_SEEDS_BYTES: 32 random bytes for each grid row and column, grid row by grid row. Never used for another deal.
     words    NSG_WORDS_BYTES: random bytes, a word of width * value_bytes for each column but the last.
     keys     the output, of players * K bytes or more.
     fault    where the first bad column stands: fault[0] its grid row, fault[1] its column in that grid row, both from 0. Written where the
              answer is 18, 19 or 20, and left alone otherwise, by an accepted call too.
   Refusals, in this order: 1, 2, 3, 4, 5; 6 point; 7 value, arrays, seeds or words of another length than said above; 18, 19 or 20 the first
   bad column; 9 keys too short.
   Grid row 0 is looked through from column 0 on, then grid row 1, and so on. The first bad column is the byte
   arrays[fault[0] * NSG_COLUMNS(players) + fault[1]]. Its number is the first of these that fits:
     18       it has a bit at `players` or above, which is no player's;
     19       its count of ones is even in the point's grid row, or odd in another one;
     20       the same column stood earlier in its array: of two that are alike the second is the bad one.
   The caller wipes point, value, arrays, seeds and words after the call, refused or not: together they tell where the piece is. */
uint32_t nsg_deal(uint32_t players, uint32_t positions, uint32_t width, uint32_t value_bytes, uint32_t point,
                  const uint8_t *value, uint64_t value_length, const uint8_t *arrays, uint64_t arrays_length,
                  const uint8_t *seeds, uint64_t seeds_length, const uint8_t *words, uint64_t words_length,
                  uint8_t *keys, uint64_t keys_length, uint32_t fault[2]);

/* ---- KEYS: what a key says of itself. ---- */

/* CHECK KEY: whether the bytes are a key, and whose and of which board.
   Refusals, in this order: 10 (of any of the five numbers); 1, 2, 3, 4, 5 of the header's numbers; 11; 12; 13.
   Writes header[0] players, header[1] player, header[2] positions, header[3] width, header[4] value bytes. */
uint32_t nsg_check_key(const uint8_t *key, uint64_t key_length, uint32_t header[5]);

/* HELD SEED: where in the key the 32 bytes of the seed of a grid row and column begin: key + result. 0 where the key has none: nsg_check_key
   refuses the key, the grid row or the column does not exist, or the player does not mark that column. (A held seed never begins at 0: the
   header stands there.) Writes nothing. */
uint64_t nsg_held_seed(const uint8_t *key, uint64_t key_length, uint32_t grid_row, uint32_t column);

/* ---- OPENING: what one player sees. ---- */

/* OPEN ONE: a player's share of one position, the value_bytes bytes that nsg_open_all writes for it. It expands
   the held seeds of the position's grid row alone, and these only where its cell lies: in one block of 64 bytes of each,
   or in two where the cell reaches into the next.
   Refusals, in this order: those of nsg_check_key; 14 position; 9 output under value_bytes. Writes value_bytes bytes. */
uint32_t nsg_open_one(const uint8_t *key, uint64_t key_length, uint32_t position, uint8_t *out, uint64_t out_length);

/* OPEN ALL: a player's table, the share of every position.
   Refusals, in this order: those of nsg_check_key; 9 output under positions * value_bytes. Writes positions * value_bytes bytes. */
uint32_t nsg_open_all(const uint8_t *key, uint64_t key_length, uint8_t *out, uint64_t out_length);

/* ---- DRAWING: one card of a deck that all players hold, and none of them learns which, unless all put their keys or
   answers together. The deck is not secret from whoever may draw: docs/CARDS.md says what each side sees. ---- */

/* DRAW CARD: what a player answers to a key that asks for a card: the XOR of the cards at the positions where the key's
   share has its lowest bit set. Who wants the card at a position deals keys with value_bytes 1, that position as the
   point and the value 1, and nsg_join_shares joins the answers of all players, with card_bytes as its value_bytes. They
   join to the card at the point where the value is odd, and to zeros where it is even. Keys of different deals, or
   decks that differ, are not refused: what they join to need not be a card. The call reads every card, whichever is
   asked for.
     deck         NSG_DECK_BYTES(positions, card_bytes) bytes, with the positions of the key's board.
     card_bytes   1 to NSG_MOST_SHARE_BYTES.
   Refusals, in this order: those of nsg_check_key; 21 a key with more value bytes than 1; 22 card_bytes, or a deck of
   another length; 9 output under card_bytes. Writes card_bytes bytes. */
uint32_t nsg_draw_card(const uint8_t *key, uint64_t key_length, const uint8_t *deck, uint64_t deck_length,
                       uint32_t card_bytes, uint8_t *out, uint64_t out_length);

/* ---- JOINING: what all players see together. ---- */

/* JOIN SHARES: the XOR of all players' shares of one position: the value on the piece's square, zeros on every other.
   Of all players' answers to a draw: the card.
     value_bytes   of a share or an answer: here 1 to NSG_MOST_SHARE_BYTES.
     shares        players * value_bytes bytes, one share after another, in any order of players.
   Refusals, in this order: 1; 4; 7 shares of another length; 9 output under value_bytes. Writes value_bytes bytes. */
uint32_t nsg_join_shares(uint32_t players, uint32_t value_bytes, const uint8_t *shares, uint64_t shares_length,
                         uint8_t *out, uint64_t out_length);

/* JOIN KEYS: the joined table of a match, from all its keys one after another, player 0's first, as nsg_deal writes them.
   Refusals, in this order: of the first key 10, 1, 2, 3, 4, 5, 11; 12 where all keys together are not players * K bytes by the first header;
   then for each key in turn, the first too: its 10, 1, 2, 3, 4, 5, 11, then 15, then 13; last 9 output under positions * value_bytes.
   Writes positions * value_bytes bytes. Keys of one board that come from different deals are not refused: they join to noise. */
uint32_t nsg_join_keys(const uint8_t *keys, uint64_t keys_length, uint8_t *out, uint64_t out_length);

/* ---- THE TALLY: what was hidden over many hunts, and no hunt's own board. Each player makes a tally and adds to it
   the own key of each hunt. The entries of all players' tallies at one position, joined by nsg_join_shares, are the XOR
   of all values that were hidden there; the totals, joined in the same way, are the XOR of all values that were hidden.
     - No tally alone shows anything. Joined, the tallies of several hunts show the XOR over all of these, and no hunt
       by itself.
     - The hunts must be the same for all players: each adds exactly the own keys of these hunts, in any order. A hunt
       that one player leaves out, or adds once too often, makes every joined entry noise, and nothing checks it.
     - Two equal values on one square leave zeros there, and three leave one of them.
     - A key that is added once more is taken out again, by whoever holds it and the tally.
   All four calls are given the tally's numbers: players; player, whose tally it is; positions; value_bytes. The width
   is none of them, and may differ from key to key. And they are lent
     table   NSG_TABLE_BYTES(positions, value_bytes) bytes or more. Those behind are neither read nor written.
   A call cannot see where a table comes from: it must be one that nsg_tally_make made with the same numbers, and that
   nothing but nsg_tally_add has changed since. ---- */

/* TALLY MAKE: makes every entry zeros.
   Refusals, in this order: 1; 2; 4; 11 player; 9 table under positions * value_bytes. Writes positions * value_bytes
   bytes. */
uint32_t nsg_tally_make(uint32_t players, uint32_t player, uint32_t positions, uint32_t value_bytes,
                        uint8_t *table, uint64_t table_length);

/* TALLY ADD: XORs the table that nsg_open_all writes for the key into the tally's, in about the same time and without a
   second table.
   Refusals, in this order: those of nsg_tally_make; those of nsg_check_key; 23 a key whose players, player, positions
   or value bytes are not the tally's. Writes positions * value_bytes bytes of the table. */
uint32_t nsg_tally_add(uint32_t players, uint32_t player, uint32_t positions, uint32_t value_bytes,
                       const uint8_t *key, uint64_t key_length, uint8_t *table, uint64_t table_length);

/* TALLY LOOK UP: the tally's entry of one position.
   Refusals, in this order: those of nsg_tally_make; 14 position; 9 output under value_bytes. Writes value_bytes
   bytes. */
uint32_t nsg_tally_look_up(uint32_t players, uint32_t player, uint32_t positions, uint32_t value_bytes,
                           const uint8_t *table, uint64_t table_length, uint32_t position,
                           uint8_t *out, uint64_t out_length);

/* TALLY TOTAL: the XOR of all the tally's entries.
   Refusals, in this order: those of nsg_tally_make; 9 output under value_bytes. Writes value_bytes bytes. */
uint32_t nsg_tally_total(uint32_t players, uint32_t player, uint32_t positions, uint32_t value_bytes,
                         const uint8_t *table, uint64_t table_length, uint8_t *out, uint64_t out_length);

/* ---- THE PAGE: an opened table, for people to read. ---- */

/* WRITE PAGE: a table as lines of text, to be printed and pinned up. A line has eight positions, NSG_PAGE_CELLS:
     - the first of them in decimal, right-aligned with spaces in five places;
     - a cell for each: one space, then the entry in 2 * value_bytes hexadecimal digits, upper-case. Byte 0 comes first,
       and of a byte the high digit;
     - in the last line, for each cell past the last position, as many spaces;
     - one line feed.
   Ten positions of one byte, the second line with 18 spaces behind the 09:
         0 00 01 02 03 04 05 06 07
         8 08 09
   Every line is NSG_PAGE_LINE_BYTES(value_bytes) bytes long, so a cell is found by its line and column alone: the
   digits of position a begin at byte NSG_PAGE_PLACE(a, value_bytes). All bytes are ASCII, and no zero byte ends the
   page. It tells the whole table: a player's own is noise, the joined one shows where the piece is.
     table   NSG_TABLE_BYTES(positions, value_bytes) bytes, as nsg_join_keys or nsg_open_all writes them.
   Refusals, in this order: 2; 4; 7 table of another length; 9 output under NSG_PAGE_BYTES(positions, value_bytes).
   Writes that many bytes, and their number to *written; at most NSG_MOST_PAGE_BYTES. */
uint32_t nsg_write_page(uint32_t positions, uint32_t value_bytes, const uint8_t *table, uint64_t table_length,
                        uint8_t *out, uint64_t out_length, uint32_t *written);

/* ---- SEEDS: the rows that they stand for. ---- */

/* EXPAND: fills the output with bytes of the seed's key stream: of its first start + out_length bytes those from start
   on. Start 0 is its first byte. Length 0 is accepted.
   Refusals, in this order: 7 seed not of 32 bytes; 16 start + out_length above NSG_MOST_EXPANDED_BYTES, also where 64
   bits cannot hold the sum. Writes out_length bytes. */
uint32_t nsg_expand(const uint8_t *seed, uint64_t seed_length, uint64_t start, uint8_t *out, uint64_t out_length);

#ifdef __cplusplus
}
#endif

#endif
