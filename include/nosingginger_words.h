/* nosingginger_words.h: the numbers that the calls of nosingginger.h return, by name and in words, for a program that shows them to people.
   Everything is here: the library has no words in it, and a program that does not include this header does not carry them.

   Both functions answer every number, with an ASCII string that nobody frees. A number that no call returns is named "REFUSED", and its words
   are "a number that is not known here". Assumes C99 or C++11. */
#ifndef NOSINGGINGER_WORDS_H
#define NOSINGGINGER_WORDS_H

#include "nosingginger.h"

/* The number's name, which is the macro's without NSG_: "REFUSED_LENGTH". */
static inline const char *nsg_refusal_name(uint32_t number)
{
    switch (number) {
    case NSG_ACCEPTED: return "ACCEPTED";
    case NSG_REFUSED_PLAYERS: return "REFUSED_PLAYERS";
    case NSG_REFUSED_POSITIONS: return "REFUSED_POSITIONS";
    case NSG_REFUSED_WIDTH: return "REFUSED_WIDTH";
    case NSG_REFUSED_VALUE_BYTES: return "REFUSED_VALUE_BYTES";
    case NSG_REFUSED_GRID_ROWS: return "REFUSED_GRID_ROWS";
    case NSG_REFUSED_POINT: return "REFUSED_POINT";
    case NSG_REFUSED_LENT: return "REFUSED_LENT";
    case NSG_REFUSED_ROOM: return "REFUSED_ROOM";
    case NSG_REFUSED_NUMBER: return "REFUSED_NUMBER";
    case NSG_REFUSED_PLAYER: return "REFUSED_PLAYER";
    case NSG_REFUSED_LENGTH: return "REFUSED_LENGTH";
    case NSG_REFUSED_MARKS: return "REFUSED_MARKS";
    case NSG_REFUSED_POSITION: return "REFUSED_POSITION";
    case NSG_REFUSED_PLACE: return "REFUSED_PLACE";
    case NSG_REFUSED_EXPANSION: return "REFUSED_EXPANSION";
    case NSG_REFUSED_SENSOR: return "REFUSED_SENSOR";
    case NSG_REFUSED_COLUMN_BIT: return "REFUSED_COLUMN_BIT";
    case NSG_REFUSED_COLUMN_PARITY: return "REFUSED_COLUMN_PARITY";
    case NSG_REFUSED_COLUMN_TWICE: return "REFUSED_COLUMN_TWICE";
    case NSG_REFUSED_CARD_KEY: return "REFUSED_CARD_KEY";
    case NSG_REFUSED_DECK: return "REFUSED_DECK";
    case NSG_REFUSED_TALLY: return "REFUSED_TALLY";
    default: return "REFUSED";
    }
}

/* The number in words, with no capital and no full stop: "the position is none of the board's". */
static inline const char *nsg_refusal_words(uint32_t number)
{
    switch (number) {
    case NSG_ACCEPTED: return "the call did what it says";
    case NSG_REFUSED_PLAYERS: return "the number of players is not 2 to 6";
    case NSG_REFUSED_POSITIONS: return "the number of positions is not 1 to 65,536";
    case NSG_REFUSED_WIDTH: return "the grid's width is not 1 to 256";
    case NSG_REFUSED_VALUE_BYTES: return "a value's width is not 1 to 16 bytes, or the width of shares to be joined not 1 to 256";
    case NSG_REFUSED_GRID_ROWS: return "the board has more than 256 grid rows at this width";
    case NSG_REFUSED_POINT: return "the piece's point is none of the board's positions";
    case NSG_REFUSED_LENT: return "an input does not have the length that the numbers ask for";
    case NSG_REFUSED_ROOM: return "the output is too short for what is to be written";
    case NSG_REFUSED_NUMBER: return "a key's header has a number that is cut short, over three groups or not in its shortest form";
    case NSG_REFUSED_PLAYER: return "a key's player is not below its number of players";
    case NSG_REFUSED_LENGTH: return "a key, or all keys together, do not have the length that the header asks for";
    case NSG_REFUSED_MARKS: return "a key marks another number of columns than half in some grid row, or has a spare bit set";
    case NSG_REFUSED_POSITION: return "the position is none of the board's";
    case NSG_REFUSED_PLACE: return "a key is of another board than the first, or not of the player whose place it stands in";
    case NSG_REFUSED_EXPANSION: return "what is asked of a seed ends past its first 4,096 bytes";
    case NSG_REFUSED_SENSOR: return "the sensor is none of the spring board's 72";
    case NSG_REFUSED_COLUMN_BIT: return "an array's column has a bit of no player";
    case NSG_REFUSED_COLUMN_PARITY: return "an array's column has the wrong parity for its grid row";
    case NSG_REFUSED_COLUMN_TWICE: return "an array's column stood earlier in its array";
    case NSG_REFUSED_CARD_KEY: return "the key's values are wider than the one byte that drawing a card takes";
    case NSG_REFUSED_DECK: return "a card is not 1 to 256 bytes long, or the deck is not one card for each position";
    case NSG_REFUSED_TALLY: return "the key's players, player, positions or value bytes are not the tally's";
    default: return "a number that is not known here";
    }
}

#endif
