/* Write page by plain C: byte after byte, digits from a table of sixteen, without snprintf. It turns away what document
   02 turns away, with one number for all of it. ./run tells what else was tried. */
#include "contenders.h"
#include <string.h>

enum { PLACES = 5 };

/* A position in five places, filled from the right. */
static uint8_t *put_position(uint8_t *at, uint32_t position)
{
    uint8_t *place = at + PLACES;
    do {
        *--place = (uint8_t)('0' + position % 10);
        position /= 10;
    } while (position != 0);
    while (place != at)
        *--place = ' ';
    return at + PLACES;
}

static uint8_t *put_entry(uint8_t *at, const uint8_t *entry, uint32_t value_bytes)
{
    static const char digits[] = "0123456789ABCDEF";
    *at++ = ' ';
    for (uint32_t i = 0; i < value_bytes; i++) {
        *at++ = (uint8_t)digits[entry[i] >> 4];
        *at++ = (uint8_t)digits[entry[i] & 15];
    }
    return at;
}

uint32_t plain_write_page(uint32_t positions, uint32_t value_bytes, const uint8_t *table, uint64_t table_length,
                          uint8_t *out, uint64_t out_length, uint32_t *written)
{
    if (positions < 1 || positions > NSG_MOST_POSITIONS || value_bytes < 1 || value_bytes > NSG_MOST_VALUE_BYTES ||
        table_length != NSG_TABLE_BYTES(positions, value_bytes) || out_length < NSG_PAGE_BYTES(positions, value_bytes))
        return 1;
    for (uint32_t first = 0; first < positions; first += NSG_PAGE_CELLS) {
        uint32_t left = positions - first, cells = left < NSG_PAGE_CELLS ? left : NSG_PAGE_CELLS;
        size_t past = (size_t)(NSG_PAGE_CELLS - cells) * (2 * value_bytes + 1);
        out = put_position(out, first);
        for (uint32_t i = 0; i < cells; i++, table += value_bytes)
            out = put_entry(out, table, value_bytes);
        memset(out, ' ', past);
        out += past;
        *out++ = '\n';
    }
    *written = NSG_PAGE_BYTES(positions, value_bytes);
    return 0;
}
