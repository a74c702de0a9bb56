/* Choose width by plain C: every width is tried, what the widths have in common worked out once. It turns away what
   document 02 turns away, with one number for all of it. */
#include "contenders.h"

/* Bytes of a header number, in groups of seven bits. */
static uint32_t number_bytes(uint32_t number)
{
    return number < 1u << 7 ? 1 : number < 1u << 14 ? 2 : 3;
}

uint32_t plain_choose_width(uint32_t players, uint32_t positions, uint32_t value_bytes, uint32_t *width)
{
    if (players < NSG_LEAST_PLAYERS || players > NSG_MOST_PLAYERS || positions < 1 || positions > NSG_MOST_POSITIONS ||
        value_bytes < 1 || value_bytes > NSG_MOST_VALUE_BYTES)
        return 1;
    const uint32_t columns = NSG_COLUMNS(players), stride = (columns + 7) / 8 + columns / 2 * NSG_SEED_BYTES;
    const uint32_t others = number_bytes(players) + number_bytes(0) + number_bytes(positions) + number_bytes(value_bytes);
    uint32_t least = UINT32_MAX;
    for (uint32_t tried = 1; tried <= NSG_MOST_WIDTH; tried++) {
        uint32_t grid_rows = NSG_GRID_ROWS(positions, tried);
        if (grid_rows > NSG_MOST_GRID_ROWS)
            continue;
        uint32_t length = others + number_bytes(tried) + grid_rows * stride + columns * tried * value_bytes;
        if (length < least) {
            least = length;
            *width = tried;
        }
    }
    return 0;
}
