// The header in C++, and the archive behind it: the spring board's width and key length for four players, a page in an
// array of its size, a new tally's entry and total, and the place of a column that stands twice.
#include <nosingginger.h>

int main()
{
    const uint8_t value = 1, arrays[2] = {2, 2}, seeds[2 * NSG_SEED_BYTES] = {}, word = 3;
    uint8_t keys[200], page[NSG_PAGE_BYTES(2, 1)], table[NSG_TABLE_BYTES(2, 3)] = {9, 9, 9, 9, 9, 9}, entry[3];
    uint32_t width = 0, length = 0, fault[NSG_FAULT_NUMBERS] = {7, 7};
    if (nsg_choose_width(4, NSG_SENSORS, 1, &width) != NSG_ACCEPTED || width != 36)
        return 1;
    if (nsg_key_length(4, NSG_SENSORS, width, 1, &length) != NSG_ACCEPTED || length != 551)
        return 1;
    if (nsg_write_page(2, 1, arrays, 2, page, sizeof page, &length) != NSG_ACCEPTED || length != sizeof page)
        return 1;
    if (nsg_tally_make(2, 1, 2, 3, table, sizeof table) != NSG_ACCEPTED)
        return 1;
    table[5] = 4;
    if (nsg_tally_look_up(2, 1, 2, 3, table, sizeof table, 1, entry, 3) != NSG_ACCEPTED || entry[2] != 4)
        return 1;
    table[1] = 2;
    if (nsg_tally_total(2, 1, 2, 3, table, sizeof table, entry, 3) != NSG_ACCEPTED || entry[1] != 2 || entry[2] != 4)
        return 1;
    if (nsg_tally_add(2, 1, 2, 3, keys, 0, table, sizeof table) != NSG_REFUSED_NUMBER)
        return 1;
    if (nsg_deal(2, 1, 1, 1, 0, &value, 1, arrays, 2, seeds, sizeof seeds, &word, 1, keys, sizeof keys, fault) != NSG_REFUSED_COLUMN_TWICE)
        return 1;
    return fault[0] != 0 || fault[1] != 1;
}
