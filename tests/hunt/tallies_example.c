/* Plays an evening with the C example of docs/TALLIES.md. Standard input has HUNTS hunts: of each PHONES keys, in front
   of each key a line with its length in bytes. Phone 0 adds them in order, phone 1 from the last to the first, phone 2
   from the third on. Before each it tries the next phone's key, which is not its own. Writes the joined entry of every
   square in hexadecimal, one on a line, and then the joined total. The status is 1 where a call answers another number
   than it should, and 2 where the input is not as it should be. */
#include <nosingginger.h>
#include <stdio.h>

enum { PHONES = 3, SQUARES = 72, VALUE_BYTES = 2, TABLE_BYTES = NSG_TABLE_BYTES(SQUARES, VALUE_BYTES) };
enum { HUNTS = 5, KEY_ROOM = 1024, BEHIND = 3, KEPT = 0x5A };

uint32_t start_evening(uint32_t phone, uint8_t *table);
uint32_t add_hunt(uint32_t phone, uint8_t *table, const uint8_t *key, uint64_t key_length);
uint32_t entry_of(uint32_t phone, const uint8_t *table, uint32_t square, uint8_t *entry);
uint32_t total_of(uint32_t phone, const uint8_t *table, uint8_t *total);
uint32_t join_sent(const uint8_t *sent, uint8_t *joined);

static uint8_t keys[HUNTS][PHONES][KEY_ROOM], tables[PHONES][TABLE_BYTES + BEHIND];
static unsigned long lengths[HUNTS][PHONES];

static int read_keys(void)
{
    for (uint32_t hunt = 0; hunt < HUNTS; hunt++)
        for (uint32_t phone = 0; phone < PHONES; phone++) {
            unsigned long *length = &lengths[hunt][phone];
            if (scanf("%lu", length) != 1 || getchar() != '\n' || *length > KEY_ROOM)
                return 0;
            if (fread(keys[hunt][phone], 1, *length, stdin) != *length)
                return 0;
        }
    return 1;
}

/* The place among the hunts that a phone adds at this turn: an order of its own. */
static uint32_t hunt_at(uint32_t phone, uint32_t turn)
{
    return phone == 0 ? turn : phone == 1 ? HUNTS - 1 - turn : (turn + 2) % HUNTS;
}

/* A phone's evening. Bytes behind its table are not the table's. */
static int keep_tally(uint32_t phone)
{
    uint8_t *table = tables[phone];
    for (uint32_t i = 0; i < TABLE_BYTES + BEHIND; i++)
        table[i] = KEPT;
    if (start_evening(phone, table) != NSG_ACCEPTED)
        return 0;
    for (uint32_t turn = 0; turn < HUNTS; turn++) {
        uint32_t hunt = hunt_at(phone, turn), other = (phone + 1) % PHONES;
        if (add_hunt(phone, table, keys[hunt][other], lengths[hunt][other]) != NSG_REFUSED_TALLY)
            return 0;
        if (add_hunt(phone, table, keys[hunt][phone], lengths[hunt][phone]) != NSG_ACCEPTED)
            return 0;
    }
    for (uint32_t i = TABLE_BYTES; i < TABLE_BYTES + BEHIND; i++)
        if (table[i] != KEPT)
            return 0;
    return 1;
}

static int put_joined(const uint8_t *sent)
{
    uint8_t joined[VALUE_BYTES];
    if (join_sent(sent, joined) != NSG_ACCEPTED)
        return 0;
    for (uint32_t i = 0; i < VALUE_BYTES; i++)
        printf("%02X", joined[i]);
    printf("\n");
    return 1;
}

int main(void)
{
    uint8_t sent[PHONES * VALUE_BYTES];
    if (!read_keys())
        return 2;
    for (uint32_t phone = 0; phone < PHONES; phone++)
        if (!keep_tally(phone))
            return 1;
    for (uint32_t square = 0; square < SQUARES; square++) {
        for (uint32_t phone = 0; phone < PHONES; phone++)
            if (entry_of(phone, tables[phone], square, sent + phone * VALUE_BYTES) != NSG_ACCEPTED)
                return 1;
        if (!put_joined(sent))
            return 1;
    }
    for (uint32_t phone = 0; phone < PHONES; phone++)
        if (total_of(phone, tables[phone], sent + phone * VALUE_BYTES) != NSG_ACCEPTED)
            return 1;
    return put_joined(sent) ? 0 : 1;
}
