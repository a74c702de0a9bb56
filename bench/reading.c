/* Reading once: the XOR of all bytes by plain C, the bound that memory sets to whoever needs every byte. */
#include "contenders.h"

/* With 64 sums: one sum, of a byte or of 64 bits, takes 1.4 to 2.8 times as long, by where its loop lies. */
uint8_t read_once(const uint8_t *bytes, size_t length)
{
    uint8_t sums[64] = {0}, sum = 0;
    size_t i = 0;
    for (; i + 64 <= length; i += 64)
        for (size_t k = 0; k < 64; k++)
            sums[k] ^= bytes[i + k];
    for (; i < length; i++)
        sum ^= bytes[i];
    for (size_t k = 0; k < 64; k++)
        sum ^= sums[k];
    return sum;
}
