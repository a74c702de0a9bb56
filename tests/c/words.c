/* The names and words of the numbers, compiled as C and as C++. Prints the version, and then a line for each number below 1,000 that is known,
   from 1 on. The status is 1 where 0, or a number that is no refusal, is not answered as nosingginger_words.h says. */
#include <nosingginger_words.h>
#include <stdio.h>
#include <string.h>

static int is(uint32_t number, const char *name, const char *words)
{
    return strcmp(nsg_refusal_name(number), name) == 0 && strcmp(nsg_refusal_words(number), words) == 0;
}

static int unknown(uint32_t number)
{
    return is(number, "REFUSED", "a number that is not known here");
}

int main(void)
{
    printf("%s\n", NSG_VERSION);
    for (uint32_t number = 1; number < 1000; number++)
        if (!unknown(number))
            printf("%u %s %s\n", (unsigned)number, nsg_refusal_name(number), nsg_refusal_words(number));
    return !(is(NSG_ACCEPTED, "ACCEPTED", "the call did what it says") && unknown(0x10001) && unknown(0x80000001) && unknown(UINT32_MAX));
}
