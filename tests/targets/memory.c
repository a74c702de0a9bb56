/* What a compiler expects to find where there is no C library: copying, filling, and divisions of numbers that the machine cannot divide.
   Compiled with -fno-builtin, so that no loop becomes a call of the function it stands in. */
#include <stdint.h>

typedef __SIZE_TYPE__ size_t;

void *memcpy(void *to, const void *from, size_t length)
{
    uint8_t *t = to;
    const uint8_t *f = from;
    while (length-- > 0)
        *t++ = *f++;
    return to;
}

void *memmove(void *to, const void *from, size_t length)
{
    uint8_t *t = to;
    const uint8_t *f = from;
    if (t <= f)
        return memcpy(to, from, length);
    while (length-- > 0)
        t[length] = f[length];
    return to;
}

void *memset(void *to, int byte, size_t length)
{
    uint8_t *t = to;
    while (length-- > 0)
        *t++ = (uint8_t)byte;
    return to;
}

#if __SIZEOF_POINTER__ == 4 && !defined __wasm__

/* The quotient, digit by digit; the rest goes to `rest`. */
uint64_t divided(uint64_t number, uint64_t divisor, uint64_t *rest)
{
    uint64_t quotient = 0, left = 0;
    for (int bit = 63; bit >= 0; bit--) {
        left = left << 1 | (number >> bit & 1);
        quotient <<= 1;
        if (left >= divisor) {
            left -= divisor;
            quotient |= 1;
        }
    }
    *rest = left;
    return quotient;
}

uint64_t __udivdi3(uint64_t number, uint64_t divisor)
{
    uint64_t rest;
    return divided(number, divisor, &rest);
}

uint64_t __umoddi3(uint64_t number, uint64_t divisor)
{
    uint64_t rest;
    divided(number, divisor, &rest);
    return rest;
}

#endif

#if defined __arm__

/* Arm's own names for these. */
void __aeabi_memcpy(void *to, const void *from, size_t length) { memcpy(to, from, length); }
void __aeabi_memcpy4(void *to, const void *from, size_t length) { memcpy(to, from, length); }
void __aeabi_memcpy8(void *to, const void *from, size_t length) { memcpy(to, from, length); }
void __aeabi_memmove(void *to, const void *from, size_t length) { memmove(to, from, length); }
void __aeabi_memmove4(void *to, const void *from, size_t length) { memmove(to, from, length); }
void __aeabi_memmove8(void *to, const void *from, size_t length) { memmove(to, from, length); }
void __aeabi_memset(void *to, size_t length, int byte) { memset(to, byte, length); }
void __aeabi_memset4(void *to, size_t length, int byte) { memset(to, byte, length); }
void __aeabi_memset8(void *to, size_t length, int byte) { memset(to, byte, length); }
void __aeabi_memclr(void *to, size_t length) { memset(to, 0, length); }
void __aeabi_memclr4(void *to, size_t length) { memset(to, 0, length); }
void __aeabi_memclr8(void *to, size_t length) { memset(to, 0, length); }

/* The quotient in r0 and the rest in r1: together a number of 64 bits. */
uint64_t __aeabi_uidivmod(uint32_t number, uint32_t divisor)
{
    uint64_t rest, quotient = divided(number, divisor, &rest);
    return rest << 32 | quotient;
}

uint32_t __aeabi_uidiv(uint32_t number, uint32_t divisor)
{
    uint64_t rest;
    return (uint32_t)divided(number, divisor, &rest);
}

/* The quotient in r0 and r1, the rest in r2 and r3. */
__asm__(".text\n.global __aeabi_uldivmod\n.type __aeabi_uldivmod, %function\n"
#if defined __thumb__
        ".thumb_func\n"
#endif
        "__aeabi_uldivmod:\n"
        "push {r4, lr}\n"
        "sub sp, sp, #16\n"
        "add r4, sp, #8\n"
        "str r4, [sp]\n"
        "bl divided\n"
        "ldr r2, [sp, #8]\n"
        "ldr r3, [sp, #12]\n"
        "add sp, sp, #16\n"
        "pop {r4, pc}\n");

#endif
