/* The test of a target on Linux, with no C library: the data comes from standard input, three system calls are all that is used. */
#include "platform.h"

long system_call(long number, long first, long second, long third);

#if defined __x86_64__
enum { READ = 0, WRITE = 1, EXIT = 60 };
__asm__(".text\n.global _start\n_start:\n"
        "xor %ebp, %ebp\nand $-16, %rsp\ncall start\n"
        ".global system_call\nsystem_call:\n"
        "mov %rdi, %rax\nmov %rsi, %rdi\nmov %rdx, %rsi\nmov %rcx, %rdx\nsyscall\nret\n");
#elif defined __aarch64__
enum { READ = 63, WRITE = 64, EXIT = 93 };
__asm__(".text\n.global _start\n_start:\nbl start\n"
        ".global system_call\nsystem_call:\n"
        "mov x8, x0\nmov x0, x1\nmov x1, x2\nmov x2, x3\nsvc #0\nret\n");
#elif defined __arm__
enum { READ = 3, WRITE = 4, EXIT = 1 };
__asm__(".text\n.arm\n.global _start\n_start:\nbl start\n"
        ".global system_call\nsystem_call:\n"
        "push {r7, lr}\nmov r7, r0\nmov r0, r1\nmov r1, r2\nmov r2, r3\nsvc #0\npop {r7, pc}\n");
#elif defined __riscv
enum { READ = 63, WRITE = 64, EXIT = 93 };
__asm__(".text\n.global _start\n_start:\n"
        ".option push\n.option norelax\nla gp, __global_pointer$\n.option pop\ncall start\n"
        ".global system_call\nsystem_call:\n"
        "mv a7, a0\nmv a0, a1\nmv a1, a2\nmv a2, a3\necall\nret\n");
#endif

static uint8_t buffer[1 << 16];
static uint32_t at, filled;

static void end(int status)
{
    for (;;)
        system_call(EXIT, status, 0, 0);
}

void say(const char *text, uint32_t length)
{
    while (length > 0) {
        long written = system_call(WRITE, 1, (long)text, length);
        if (written <= 0)
            end(2);
        text += written;
        length -= (uint32_t)written;
    }
}

void take(uint8_t *bytes, uint32_t length)
{
    for (uint32_t i = 0; i < length; i++) {
        if (at == filled) {
            long got = system_call(READ, 0, (long)buffer, sizeof buffer);
            if (got <= 0) {
                text("the data is cut short\n");
                end(2);
            }
            filled = (uint32_t)got;
            at = 0;
        }
        bytes[i] = buffer[at++];
    }
}

void start(void) { end(test()); }
