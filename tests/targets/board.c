/* The test of a target on a bare Cortex-M4 with 64 KiB of memory: the data is streamed from the machine beside the board by semihosting, so
   that it takes no memory here. The stack lies at the bottom of the memory: where it overflows there is nothing, and the board faults. */
#include "platform.h"

enum { OPEN = 0x01, WRITE = 0x05, READ = 0x06, EXIT = 0x20, STOPPED = 0x20026, PAINT = 0xA5 };

extern uint8_t stack_end[], stack_top[], bss_begin[], bss_end[];

static uint32_t data_file, output;

static uint32_t ask(uint32_t operation, const void *words)
{
    register uint32_t r0 __asm__("r0") = operation;
    register const void *r1 __asm__("r1") = words;
    __asm__ volatile("bkpt 0xAB" : "+r"(r0) : "r"(r1) : "memory");
    return r0;
}

static uint32_t open(const char *name, uint32_t length, uint32_t mode)
{
    uint32_t words[3] = {(uint32_t)name, mode, length};
    return ask(OPEN, words);
}

static void end(uint32_t status)
{
    uint32_t words[2] = {STOPPED, status};
    for (;;)
        ask(EXIT, words);
}

void say(const char *text, uint32_t length)
{
    uint32_t words[3] = {output, (uint32_t)text, length};
    ask(WRITE, words);
}

void take(uint8_t *bytes, uint32_t length)
{
    uint32_t words[3] = {data_file, (uint32_t)bytes, length};
    /* the answer is how many bytes were not read */
    if (length > 0 && ask(READ, words) != 0) {
        text("the data is cut short\n");
        end(2);
    }
}

/* The bytes of stack that were ever written: those above the paint that is left. */
static void say_stack(void)
{
    const uint8_t *at = stack_end;
    while (at < stack_top && *at == PAINT)
        at++;
    text("stack used: ");
    decimal((uint32_t)(stack_top - at));
    text(" bytes\n");
}

/* The emulated board has 128 KiB; its protection unit takes the upper 64 KiB away, so that a touch of them faults. */
static void take_upper_half(void)
{
    volatile uint32_t *const control = (uint32_t *)0xE000ED94, *const region = (uint32_t *)0xE000ED98;
    region[0] = 0;
    region[1] = 0x20010000;
    region[2] = 1u << 28 | 15u << 1 | 1; /* nothing is run, read or written there; 2^16 bytes; on */
    *control = 5;                        /* on, and all else stays as it is */
    __asm__ volatile("dsb\nisb" ::: "memory");
}

__attribute__((used)) static void run(void)
{
    int status;
    take_upper_half();
    for (uint8_t *at = bss_begin; at < bss_end; at++)
        *at = 0;
    data_file = open("cases.bin", 9, 1);
    output = open(":tt", 3, 4);
    status = test();
    say_stack();
    end((uint32_t)status);
}

/* Paints the stack before there is anything on it. */
__attribute__((naked)) void reset(void)
{
    __asm__("ldr r0, =stack_end\nldr r1, =stack_top\nmovs r2, %0\n"
            "0: strb r2, [r0], #1\ncmp r0, r1\nblo 0b\n"
            "b run\n" ::"i"(PAINT));
}

/* On a fault the stack may be gone, so a new one begins at the top. */
__attribute__((used)) static void say_fault(void)
{
    text("FAULT: the stack (board_stack of targets/settings) is too small, or bytes outside the memory were touched\n");
    end(3);
}

__attribute__((naked)) static void fault(void) { __asm__("ldr r0, =stack_top\nmov sp, r0\nb say_fault\n"); }

__attribute__((section(".vectors"), used)) static const void *const vectors[16] = {
    stack_top, (void *)reset, (void *)fault, (void *)fault, (void *)fault, (void *)fault, (void *)fault};
