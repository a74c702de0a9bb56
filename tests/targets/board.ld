/* A board with a Cortex-M4, 1 MiB of flash and 64 KiB of memory. The stack (STACK bytes, given to the linker) lies at the memory's bottom. */
MEMORY
{
    flash (rx) : ORIGIN = 0x08000000, LENGTH = 1M
    memory (rw) : ORIGIN = 0x20000000, LENGTH = 64K
}
ENTRY(reset)
SECTIONS
{
    .vectors : { KEEP(*(.vectors)) } > flash
    .text : { *(.text*) *(.rodata*) } > flash
    .ARM.exidx : { *(.ARM.exidx*) } > flash
    .stack (NOLOAD) : { stack_end = .; . = . + STACK; stack_top = .; } > memory
    .data : { *(.data*) } > memory
    .bss (NOLOAD) : { . = ALIGN(8); bss_begin = .; *(.bss*) *(COMMON) bss_end = .; } > memory
}
ASSERT(SIZEOF(.data) == 0, "nothing copies data that is not zeros into the memory")
