/* Code from 0, as flash is, and memory from 20000000h, as much as MEMORY tells. The stack lies in
 * front of all else that is in memory: one that is too deep is told as a fault, and writes over
 * nothing. */
ENTRY(vectors)

SECTIONS
{
    . = 0;
    .text : {
        KEEP(*(.vectors))
        *(.text*)
        *(.rodata*)
        . = ALIGN(8);
        data_kept = .;
    }
    . = 0x20000000;
    .stack (NOLOAD) : {
        . += 0x6000; /* 24 KB */
        stack_end = .;
    }
    .data : AT(data_kept) {
        data_begin = .;
        *(.data*)
        . = ALIGN(8);
        data_end = .;
    }
    .bss (NOLOAD) : {
        bss_begin = .;
        *(.bss*)
        *(COMMON)
        . = ALIGN(8);
        bss_end = .;
    }
    ASSERT(bss_end <= 0x20000000 + MEMORY, "more memory than the part has")
    /DISCARD/ : { *(.comment) *(.note*) *(.eh_frame*) *(.ARM.*) }
}
