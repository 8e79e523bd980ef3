/* Where the firmware lies in the memory of `-M virt`, which begins at 0x40000000. */
ENTRY(_start)

PHDRS
{
    code PT_LOAD FLAGS(5);
    data PT_LOAD FLAGS(6);
}

SECTIONS
{
    . = 0x40080000;
    .text : { *(.text.start) *(.text*) } :code
    .rodata : { *(.rodata*) } :code
    .data : { *(.data*) } :data
    . = ALIGN(16);
    bss_begin = .;
    .bss : { *(.bss*) *(COMMON) } :data
    . = ALIGN(16);
    bss_end = .;
    . = . + 0x10000; /* 64 KB */
    stack_end = .;
    /DISCARD/ : { *(.comment) *(.note*) *(.eh_frame*) }
}
