/* Where the firmware lies in the memory of `-M virt`, which begins at 80000000h. */
ENTRY(_start)

PHDRS
{
    code PT_LOAD FLAGS(5);
    data PT_LOAD FLAGS(6);
}

SECTIONS
{
    . = 0x80000000;
    .text : { *(.text.start) *(.text*) } :code
    .rodata : { *(.rodata*) *(.srodata*) } :code
    .data : { *(.data*) *(.sdata*) } :data
    . = ALIGN(16);
    bss_begin = .;
    .bss : { *(.bss*) *(.sbss*) *(COMMON) } :data
    . = ALIGN(16);
    bss_end = .;
    . = . + 0x8000; /* 32 KB */
    stack_end = .;
    /DISCARD/ : { *(.comment) *(.note*) *(.eh_frame*) *(.riscv.attributes) }
}
