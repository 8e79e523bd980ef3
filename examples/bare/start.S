/* The first lines of a firmware with the library, for AArch64 at EL1, where `-M virt` starts it. One
 * that starts at EL2 or EL3 goes down to EL1 before, and lets it use SIMD (CPTR_EL2, CPTR_EL3).
 *
 *   a stack   64 KB, of which a start takes 16 or 20 KB: link.ld
 *   SIMD      the library's code uses the SIMD registers: CPACR_EL1
 *   memory    it loads and stores at addresses that are not aligned, for which the memory has to be
 *             normal: without a map of addresses (MMU) it is device memory, where these trap
 *
 * With NO_SIMD the library is that without SIMD and such addresses: neither is set up then, and the
 * processor is told to trap on both. */
.section .text.start, "ax"
.globl _start
_start:
        ldr     x0, =stack_end
        mov     sp, x0
        ldr     x0, =vectors
        msr     vbar_el1, x0
        ldr     x0, =bss_begin
        ldr     x1, =bss_end
1:      cmp     x0, x1
        b.hs    2f
        str     xzr, [x0], #8
        b       1b
2:
#ifdef NO_SIMD
        mrs     x0, sctlr_el1
        orr     x0, x0, #(1 << 1)       /* A: each address is to be aligned */
        msr     sctlr_el1, x0
        isb
#else
        mov     x0, #(3 << 20)          /* FPEN: SIMD does not trap */
        msr     cpacr_el1, x0
        isb

        /* A map of the first 2 GB, each address to itself: two blocks of 1 GB. */
        ldr     x0, =map
        ldr     x1, =0x0060000000000401 /* from 0: attribute 0, accessed, no code */
        str     x1, [x0]
        ldr     x1, =0x0000000040000705 /* from 0x40000000: attribute 1, accessed, shared */
        str     x1, [x0, #8]
        msr     ttbr0_el1, x0
        mov     x0, #0xff00             /* attribute 0: device memory; 1: normal, written back */
        msr     mair_el1, x0
        ldr     x0, =0x80803519         /* 39 bits of address, pages of 4 KB, no second table */
        msr     tcr_el1, x0
        isb
        tlbi    vmalle1
        dsb     sy
        isb
        mrs     x0, sctlr_el1
        ldr     x1, =0x1005             /* I, C, M: caches and the map */
        orr     x0, x0, x1
        msr     sctlr_el1, x0
        isb
#endif
        bl      main
3:      wfi
        b       3b

/* Each exception is told, and the firmware stops. */
        .balign 2048
vectors:
        .rept   16
        mrs     x0, esr_el1
        mrs     x1, elr_el1
        mrs     x2, far_el1
        b       trapped
        .balign 128
        .endr

        .section .bss.map, "aw", %nobits
        .balign 4096
map:    .skip   4096
