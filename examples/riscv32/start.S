/* The first lines of a firmware with the library, for RISC-V in machine mode: a stack of 32 KB
 * (link.ld), and memory as a C program wants it. Each exception is told. */
.option arch, +zicsr
.section .text.start, "ax"
.globl _start
_start:
        la      sp, stack_end
        la      t0, vector
        csrw    mtvec, t0
        la      t0, bss_begin
        la      t1, bss_end
1:      bgeu    t0, t1, 2f
        sw      zero, 0(t0)
        addi    t0, t0, 4
        j       1b
2:      call    main
3:      wfi
        j       3b

        .balign 4
vector: csrr    a0, mcause
        csrr    a1, mepc
        csrr    a2, mtval
        j       trapped
