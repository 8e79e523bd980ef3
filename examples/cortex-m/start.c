/* The first lines of a firmware with the library, for a Cortex-M: it has no need of anything but a
 * stack, and memory as a C program wants it. Exceptions are told. */
#include "board.h"

/* From link.ld. */
extern uint32_t stack_end[], data_begin[], data_end[], data_kept[], bss_begin[], bss_end[];

int main(void);

/* What memory held before, as behind a reset, is of no use. */
static void reset(void)
{
    const uint32_t *from = data_kept;
    for (uint32_t *at = data_begin; at < data_end; at++)
        *at = *from++;
    for (uint32_t *at = bss_begin; at < bss_end; at++)
        *at = 0;
    main();
}

/* What fault it was, and the address of one that has it: CFSR and BFAR of the Armv7-M manual. */
#define FAULT ((const volatile uint32_t *)0xE000ED28)
enum { STATUS = 0, ADDRESS = 4, FRAME_PC = 6 };

__attribute__((used)) static void faulted(const uint32_t frame[8])
{
    trapped(FAULT[STATUS], frame[FRAME_PC], FAULT[ADDRESS]);
}

__attribute__((naked)) static void fault(void)
{
    __asm__("mov r0, sp\n\tb faulted");
}

/* The stack, the reset, and the exceptions that a processor without interrupts knows: NMI,
 * HardFault, MemManage, BusFault, UsageFault. */
extern void *const vectors[];
__attribute__((used)) __attribute__((section(".vectors"))) void *const vectors[] = {
    stack_end, reset, fault, fault, fault, fault, fault,
};
