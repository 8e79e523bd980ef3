/* QEMU's boards mps2-an386, of a Cortex-M4, and mps2-an500, of a Cortex-M7: the disk that each
 * makes, and where its devices are. Make names the board. */
#ifndef MACHINE_H
#define MACHINE_H

/* KEPT is how many records of the log lie in memory, and HEAP a bit more than the library takes. A
 * part of 256 KB keeps one in format 1, and one of 4 MB three in format 2. */
#ifdef MPS2_AN500
enum { FORMAT = 2, SLOTS = 6, KEPT = 3, HEAP = 1012 << 10 };
#define FLASH_PLACE 0x60000000
#else
enum { FORMAT = 1, SLOTS = 3, KEPT = 1, HEAP = 158 << 10 };
#define FLASH_PLACE 0x21000000
#endif

/* The serial line. */
#define UART_PLACE 0x40004000

/* The flash: sectors, and how many of them lie in the cache that is lost with the power. */
enum { SECTORS = 4096, CACHED = 12 };

/* All that was written to memory is seen before what is written next. */
static inline void settle(void)
{
    __asm__ volatile("dsb" : : : "memory");
}

#endif
