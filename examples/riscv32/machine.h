/* QEMU's machine `virt` of RISC-V with 32 bits: the disk that it makes, and where its devices are.
 */
#ifndef MACHINE_H
#define MACHINE_H

/* Format 2 with three slots, for hosts that send transfers of up to 240 blocks; three records lie
 * in memory. */
enum { FORMAT = 2, SLOTS = 3, KEPT = 3, HEAP = 1012 << 10 };

/* The serial line, and the places for devices of virtio. */
#define UART_PLACE 0x10000000
#define FIRST_PLACE 0x10001000
enum { PLACES = 8, PLACE = 0x1000 };

/* All that was written to memory is seen before what is written next. */
static inline void settle(void)
{
    __asm__ volatile("fence iorw, iorw" : : : "memory");
}

#endif
