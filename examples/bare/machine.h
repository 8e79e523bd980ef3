/* QEMU's machine `virt` of AArch64: the disk that it makes, and where its devices are. */
#ifndef MACHINE_H
#define MACHINE_H

/* Format 2 with three slots, for hosts that send transfers of up to 240 blocks. HEAP is enough for
 * a start with four records kept, as where nothing is said (KEPT): usbdisk_memory tells the bytes.
 */
enum { FORMAT = 2, SLOTS = 3, KEPT = 0, HEAP = 6 << 18 };

/* The serial line, and the places for devices of virtio. */
#define UART_PLACE 0x09000000
#define FIRST_PLACE 0x0a000000
enum { PLACES = 32, PLACE = 0x200 };

/* All that was written to memory is seen before what is written next. */
static inline void settle(void)
{
    __asm__ volatile("dsb sy" : : : "memory");
}

#endif
