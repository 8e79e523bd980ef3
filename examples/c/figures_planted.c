/* Faults that `figures` is to find, around four calls of the library. PLANTED 1 takes 12 KiB of
 * stack more in an INQUIRY, 2 takes 20 KiB more in a start that finds a record, 3 takes 122,880
 * bytes of memory more while a start runs, and gives them back, 4 stops a disk by forgetting its
 * address, and 5 takes 16 bytes more while a write of a start ends, and gives them back. */
#include "usbdisk.h"
#include <string.h>

#ifndef PLANTED
#define PLANTED 0
#endif

enum { INQUIRY = 0x12, INQUIRY_MORE = 12 << 10, START_MORE = 20 << 10, MEMORY_MORE = 122880 };
enum { MEMORY_SOME = 16 };

/* The calls of the library, which the linker hands through the functions below. */
#define REAL(name) __real_usbdisk_##name
#define WRAP(name) __wrap_usbdisk_##name

uint32_t REAL(done)(struct usbdisk *, bool, const uint8_t *, size_t);
uint32_t REAL(out)(struct usbdisk *, const uint8_t *, size_t, size_t *);
uint32_t REAL(stop)(struct usbdisk *);

/* Writes to all of it, so that it stays on the stack. */
static void touch(uint8_t *more, size_t size)
{
    memset(more, 1, size);
    __asm__ volatile("" : : "r"(more) : "memory");
}

/* A part of the log that is not empty. */
static bool has_record(const uint8_t *bytes, size_t size)
{
    for (size_t i = 2 * 512; i < 3 * 512 && i < size; i++)
        if (bytes[i])
            return true;
    return false;
}

uint32_t WRAP(done)(struct usbdisk *disk, bool ok, const uint8_t *bytes, size_t size)
{
    uint8_t more[PLANTED == 2 ? START_MORE : 1];
    struct rattle_tried taken = { false, NULL };
    uint32_t fault;
    bool starts = usbdisk_state(disk, &fault) == USBDISK_STARTING;
    if (starts && ok && has_record(bytes, size))
        touch(more, sizeof more);
    if (PLANTED == 3 && starts)
        taken = rattle_alloc(MEMORY_MORE, 8);
    if (PLANTED == 5 && starts && !size)
        taken = rattle_alloc(MEMORY_SOME, 8);
    uint32_t code = REAL(done)(disk, ok, bytes, size);
    if (taken.ok)
        rattle_dealloc(taken.at);
    __asm__ volatile("" : : "r"(more) : "memory");
    return code;
}

uint32_t WRAP(out)(struct usbdisk *disk, const uint8_t *bytes, size_t size, size_t *taken)
{
    uint8_t more[PLANTED == 1 ? INQUIRY_MORE : 1];
    if (size == 31 && bytes[15] == INQUIRY)
        touch(more, sizeof more);
    uint32_t code = REAL(out)(disk, bytes, size, taken);
    __asm__ volatile("" : : "r"(more) : "memory");
    return code;
}

uint32_t WRAP(stop)(struct usbdisk *disk)
{
    if (PLANTED != 4 || !disk->at)
        return REAL(stop)(disk);
    disk->at = NULL;
    return 0;
}
