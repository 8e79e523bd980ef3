/* The memory of the library, out of one array of as many bytes as machine.h tells, and memset, one of
 * the three functions of the C library that it calls: port/usbdisk_copy.c has the others. */
#include <machine.h>
#define USBDISK_ARENA HEAP
#include "../../port/usbdisk_arena.c"

void *memset(void *to, int byte, size_t size)
{
    for (uint8_t *at = to; size > 0; size--)
        *at++ = (uint8_t)byte;
    return to;
}
