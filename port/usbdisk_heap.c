/* The memory of the library, by malloc. Where malloc keeps less than the 16 that is asked for, as
 * on targets of 32 bits, a block lies up to 16 bytes behind what malloc gave: the byte before it
 * tells how many. */
#include "usbdisk.h"
#include <stddef.h>
#include <stdlib.h>

enum { ALIGNMENT = 16, KEEPS = _Alignof(max_align_t) >= ALIGNMENT, MORE = KEEPS ? 0 : ALIGNMENT };

struct rattle_tried rattle_alloc(size_t size, size_t alignment)
{
    static uint8_t nowhere;
    uint8_t *block = size < SIZE_MAX - MORE ? malloc(size + MORE + !size) : NULL;
    (void)alignment; /* at most 16 */
    if (!block)
        return (struct rattle_tried){ false, &nowhere };
    uint8_t far = KEEPS ? 0 : (uint8_t)(ALIGNMENT - (uintptr_t)block % ALIGNMENT);
    if (!KEEPS)
        block[far - 1] = far;
    return (struct rattle_tried){ true, block + far };
}

void rattle_dealloc(void *at)
{
    uint8_t *block = at;
    free(KEEPS || !block ? block : block - block[-1]);
}
