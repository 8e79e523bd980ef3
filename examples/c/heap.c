/* The memory of the library, by malloc. It counts, so that a leak is seen. */
#include "gadget.h"
#include "usbdisk.h"
#include <stdlib.h>
#include <string.h>

size_t heap_now, heap_blocks, heap_most, heap_taken;
int heap_fails;

/* The size of a block lies in front of it. */
enum { HEAD = 16 };

struct rattle_tried rattle_alloc(size_t size, size_t alignment)
{
    char *nowhere = (char *)(uintptr_t)1; /* not to be read */
    int fails = heap_fails && --heap_fails == 0;
    if (size == 0 || alignment == 0 || alignment > HEAD || alignment & (alignment - 1))
        abort();        /* no library that keeps usbdisk.h asks for that */
    void *taken = NULL; /* (malloc keeps an alignment of 16 on targets of 64 bits alone) */
    if (fails || posix_memalign(&taken, HEAD, size + HEAD))
        return (struct rattle_tried){ false, nowhere };
    char *block = taken;
    memcpy(block, &size, sizeof size);
    heap_now += size;
    heap_taken += size;
    heap_blocks++;
    if (heap_now > heap_most)
        heap_most = heap_now;
    return (struct rattle_tried){ true, block + HEAD };
}

void rattle_dealloc(void *at)
{
    char *block = (char *)at - HEAD;
    size_t size;
    memcpy(&size, block, sizeof size);
    heap_now -= size;
    heap_blocks--;
    free(block);
}
