/* The memory of the library out of one array, for a firmware without malloc. Large blocks lie from
 * its begin on, each in the first hole that is large enough, and small ones from its end: a start
 * takes some of both kinds and gives them back, and none that stays breaks a hole that a large one
 * leaves.
 *
 * USBDISK_ARENA: its bytes. docs/MAKERS.md tells how many. */
#include "usbdisk.h"

enum {
    ROUND = 16,
    MOST = 32,
    SIZE = (USBDISK_ARENA + ROUND - 1) / ROUND * ROUND,
    SMALL = SIZE / 16
};

static _Alignas(ROUND) uint8_t arena[SIZE];

/* The blocks that are taken, in the order of their places. */
static struct block {
    size_t at, size;
} blocks[MOST];
static size_t count;

/* The hole before a block, or behind the last one. */
static size_t begin_of_hole(size_t place)
{
    return place ? blocks[place - 1].at + blocks[place - 1].size : 0;
}

static size_t end_of_hole(size_t place)
{
    return place < count ? blocks[place].at : SIZE;
}

static bool is_in_hole(size_t place, size_t size)
{
    return end_of_hole(place) - begin_of_hole(place) >= size;
}

static struct rattle_tried take(size_t place, size_t at, size_t size)
{
    for (size_t i = count++; i > place; i--)
        blocks[i] = blocks[i - 1];
    blocks[place] = (struct block){ at, size };
    return (struct rattle_tried){ true, arena + at };
}

struct rattle_tried rattle_alloc(size_t size, size_t alignment)
{
    size_t all = (size + ROUND - 1) / ROUND * ROUND, place = size < SMALL ? count : 0;
    (void)alignment; /* at most 16 */
    if (size > SIZE || count == MOST)
        return (struct rattle_tried){ false, arena };
    if (size < SMALL) {
        while (place && !is_in_hole(place, all))
            place--;
        if (is_in_hole(place, all))
            return take(place, end_of_hole(place) - all, all);
    } else {
        while (place < count && !is_in_hole(place, all))
            place++;
        if (is_in_hole(place, all))
            return take(place, begin_of_hole(place), all);
    }
    return (struct rattle_tried){ false, arena };
}

void rattle_dealloc(void *at)
{
    size_t place = 0;
    while (place < count && arena + blocks[place].at != (uint8_t *)at)
        place++;
    if (place == count)
        return; /* (no library that keeps usbdisk.h frees what it did not take) */
    for (count--; place < count; place++)
        blocks[place] = blocks[place + 1];
}
