/* The sectors that a start writes, kept in memory. They are at most those of a full log: some
 * 15,000. */
#include "make_overlay.h"
#include <stdlib.h>
#include <string.h>

static size_t index_of(const struct overlay *overlay, uint64_t sector)
{
    size_t at = 0;
    while (at < overlay->count && overlay->numbers[at] != sector)
        at++;
    return at;
}

static bool has_room(struct overlay *overlay)
{
    if (overlay->count < overlay->room)
        return true;
    size_t room = overlay->room ? 2 * overlay->room : 64;
    uint64_t *numbers = realloc(overlay->numbers, room * sizeof *numbers);
    if (numbers)
        overlay->numbers = numbers;
    uint8_t(*sectors)[512] = realloc(overlay->sectors, room * sizeof *sectors);
    if (sectors)
        overlay->sectors = sectors;
    if (!numbers || !sectors)
        return false;
    overlay->room = room;
    return true;
}

static bool read_over(void *context, uint64_t first, uint8_t *bytes, size_t count)
{
    const struct overlay *overlay = context;
    if (!read_sectors(&overlay->place->disk, bytes, first, count))
        return refuse_call(&overlay->place->disk, "a read was refused");
    for (size_t at = 0; at < overlay->count; at++)
        if (overlay->numbers[at] >= first && overlay->numbers[at] - first < count)
            memcpy(bytes + 512 * (overlay->numbers[at] - first), overlay->sectors[at], 512);
    return true;
}

static bool write_over(void *context, uint64_t first, const uint8_t *bytes, size_t count)
{
    struct overlay *overlay = context;
    for (size_t i = 0; i < count; i++) {
        size_t at = index_of(overlay, first + i);
        if (at == overlay->count && !has_room(overlay))
            return refuse(&overlay->place->disk, STATUS_MEMORY, "no memory");
        overlay->numbers[at] = first + i;
        memcpy(overlay->sectors[at], bytes + 512 * i, 512);
        overlay->count += at == overlay->count;
    }
    return true;
}

static bool flush_over(void *context)
{
    return context != NULL;
}

struct usbdisk_io_device overlay_begin(struct overlay *overlay, struct place *place)
{
    *overlay = (struct overlay){ .place = place };
    return (struct usbdisk_io_device){ overlay,    place->disk.sectors, read_over,
                                       write_over, flush_over,          0 };
}

uint64_t overlay_next(const struct overlay *overlay, uint64_t sector)
{
    uint64_t next = UINT64_MAX;
    for (size_t at = 0; at < overlay->count; at++)
        if (overlay->numbers[at] >= sector && overlay->numbers[at] < next)
            next = overlay->numbers[at];
    return next;
}

void overlay_end(struct overlay *overlay)
{
    free(overlay->numbers);
    free(overlay->sectors);
}
