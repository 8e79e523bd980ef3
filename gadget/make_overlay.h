/* A device that is read of a place and written in memory alone, so that a start on an image changes
 * not a byte of it. */
#ifndef MAKE_OVERLAY_H
#define MAKE_OVERLAY_H

#include "make_place.h"

struct overlay {
    struct place *place;
    uint64_t *numbers;       /* which sectors were written */
    uint8_t (*sectors)[512]; /* what each of them has now */
    size_t count, room;
};

/* Makes it the device of the port layer over `place`, of which nothing is written yet. What the
 * place refuses is said. */
struct usbdisk_io_device overlay_begin(struct overlay *overlay, struct place *place);

/* The first sector from this one on that was written; UINT64_MAX if there is none. */
uint64_t overlay_next(const struct overlay *overlay, uint64_t sector);

void overlay_end(struct overlay *overlay);

#endif
