/* A device that is memory: it carries out each call at once, and refuses none. */
#include "image.h"
#include <string.h>

bool carry_one(struct usbdisk *it, uint8_t *medium, struct usbdisk_call *call)
{
    static uint8_t buffer[USBDISK_LIMIT(2) * 512];
    *call = (struct usbdisk_call){ .kind = USBDISK_NOTHING };
    if (usbdisk_next(it, call, buffer, sizeof buffer) || call->kind == USBDISK_NOTHING)
        return false;
    uint8_t *place = medium + 512 * call->sector;
    size_t size = 512 * (size_t)call->count;
    if (call->kind == USBDISK_WRITE)
        memcpy(place, buffer, size);
    return !usbdisk_done(it, true, place, call->kind == USBDISK_READ ? size : 0);
}

void carry_all(struct usbdisk *it, uint8_t *medium)
{
    struct usbdisk_call call;
    while (carry_one(it, medium, &call))
        ;
}

uint32_t format_memory(uint8_t *medium, size_t size, uint32_t format, uint64_t blocks,
                       uint64_t slots)
{
    const struct usbdisk_plan plan = { size / 512, format, slots, blocks, 0 };
    struct usbdisk image = USBDISK_NONE;
    uint32_t fault, code = usbdisk_format(&image, &plan);
    if (code)
        return code;
    carry_all(&image, medium);
    usbdisk_state(&image, &fault);
    usbdisk_stop(&image);
    return fault;
}
