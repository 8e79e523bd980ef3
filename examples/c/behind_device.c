/* A device in memory with a volatile cache, which carries out one call at a time and may take as
 * long as it likes. Of the writes since its last flush, those of a run under way among them, a cut
 * keeps any. */
#include "behind.h"
#include "draw.h"
#include "image.h"
#include <stdlib.h>
#include <string.h>

enum { ROOM = 16384 };

uint64_t seed;
const char *wrong;

unsigned random_below(unsigned most)
{
    return draw_below(&seed, most);
}

bool fails(const char *what)
{
    wrong = what;
    return false;
}

bool device_open(struct device *device)
{
    *device = (struct device){ .durable = calloc(SECTORS, 512),
                               .now = calloc(SECTORS, 512),
                               .unflushed = calloc(ROOM, sizeof *device->unflushed) };
    return device->durable && device->now && device->unflushed;
}

void device_close(struct device *device)
{
    free(device->durable);
    free(device->now);
    free(device->unflushed);
}

/* A write goes into the cache. */
static void keep(struct device *device, uint64_t sector, const uint8_t *bytes)
{
    struct unflushed *last = &device->unflushed[device->count++];
    last->sector = sector;
    memcpy(last->bytes, bytes, 512);
}

bool device_begin(struct device *device)
{
    const struct usbdisk_call *call = &device->call;
    if (call->kind == USBDISK_FLUSH)
        return true;
    if (!call->count || call->count > LONGEST || call->sector > SECTORS ||
        call->count > SECTORS - call->sector)
        return fails("a call is not within the device");
    if (call->kind == USBDISK_READ)
        return true;
    if (device->count + call->count > ROOM)
        return fails("the disk never flushes");
    for (uint64_t i = 0; i < call->count; i++)
        keep(device, call->sector + i, device->buffer + 512 * i);
    return true;
}

/* How many of 16 writes are kept: none, all, most, half, few. In the last way, the first. */
static const unsigned ways[] = { 0, 16, 14, 8, 2 };
enum { NONE, ALL, WAYS = sizeof ways / sizeof *ways };

static bool is_kept(unsigned way, size_t behind, size_t number)
{
    return way < WAYS ? random_below(16) < ways[way] : number < behind;
}

/* The writes of the run under way, which are the last unflushed ones, are carried out, or some. */
static void end_write(struct device *device, unsigned way)
{
    size_t first = device->count - (size_t)device->call.count, most = device->count;
    size_t behind = random_below((unsigned)device->call.count + 1);
    device->count = first;
    for (size_t i = first; i < most; i++) {
        const struct unflushed *write = &device->unflushed[i];
        if (!is_kept(way, behind, i - first))
            continue;
        memcpy(device->now + 512 * write->sector, write->bytes, 512);
        memmove(&device->unflushed[device->count++], write, sizeof *write);
    }
}

static void end_flush(struct device *device)
{
    for (; device->count > 0; device->count--) {
        uint64_t sector = device->unflushed[device->count - 1].sector;
        memcpy(device->durable + 512 * sector, device->now + 512 * sector, 512);
    }
}

void device_end(struct device *device, bool is_good)
{
    const struct usbdisk_call *call = &device->call;
    const uint8_t *place = device->now + 512 * call->sector;
    if (call->kind == USBDISK_WRITE)
        end_write(device, is_good ? ALL : random_below(WAYS + 1));
    else if (is_good && call->kind == USBDISK_READ)
        memcpy(device->buffer, place, 512 * (size_t)call->count);
    else if (is_good)
        end_flush(device);
    if (!is_good)
        memset(device->buffer, 0xEE, sizeof device->buffer);
    device->call.kind = USBDISK_NOTHING;
}

void device_forsake(struct device *device)
{
    if (device->call.kind != USBDISK_NOTHING)
        device_end(device, !random_below(4));
}

void device_cut(const struct device *device, unsigned kept, struct device *other)
{
    unsigned way = kept == EACH ? ALL : random_below(WAYS + 1);
    size_t behind = random_below((unsigned)device->count + 1);
    if (other != device)
        memcpy(other->durable, device->durable, (size_t)SECTORS * 512);
    for (size_t i = 0; i < device->count; i++) {
        const struct unflushed *write = &device->unflushed[i];
        bool stays = kept < ANY ? kept >> i & 1 : is_kept(way, behind, i);
        if (stays)
            memcpy(other->durable + 512 * write->sector, write->bytes, 512);
    }
    memcpy(other->now, other->durable, (size_t)SECTORS * 512);
    other->count = 0;
    other->call.kind = USBDISK_NOTHING;
}

bool device_make(struct device *device, uint32_t format)
{
    if (format_memory(device->now, (size_t)SECTORS * 512, format, BLOCKS,
                      1 + random_below(MOST_SLOTS)))
        return fails("no image is made");
    memcpy(device->durable, device->now, (size_t)SECTORS * 512);
    device->count = 0;
    return true;
}
