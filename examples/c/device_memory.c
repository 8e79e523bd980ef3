/* A device in memory, as an example of one under test. Of the writes since the last flush a cut
 * keeps any, in their order. With -DBROKEN=1 its flush does nothing; with 2 a cut can tear a sector
 * in half; with 3 a write that a cut keeps wipes the sector behind it. */
#include "device.h"
#include <stdlib.h>
#include <string.h>

#ifndef BROKEN
#define BROKEN 0
#endif

enum { ROOM = 4096 };

struct sector {
    uint8_t bytes[512];
};

static struct sector *now, *durable;
static struct {
    uint64_t place;
    struct sector sector;
} unflushed[ROOM];
static uint64_t sectors;
static size_t waiting;

static unsigned random_below(unsigned most)
{
    static uint32_t state = 12345;
    state = state * 1664525u + 1013904223u;
    return (state >> 16) % most;
}

bool device_open(uint64_t count)
{
    free(now);
    free(durable);
    sectors = count;
    waiting = 0;
    now = calloc(count, sizeof *now);
    durable = calloc(count, sizeof *durable);
    return now && durable;
}

bool device_read(uint64_t sector, uint8_t bytes[512])
{
    memcpy(bytes, now[sector].bytes, 512);
    return true;
}

bool device_write(uint64_t sector, const uint8_t bytes[512])
{
    if (waiting == ROOM)
        return false;
    unflushed[waiting].place = sector;
    memcpy(unflushed[waiting++].sector.bytes, bytes, 512);
    memcpy(now[sector].bytes, bytes, 512);
    return true;
}

bool device_flush(void)
{
    if (BROKEN == 1 && waiting < ROOM / 2)
        return true;
    memcpy(durable, now, sectors * sizeof *now);
    waiting = 0;
    return true;
}

bool device_cut(void)
{
    for (size_t i = 0; i < waiting; i++) {
        uint64_t place = unflushed[i].place;
        if (random_below(2))
            continue;
        memcpy(durable[place].bytes, unflushed[i].sector.bytes, BROKEN == 2 ? 256 : 512);
        if (BROKEN == 3 && place + 1 < sectors)
            memset(durable[place + 1].bytes, 0xFF, 512);
    }
    memcpy(now, durable, sectors * sizeof *now);
    waiting = 0;
    return true;
}
