/* What a session of session.c works on: numbers that are drawn, memory, the hash, and the device.
 */
#include "usbdisk.h"
#include <stdbool.h>
#include <stdint.h>
#include <stdio.h>
#include <stdlib.h>
#include <string.h>

enum { BLOCKS = 300, SECTORS = USBDISK_LOG_END(2, 4) + BLOCKS };
enum { RUN = 48, PENDING = 4096, LOG = 4096 };

static uint64_t state;
static uint32_t below(uint32_t most)
{
    state ^= state << 13;
    state ^= state >> 7;
    state ^= state << 17;
    return (uint32_t)(state >> 33) % most;
}

/* ---- memory (no more than 8 is asked for as its alignment) */
struct rattle_tried rattle_alloc(size_t size, size_t alignment)
{
    static char nowhere;
    void *block = alignment > 8 ? NULL : malloc(size);
    struct rattle_tried it = { block != NULL, block ? block : &nowhere };
    return it;
}
void rattle_dealloc(void *at)
{
    free(at);
}

/* ---- hashes */
static uint32_t sum = 2166136261u;
static unsigned long events;
static void mix(const void *bytes, size_t size)
{
    for (const uint8_t *at = bytes; size--; at++)
        sum = (sum ^ *at) * 16777619u;
}
static void mix32(uint32_t n)
{
    uint8_t b[4] = { (uint8_t)n, (uint8_t)(n >> 8), (uint8_t)(n >> 16), (uint8_t)(n >> 24) };
    mix(b, 4);
}
static void tell(uint32_t one, uint32_t two)
{
    mix32(one);
    mix32(two);
    events++;
}

/* ---- the device: what it shows, and the old bytes of what is not flushed */
static uint8_t medium[SECTORS * 512], lost[PENDING * 512];
static uint16_t lost_at[PENDING];
static unsigned lost_count;
static unsigned long writes, flushes;

static void put_sector(uint32_t sector, const uint8_t *bytes)
{
    if (lost_count == PENDING) {
        printf("too many unflushed sectors\n");
        exit(3);
    }
    memcpy(lost + 512u * lost_count, medium + 512u * sector, 512);
    lost_at[lost_count++] = (uint16_t)sector;
    memcpy(medium + 512u * sector, bytes, 512);
}

/* The power goes: each unflushed write is kept or lost, the newest first. */
static void cut(void)
{
    unsigned mode = below(4);
    while (lost_count) {
        unsigned at = --lost_count;
        if (mode == 0 || (mode != 1 && below(2)))
            memcpy(medium + 512u * lost_at[at], lost + 512u * at, 512);
    }
}

static struct usbdisk disk = USBDISK_NONE;
static struct usbdisk_call call;
static uint8_t buffer[RUN * 512];

static void device_begin(void)
{
    if (call.kind != USBDISK_NOTHING)
        return;
    uint32_t code = usbdisk_next(&disk, &call, buffer, (1 + below(RUN)) * 512);
    if (call.kind == USBDISK_WRITE)
        mix(buffer, (size_t)call.count * 512);
    mix32((uint32_t)call.sector);
    mix32((uint32_t)(call.sector >> 32));
    tell(call.kind + 16 * code, (uint32_t)call.count);
}

static void device_end(void)
{
    if (call.kind == USBDISK_NOTHING)
        return;
    static uint8_t read[USBDISK_LIMIT(2) * 512];
    size_t size = 0;
    if (call.kind == USBDISK_WRITE) {
        for (uint32_t i = 0; i < call.count; i++)
            put_sector((uint32_t)call.sector + i, buffer + 512 * i);
        writes += (unsigned long)call.count;
    } else if (call.kind == USBDISK_FLUSH) {
        lost_count = 0;
        flushes++;
    } else {
        size = (size_t)call.count * 512;
        memcpy(read, medium + 512 * (size_t)call.sector, size);
    }
    call.kind = USBDISK_NOTHING;
    tell(usbdisk_done(&disk, true, read, size), (uint32_t)size);
}

static bool device_all(void)
{
    for (int i = 0; i < 100000; i++) {
        device_begin();
        if (call.kind == USBDISK_NOTHING)
            return true;
        device_end();
    }
    return false;
}
