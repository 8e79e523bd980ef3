/* The port layer under a host that keeps no rule, over a device that refuses now and then: random
 * wrappers, transfers of random lengths, requests, steps and reads ahead; and random calls of the
 * blocks. The sanitizers watch. No call moves more than it was given, no sector behind the last one
 * is asked for, each start on what is left is good, and no memory is left.
 *
 * hostile [LIVES [SEED]] */
#include "gadget.h"
#include "draw.h"
#include "usbdisk_blocks.h"
#include <stdio.h>
#include <stdlib.h>
#include <string.h>

enum {
    BLOCKS = 300,
    SLOTS = 3,
    SECTORS = USBDISK_LOG_END(2, SLOTS) + BLOCKS,
    ROOM = 60 * 512,
    EVENTS = 1000
};

static const struct usbdisk_identity who = { "EXAMPLE ", "HOSTILE         ", "0001",
                                             "000000000001" };
static uint8_t device[SECTORS][512], bytes[300 * 512];
static unsigned rarity; /* one call of so many is refused, or none at 0 */
static uint64_t seed = 1;

static void must(bool good, const char *what)
{
    if (good)
        return;
    printf("hostile: %s\n", what);
    exit(EXIT_FAILURE);
}

static uint32_t below(uint32_t most)
{
    return draw_below(&seed, most);
}

static bool is_refused(uint64_t first, size_t count)
{
    must(count && count <= USBDISK_IO_MOST && first + count <= SECTORS,
         "sectors that are not there");
    return rarity && below(rarity) == 0;
}

static bool read(void *context, uint64_t first, uint8_t *to, size_t count)
{
    (void)context;
    if (is_refused(first, count))
        return false;
    memcpy(to, device[first], count * 512);
    return true;
}

static bool write(void *context, uint64_t first, const uint8_t *from, size_t count)
{
    (void)context;
    if (is_refused(first, count))
        return false;
    memcpy(device[first], from, count * 512);
    return true;
}

static bool flush(void *context)
{
    (void)context;
    return !rarity || below(rarity);
}

static struct usbdisk_io_device memory = { NULL, SECTORS, read, write, flush, 0 };

/* ---- a disk */

/* A length that fits, or any. */
static uint32_t any_length(void)
{
    return below(3) ? 512 * below(ROOM / 512) : below(ROOM);
}

/* A wrapper around a command that the disk knows, mostly; and at times with a byte that is wrong.
 */
static size_t any_wrapper(uint8_t wrapper[31])
{
    static const uint8_t codes[] = { 0x00, 0x03, 0x12, 0x15, 0x1A, 0x25, 0x28,
                                     0x2A, 0x35, 0x77, 0x88, 0x8A, 0x91, 0x9E };
    uint32_t blocks = below(50), length = below(3) ? blocks * 512 : any_length();
    memset(wrapper, 0, 31);
    memcpy(wrapper, "USBC", 4);
    memcpy(wrapper + 8, &length, 4);
    wrapper[12] = below(2) ? 0x80 : 0;
    wrapper[15] = codes[below(sizeof codes)];
    wrapper[14] = wrapper[15] < 0x80 ? 10 : 16;
    wrapper[16] = below(4) ? 0 : 8;
    wrapper[wrapper[15] < 0x80 ? 20 : 24] = (uint8_t)below(256);
    wrapper[wrapper[15] < 0x80 ? 23 : 28] = (uint8_t)blocks;
    if (below(50) == 0)
        wrapper[below(31)] = (uint8_t)below(256);
    return below(50) ? 31 : below(31);
}

static void any_request(struct usbdisk_io *io)
{
    uint8_t setup[8], data[2];
    uint32_t size;
    for (int i = 0; i < 8; i++)
        setup[i] = below(3) ? 0 : (uint8_t)below(256);
    usbdisk_io_setup(io, setup, data, &size);
    must(size <= 2, "more data than there is room for");
}

static void any_transfer(struct usbdisk_io *io)
{
    uint8_t wrapper[31];
    size_t moved = 0, size = any_length();
    uint32_t kind = below(8);
    if (kind < 3)
        usbdisk_io_out(io, wrapper, any_wrapper(wrapper), &moved);
    else if (kind < 5)
        usbdisk_io_out(io, bytes, size, &moved);
    else
        usbdisk_io_in(io, bytes, size, &moved);
    must(moved <= size || moved <= sizeof wrapper, "more is moved than there is");
}

static void any_event(struct usbdisk_io *io)
{
    switch (below(12)) {
    case 0:
        any_request(io);
        break;
    case 1:
        usbdisk_io_reset(io);
        break;
    case 2:
        usbdisk_io_look_ahead(io, any_length());
        break;
    case 3:
        usbdisk_io_idle(io);
        break;
    default:
        any_transfer(io);
    }
}

/* Events on what the device holds. A start is refused where a call of it was. */
static void live(uint32_t packet)
{
    struct usbdisk_io *io = NULL;
    memory.kept = below(7);
    uint32_t code = usbdisk_io_start(&io, &memory, &who, packet);
    must(!code || (rarity && code <= USBDISK_FLUSH_REFUSED), usbdisk_text(code));
    for (int i = 0; io && i < EVENTS; i++)
        any_event(io);
    usbdisk_io_stop(io);
}

/* ---- blocks */

static void any_call(struct usbdisk_blocks *blocks)
{
    uint64_t first = below(BLOCKS + 5);
    size_t count = below(sizeof bytes / 512);
    switch (below(4)) {
    case 0:
        usbdisk_blocks_read(blocks, first, bytes, count);
        break;
    case 1:
        usbdisk_blocks_write(blocks, first, bytes, count);
        break;
    case 2:
        usbdisk_blocks_sync(blocks);
        break;
    default:
        usbdisk_blocks_idle(blocks);
    }
}

static void live_by_blocks(void)
{
    struct usbdisk_blocks *blocks = NULL;
    memory.kept = below(7);
    uint32_t code = usbdisk_blocks_start(&blocks, &memory, below(300));
    must(!code || (rarity && code <= USBDISK_FLUSH_REFUSED), usbdisk_text(code));
    for (int i = 0; blocks && i < EVENTS / 4; i++)
        any_call(blocks);
    usbdisk_blocks_stop(blocks);
}

int main(int count, char **words)
{
    long lives = count > 1 ? atol(words[1]) : 200;
    seed = count > 2 ? strtoull(words[2], NULL, 10) * 0x9E3779B97F4A7C15u | 1 : seed;
    for (long life = 0; life < lives; life++) {
        rarity = 0;
        if (life % 8 == 0)
            must(!usbdisk_io_format(&memory, 1 + (uint32_t)(life / 8 % 2), SLOTS, BLOCKS),
                 "a format");
        rarity = below(3) ? 10 + below(200) : 0;
        live(below(2) ? 64 : 512);
        rarity = below(3) ? 10 + below(200) : 0;
        live_by_blocks();
        must(!heap_blocks, "memory is left");
    }
    printf("%ld lives with a host that keeps no rule: nothing is wrong\n", lives);
    return 0;
}
