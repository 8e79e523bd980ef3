/* A device larger than memory: 2^31 blocks, of which a map has the sectors that were written. A log
 * is laid on it, a disk started, a block written and read again, also while the device cannot read
 * it; then the image is migrated. The power goes at each call on the way. In the end a log is laid
 * before home that begins at a page of 64 KiB. */
#include "gadget.h"
#include "usbdisk_io.h"
#include <stdio.h>
#include <stdlib.h>
#include <string.h>

#define BLOCKS ((uint64_t)1 << 31)
enum { SLOTS = 5, PLACES = 4096, TO_HOST = 0x80 };

static const struct usbdisk_identity who = { "EXAMPLE ", "A TERABYTE      ", "0001",
                                             "000000000001" };

/* The sectors that hold something else than zeros, or did. */
static struct place {
    bool used;
    uint64_t sector;
    uint8_t bytes[512];
} map[PLACES], kept[PLACES];

static struct place *place_of(uint64_t sector)
{
    size_t at = sector % PLACES;
    while (map[at].used && map[at].sector != sector)
        at = (at + 1) % PLACES;
    return &map[at];
}

/* The device cannot read; and how many sectors are written and flushes made until the power goes,
 * or -1. */
static bool is_worn;
static int left = -1, calls;

static bool is_cut(void)
{
    if (left == 0)
        return true;
    left -= left > 0;
    calls++;
    return false;
}

static bool read_run(void *context, uint64_t first, uint8_t *bytes, size_t count)
{
    (void)context;
    for (uint64_t i = 0; i < count; i++) {
        const struct place *place = place_of(first + i);
        if (place->used)
            memcpy(bytes + i * 512, place->bytes, 512);
        else
            memset(bytes + i * 512, 0, 512);
    }
    return !is_worn;
}

static void write_sector(uint64_t sector, const uint8_t *bytes)
{
    struct place *place = place_of(sector);
    place->used = true;
    place->sector = sector;
    memcpy(place->bytes, bytes, 512);
}

/* The power may go within a run. */
static bool write_run(void *context, uint64_t first, const uint8_t *bytes, size_t count)
{
    (void)context;
    for (size_t i = 0; i < count; i++) {
        if (is_cut())
            return false;
        write_sector(first + i, bytes + i * 512);
    }
    return true;
}

static bool flush(void *context)
{
    (void)context;
    return !is_cut();
}

static const struct usbdisk_io_device device = { NULL,     BLOCKS + USBDISK_LOG_END(2, SLOTS),
                                                 read_run, write_run,
                                                 flush,    0 };

/* Lays a log of this format, or migrates, up to a cut. How many sectors were written and flushes
 * made. */
static int make(uint32_t format, int most)
{
    left = most;
    calls = 0;
    if (format)
        usbdisk_io_lay_log(&device, format, SLOTS, BLOCKS);
    else
        usbdisk_io_migrate(&device);
    left = -1;
    return calls;
}

/* The last block is written with FUA, or read. */
static bool move_block(struct usbdisk_io *io, uint8_t *block, bool writes)
{
    uint8_t wrapper[31] = {
        'U', 'S', 'B', 'C', [9] = 2, [14] = 10, [17] = 0x7F, 0xFF, 0xFF, 0xFF, [23] = 1
    };
    uint8_t status[13];
    size_t moved;
    wrapper[12] = writes ? 0 : TO_HOST;
    wrapper[15] = writes ? 0x2A : 0x28;
    wrapper[16] = writes ? 8 : 0;
    return !usbdisk_io_out(io, wrapper, sizeof wrapper, &moved) &&
           !(writes ? usbdisk_io_out(io, block, 512, &moved)
                    : usbdisk_io_in(io, block, 512, &moved)) &&
           !usbdisk_io_in(io, status, sizeof status, &moved) && status[12] == 0;
}

/* REQUEST SENSE: the sense key, and the code behind it. */
static int sense_of(struct usbdisk_io *io)
{
    uint8_t wrapper[31] = { 'U', 'S', 'B',     'C', 1, 0, 0, 0, 18, 0,
                            0,   0,   TO_HOST, 0,   6, 3, 0, 0, 0,  18 };
    uint8_t data[18], status[13];
    size_t moved;
    if (usbdisk_io_out(io, wrapper, sizeof wrapper, &moved) ||
        usbdisk_io_in(io, data, sizeof data, &moved) || moved != sizeof data ||
        usbdisk_io_in(io, status, sizeof status, &moved))
        return -1;
    return data[2] << 16 | data[12] << 8 | data[13];
}

/* A block that the device cannot read ends one READ, and is read once the device can again. */
static bool goes_on(struct usbdisk_io *io)
{
    uint8_t block[512], status[13];
    size_t moved;
    is_worn = true;
    /* Bulk-In is halted before the status, as no byte of the data comes. */
    bool is_told = !move_block(io, block, false);
    usbdisk_io_clear_halt(io, 0x81);
    is_told = is_told && !usbdisk_io_in(io, status, sizeof status, &moved) && status[12] == 1 &&
              sense_of(io) == 0x031100;
    is_worn = false;
    return is_told && move_block(io, block, false);
}

/* What a start finds: the byte of the last block, or -1 where there is no image. */
static int found(void)
{
    struct usbdisk_io *io;
    uint8_t block[512];
    if (usbdisk_io_start(&io, &device, &who, 512))
        return -1;
    bool good = sense_of(io) == 0x062900 && move_block(io, block, false);
    usbdisk_io_stop(io);
    return good ? block[511] : -2;
}

/* At each cut a start finds the one, or the other. */
static bool cuts(uint32_t format, int most, int one, int other)
{
    memcpy(kept, map, sizeof map);
    for (int cut = 0; cut <= most; cut++) {
        memcpy(map, kept, sizeof map);
        make(format, cut);
        int what = found();
        if (what != one && what != other)
            return false;
    }
    return true;
}

/* A disk on an image whose home begins at a page of the device: a block is written, and a start
 * brings it there. */
static bool serves_a_page(void)
{
    struct usbdisk_plan plan = { .format = 2, .slots = SLOTS - 1 };
    struct usbdisk_log log;
    struct usbdisk_io *io;
    uint8_t block[512];
    memset(block, 0xC3, 512);
    if (usbdisk_log_of(plan.format, plan.slots, 128, &log))
        return false;
    plan.home = log.home;
    if (usbdisk_io_make(&device, &plan, true) || usbdisk_io_start(&io, &device, &who, 512))
        return false;
    bool good = sense_of(io) == 0x062900 && move_block(io, block, true);
    usbdisk_io_stop(io);
    return good && found() == 0xC3 && place_of(1024 + BLOCKS - 1)->bytes[0] == 0xC3;
}

int main(void)
{
    struct usbdisk_io *io;
    uint8_t block[512];
    /* The last block is at home behind a log of format 1, and that of another image too. */
    memset(block, 0x5A, 512);
    write_sector(USBDISK_LOG_END(1, SLOTS) + BLOCKS - 1, block);
    printf("a log of format 1: %s\n",
           cuts(1, USBDISK_LOG_END(1, SLOTS) + 5, -1, 0x5A) ? "good at each cut" : "WRONG");
    printf("as one of format 2: %d calls\n", make(2, -1));
    printf("the last block then: %d\n", found());
    int made = make(1, -1);
    printf("as one of format 1 again: %d calls, and its last block: %d\n", made, found());
    if (usbdisk_io_start(&io, &device, &who, 512))
        return EXIT_FAILURE;
    memset(block, 0xA5, 512);
    bool good = sense_of(io) == 0x062900 && goes_on(io);
    printf("a block that the device cannot read for a while: %s\n",
           good ? "ends one READ" : "WRONG");
    good = good && move_block(io, block, true);
    usbdisk_io_stop(io);
    printf("a block is written: %s\n", good ? "yes" : "no");
    printf("a migration: %s\n",
           cuts(0, USBDISK_LOG_END(1, SLOTS) + 18, 0xA5, 0xA5) ? "good at each cut" : "WRONG");
    good = serves_a_page() && good;
    printf("home at a page: %s\n", good ? "a disk serves" : "WRONG");
    printf("%zu blocks of memory left\n", heap_blocks);
    return !good;
}
