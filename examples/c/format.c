/* An image of zeros is made on a device that holds another, and bytes behind it, with a cut at each
 * call: a start finds what was there, no image, or the new one, whole. So it is where a log alone
 * is laid, and where home begins further behind the log, as at a page of the device. Runs of any
 * length come to the same, and the memory is the same for any number of blocks. */
#include "gadget.h"
#include "usbdisk.h"
#include <stdio.h>
#include <stdlib.h>
#include <string.h>

enum { BLOCKS = 150, SLOTS = 2, LOG_END = USBDISK_LOG_END(2, SLOTS), PAGE = 512 };
enum { FURTHEST = USBDISK_LOG_END(2, SLOTS + 1) - 1 };
enum { SECTORS = FURTHEST + BLOCKS + 9, BEHIND = 0xAA };

/* What a work is made by: usbdisk_format or usbdisk_lay_log. */
typedef uint32_t making(struct usbdisk *image, const struct usbdisk_plan *plan);

static uint8_t device[SECTORS][512], kept[SECTORS][512], durable[SECTORS][512], now[SECTORS][512];
static uint64_t blocks = BLOCKS, given;

static uint64_t home_of(uint32_t format)
{
    struct usbdisk_log log = { 0 };
    usbdisk_log_of(format, SLOTS, 1, &log);
    return given ? given : log.home;
}

static bool are_zeros(uint64_t first, uint64_t end)
{
    for (uint64_t s = first; s < end; s++)
        for (int i = 0; i < 512; i++)
            if (device[s][i])
                return false;
    return true;
}

/* From this sector on nothing has changed. */
static bool are_spared(uint64_t first)
{
    return !memcmp(device[first], kept[first], 512 * (SECTORS - first));
}

static void carry_out(const struct usbdisk_call *call, const uint8_t *bytes)
{
    if (call->kind == USBDISK_WRITE)
        memcpy(device[call->sector], bytes, 512 * call->count);
    else if (call->kind == USBDISK_FLUSH)
        memcpy(durable, device, sizeof device);
}

/* Makes an image of this format, up to a cut behind `most` writes and flushes, in runs of at most
 * `room` sectors. How many there were; -1 where it is not done. */
static int make(making *making, uint32_t format, int most, size_t room)
{
    static uint8_t bytes[USBDISK_LIMIT(2) * 512];
    const struct usbdisk_plan plan = { SECTORS, format, SLOTS, blocks, given };
    struct usbdisk image = USBDISK_NONE;
    struct usbdisk_call call;
    uint32_t fault;
    int calls = 0;
    memcpy(durable, device, sizeof device);
    if (making(&image, &plan))
        exit(EXIT_FAILURE);
    while (calls != most && !usbdisk_next(&image, &call, bytes, 512 * room) && call.kind) {
        bool is_read = call.kind == USBDISK_READ;
        carry_out(&call, bytes);
        usbdisk_done(&image, true, device[call.sector], is_read ? 512 * call.count : 0);
        calls += !is_read;
    }
    bool is_done = usbdisk_state(&image, &fault) == USBDISK_DONE;
    usbdisk_stop(&image);
    return is_done || calls == most ? calls : -1;
}

/* The new image is there, whole: its blocks are zeros, or what home held. */
static bool is_new(making *making, uint32_t format)
{
    struct usbdisk_layout layout;
    uint64_t home = home_of(format);
    if (usbdisk_look(device[0], &layout) || layout.format != format || layout.slots != SLOTS ||
        layout.blocks != BLOCKS || layout.home != home || !device[1][0])
        return false;
    if (making == usbdisk_lay_log)
        return are_zeros(2, home) && are_spared(home);
    return are_zeros(2, layout.sectors) && are_spared(layout.sectors);
}

/* Whether a cut leaves what it may: of the writes since the last flush all, or none. */
static bool is_allowed(making *making, uint32_t format, bool flushed)
{
    uint64_t end = home_of(format) + (making == usbdisk_lay_log ? 0 : BLOCKS);
    bool good = true;
    for (int all = 0; all <= 1; all++) {
        if (!all)
            memcpy(device, durable, sizeof device);
        bool is_old = !flushed && !memcmp(device[0], kept[0], 512);
        good &= (is_old || are_zeros(0, 1) || is_new(making, format)) && are_spared(end);
        memcpy(device, now, sizeof device);
    }
    return good;
}

static bool is_cut_well(making *making, uint32_t format, int calls)
{
    for (int most = 1; most <= calls; most++) {
        memcpy(device, kept, sizeof device);
        if (make(making, format, most, 1) != most)
            return false;
        memcpy(now, device, sizeof device);
        if (!is_allowed(making, format, most >= 2))
            return false;
    }
    return is_new(making, format);
}

/* The same image, by runs of all lengths. */
static bool is_same_by_runs(making *making, uint32_t format)
{
    memcpy(now, device, sizeof device);
    for (size_t room = 2; room <= USBDISK_LIMIT(2); room += 17) {
        memcpy(device, kept, sizeof device);
        if (make(making, format, -1, room) < 1 || memcmp(device, now, sizeof device))
            return false;
    }
    return true;
}

/* The most memory that is taken meanwhile. */
static size_t memory_of(making *making, uint32_t format, uint64_t count)
{
    memcpy(device, kept, sizeof device);
    heap_most = heap_now;
    blocks = count;
    bool good = make(making, format, -1, USBDISK_LIMIT(2)) > 0;
    blocks = BLOCKS;
    return good ? heap_most - heap_now : 0;
}

/* What lies on the device before: another image, and bytes that are no zeros behind its log. */
static void keep_other(uint32_t format)
{
    memset(device, BEHIND, sizeof device);
    make(usbdisk_format, 3 - format, -1, USBDISK_LIMIT(2));
    memset(device[home_of(1)], BEHIND, 512 * 7);
    memcpy(kept, device, sizeof device);
}

/* With home in this sector, or with 0 behind the log. */
static bool play(making *making, uint32_t format, uint64_t home)
{
    bool is_log = making == usbdisk_lay_log;
    given = 0;
    keep_other(format);
    given = home;
    int calls = make(making, format, -1, 1),
        wanted = (int)home_of(format) + (is_log ? 5 : BLOCKS + 7);
    bool good =
        calls == wanted && is_cut_well(making, format, calls) && is_same_by_runs(making, format);
    size_t most = memory_of(making, format, BLOCKS);
    good &= most > 0 && most == memory_of(making, format, 1);
    printf("format %u, %s, home at %d: %d calls, %zu bytes of memory\n", format,
           is_log ? "a log" : "zeros", (int)home_of(format), calls, most);
    return good;
}

/* Home that begins in the log, or a slot and more behind it, is refused. */
static bool are_refused(making *making)
{
    const struct usbdisk_plan bad[] = {
        { SECTORS, 1, SLOTS, BLOCKS, 1 },
        { SECTORS, 1, SLOTS, BLOCKS, USBDISK_LOG_END(1, SLOTS) - 1 },
        { SECTORS, 1, SLOTS, BLOCKS, USBDISK_LOG_END(1, SLOTS) + 1 },
        { SECTORS, 2, SLOTS, BLOCKS, LOG_END - 1 },
        { SECTORS, 2, SLOTS, BLOCKS, FURTHEST + 1 },
        { SECTORS, 2, SLOTS, BLOCKS + 10, FURTHEST },
        { UINT64_MAX, 2, SLOTS, BLOCKS, UINT64_MAX },
    };
    struct usbdisk image = USBDISK_NONE;
    bool good = true;
    for (size_t i = 0; i < sizeof bad / sizeof *bad; i++)
        good &= making(&image, &bad[i]) == USBDISK_BAD_SIZES && !image.at;
    return good;
}

int main(void)
{
    bool good = are_refused(usbdisk_format) && are_refused(usbdisk_lay_log);
    for (uint32_t format = 1; format <= 2; format++)
        good &= play(usbdisk_format, format, 0) && play(usbdisk_lay_log, format, 0);
    good &= play(usbdisk_format, 1, USBDISK_LOG_END(1, SLOTS)) && play(usbdisk_lay_log, 2, LOG_END);
    good &= play(usbdisk_format, 2, PAGE) && play(usbdisk_lay_log, 2, PAGE);
    good &= play(usbdisk_format, 2, FURTHEST) && play(usbdisk_lay_log, 2, FURTHEST);
    printf("%s, %zu blocks of memory left\n", good ? "good at each cut" : "WRONG", heap_blocks);
    return !good || heap_blocks;
}
