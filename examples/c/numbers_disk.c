/* What a disk answers to arguments that do not fit while it starts and behind that; and what is
 * read ahead, and what is not. */
#include "numbers.h"
#include "gadget.h"
#include "image.h"
#include <string.h>

static uint8_t bytes[1024];

static void begin(struct usbdisk *disk)
{
    must(!start(disk, DISK), "a start");
}

static void end(struct usbdisk *disk)
{
    must(!usbdisk_stop(disk) && !disk->at && !heap_blocks, "a stop");
}

static const uint8_t max_lun[8] = { 0xA1, 0xFE, 0, 0, 0, 0, 1 };

/* What comes before the first call of a start. */
static void play_before(struct usbdisk *disk)
{
    struct usbdisk_call call = { UNTOLD, UNTOLD, UNTOLD };
    uint32_t size = UNTOLD;
    must(usbdisk_next(disk, &call, bytes, 0) == USBDISK_BAD_LENGTH, "room for no sector");
    must(usbdisk_next(disk, &call, bytes, 513) == USBDISK_BAD_LENGTH, "room for a part of one");
    must(call.kind == UNTOLD && call.sector == UNTOLD && call.count == UNTOLD, "a call is told");
    must(usbdisk_done(disk, true, bytes, 0) == USBDISK_NOT_ASKED, "an end of no call");
    must(usbdisk_setup(disk, max_lun, bytes, &size) == USBDISK_STALL, "a request in an opening");
}

/* A READ ends once, by as many bytes as were asked for. */
static void end_read(struct usbdisk *disk, const struct usbdisk_call *call)
{
    struct usbdisk_call other;
    uint8_t *place = medium + 512 * call->sector;
    must(!usbdisk_next(disk, &other, bytes, 512) && !other.kind, "a second call");
    for (size_t wrong = 0; wrong <= 3 * 512; wrong += 256)
        must(wrong == 512 * call->count ||
                 usbdisk_done(disk, true, place, wrong) == USBDISK_BAD_LENGTH,
             "bytes of another length");
    state_of(disk, USBDISK_STARTING);
    must(!usbdisk_done(disk, true, place, 512 * call->count), "a READ that ends");
}

/* A WRITE or a FLUSH ends. Its bytes are not looked at. */
static void end_other(struct usbdisk *disk, const struct usbdisk_call *call)
{
    if (call->kind == USBDISK_WRITE)
        memcpy(medium + 512 * call->sector, bytes, 512 * call->count);
    must(!usbdisk_done(disk, true, bytes, 7), "the bytes of a call that is no READ are looked at");
}

/* The image is recovered first. Sector 0 is read alone, then up to 64 sectors at a time, none of
 * them a block. Of one that was left in order the head alone is written, between three flushes. */
static bool is_of_mending(const struct usbdisk_call *call)
{
    if (call->kind == USBDISK_WRITE)
        return call->sector == 1 && call->count == 1;
    return call->kind == USBDISK_FLUSH || (call->sector ? call->count >= 1 : call->count == 1);
}

static void play_mending(struct usbdisk *disk)
{
    struct usbdisk_call call;
    unsigned writes = 0, flushes = 0;
    while (flushes < 3) {
        state_of(disk, USBDISK_STARTING);
        must(!usbdisk_next(disk, &call, bytes, sizeof bytes) && call.kind, "a recovery has no end");
        must(is_of_mending(&call), "a recovery asks for something else");
        must(call.count <= 64 && call.sector + call.count <= FIRST, "a recovery reads too far");
        writes += call.kind == USBDISK_WRITE;
        flushes += call.kind == USBDISK_FLUSH;
        if (call.kind == USBDISK_READ)
            end_read(disk, &call);
        else
            end_other(disk, &call);
    }
    must(writes == 1, "the head is not written once");
}

/* Behind its recovery a disk serves, and asks its device for nothing. */
static void play_opening(void)
{
    struct usbdisk disk = USBDISK_NONE;
    struct usbdisk_call call;
    uint32_t size = UNTOLD;
    begin(&disk);
    play_before(&disk);
    play_mending(&disk);
    state_of(&disk, USBDISK_SERVING);
    must(!usbdisk_next(&disk, &call, bytes, 1024) && !call.kind, "a call behind the recovery");
    must(usbdisk_setup(&disk, max_lun, bytes, &size) == USBDISK_ACK && size == 1 && !bytes[0],
         "a request behind the recovery");
    end(&disk);
}

/* What comes while a disk starts. */
static void play_bus_between(struct usbdisk *disk)
{
    uint32_t fault;
    size_t moved = UNTOLD;
    bool serves = usbdisk_state(disk, &fault) == USBDISK_SERVING;
    must(serves || (usbdisk_out(disk, bytes, 31, &moved) == USBDISK_NAK && !moved),
         "a packet while a disk starts");
    must(usbdisk_in(disk, bytes, 512, &moved) == USBDISK_NAK && !moved, "nothing is to be sent");
    must(serves || !usbdisk_ahead(disk, FIRST, 1), "sectors ahead while a disk starts");
    must(usbdisk_idle(disk) == !serves, "steps are left until the disk serves");
    moved = UNTOLD;
    must(usbdisk_in(disk, bytes, 511, &moved) == USBDISK_BAD_LENGTH && moved == UNTOLD,
         "room for no packet");
}

/* And behind it. */
static void play_bus(void)
{
    struct usbdisk disk = USBDISK_NONE;
    struct usbdisk_call call = { .kind = USBDISK_NOTHING };
    size_t moved = UNTOLD;
    begin(&disk);
    for (bool goes_on = true; goes_on; goes_on = carry_one(&disk, medium, &call))
        play_bus_between(&disk);
    state_of(&disk, USBDISK_SERVING);
    must(!usbdisk_out(&disk, bytes, 0, &moved) && !moved, "an empty packet");
    must(usbdisk_out(&disk, bytes, 31, &moved) == USBDISK_STALL && !moved, "behind no wrapper");
    must(usbdisk_in(&disk, bytes, 512, &moved) == USBDISK_STALL && !moved, "Bulk-In behind it");
    end(&disk);
}

/* Sectors that are none, too many or not all there are not read ahead, nor others before the next
 * packet. One READ that fails leaves no trace. */
static void play_ahead(void)
{
    struct usbdisk disk = USBDISK_NONE;
    struct usbdisk_call call;
    begin(&disk);
    carry_all(&disk, medium);
    must(!usbdisk_ahead(&disk, FIRST, 0), "no sectors ahead");
    must(!usbdisk_ahead(&disk, FIRST, LIMIT + 1), "too many ahead");
    must(!usbdisk_ahead(&disk, SECTORS - 1, 2), "sectors ahead that are not there");
    must(!usbdisk_ahead(&disk, UINT64_MAX, 2), "sectors ahead that no device has");
    must(usbdisk_ahead(&disk, SECTORS - 2, 2) == 1, "the last two ahead");
    must(!usbdisk_ahead(&disk, FIRST, 2), "a second time ahead");
    must(!usbdisk_next(&disk, &call, bytes, 512), "next");
    must(call.kind == USBDISK_READ && call.sector == SECTORS - 2 && call.count == 2,
         "what is read ahead");
    must(!usbdisk_ahead(&disk, FIRST, 2), "ahead while the device reads");
    must(!usbdisk_done(&disk, false, bytes, 0), "a reading ahead that fails");
    must(!usbdisk_ahead(&disk, FIRST, 2), "ahead before a packet");
    state_of(&disk, USBDISK_SERVING);
    end(&disk);
}

/* Wrappers around REQUEST SENSE, and around a READ (10) of block 5. */
static const uint8_t sense[31] = {
    'U', 'S', 'B', 'C', [8] = 18, [12] = 0x80, [14] = 6, 3, [19] = 18
};
static const uint8_t read_five[31] = {
    'U', 'S', 'B', 'C', [9] = 2, [12] = 0x80, [14] = 10, 0x28, [20] = 5, [23] = 1
};

/* The sense and its status come whatever the device is at. */
static void play_sense(struct usbdisk *disk, const char *what)
{
    size_t moved;
    must(!usbdisk_out(disk, sense, 31, &moved) && moved == 31, what);
    must(!usbdisk_in(disk, bytes, 512, &moved) && !usbdisk_in(disk, bytes, 512, &moved), what);
}

/* Packets are taken before what is wished for is read, and meanwhile, and the wish stays. */
static void play_wish(void)
{
    struct usbdisk disk = USBDISK_NONE;
    struct usbdisk_call call;
    begin(&disk);
    carry_all(&disk, medium);
    must(usbdisk_ahead(&disk, FIRST, 2) == 1, "a wish");
    play_sense(&disk, "a packet behind a wish");
    must(!usbdisk_next(&disk, &call, bytes, 512) && call.kind == USBDISK_READ &&
             call.sector == FIRST && call.count == 2,
         "a wish behind a packet");
    play_sense(&disk, "a packet while sectors are read ahead");
    must(!usbdisk_done(&disk, true, medium + 512 * FIRST, 1024), "the READ ends");
    must(!usbdisk_ahead(&disk, FIRST, 2), "a second wish before a packet");
    play_sense(&disk, "a packet behind it");
    must(usbdisk_ahead(&disk, FIRST, 2) == 1, "a wish behind that");
    end(&disk);
}

/* A READ of block 5 inside of what was read ahead wants no device, and gets its bytes. */
static void play_hit(void)
{
    struct usbdisk disk = USBDISK_NONE;
    struct usbdisk_call call;
    size_t moved;
    memset(medium + 512 * (FIRST + 5), 0x5A, 512);
    begin(&disk);
    carry_all(&disk, medium);
    must(!usbdisk_out(&disk, sense, 31, &moved) && !usbdisk_in(&disk, bytes, 512, &moved) &&
             !usbdisk_in(&disk, bytes, 512, &moved),
         "REQUEST SENSE");
    must(usbdisk_ahead(&disk, FIRST, 8) == 1, "the first eight ahead");
    carry_all(&disk, medium);
    must(!usbdisk_out(&disk, read_five, 31, &moved) && moved == 31,
         "a READ of what was read ahead");
    must(!carry_one(&disk, medium, &call), "it wants the device");
    must(!usbdisk_in(&disk, bytes, 1024, &moved) && moved == 512 + 13 && bytes[511] == 0x5A &&
             !bytes[512 + 12],
         "its bytes and its status");
    must(!usbdisk_out(&disk, read_five, 31, &moved) && !usbdisk_in(&disk, bytes, 1023, &moved) &&
             moved == 512 && !usbdisk_in(&disk, bytes, 512, &moved) && moved == 13,
         "a packet has less room than a whole one");
    end(&disk);
}

void play_disk(void)
{
    play_opening();
    play_bus();
    play_ahead();
    play_wish();
    play_hit();
}
