/* What the calls of usbdisk.h answer to arguments that do not fit, and to handles that hold nothing
 * or something of another kind: each its number, and nothing changes. And what each start that
 * fails tells, and that it keeps no memory. */
#include "numbers.h"
#include "gadget.h"
#include "image.h"
#include <stdio.h>
#include <stdlib.h>
#include <string.h>

static const struct usbdisk_options good = {
    .sectors = SECTORS,
    .identity = { "EXAMPLE ", "NUMBERS         ", "0001", "000000000001" },
    .packet = 512,
};
static const struct usbdisk_plan plan = { SECTORS, FORMAT, SLOTS, BLOCKS, 0 };
uint8_t medium[SECTORS * 512];
static uint8_t kept[SECTORS * 512], bytes[1024];

void must(bool is_right, const char *what)
{
    if (is_right)
        return;
    printf("numbers: %s\n", what);
    exit(EXIT_FAILURE);
}

uint32_t start(struct usbdisk *handle, enum kind kind)
{
    switch (kind) {
    case DISK:
        return usbdisk_start(handle, &good);
    case STORE:
        return usbdisk_store_start(handle, &good);
    case FORMAT_WORK:
        return usbdisk_format(handle, &plan);
    case LAY_WORK:
        return usbdisk_lay_log(handle, &plan);
    default:
        return usbdisk_migrate(handle, &plan);
    }
}

uint32_t state_of(struct usbdisk *handle, uint32_t wanted)
{
    uint32_t fault = UNTOLD, state = usbdisk_state(handle, &fault);
    must(state == wanted, "another state");
    must(state == USBDISK_FAILED || fault == (state == USBDISK_EMPTY ? UNTOLD : 0),
         "a fault of what did not fail");
    return fault;
}

static void play_starts(void)
{
    struct usbdisk disk = USBDISK_NONE;
    struct usbdisk_options bad = good;
    for (uint32_t packet = 0; packet <= 1024; packet += packet == 63 ? 2 : 1) {
        bad.packet = packet;
        must(packet == 512 || usbdisk_start(&disk, &bad) == USBDISK_BAD_PACKET_SIZE,
             "packets of another size");
    }
    bad.identity.serial[0] = 0;
    must(usbdisk_start(&disk, &bad) == USBDISK_BAD_PACKET_SIZE, "what is wrong first");
    bad.packet = 64;
    must(usbdisk_start(&disk, &bad) == USBDISK_BAD_IDENTITY, "a 0 in the serial number");
    bad = good;
    bad.identity.vendor[7] = 0x7F;
    must(usbdisk_start(&disk, &bad) == USBDISK_BAD_IDENTITY, "a vendor that cannot be printed");
    must(!disk.at && !heap_blocks, "a refused start keeps something");
    for (enum kind kind = DISK; kind < KINDS; kind++) {
        must(!start(&disk, kind), "a start");
        bad.packet = 63;
        must(usbdisk_start(&disk, &bad) == USBDISK_STARTED, "a second start, with wrong options");
        for (enum kind other = DISK; other < KINDS; other++)
            must(start(&disk, other) == USBDISK_STARTED, "a second start");
        must(!usbdisk_stop(&disk) && !heap_blocks && usbdisk_stop(&disk) == USBDISK_EMPTY,
             "a stop");
    }
}

/* ---- starts that fail */

static uint32_t fault_of(enum kind kind)
{
    struct usbdisk handle = USBDISK_NONE;
    must(!start(&handle, kind), "a start");
    carry_all(&handle, medium);
    uint32_t fault = state_of(&handle, USBDISK_FAILED);
    must(usbdisk_idle(&handle) == (kind < FORMAT_WORK ? 1 : USBDISK_OTHER_KIND), "a failed step");
    must(!usbdisk_stop(&handle) && !heap_blocks, "a stop of what failed");
    memcpy(medium, kept, sizeof medium);
    return fault;
}

/* Of an image that is changed at one byte. */
static uint32_t fault_with(enum kind kind, size_t place, uint8_t byte)
{
    medium[place] = byte;
    return fault_of(kind);
}

static void play_faults(enum kind kind)
{
    must(fault_with(kind, 0, 'r') == USBDISK_BAD_SUPER, "another mark");
    must(fault_with(kind, 48, 1) == USBDISK_BAD_SUPER, "more bytes than a super has");
    must(fault_with(kind, 8, 3) == USBDISK_BAD_VERSION, "a third format");
    must(fault_with(kind, 16, BLOCKS + 1) == USBDISK_BAD_SIZE, "a device that is too short");
    must(fault_with(kind, 24, 65) == USBDISK_BAD_SIZE, "too many slots");
    must(fault_with(kind, 512, 'r') == USBDISK_BAD_HEAD, "another head");
    memset(medium + 512 + 8, 0xFF, 7);
    must(fault_with(kind, 512 + 15, 0x7F) == USBDISK_STAMPS_USED_UP, "the last stamp");
}

static void begin_image(uint64_t slots)
{
    must(!format_memory(medium, sizeof medium, FORMAT, BLOCKS, slots), "no format");
    memcpy(kept, medium, sizeof medium);
}

/* The call of this number is refused: it ends a start, and the work on an image. False: there are
 * fewer calls. */
static bool refuse_call(enum kind kind, unsigned number)
{
    static const uint32_t refused[] = { 0, USBDISK_WRITE_REFUSED, USBDISK_FLUSH_REFUSED,
                                        USBDISK_READ_REFUSED };
    struct usbdisk handle = USBDISK_NONE;
    struct usbdisk_call call = { .kind = USBDISK_NOTHING };
    must(!start(&handle, kind), "a start");
    for (unsigned i = 1; i < number; i++)
        must(carry_one(&handle, medium, &call), "a call before the refused one");
    must(!usbdisk_next(&handle, &call, bytes, 512), "the next call");
    bool is_one = call.kind != USBDISK_NOTHING, begins = kind < FORMAT_WORK;
    must(!is_one || !usbdisk_done(&handle, false, bytes, 0), "a refused call");
    if (is_one)
        must(state_of(&handle, USBDISK_FAILED) == refused[call.kind], "why it failed");
    else
        state_of(&handle, begins ? USBDISK_SERVING : USBDISK_DONE);
    must(!usbdisk_next(&handle, &call, bytes, 512) && !call.kind, "a call behind it");
    must(!usbdisk_stop(&handle) && !heap_blocks, "a stop behind it");
    memcpy(medium, kept, sizeof medium);
    return is_one;
}

/* Each block of memory of a start, and of what its READs make, is refused in turn. How many there
 * are. */
static int refuse_memory(enum kind kind)
{
    for (int number = 1;; number++) {
        struct usbdisk handle = USBDISK_NONE;
        uint32_t fault = 0, state = USBDISK_FAILED;
        heap_fails = number;
        uint32_t code = start(&handle, kind);
        must(!code || (code == USBDISK_NO_MEMORY && !handle.at && !heap_blocks),
             "a start without memory");
        carry_all(&handle, medium);
        bool is_good = heap_fails > 0;
        heap_fails = 0;
        if (!code)
            state = usbdisk_state(&handle, &fault);
        must(is_good || code || (state == USBDISK_FAILED && fault == USBDISK_NO_MEMORY),
             "a start whose memory is refused later");
        must(usbdisk_stop(&handle) == (code ? USBDISK_EMPTY : 0) && !heap_blocks, "memory is left");
        memcpy(medium, kept, sizeof medium);
        if (is_good)
            return number - 1;
    }
}

static void play_failing(void)
{
    for (enum kind kind = DISK; kind < KINDS; kind++) {
        unsigned calls = 1;
        begin_image(SLOTS);
        if (kind != FORMAT_WORK && kind != LAY_WORK)
            play_faults(kind);
        while (refuse_call(kind, calls))
            calls++;
        must(calls > 5 && refuse_memory(kind) > 1, "no call, or no memory is taken");
    }
    begin_image(4);
    must(fault_of(MIGRATION) == USBDISK_LOG_TOO_SMALL, "a migration with a log too small");
}

/* ---- handles */

/* Each call of a disk, of a store and of both, which answers this and changes nothing. */
static void refuse_bus(struct usbdisk *it, uint32_t answer)
{
    static const uint8_t setup[8] = { 0xA1, 0xFE, 0, 0, 0, 0, 1 };
    uint8_t room[512] = { UNTOLD };
    uint32_t size = UNTOLD;
    size_t moved = UNTOLD;
    must(usbdisk_out(it, bytes, 31, &moved) == answer && moved == UNTOLD, "Bulk-Out");
    must(usbdisk_in(it, room, 512, &moved) == answer && moved == UNTOLD, "Bulk-In");
    must(usbdisk_in(it, room, 0, &moved) == answer && moved == UNTOLD, "Bulk-In without room");
    must(usbdisk_setup(it, setup, room, &size) == answer && size == UNTOLD, "a request");
    must(usbdisk_ahead(it, FIRST, 1) == answer && room[0] == UNTOLD, "sectors ahead");
}

static void refuse_store(struct usbdisk *it, uint32_t answer)
{
    uint8_t room[512] = { UNTOLD };
    uint64_t blocks = UNTOLD;
    uint32_t limit = UNTOLD;
    must(usbdisk_store_sizes(it, &blocks, &limit) == answer && blocks == UNTOLD && limit == UNTOLD,
         "the sizes");
    must(usbdisk_store_read(it, 0, room, 512) == answer && room[0] == UNTOLD, "a read");
    must(usbdisk_store_read(it, BLOCKS, room, 0) == answer, "a read that does not fit");
    must(usbdisk_store_write(it, 0, bytes, 512) == answer, "a write");
    must(usbdisk_store_write(it, BLOCKS, bytes, 0) == answer, "a write that does not fit");
    must(usbdisk_store_sync(it) == answer, "a sync");
}

static void play_empty(void)
{
    struct usbdisk none = USBDISK_NONE;
    struct usbdisk_call call = { UNTOLD, UNTOLD, UNTOLD };
    refuse_bus(&none, USBDISK_EMPTY);
    refuse_store(&none, USBDISK_EMPTY);
    must(usbdisk_idle(&none) == USBDISK_EMPTY, "a step of nothing");
    must(usbdisk_next(&none, &call, bytes, 0) == USBDISK_EMPTY && call.kind == UNTOLD,
         "a call of nothing");
    must(usbdisk_done(&none, true, bytes, 7) == USBDISK_EMPTY, "an end of nothing");
    state_of(&none, USBDISK_EMPTY);
    must(usbdisk_stop(&none) == USBDISK_EMPTY && !none.at, "a stop of nothing");
}

/* While they start, and behind that. */
static void play_kinds(void)
{
    for (enum kind kind = DISK; kind < MIGRATION; kind++) {
        struct usbdisk handle = USBDISK_NONE;
        uint32_t ended = kind < FORMAT_WORK ? USBDISK_SERVING : USBDISK_DONE;
        must(!start(&handle, kind), "a start");
        for (int i = 0; i < 2; i++) {
            if (kind != DISK)
                refuse_bus(&handle, USBDISK_OTHER_KIND);
            if (kind != STORE)
                refuse_store(&handle, USBDISK_OTHER_KIND);
            must(kind < FORMAT_WORK || usbdisk_idle(&handle) == USBDISK_OTHER_KIND, "a step");
            state_of(&handle, i ? ended : USBDISK_STARTING);
            carry_all(&handle, medium);
        }
        must(!usbdisk_stop(&handle), "a stop");
    }
}

/* ---- a store, and images */

static void play_store(void)
{
    struct usbdisk store = USBDISK_NONE;
    uint64_t blocks = UNTOLD;
    uint32_t limit = UNTOLD;
    must(!start(&store, STORE), "a start");
    must(usbdisk_store_sizes(&store, &blocks, &limit) == USBDISK_BUSY && blocks == UNTOLD,
         "the sizes of what starts");
    must(usbdisk_store_sync(&store) == USBDISK_BUSY && usbdisk_idle(&store) == 1, "a sync of it");
    carry_all(&store, medium);
    must(!usbdisk_store_sizes(&store, &blocks, &limit) && blocks == BLOCKS && limit == LIMIT,
         "the sizes");
    must(usbdisk_store_write(&store, BLOCKS, bytes, 512) == USBDISK_BAD_RANGE, "behind the last");
    must(usbdisk_store_write(&store, BLOCKS - 1, bytes, 1024) == USBDISK_BAD_RANGE,
         "and across it");
    must(usbdisk_store_write(&store, 0, bytes, 0) == USBDISK_BAD_LENGTH, "a write of no block");
    must(usbdisk_store_write(&store, 0, medium, 49 * 512) == USBDISK_BAD_LENGTH, "of too many");
    must(usbdisk_store_read(&store, 0, bytes, 511) == USBDISK_BAD_LENGTH, "a part of a block");
    must(usbdisk_store_read(&store, UINT64_MAX, bytes, 512) == USBDISK_BAD_RANGE,
         "no block at all");
    must(!usbdisk_store_write(&store, 0, bytes, 512), "a write");
    must(usbdisk_store_sync(&store) == USBDISK_BUSY, "a sync of what waits");
    carry_all(&store, medium);
    must(!usbdisk_store_sync(&store), "a sync");
    must(!usbdisk_stop(&store) && !heap_blocks, "a stop of a store");
}

/* How many flushes a sync behind a write makes, the last of many, in format 2 with so many records
 * kept. */
static unsigned flushes_of(uint32_t kept)
{
    enum { ALL = USBDISK_LOG_END(2, 3) + BLOCKS };
    static uint8_t large[ALL * 512];
    const struct usbdisk_options options = { .sectors = ALL, .kept = kept };
    struct usbdisk store = USBDISK_NONE;
    struct usbdisk_call call;
    unsigned flushes = 0, before = 0;
    must(!format_memory(large, sizeof large, 2, BLOCKS, 3), "a format");
    must(!usbdisk_store_start(&store, &options), "a start");
    carry_all(&store, large);
    for (unsigned i = 0; i < 40; i++) {
        before = flushes;
        flushes = 0;
        must(!usbdisk_store_write(&store, i % BLOCKS, bytes, 512), "a write");
        must(usbdisk_store_sync(&store) == USBDISK_BUSY, "a sync of it");
        while (carry_one(&store, large, &call))
            flushes += call.kind == USBDISK_FLUSH;
        must(!usbdisk_store_sync(&store), "a sync that has nothing to do");
        must(i <= kept || flushes == before, "one sync flushes more often than another");
    }
    must(!usbdisk_stop(&store) && !heap_blocks, "a stop of a large store");
    return flushes;
}

/* It flushes once, however often, where three records are kept. */
static void play_flushes(void)
{
    must(flushes_of(0) == 1 && flushes_of(3) == 1 && flushes_of(64) == 1,
         "a sync flushes more than once");
    must(flushes_of(1) == 3 && flushes_of(2) == 3, "a record goes home with other flushes");
}

/* The device refuses what a sync wants, and then each call says so. */
static void play_dead_store(void)
{
    struct usbdisk store = USBDISK_NONE;
    struct usbdisk_call call;
    must(!start(&store, STORE), "a start");
    carry_all(&store, medium);
    must(!usbdisk_store_write(&store, 0, bytes, 512) && usbdisk_store_sync(&store) == USBDISK_BUSY,
         "a write and a sync");
    must(!usbdisk_next(&store, &call, bytes, 1024) && call.kind, "a call of a sync");
    must(!usbdisk_done(&store, false, bytes, 0), "a refusal");
    state_of(&store, USBDISK_FAULTED);
    must(!usbdisk_next(&store, &call, bytes, 1024) && !call.kind, "a call waits behind a refusal");
    must(usbdisk_store_write(&store, 0, bytes, 512) == USBDISK_DEAD, "a write behind it");
    must(usbdisk_store_read(&store, 0, bytes, 512) == USBDISK_DEAD, "a read behind it");
    must(usbdisk_store_sync(&store) == USBDISK_DEAD && usbdisk_idle(&store) == 1,
         "a step behind it");
    must(usbdisk_store_write(&store, BLOCKS, bytes, 512) == USBDISK_BAD_RANGE,
         "what is wrong first");
    must(!usbdisk_stop(&store) && !heap_blocks, "a stop of a dead store");
}

static void play_images(void)
{
    static const struct usbdisk_plan bad[] = {
        { SECTORS - 1, FORMAT, SLOTS, BLOCKS, 0 },
        { SECTORS, 3, SLOTS, BLOCKS, 0 },
        { SECTORS, 0, SLOTS, BLOCKS, 0 },
        { SECTORS, FORMAT, 0, BLOCKS, 0 },
        { 1 << 20, FORMAT, 65, BLOCKS, 0 },
        { SECTORS, FORMAT, SLOTS, 0, 0 },
        { UINT64_MAX, 2, SLOTS, ((uint64_t)1 << 31) + 1, 0 },
        { 0, FORMAT, SLOTS, BLOCKS, 0 },
    };
    static const uint8_t zeros[512];
    struct usbdisk none = USBDISK_NONE;
    struct usbdisk_layout layout = { .slots = UNTOLD };
    for (size_t i = 0; i < sizeof bad / sizeof *bad; i++)
        must(usbdisk_format(&none, &bad[i]) == USBDISK_BAD_SIZES &&
                 usbdisk_lay_log(&none, &bad[i]) == USBDISK_BAD_SIZES && !none.at && !heap_blocks,
             "sizes out of their limits");
    must(usbdisk_look(zeros, &layout) == USBDISK_BAD_SUPER && layout.slots == UNTOLD,
         "zeros are no image");
    must(!usbdisk_look(medium, &layout) && layout.format == FORMAT && layout.slots == SLOTS &&
             layout.blocks == BLOCKS && layout.home == FIRST && layout.sectors == SECTORS,
         "what image there is");
    must(!usbdisk_memory(0, 1) && !usbdisk_memory(3, 1) && !usbdisk_memory(1, 0) &&
             !usbdisk_memory_kept(2, 65, 1) && usbdisk_memory(2, 64) > usbdisk_memory(2, 1),
         "the memory of no format");
    must(usbdisk_memory(2, 6) == usbdisk_memory_kept(2, 6, 0) &&
             usbdisk_memory(2, 6) == usbdisk_memory_kept(2, 6, 4) &&
             usbdisk_memory_kept(2, 6, UINT32_MAX) == usbdisk_memory_kept(2, 6, 6) &&
             usbdisk_memory_kept(2, 64, 65) == usbdisk_memory_kept(2, 64, 64),
         "the memory of as many records as can be kept");
    must(usbdisk_memory_kept(1, 6, 4) == usbdisk_memory_kept(1, 6, 3) + 26952 &&
             usbdisk_memory_kept(2, 6, 4) == usbdisk_memory_kept(2, 6, 3) + 128720,
         "the memory of one record more");
    must(usbdisk_memory_to_format(2, 1) == usbdisk_memory_to_format(1, 64) &&
             !usbdisk_memory_to_format(0, 1) && !usbdisk_memory_to_format(3, 1) &&
             !usbdisk_memory_to_format(2, 0) && !usbdisk_memory_to_format(1, 65),
         "the memory of an image that is made");
    must(usbdisk_memory_to_migrate(6) == usbdisk_memory_to_migrate(5) + 77344 &&
             !usbdisk_memory_to_migrate(0) && !usbdisk_memory_to_migrate(65),
         "the memory of a migration");
}

int main(void)
{
    must(usbdisk_version() == USBDISK_VERSION, "the version");
    begin_image(SLOTS);
    play_empty();
    play_starts();
    play_kinds();
    begin_image(SLOTS);
    play_store();
    play_flushes();
    play_dead_store();
    begin_image(SLOTS);
    play_images();
    play_disk();
    play_logs();
    begin_image(SLOTS);
    play_failing();
    must(!heap_blocks, "memory is left");
    printf("arguments that do not fit: each call answers its number, and nothing changes\n");
    return 0;
}
