/* The port layer over a device that refuses one call, whichever it is: a read, a write or a flush,
 * of a start, of a transfer, of a step, and of an image that is made. The disk is told, the device
 * is asked for nothing behind a lost write, no memory is left, and behind a cut what was answered
 * good is there. */
#include "gadget.h"
#include "usbdisk_io.h"
#include <stdio.h>
#include <stdlib.h>
#include <string.h>

enum { BLOCKS = 64, SLOTS = 5, SECTORS = USBDISK_LOG_END(2, SLOTS) + BLOCKS, TO_HOST = 0x80 };
enum { GOOD = 0, FAILED = 1, PLACE = 5, OLD = 0x11, SYNCED = 0x22, FORCED = 0x33 };
enum kind { NONE, READ, WRITE, FLUSH };

static const struct usbdisk_identity who = { "EXAMPLE ", "REFUSALS        ", "0001",
                                             "000000000001" };

/* Memory, of which the call of this number and kind is refused. */
static struct {
    uint8_t now[SECTORS][512], durable[SECTORS][512], kept[SECTORS][512];
    enum kind kind;
    unsigned left;
    bool has_refused;
} device;

static void must(bool good, const char *what)
{
    if (good)
        return;
    printf("refusals: kind %d, %u left: %s\n", device.kind, device.left, what);
    exit(EXIT_FAILURE);
}

static bool is_refused(enum kind kind)
{
    must(kind == READ || device.kind == READ || !device.has_refused,
         "the device is asked for more behind a call that it refused");
    device.has_refused |= kind == device.kind && device.left-- == 1;
    return device.has_refused && kind == device.kind;
}

static bool read(void *context, uint64_t first, uint8_t *bytes, size_t count)
{
    (void)context;
    must(count >= 1 && count <= USBDISK_IO_MOST && !((uintptr_t)bytes % 16),
         "a read of another kind");
    if (is_refused(READ))
        return false;
    memcpy(bytes, device.now[first], count * 512);
    return true;
}

static bool write(void *context, uint64_t first, const uint8_t *bytes, size_t count)
{
    (void)context;
    must(count >= 1 && count <= USBDISK_IO_MOST && !((uintptr_t)bytes % 16),
         "a write of another kind");
    if (is_refused(WRITE))
        return false;
    memcpy(device.now[first], bytes, count * 512);
    return true;
}

static bool flush(void *context)
{
    (void)context;
    if (is_refused(FLUSH))
        return false;
    memcpy(device.durable, device.now, sizeof device.now);
    return true;
}

static const struct usbdisk_io_device memory = { NULL, SECTORS, read, write, flush, 0 };

static void refuse(enum kind kind, unsigned number)
{
    device.kind = kind;
    device.left = number;
    device.has_refused = false;
}

/* ---- a host */

/* A command of ten bytes with `size` bytes of data: its status, or -1. */
static int play(struct usbdisk_io *io, const uint8_t command[10], uint8_t flags, uint8_t *bytes,
                size_t size)
{
    uint8_t wrapper[31] = {
        'U', 'S', 'B', 'C', [8] = size & 255, size >> 8, [12] = flags, [14] = 10
    };
    uint8_t status[13];
    size_t moved;
    memcpy(wrapper + 15, command, 10);
    must(!usbdisk_io_out(io, wrapper, sizeof wrapper, &moved), "a wrapper is not taken");
    if (size && flags != TO_HOST)
        must(!usbdisk_io_out(io, bytes, size, &moved) && moved == size, "data is not taken");
    if (size && flags == TO_HOST && usbdisk_io_in(io, bytes, size, &moved) == USBDISK_STALL)
        usbdisk_io_clear_halt(io, 0x81);
    return usbdisk_io_in(io, status, sizeof status, &moved) ? -1 : status[12];
}

static uint32_t sense_of(struct usbdisk_io *io)
{
    static const uint8_t request[10] = { 0x03, [4] = 18 };
    uint8_t sense[18] = { 0 };
    must(play(io, request, TO_HOST, sense, sizeof sense) == GOOD, "REQUEST SENSE");
    return (uint32_t)sense[2] << 16 | (uint32_t)sense[12] << 8 | sense[13];
}

/* Two blocks, in one or in two pages of the device. */
static int write_blocks(struct usbdisk_io *io, uint8_t fill, uint8_t flags)
{
    uint8_t command[10] = { 0x2A, flags, [5] = PLACE, [8] = 2 }, bytes[1024];
    memset(bytes, fill, sizeof bytes);
    return play(io, command, 0, bytes, sizeof bytes);
}

/* What both blocks hold, or -1. */
static int read_blocks(struct usbdisk_io *io, int *status)
{
    uint8_t command[10] = { 0x28, [5] = PLACE, [8] = 2 }, bytes[1024] = { 0 };
    *status = play(io, command, TO_HOST, bytes, sizeof bytes);
    for (size_t i = 1; i < sizeof bytes; i++)
        if (bytes[i] != bytes[0])
            return -1;
    return bytes[0];
}

static int synchronise(struct usbdisk_io *io)
{
    static const uint8_t command[10] = { 0x35 };
    return play(io, command, 0, NULL, 0);
}

/* A disk of which the host has heard that it was started. */
static struct usbdisk_io *start(uint32_t packet)
{
    struct usbdisk_io *io = NULL;
    must(!usbdisk_io_start(&io, &memory, &who, packet) && io, "a start");
    must(sense_of(io) == 0x062900, "the first command does not hear of the start");
    return io;
}

/* ---- a disk */

/* Writes, promises, brings home: what of it was answered good. */
static uint8_t promised(struct usbdisk_io *io)
{
    uint8_t last = OLD;
    if (write_blocks(io, SYNCED, 0) == GOOD && synchronise(io) == GOOD)
        last = SYNCED;
    if (write_blocks(io, FORCED, 8) == GOOD)
        last = FORCED;
    while (usbdisk_io_idle(io))
        ;
    return last;
}

/* Behind a refusal each command says so, and the next start finds at least what was promised. */
static void is_found(struct usbdisk_io *io, uint8_t last)
{
    int status;
    must(usbdisk_io_has_faulted(io) == device.has_refused,
         "a refusal is not told, or one that was none");
    if (device.has_refused) {
        uint32_t sense = sense_of(io);
        must(sense == 0x030C00 || sense == 0x044400 || sense == 0, "another sense");
        must(write_blocks(io, 0x44, 8) == FAILED && sense_of(io) == 0x044400,
             "a WRITE behind a refusal");
        must(!usbdisk_io_idle(io), "steps behind a refusal");
    }
    usbdisk_io_stop(io);
    refuse(NONE, 0);
    memcpy(device.now, device.durable, sizeof device.now);
    io = start(512);
    int found = read_blocks(io, &status);
    must(status == GOOD && (found == last || (last < FORCED && found > last)),
         "what was promised is lost");
    usbdisk_io_stop(io);
    must(heap_blocks == 0, "memory is left");
}

/* A life in which a call is refused. False: it has fewer. */
static bool live(enum kind kind, unsigned number, uint32_t packet)
{
    memcpy(device.now, device.kept, sizeof device.now);
    memcpy(device.durable, device.kept, sizeof device.now);
    refuse(NONE, 0);
    struct usbdisk_io *io = start(packet);
    refuse(kind, number);
    uint8_t last = promised(io);
    bool has_refused = device.has_refused;
    is_found(io, last);
    return has_refused;
}

/* A start in which a call is refused, on a device with a record that waits. False: it has fewer. */
static bool begin(enum kind kind, unsigned number)
{
    static const uint32_t codes[] = { 0, USBDISK_READ_REFUSED, USBDISK_WRITE_REFUSED,
                                      USBDISK_FLUSH_REFUSED };
    struct usbdisk_io *io = NULL;
    int status;
    memcpy(device.now, device.kept, sizeof device.now);
    refuse(NONE, 0);
    io = start(512);
    must(write_blocks(io, FORCED, 8) == GOOD, "a forced WRITE");
    usbdisk_io_stop(io);
    io = NULL;
    refuse(kind, number);
    uint32_t code = usbdisk_io_start(&io, &memory, &who, 512);
    bool has_refused = device.has_refused;
    must(code == (has_refused ? codes[kind] : 0) && !io == has_refused,
         "a start answers something else");
    usbdisk_io_stop(io);
    must(heap_blocks == 0, "a start leaves memory");
    refuse(NONE, 0);
    memcpy(device.now, device.durable, sizeof device.now);
    io = start(512);
    must(read_blocks(io, &status) == FORCED && status == GOOD, "a refused recovery loses a block");
    usbdisk_io_stop(io);
    return has_refused;
}

/* A READ of blocks that the device cannot read ends alone, and is good once they can be read. */
static void play_worn(void)
{
    int status;
    memcpy(device.now, device.kept, sizeof device.now);
    refuse(NONE, 0);
    struct usbdisk_io *io = start(512);
    refuse(READ, 1);
    read_blocks(io, &status);
    must(status == FAILED && sense_of(io) == 0x031100 && !usbdisk_io_has_faulted(io),
         "a READ of worn sectors");
    refuse(NONE, 0);
    must(read_blocks(io, &status) == OLD && status == GOOD,
         "a READ of sectors that can be read again");
    usbdisk_io_stop(io);
}

/* Where any of its blocks of memory is refused a start says so, and keeps none. */
static void play_memory(void)
{
    uint32_t code = USBDISK_NO_MEMORY;
    memcpy(device.now, device.kept, sizeof device.now);
    for (int number = 1; code; number++) {
        struct usbdisk_io *io = NULL;
        heap_fails = number;
        code = usbdisk_io_start(&io, &memory, &who, 512);
        heap_fails = 0;
        must(code == 0 || (code == USBDISK_NO_MEMORY && heap_blocks == 0),
             "a start without memory");
        usbdisk_io_stop(io);
    }
}

/* ---- images */

static uint32_t format_one(void)
{
    return usbdisk_io_format(&memory, 1, SLOTS, BLOCKS);
}

static uint32_t format_blank(void)
{
    memset(device.now[0], 0xFF, sizeof device.now[0]);
    return usbdisk_io_format_blank(&memory, 2, SLOTS, BLOCKS);
}

static uint32_t lay_two(void)
{
    return usbdisk_io_lay_log(&memory, 2, SLOTS, 0);
}

static uint32_t migrate(void)
{
    return usbdisk_io_migrate(&memory);
}

/* An image is made with each call refused, and last with none: what it answers tells so. */
static void play_making(uint32_t make(void), enum kind kind)
{
    uint32_t code = 1;
    for (unsigned number = 1; code; number++) {
        memcpy(device.now, device.kept, sizeof device.now);
        refuse(kind, number);
        code = make();
        must((code != 0) == device.has_refused && heap_blocks == 0, "an image is made otherwise");
        must(!code || code == USBDISK_READ_REFUSED + (uint32_t)kind - READ, "another number");
    }
    refuse(NONE, 0);
}

/* The image that lies in `kept` from now on: both blocks hold OLD, and all is at home. */
static void keep_image(uint32_t format)
{
    refuse(NONE, 0);
    must(!usbdisk_io_format(&memory, format, SLOTS, BLOCKS), "a format");
    struct usbdisk_io *io = start(512);
    must(write_blocks(io, OLD, 0) == GOOD, "a WRITE");
    while (usbdisk_io_idle(io))
        ;
    usbdisk_io_stop(io);
    memcpy(device.kept, device.now, sizeof device.now);
}

int main(void)
{
    unsigned lives = 0, starts = 0;
    for (uint32_t format = 1; format <= 2; format++) {
        keep_image(format);
        for (enum kind kind = WRITE; kind <= FLUSH; kind++) {
            for (unsigned number = 1; live(kind, number, number % 2 ? 512 : 64); number++)
                lives++;
        }
        for (enum kind kind = READ; kind <= FLUSH; kind++)
            for (unsigned number = 1; begin(kind, number); number++)
                starts++;
        play_worn();
        play_memory();
    }
    for (enum kind kind = READ; kind <= FLUSH; kind++) {
        play_making(format_one, kind);
        play_making(format_blank, kind);
        play_making(lay_two, kind);
        keep_image(1);
        play_making(migrate, kind);
    }
    printf("a call of the device refused, in %u lives, in %u starts, and in each image: the disk "
           "is told\n",
           lives, starts);
    return 0;
}
