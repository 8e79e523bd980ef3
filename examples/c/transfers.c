/* How transfers of the port layer end, in both formats and with packets of 64 and 512 bytes: what
 * does not fit, waits or is halted; what a start takes of memory; and that READs which follow each
 * other are read ahead. */
#include "gadget.h"
#include "usbdisk_io.h"
#include <stdio.h>
#include <stdlib.h>
#include <string.h>

enum {
    BLOCKS = 600,
    SLOTS = 3,
    SECTORS = USBDISK_LOG_END(2, SLOTS) + BLOCKS,
    TO_HOST = 0x80,
    MOST = USBDISK_LIMIT(1),
    ROOM = MOST * 512
};

static const struct usbdisk_identity who = { "EXAMPLE ", "TRANSFERS       ", "0001",
                                             "000000000001" };
static uint8_t device[SECTORS][512], data[ROOM];
static unsigned reads;

static void must(bool good, const char *what)
{
    if (good)
        return;
    printf("transfers: %s\n", what);
    exit(EXIT_FAILURE);
}

static bool read(void *context, uint64_t first, uint8_t *bytes, size_t count)
{
    (void)context;
    reads++;
    memcpy(bytes, device[first], count * 512);
    return true;
}

static bool write(void *context, uint64_t first, const uint8_t *bytes, size_t count)
{
    (void)context;
    memcpy(device[first], bytes, count * 512);
    return true;
}

static bool flush(void *context)
{
    return context == NULL;
}

static const struct usbdisk_io_device memory = { NULL, SECTORS, read, write, flush, 0 };

/* A wrapper around a command, for so many bytes. */
static uint32_t ask(struct usbdisk_io *io, const uint8_t command[10], uint8_t flags, size_t size)
{
    uint8_t wrapper[31] = {
        'U', 'S', 'B', 'C', [8] = size & 255, size >> 8, [12] = flags, [14] = 10
    };
    size_t moved;
    memcpy(wrapper + 15, command, 10);
    return usbdisk_io_out(io, wrapper, sizeof wrapper, &moved);
}

static bool is_good(struct usbdisk_io *io)
{
    uint8_t status[13];
    size_t moved;
    return !usbdisk_io_in(io, status, sizeof status, &moved) && moved == 13 && status[12] == 0;
}

static void attend(struct usbdisk_io *io)
{
    static const uint8_t sense[10] = { 0x03, [4] = 18 };
    size_t moved;
    must(!ask(io, sense, TO_HOST, 18) && !usbdisk_io_in(io, data, 18, &moved) && is_good(io),
         "REQUEST SENSE");
}

/* A start takes what is told, and no more while it runs. */
static struct usbdisk_io *start(uint32_t packet)
{
    struct usbdisk_layout layout;
    struct usbdisk_log log;
    struct usbdisk_io *io = NULL;
    must(!usbdisk_look(device[0], &layout), "no image");
    must(!usbdisk_log_of(layout.format, layout.slots, 1, &log), "its log");
    size_t least = usbdisk_memory_kept(layout.format, layout.slots, memory.kept) + 512 * log.limit;
    heap_most = heap_now;
    must(!usbdisk_io_start(&io, &memory, &who, packet), "a start");
    must(heap_now > least && heap_now < least + 256 && heap_most == heap_now, "its memory");
    attend(io);
    return io;
}

/* Data that comes and goes in parts, as long as a controller's buffer. */
static void play_parts(struct usbdisk_io *io, uint32_t packet)
{
    static const uint8_t command[10] = { 0x2A, 8, [5] = 9, [8] = MOST },
                         back[10] = { 0x28, [5] = 9, [8] = MOST };
    size_t moved, part = 3 * packet;
    for (size_t i = 0; i < ROOM; i++)
        data[i] = (uint8_t)(i * 7 + i / 512);
    must(!ask(io, command, 0, ROOM) && usbdisk_io_in(io, data, 1, &moved) == USBDISK_NAK && !moved,
         "a status before the data");
    for (size_t at = 0; at < ROOM; at += part) {
        size_t left = ROOM - at < part ? ROOM - at : part;
        must(!usbdisk_io_out(io, data + at, left, &moved) && moved == left, "a part of the data");
    }
    must(is_good(io) && !ask(io, back, TO_HOST, ROOM), "a WRITE in parts");
    for (size_t at = 0; at < ROOM; at += part) {
        uint8_t bytes[3 * 512];
        size_t left = ROOM - at < part ? ROOM - at : part;
        must(!usbdisk_io_in(io, bytes, left, &moved) && moved == left, "a part of what is read");
        must(!memcmp(bytes, data + at, left), "other bytes are read");
    }
    must(is_good(io), "a READ in parts");
}

/* What does not fit, waits or is halted. */
static void play_ends(struct usbdisk_io *io)
{
    static const uint8_t inquiry[10] = { 0x12, [4] = 36 }, test[10] = { 0x00 };
    size_t moved;
    must(usbdisk_io_in(io, data, 36, &moved) == USBDISK_NAK && moved == 0, "nothing to send");
    must(!ask(io, inquiry, TO_HOST, 36), "an INQUIRY");
    must(ask(io, test, 0, 0) == USBDISK_NAK, "a wrapper before the status of the one before");
    must(usbdisk_io_in(io, data, 20, &moved) == USBDISK_IO_OVERFLOW && moved == 0,
         "a packet that does not fit");
    usbdisk_io_reset(io);
    must(usbdisk_io_in(io, data, 36, &moved) == USBDISK_NAK, "a reset leaves something to send");
    must(!ask(io, inquiry, TO_HOST, 64) && !usbdisk_io_in(io, data, 64, &moved) && moved == 36,
         "a short packet does not end a transfer");
    usbdisk_io_reset(io);
    must(!usbdisk_io_out(io, NULL, 0, &moved), "an empty packet");
    must(ask(io, inquiry, TO_HOST, 36) == USBDISK_STALL, "a wrapper behind what is none");
    must(usbdisk_io_in(io, data, 36, &moved) == USBDISK_STALL, "Bulk-In behind what is no wrapper");
    usbdisk_io_reset(io);
    must(!ask(io, test, 0, 0) && is_good(io), "a command behind the reset");
}

/* Where a block lies on the device. */
static const uint8_t *home_of(uint64_t block)
{
    struct usbdisk_layout layout;
    must(!usbdisk_look(device[0], &layout), "no image");
    return device[layout.home + block];
}

/* The data of a WRITE and the next wrapper in one event, which waits in between: it goes on where
 * it was. A rest of the bus brings the block home. */
static void play_rest(struct usbdisk_io *io)
{
    static const uint8_t command[10] = { 0x2A, [5] = 9, [8] = 1 },
                         test[31] = { 'U', 'S', 'B', 'C', [14] = 6 };
    struct usbdisk_io_event both = { USBDISK_IO_OUT, data, 512 + sizeof test, 0 },
                            idle = { .kind = USBDISK_IO_IDLE };
    memcpy(data + 512, test, sizeof test);
    must(!ask(io, command, 0, 512), "a WRITE");
    must(usbdisk_io_play(io, &both) == USBDISK_NAK && both.moved == 512, "a part has to wait");
    must(is_good(io) && !usbdisk_io_play(io, &both) && both.moved == both.size && is_good(io),
         "a part that had to wait");
    while (!usbdisk_io_play(io, &idle))
        ;
    must(!memcmp(data, home_of(9), 512), "what was written is not at home");
}

/* The same by events: a wrapper that has to wait for a status, a request and a reset. */
static void play_events(struct usbdisk_io *io)
{
    uint8_t lun[10] = { 0xA1, 0xFE, [6] = 1, [8] = 0xEE },
            test[31] = { 'U', 'S', 'B', 'C', [14] = 6 }, status[13];
    struct usbdisk_io_event command = { USBDISK_IO_OUT, test, sizeof test, 0 }, again = command,
                            answer = { USBDISK_IO_IN, status, sizeof status, 0 },
                            request = { USBDISK_IO_SETUP, lun, 8, 0 },
                            reset = { .kind = USBDISK_IO_RESET },
                            idle = { .kind = USBDISK_IO_IDLE };
    must(usbdisk_io_play(io, &answer) == USBDISK_NAK && !answer.moved, "a status of no command");
    must(!usbdisk_io_play(io, &command) && command.moved == sizeof test, "a command by an event");
    must(usbdisk_io_play(io, &again) == USBDISK_NAK && !again.moved, "a command that has to wait");
    must(!usbdisk_io_play(io, &answer) && answer.moved == 13 && !status[12], "its status");
    must(!usbdisk_io_play(io, &again) && again.moved == sizeof test, "a command handed in again");
    must(!usbdisk_io_play(io, &request) && request.moved == 1 && !lun[8], "a request by an event");
    must(!usbdisk_io_play(io, &reset), "a reset by an event");
    answer.moved = 0;
    must(usbdisk_io_play(io, &answer) == USBDISK_NAK, "a reset by an event leaves a status");
    must(usbdisk_io_play(io, &idle) == USBDISK_NAK, "more is left than nothing");
}

/* The longest READs of format 1, one behind the other: from the third on nothing is left to read
 * when one comes. */
static void play_ahead(struct usbdisk_io *io)
{
    unsigned waited = 0;
    for (unsigned at = 0; at < 10 * MOST; at += MOST) {
        uint8_t command[10] = { 0x28, [4] = (uint8_t)(at >> 8), (uint8_t)at, [8] = MOST };
        size_t moved;
        unsigned before = reads;
        must(!ask(io, command, TO_HOST, ROOM) && !usbdisk_io_in(io, data, ROOM, &moved), "a READ");
        waited += reads != before;
        must(!memcmp(data, device[SECTORS - BLOCKS + at], ROOM), "other bytes are read ahead");
        must(is_good(io), "a READ that is read ahead");
        usbdisk_io_look_ahead(io, ROOM);
    }
    must(waited <= 3, "READs that follow each other wait for the device");
}

/* A device is made an image of where it is blank, and else is left as it is. */
static void play_blank(void)
{
    static const struct usbdisk_io_device none = { NULL, 0, read, write, flush, 0 };
    struct usbdisk_layout layout;
    for (int blank = 0x00; blank <= 0xFF; blank += 0xFF) {
        memset(device[0], blank, 512);
        device[0][511] ^= 1;
        must(!usbdisk_io_format_blank(&memory, 2, SLOTS, 0), "a device that is not blank");
        must(device[0][0] == blank && device[0][511] == (blank ^ 1), "it is written");
        device[0][511] ^= 1;
        must(usbdisk_io_format_blank(&memory, 2, SLOTS, SECTORS) == USBDISK_BAD_SIZES &&
                 device[0][0] == blank && device[0][511] == blank,
             "sizes that do not fit");
        must(!usbdisk_io_format_blank(&memory, 2, SLOTS, 0), "a blank device");
        must(!usbdisk_look(device[0], &layout) && layout.blocks == BLOCKS, "its image");
    }
    memset(device[1], 0x77, 512);
    must(!usbdisk_io_format_blank(&memory, 2, SLOTS, 0) && device[1][0] == 0x77,
         "an image is made anew");
    memset(device[0], 0x77, 512);
    must(!usbdisk_io_format_blank(&memory, 2, SLOTS, 0) && device[0][0] == 0x77, "bytes of others");
    must(usbdisk_io_format_blank(&none, 2, SLOTS, 0) == USBDISK_READ_REFUSED, "no sector");
    must(!heap_blocks, "memory is left of an image");
}

/* Each number of the header has a text of its own, and each other one a text. */
static void play_texts(void)
{
    static const uint32_t none[] = { 13, 14, 15, 18, 23, 25 };
    for (uint32_t code = 0; code <= USBDISK_OTHER_KIND; code++) {
        bool is_none = !strcmp(usbdisk_text(code), usbdisk_text(UINT32_MAX)), is_free = false;
        for (size_t i = 0; i < sizeof none / sizeof *none; i++)
            is_free |= code == none[i];
        must(is_none == is_free && strlen(usbdisk_text(code)) > 3, "a number without its text");
    }
    must(strlen(usbdisk_text(UINT32_MAX)) > 3, "no text");
}

int main(void)
{
    for (uint32_t format = 1; format <= 2; format++) {
        for (uint32_t packet = 64; packet <= 512; packet *= 8) {
            must(!usbdisk_io_format(&memory, format, SLOTS, format == 1 ? 0 : BLOCKS), "a format");
            struct usbdisk_io *io = start(packet);
            play_parts(io, packet);
            while (usbdisk_io_idle(io))
                ;
            play_ends(io);
            play_events(io);
            play_rest(io);
            if (format == 2)
                play_ahead(io);
            usbdisk_io_stop(io);
            must(!heap_blocks, "memory is left");
        }
    }
    usbdisk_io_stop(NULL);
    play_blank();
    play_texts();
    printf("transfers of the port layer end as they are told to, and READs are read ahead\n");
    return 0;
}
