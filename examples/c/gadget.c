/* A gadget over an image file, by the port layer (port/usbdisk_io.h): what a program behind a USB
 * controller does, event by event. Here host.c plays the bus: REQUEST SENSE, a WRITE with FUA, a
 * READ, a class reset and a bus reset. */
#include "gadget.h"
#include "usbdisk_io.h"
#include <stdio.h>
#include <stdlib.h>
#include <unistd.h>

enum { FORMAT = 1, BLOCKS = 64, SLOTS = 2, PACKET = 512 };
enum { SECTORS = USBDISK_LOG_END(FORMAT, SLOTS) + BLOCKS };

static const struct usbdisk_identity who = { "EXAMPLE ", "IMAGE FILE      ", "0001",
                                             "000000000001" };
static unsigned sectors_written, writes, flushes;

/* ---- the device: an image file */

static bool read_file(void *file, uint64_t first, uint8_t *bytes, size_t count)
{
    return !fseek(file, (long)(first * 512), SEEK_SET) && fread(bytes, 512, count, file) == count;
}

static bool write_file(void *file, uint64_t first, const uint8_t *bytes, size_t count)
{
    sectors_written += (unsigned)count;
    writes++;
    return !fseek(file, (long)(first * 512), SEEK_SET) && fwrite(bytes, 512, count, file) == count;
}

static bool flush_file(void *file)
{
    flushes++;
    return !fflush(file) && !fsync(fileno(file));
}

/* ---- the events of the bus */

static void work_while_idle(struct usbdisk_io *io)
{
    while (usbdisk_io_idle(io))
        ;
    printf("all at home: %u sectors by %u writes, %u flushes\n", sectors_written, writes, flushes);
}

/* What the gadget answers is on the device already: persist first, then send. */
static void answer(struct usbdisk_io *io, const struct event *event)
{
    uint8_t packet[PACKET];
    uint32_t code, size = 0;
    size_t moved = 0;
    switch (event->kind) {
    case BULK_OUT:
        code = usbdisk_io_out(io, event->bytes, event->size, &moved);
        break;
    case BULK_IN:
        code = usbdisk_io_in(io, packet, sizeof packet, &moved);
        size = (uint32_t)moved;
        break;
    default:
        code = usbdisk_io_setup(io, event->bytes, packet, &size);
        break;
    }
    tell_host(code, packet, size);
}

/* Events until the gadget is unplugged. */
static void serve(struct usbdisk_io *io)
{
    static struct event event;
    for (;;) {
        next_event(&event);
        switch (event.kind) {
        case BUS_RESET:
            usbdisk_io_reset(io);
            break;
        case IDLE:
            work_while_idle(io);
            break;
        case UNPLUGGED:
            return;
        default:
            answer(io, &event);
        }
    }
}

int main(int count, char **words)
{
    uint8_t block[512] = { 0 };
    struct usbdisk_io *io;
    FILE *file = count == 2 ? fopen(words[1], "w+b") : NULL;
    struct usbdisk_io_device device = { file, SECTORS, read_file, write_file, flush_file, 0 };
    if (!file || ftruncate(fileno(file), SECTORS * 512L) || usbdisk_version() != USBDISK_VERSION)
        return EXIT_FAILURE;
    printf("format: %s\n", usbdisk_text(usbdisk_io_format(&device, FORMAT, SLOTS, BLOCKS)));
    sectors_written = writes = flushes = 0;
    uint32_t code = usbdisk_io_start(&io, &device, &who, PACKET);
    printf("start: %s\n", usbdisk_text(code));
    if (code)
        return EXIT_FAILURE;
    serve(io);
    usbdisk_io_stop(io);
    printf("%zu blocks of memory left\n", heap_blocks);
    /* Block 5 is at home, on the device. */
    bool same = read_file(file, SECTORS - BLOCKS + 5, block, 1);
    for (size_t i = 0; i < 512; i++)
        same = same && block[i] == 0xA5;
    printf("the device holds what was written: %s\n", same ? "yes" : "no");
    return fclose(file) || !same;
}
