/* A host in place of a controller. It resets the bus, asks how many units there are, hears that the
 * power was off, reads a block, writes it with FUA, lets the bus rest, and is gone. */
#include "bus.h"
#include <stdio.h>
#include <string.h>

enum { OUT = USBDISK_IO_OUT, IN = USBDISK_IO_IN, TO_HOST = 0x80, WRITTEN = 0x5A };

/* A wrapper around TEST UNIT READY, and around READ(10) and WRITE(10) of block 1800. */
static uint8_t wrapped_test[31] = { 'U', 'S', 'B', 'C', [14] = 6 };
static uint8_t wrapped_read[31] = {
    'U', 'S', 'B', 'C', [9] = 2, [12] = TO_HOST, [14] = 10, 0x28, 0, 0, 0, 7, 8, 0, 0, 1
};
static uint8_t wrapped_write[31] = { 'U', 'S', 'B', 'C', [9] = 2, [14] = 10, 0x2A, 8,
                                     0,   0,   7,   8,   0,       0,         1 };
static uint8_t max_lun[10] = { 0xA1, 0xFE, 0, 0, 0, 0, 1 }, block[512], status[13];

static const struct step {
    const char *what;
    struct usbdisk_io_event event;
} steps[] = {
    { "bus reset", { .kind = USBDISK_IO_RESET } },
    { "Get Max LUN", { USBDISK_IO_SETUP, max_lun, 8, 0 } },
    { "TEST UNIT READY", { OUT, wrapped_test, sizeof wrapped_test, 0 } },
    { "its status", { IN, status, sizeof status, 0 } },
    { "READ(10)", { OUT, wrapped_read, sizeof wrapped_read, 0 } },
    { "its data", { IN, block, sizeof block, 0 } },
    { "its status", { IN, status, sizeof status, 0 } },
    { "WRITE(10) with FUA", { OUT, wrapped_write, sizeof wrapped_write, 0 } },
    { "its data", { OUT, block, sizeof block, 0 } },
    { "its status", { IN, status, sizeof status, 0 } },
    { "idle", { .kind = USBDISK_IO_IDLE } },
};

static size_t at;

bool bus_next(struct usbdisk_io_event *event)
{
    if (at == sizeof steps / sizeof *steps)
        return false;
    *event = steps[at].event;
    if (event->kind == OUT && event->bytes == block)
        memset(block, WRITTEN, sizeof block);
    return true;
}

void bus_answer(const struct usbdisk_io_event *event, uint32_t code)
{
    static const char *const answers[] = { "ack", "nak", "stall" };
    const uint8_t *bytes = event->kind == USBDISK_IO_SETUP ? event->bytes + 8 : event->bytes;
    bool is_left = event->kind == USBDISK_IO_IDLE && code == USBDISK_ACK;
    if (is_left)
        return;
    printf("%s: %s", steps[at++].what, answers[code]);
    if (event->kind != OUT && event->moved)
        printf(", the last byte is %02X", bytes[event->moved - 1]);
    printf("\n");
}
