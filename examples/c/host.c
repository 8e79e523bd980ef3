/* A host that plays the same events each time, and prints what it is answered. */
#include "gadget.h"
#include <stdio.h>
#include <string.h>

static const struct step {
    const char *what;
    enum event_kind kind;
    uint8_t bytes[31];
    size_t size;
} steps[] = {
#define CBW(tag, length, flags, count)                                                             \
    'U', 'S', 'B', 'C', tag, 0, 0, 0, (length)&255, (length) >> 8, 0, 0, flags, 0, count
    { "REQUEST SENSE", BULK_OUT, { CBW(1, 18, 0x80, 6), 0x03, 0, 0, 0, 18 }, 31 },
    { "  data", BULK_IN, { 0 }, 0 },
    { "  status", BULK_IN, { 0 }, 0 },
    { "WRITE(10) with FUA", BULK_OUT, { CBW(2, 512, 0, 10), 0x2A, 8, 0, 0, 0, 5, 0, 0, 1 }, 31 },
    { "  data", BULK_OUT, { 0xA5 }, 512 },
    { "  status", BULK_IN, { 0 }, 0 },
    { "READ(10)", BULK_OUT, { CBW(3, 512, 0x80, 10), 0x28, 0, 0, 0, 0, 5, 0, 0, 1 }, 31 },
    { "  data", BULK_IN, { 0 }, 0 },
    { "  status", BULK_IN, { 0 }, 0 },
    { "a packet that is no wrapper", BULK_OUT, { 0 }, 3 },
    { "  the in endpoint", BULK_IN, { 0 }, 0 },
    { "class reset", SETUP, { 0x21, 0xFF, 0, 0, 0, 0, 0, 0 }, 8 },
    { "clear the halt of bulk-in", SETUP, { 0x02, 1, 0, 0, 0x81, 0, 0, 0 }, 8 },
    { "clear the halt of bulk-out", SETUP, { 0x02, 1, 0, 0, 0x02, 0, 0, 0 }, 8 },
    { "GET MAX LUN", SETUP, { 0xA1, 0xFE, 0, 0, 0, 0, 1, 0 }, 8 },
    { "READ(10), and a bus reset before its data",
      BULK_OUT,
      { CBW(4, 512, 0x80, 10), 0x28, 0, 0, 0, 0, 5, 0, 0, 1 },
      31 },
    { NULL, BUS_RESET, { 0 }, 0 },
    { "the in endpoint", BULK_IN, { 0 }, 0 },
    { "TEST UNIT READY", BULK_OUT, { CBW(5, 0, 0, 6) }, 31 },
    { "  status", BULK_IN, { 0 }, 0 },
    { NULL, IDLE, { 0 }, 0 },
    { NULL, UNPLUGGED, { 0 }, 0 },
};

static size_t next;

void next_event(struct event *event)
{
    const struct step *step = &steps[next++];
    memset(event->bytes, step->bytes[0], sizeof event->bytes);
    if (step->size <= sizeof step->bytes)
        memcpy(event->bytes, step->bytes, sizeof step->bytes);
    event->kind = step->kind;
    event->size = step->size;
}

void tell_host(uint32_t code, const uint8_t *bytes, uint32_t size)
{
    static const char *const names[] = { "ack", "nak", "stall" };
    printf("%s: %s", steps[next - 1].what, code < 3 ? names[code] : "error");
    if (size)
        printf(", %u bytes:", size);
    for (uint32_t i = 0; i < size && i < 18; i++)
        printf(" %02X", bytes[i]);
    printf("%s\n", size > 18 ? " .." : "");
}
