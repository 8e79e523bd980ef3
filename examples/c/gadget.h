/* What the parts of the example share. */
#ifndef GADGET_H
#define GADGET_H

#include <stddef.h>
#include <stdint.h>

/* What a bus brings to a gadget. */
enum event_kind { BULK_OUT, BULK_IN, SETUP, BUS_RESET, IDLE, UNPLUGGED };

struct event {
    enum event_kind kind;
    uint8_t bytes[512];
    size_t size;
};

/* host.c: the next event of the bus, and what the gadget answers to it. */
void next_event(struct event *event);
void tell_host(uint32_t code, const uint8_t *bytes, uint32_t size);

/* heap.c: how many bytes and blocks are taken now, the most bytes, and all bytes so far. */
extern size_t heap_now, heap_blocks, heap_most, heap_taken;

/* Where it is not 0: the allocation of this number from now, which counts from 1, is refused. */
extern int heap_fails;

#endif
