/* The bus: in place of a USB controller, packets over the serial line. The host sends a letter and
 * what belongs to it: 'O' a size of two bytes and a packet to Bulk-Out, 'I' a poll of Bulk-In, 'S'
 * a setup packet, 'R' a bus reset, 'T' a while without events. Each is answered by 'A', the code, a
 * size of two bytes and so many bytes. Lines from '#' to their end are for people. */
#include "board.h"

static uint32_t read_size(void)
{
    uint32_t low = uart_read();
    return low | (uint32_t)uart_read() << 8;
}

/* A packet of more bytes than there is room for keeps the size that it has, and is refused. */
static void read_bytes(struct event *event, size_t size)
{
    event->size = size;
    for (size_t i = 0; i < size; i++) {
        uint8_t byte = uart_read();
        if (i < sizeof event->bytes)
            event->bytes[i] = byte;
    }
}

void next_event(struct event *event)
{
    event->size = 0;
    for (;;) {
        switch (uart_read()) {
        case 'O':
            event->kind = BULK_OUT;
            read_bytes(event, read_size());
            return;
        case 'I':
            event->kind = BULK_IN;
            return;
        case 'S':
            event->kind = SETUP;
            read_bytes(event, 8);
            return;
        case 'R':
            event->kind = BUS_RESET;
            return;
        case 'T':
            event->kind = IDLE;
            return;
        default:
            break;
        }
    }
}

void tell_host(uint32_t code, const uint8_t *bytes, uint32_t size)
{
    uart_write('A');
    uart_write((uint8_t)code);
    uart_write((uint8_t)size);
    uart_write((uint8_t)(size >> 8));
    for (uint32_t i = 0; i < size; i++)
        uart_write(bytes[i]);
}
