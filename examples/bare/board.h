/* What the parts of the firmware share: the serial line, the block device, the bus. */
#ifndef BOARD_H
#define BOARD_H

#include <stdbool.h>
#include <stddef.h>
#include <stdint.h>

enum { SECTOR = 512, PACKET = 512 };

/* uart.c: the serial line. */
void uart_start(void);
uint8_t uart_read(void);
void uart_write(uint8_t byte);

/* line.c. A line for people: '#', the text, and the number in hexadecimal digits. */
void tell(const char *text, uint64_t number);

/* The same, and nothing more is done. */
_Noreturn void give_up(const char *text, uint64_t number);

/* From the machine's start: an exception, with what it has as its cause (ESR_EL1 of AArch64), where
 * it was, and the address that was asked for. */
_Noreturn void trapped(uintptr_t cause, uintptr_t at, uintptr_t address);

/* block.c, or flash.c of a machine: the device, in sectors of 512 bytes. A call that answers false
 * was refused. */
void block_start(void);
uint64_t block_sectors(void);
bool block_read(uint64_t sector, uint8_t *bytes, size_t count);
bool block_write(uint64_t sector, const uint8_t *bytes, size_t count);

/* Makes durable all that was written before. */
bool block_flush(void);

/* bus.c: what a controller brings, and what it is told to answer. */
enum event_kind { BULK_OUT, BULK_IN, SETUP, BUS_RESET, IDLE };

struct event {
    enum event_kind kind;
    uint8_t bytes[PACKET];
    size_t size;
};

void next_event(struct event *event);
void tell_host(uint32_t code, const uint8_t *bytes, uint32_t size);

#endif
