/* The serial line: an Arm PL011, without interrupts. */
#include "board.h"
#include <machine.h>

#define UART ((volatile uint32_t *)UART_PLACE)

/* Registers, as numbers of 32-bit words, and the bits that are used of them. */
enum { DATA = 0x00 / 4, FLAGS = 0x18 / 4, CONTROL = 0x30 / 4 };
enum { RECEIVE_EMPTY = 1 << 4, TRANSMIT_FULL = 1 << 5 };
enum { ENABLE = 1 << 0, TRANSMIT = 1 << 8, RECEIVE = 1 << 9 };

void uart_start(void)
{
    UART[CONTROL] = ENABLE | TRANSMIT | RECEIVE;
}

uint8_t uart_read(void)
{
    while (UART[FLAGS] & RECEIVE_EMPTY)
        ;
    return (uint8_t)UART[DATA];
}

void uart_write(uint8_t byte)
{
    while (UART[FLAGS] & TRANSMIT_FULL)
        ;
    UART[DATA] = byte;
}
