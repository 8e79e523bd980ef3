/* The serial line: a 16550, without interrupts. */
#include "board.h"
#include <machine.h>

#define UART ((volatile uint8_t *)UART_PLACE)

/* Registers, as numbers of bytes, and the bits that are used of them. */
enum { DATA = 0, STATE = 5 };
enum { RECEIVE_FULL = 1 << 0, TRANSMIT_EMPTY = 1 << 5 };

void uart_start(void)
{
}

uint8_t uart_read(void)
{
    while (!(UART[STATE] & RECEIVE_FULL))
        ;
    return UART[DATA];
}

void uart_write(uint8_t byte)
{
    while (!(UART[STATE] & TRANSMIT_EMPTY))
        ;
    UART[DATA] = byte;
}
