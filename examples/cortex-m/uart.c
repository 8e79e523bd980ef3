/* The serial line: the UART of Arm's Cortex-M System Design Kit, without interrupts. */
#include "board.h"
#include <machine.h>

#define UART ((volatile uint32_t *)UART_PLACE)

/* Registers, as numbers of 32-bit words, and the bits that are used of them. */
enum { DATA = 0x00 / 4, STATE = 0x04 / 4, CONTROL = 0x08 / 4, DIVIDER = 0x10 / 4 };
enum { TRANSMIT_FULL = 1 << 0, RECEIVE_FULL = 1 << 1 };
enum { TRANSMIT = 1 << 0, RECEIVE = 1 << 1, LEAST = 16 };

/* A byte that came before is let go. (QEMU brings none before the register is read once.) */
void uart_start(void)
{
    UART[DIVIDER] = LEAST;
    UART[CONTROL] = TRANSMIT | RECEIVE;
    (void)UART[DATA];
}

uint8_t uart_read(void)
{
    while (!(UART[STATE] & RECEIVE_FULL))
        ;
    return (uint8_t)UART[DATA];
}

void uart_write(uint8_t byte)
{
    while (UART[STATE] & TRANSMIT_FULL)
        ;
    UART[DATA] = byte;
}
