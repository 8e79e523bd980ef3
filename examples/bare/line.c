/* Lines for people on the serial line, from '#' to their end. */
#include "board.h"

static void write_text(const char *text)
{
    while (*text)
        uart_write((uint8_t)*text++);
}

void tell(const char *text, uint64_t number)
{
    write_text("#");
    write_text(text);
    write_text(" ");
    for (int shift = 60; shift >= 0; shift -= 4)
        uart_write((uint8_t) "0123456789abcdef"[number >> shift & 15]);
    write_text("\n");
}

void give_up(const char *text, uint64_t number)
{
    tell(text, number);
    for (;;)
        __asm__ volatile("wfi");
}

void trapped(uintptr_t cause, uintptr_t at, uintptr_t address)
{
    tell("trapped at", at);
    tell("with the address", address);
    give_up("and the syndrome", cause);
}
