/* What the parts of numbers.c share: an image in memory, and what is started on it. */
#ifndef NUMBERS_H
#define NUMBERS_H

#include "usbdisk.h"

enum { FORMAT = 1, BLOCKS = 64, SLOTS = 5, UNTOLD = 77 };
enum { FIRST = USBDISK_LOG_END(FORMAT, SLOTS), SECTORS = FIRST + BLOCKS };
enum { LIMIT = USBDISK_LIMIT(FORMAT) };

/* What a handle may hold. */
enum kind { DISK, STORE, FORMAT_WORK, LAY_WORK, MIGRATION, KINDS };

extern uint8_t medium[SECTORS * 512];

/* Ends the program where it is false. */
void must(bool is_right, const char *what);

uint32_t start(struct usbdisk *handle, enum kind kind);

/* The state must be this one. Answers why there is none. */
uint32_t state_of(struct usbdisk *handle, uint32_t wanted);

void play_disk(void);

void play_logs(void);

#endif
