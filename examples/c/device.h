/* A device under test: what judge.c asks of yours. Write these five functions, and link them with
 * it: make judge DEVICE=yours.c, which compiles with -D_GNU_SOURCE. A function that answers false
 * ends the run. The bytes may stand at any address: where yours have to be aligned, as with
 * O_DIRECT, copy them. */
#ifndef DEVICE_H
#define DEVICE_H

#include <stdbool.h>
#include <stdint.h>

/* Opens the device, for `sectors` sectors of 512 bytes. What they hold does not matter. It is
 * called once for each of the two formats, and there is no close: at the second call let go of what
 * the first took. */
bool device_open(uint64_t sectors);

bool device_read(uint64_t sector, uint8_t bytes[512]);

/* Until the next flush a loss of power may lose it. */
bool device_write(uint64_t sector, const uint8_t bytes[512]);

/* Makes durable all that was written before. */
bool device_flush(void);

/* Takes the power away, and brings it back. On a bench that is a relay; of an emulator it is what
 * stays when its process is killed. */
bool device_cut(void);

#endif
