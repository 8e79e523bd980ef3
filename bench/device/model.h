/* A device that counts: what the calls of an outbox would cost it. */
#ifndef MODEL_H
#define MODEL_H

#include <stdbool.h>
#include <stddef.h>
#include <stdint.h>

/* What a command, a sector and a flush take, in microseconds. */
struct costs {
    double command, sector, flush;
};

/* How the calls of the outbox reach the device: each sector by a command of its own, or neighbours
 * that come one behind the other by one command. */
enum way { BY_SECTORS, BY_RUNS, WAYS };

struct device {
    struct costs costs;
    uint64_t sectors_written, flushes, commands[WAYS], partial_pages;
    double time[WAYS]; /* microseconds */
    uint64_t run_first, run_length;
};

/* A sector is written. */
void device_write(struct device *device, uint64_t sector);

/* Neighbouring sectors are written by one command, as a disk does that promises nothing. */
void device_write_through(struct device *device, uint64_t first, uint64_t count);

void device_flush(struct device *device);

/* The event is over: a run does not go on in the next one. */
void device_rest(struct device *device);

#endif
