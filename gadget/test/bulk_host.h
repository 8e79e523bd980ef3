/* What the host and the controller in memory share. */
#ifndef BULK_HOST_H
#define BULK_HOST_H

#include "../functionfs_bulk.h"

/* A packet of Bulk-In that the controller has taken out of a transfer. */
struct kept {
    uint8_t bytes[512];
    long size;
    bool is_there;
};

extern struct disk disk;
extern bool halted[2]; /* Bulk-Out, Bulk-In */
extern struct kept kept;
extern uint64_t refusals, flushes; /* how many there were */

/* A number below the bound, the same in each run. */
uint32_t below(uint32_t bound);

/* Ends the program where it does not hold, and says what. */
void check(bool holds, const char *what);

#endif
