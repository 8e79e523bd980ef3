/* A host that sends one command at a time over a link, and a device that works meanwhile: by a
 * clock of their own, in microseconds. */
#ifndef LINK_H
#define LINK_H

#include "host.h"

/* What a device takes: a command, a flush, and a sector that is read or written. */
struct device_costs {
    const char *name;
    double command, flush, read, write;
};

/* A workload: each command moves `blocks` blocks, one behind the other or at a page at random; a
 * share of them READs, in 100; forced or not; a SYNCHRONIZE CACHE behind each `sync` WRITEs (0:
 * none). */
struct traffic {
    const char *name;
    uint32_t blocks;
    bool at_random, is_forced;
    unsigned reads, sync, commands;
};

struct linked {
    struct host host;
    const struct device_costs *costs;
    double now;
    /* the device: when its call ends, and how long it was at one */
    struct usbdisk_call call;
    double call_ends, worked;
    /* the host: when it does the next thing, and how long each READ took */
    double due;
    double *reads;
    unsigned reads_played;
    bool is_eager; /* steps in the background whenever the device has nothing to do */
};

/* Plays a command, from its wrapper to its status; of a store what it asks for. */
void play_linked(struct linked *linked, const struct command *command);

/* Whatever waits for the device is carried out. */
void end_linked(struct linked *linked);

#endif
