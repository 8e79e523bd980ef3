/* What the parts of usbdisk-gadget share. Two threads play the disk: one waits for events, signals
 * and idle time, the other one reads what the host sends (functionfs_reader.h). Who touches `disk`,
 * `bulk` or `has_steps`, or says something, holds the reader's lock. */
#ifndef FUNCTIONFS_H
#define FUNCTIONFS_H

#include "disk.h"
#include "functionfs_bulk.h"
#include "options.h"

struct gadget {
    struct options options;
    const char *functionfs, *folder, *controller;
    bool binds;
    int control; /* ep0 */
    struct disk disk;
    struct bulk bulk;
    bool has_steps; /* steps in the background may be left */
    bool is_ended;  /* the function is gone, or the disk could not be started again */
    bool is_taken;  /* the controller, to which this program had bound the gadget, was taken away */
};

/* Plays the events of FunctionFS that wait, and answers control requests. The lock is not held. */
void play_events(struct gadget *gadget);

#endif
