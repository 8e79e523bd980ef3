/* A host of a disk over the library for C, and the device that does what the disk says. */
#ifndef HOST_H
#define HOST_H

#include "usbdisk.h"

enum { BLOCKS = 60000, MOST = USBDISK_LIMIT(2) };

struct host {
    struct usbdisk disk;
    uint8_t *device; /* the device's bytes */
    uint64_t sectors, slots;
    uint32_t format, limit, kept; /* kept: records of the log in memory; 0: four */
    bool is_store;                /* it is a store, for a stack that has SCSI in it */
    void (*note)(struct host *host,
                 const struct usbdisk_call *call); /* of each call that is told */
};

/* Says what is wrong, and ends the program. */
void fail(const char *what);

/* A disk on a fresh image of this format, whose unit attention was told, or a store; its device is
 * at rest. */
void start_disk(struct host *host);

void stop_disk(struct host *host);

/* The device does all that the disk says, at once. */
void let_device_work(struct host *host);

/* The wrapper of READ (10), WRITE (10) or SYNCHRONIZE CACHE (10), with the length of its data. */
enum { WRAPPER = 31, READ_10 = 0x28, WRITE_10 = 0x2A, SYNCHRONIZE_10 = 0x35 };

struct command {
    uint8_t code;
    uint32_t address, blocks;
    bool is_forced;
};

void make_wrapper(const struct command *command, uint8_t wrapper[WRAPPER]);

/* One command, up to its status, which has to be good. */
void play_command(struct host *host, const struct command *command);

/* An idle moment, behind which the device works. Whether steps are left. */
bool rest_once(struct host *host);

#endif
