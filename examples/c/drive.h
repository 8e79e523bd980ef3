/* What drive.c needs beside the disk: a device in a thread of its own, and a host behind a link.
 * What they take is a model. */
#ifndef DRIVE_H
#define DRIVE_H

#include "usbdisk.h"
#include <pthread.h>

/* ---- the device: one call at a time, while the program does something else */

/* What a command takes besides its sectors, a sector, and a flush: nanoseconds. */
struct costs {
    const char *name;
    uint64_t command, sector, flush;
};

struct device {
    pthread_t thread;
    pthread_mutex_t lock;
    pthread_cond_t changed;
    const struct costs *costs;
    uint8_t *bytes;
    uint64_t end; /* when the call under way has ended */
    /* the call under way, and where its bytes lie; under the lock */
    struct usbdisk_call call;
    uint8_t *buffer;
    bool is_over;
};

bool device_open(struct device *device, const struct costs *costs, uint8_t *bytes);
void device_close(struct device *device);

/* Begins a call: its bytes are the device's until it has ended. */
void device_begin(struct device *device, const struct usbdisk_call *call, uint8_t *buffer);

/* Whether it has ended; this device refuses none. */
bool device_has_ended(struct device *device);

/* Waits until it has. */
void device_wait(struct device *device);

/* ---- the host: WRITEs of 120 KiB, packet by packet */

enum { PACKET = 512, TRANSFER = USBDISK_LIMIT(2) };

struct host {
    uint32_t writes, written,
        blocks;          /* how many WRITEs, how many are good, the blocks of the disk */
    uint32_t sent;       /* packets of this WRITE that were taken */
    uint64_t due, begun; /* when the next packet is there, when the first was */
};

void host_open(struct host *host, uint32_t writes, uint32_t blocks);

bool host_is_done(const struct host *host);

/* Whether a packet is there, or the host asks for one. */
bool host_is_ready(const struct host *host);

/* Nothing comes from it for a while. */
bool host_rests(const struct host *host);

/* The packet to Bulk-Out; its size, or 0 where the host asks Bulk-In. */
uint32_t host_packet(const struct host *host, uint8_t packet[PACKET]);

/* What the endpoint answered, with a packet of `size` bytes where it sends one. */
void host_hears(struct host *host, uint32_t code, const uint8_t *packet, uint32_t size);

/* MB/s since host_open. */
double host_speed(const struct host *host);

/* Waits for what comes first: the end of a call that is under way, or the host. */
void wait_for_either(const struct device *device, const struct host *host);

#endif
