/* What both gadgets share: a disk of the library over an image file or a block device.
 *
 * A thread of the disk carries out its calls of the device, while packets come. An answer may go to
 * the host as soon as it is there: one that promises waits for the device. Where the device refuses
 * a write or a flush the cause is said, and the disk is told: it goes on answering, but serves no
 * block until the next start.
 *
 * What waits for the device is to be played again when disk_ended can be read. */
#ifndef DISK_H
#define DISK_H

#include "device_thread.h"
#include "usbdisk_io.h"

/* How many loop devices may stand one over another. */
enum { LOCKS_MOST = 4 };

/* Exit statuses, the first four as those of `usbdisk`. TAKEN: of usbdisk-gadget, whose controller
 * was taken away. */
enum { STATUS_USAGE = 2, STATUS_REFUSED = 3, STATUS_FILE = 4, STATUS_MEMORY = 5, STATUS_TAKEN = 6 };

/* What the disk is called, as texts that fit; NULL: as it is called where nobody says anything. */
struct names {
    const char *vendor, *product, *revision, *serial;
};

/* What was done since the disk was opened. */
struct counters {
    uint64_t commands;        /* whose status was handed to the host */
    uint64_t to_host;         /* bytes, with those of statuses */
    uint64_t from_host;       /* bytes, with those of wrappers */
    uint64_t waits;           /* how often bytes of the host had to wait */
    uint64_t records;         /* of the log, written to the device */
    uint64_t writes, written; /* calls that write to the device, and their bytes */
    uint64_t flushes;         /* calls */
    uint64_t reads, read;     /* calls that read of the device, and their bytes */
    uint64_t unread;          /* READs that it could not serve */
};

/* A disk. The fields are disk.c's own, but those with a comment may be read. */
struct disk {
    struct usbdisk_io *io;
    struct usbdisk_io_device device;
    struct device_thread thread;
    struct usbdisk_identity identity;
    const char *path;
    int file;
    int locked[LOCKS_MOST]; /* the files under it, where it is a loop device */
    unsigned locks;         /* how many */
    uint64_t sectors;
    uint64_t blocks; /* how many blocks the host sees */
    uint32_t format; /* 1 or 2 */
    struct usbdisk_log log;
    uint32_t packet; /* bytes of a packet, 64 or 512; 0 while no disk is started */
    char serial[13]; /* 12 hexadecimal digits, of the path and the machine or by disk_name */
    struct counters counters;
    uint32_t kind;         /* of the call under way, or the last one */
    uint64_t place, count; /* its sectors */
    int cause;             /* why the device refused it, or 0 */
    bool is_held;          /* the last bytes of the host had to wait */
    bool has_faulted;      /* the device refused a write or a flush since the start */
    int status;            /* the exit status that belongs to the last refusal */
};

/* Opens and locks an image file or a block device, and reads what it is. False: said why. Starts
 * nothing. */
bool disk_open(struct disk *disk, const char *path);

/* What the disk is called from its next start on. The texts are at most as long as the fields of
 * the identity. */
void disk_name(struct disk *disk, const struct names *names);

/* Starts the disk for packets of `packet` bytes, on what the device holds, and has its recovery
 * carried out. Where one is started already it is stopped first, which is a loss of power: settle
 * it before. Where the records of the log do not fit each other that is said, and it starts on
 * those that do. False: said why. */
bool disk_start(struct disk *disk, uint32_t packet);

/* A file that can be read when something that had to wait for the device is to be played again, or
 * a step in the background may be made; and lets it be read no longer. */
int disk_ended(const struct disk *disk);
void disk_note_end(struct disk *disk);

/* Whether a call of the device is under way. */
bool disk_is_busy(struct disk *disk);

/* Waits until none is, and none is wanted. */
void disk_rest(struct disk *disk);

/* Whether the device has refused a write or a flush since the start. */
bool disk_has_faulted(struct disk *disk);

/* Bytes of one Bulk-Out transfer came: plays them packet by packet (0 bytes are one empty packet),
 * and tells how many were taken. ACK: all. NAK: the host has to wait; call again with the rest,
 * also when disk_ended can be read. STALL: the endpoint is halted. */
uint32_t disk_out(struct disk *disk, const uint8_t *bytes, size_t size, size_t *taken);

/* The host waits for `size` bytes from Bulk-In: collects packets, and tells how many bytes there
 * are. ACK: the room is full, or a short packet ended the transfer. NAK: nothing more is there now;
 * call again with the rest of the room, also when disk_ended can be read. STALL: the endpoint is
 * halted behind these bytes. USBDISK_IO_OVERFLOW: a packet did not fit, and is lost. */
uint32_t disk_in(struct disk *disk, uint8_t *bytes, size_t size, size_t *got);

/* `size` bytes are on their way to the host, and nothing else is to be done. Where READs follow
 * each other, what the next one will ask for is read ahead: as many sectors as the one before this
 * READ had, since hosts read in turns of a long READ and the rest. */
void disk_look_ahead(struct disk *disk, uint64_t size);

/* A setup packet for the mass storage interface or one of its two endpoints (81h and 02h). Answers
 * ACK with 0 to 2 bytes, or STALL. */
uint32_t disk_setup(struct disk *disk, const uint8_t setup[8], uint8_t data[2], uint32_t *size);

/* The host clears the halt of this endpoint, 81h or 02h. */
void disk_clear_halt(struct disk *disk, uint8_t endpoint);

/* A bus reset: a class reset, both halts cleared. What was accepted stays. */
void disk_bus_reset(struct disk *disk);

/* Steps in the background, where the device is at no call; else disk_ended tells when it is at none
 * any more. True while steps are left; false where all is at home once the device has carried out
 * what it is at, or the disk has faulted and will get no further. */
bool disk_tick(struct disk *disk);

/* Steps until all is at home and durable, and says so. False: said why. */
bool disk_settle(struct disk *disk);

/* Says the counters. */
void disk_count(struct disk *disk);

/* Stops the disk, behind the call that is under way. What was neither promised nor settled is lost
 * as by a cut. */
void disk_stop(struct disk *disk);

/* Stops the disk, and lets the device go. */
void disk_close(struct disk *disk);

#endif
