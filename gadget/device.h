/* The image file or block device under a disk: how it is opened and locked, read and written. And
 * its number. For disk.c alone. */
#ifndef DEVICE_H
#define DEVICE_H

#include "disk.h"

/* Says what is wrong with the image or the device, and notes the exit status. Answers false. */
bool refuse(struct disk *disk, int status, const char *cause);

/* The same, for a call of the system that was refused: errno tells the cause. */
bool refuse_call(struct disk *disk, const char *call);

/* Opens it, and locks it and what it stands on. A device that is mounted, and what a loop device
 * has open, is refused. False: said why. */
bool open_file(struct disk *disk);

/* The same, and tells how long it is, and lets go of what the system's cache keeps of it. False:
 * said why. */
bool open_device(struct disk *disk);

/* Whole sectors, one behind the other; and a flush. A call that a signal cut short is made again.
 * False: errno tells why. */
bool read_sectors(struct disk *disk, uint8_t *bytes, uint64_t first, uint64_t count);
bool write_sectors(struct disk *disk, const uint8_t *bytes, uint64_t first, uint64_t count);
bool flush(struct disk *disk);

void close_device(struct disk *disk);

/* identity.c: the serial number of this path on this machine. */
void number_disk(struct disk *disk);

#endif
