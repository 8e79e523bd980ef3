/* Blocks that keep what they promise, over a device of yours, for a USB stack that speaks SCSI
 * itself (TinyUSB, Zephyr) or for any other user of a block device. The device is that of
 * usbdisk_io.h, and whatever a call writes is on it when the call is back.
 *
 * Link usbdisk_blocks.c, usbdisk_carry.c and usbdisk_make.c with the library, and usbdisk_heap.c or
 * memory functions of your own. A new device gets its image by usbdisk_io_format or
 * usbdisk_io_lay_log. */
#ifndef USBDISK_BLOCKS_H
#define USBDISK_BLOCKS_H

#include "usbdisk_io.h"

#ifdef __cplusplus
extern "C" {
#endif

/* Blocks of 512 bytes that were started. */
struct usbdisk_blocks;

/* Starts on what the device holds, recovers it, and has the device carry that out. The device stays
 * yours, and has to stay where it is. most: how many blocks your reads have at once, 1 to 240: a
 * longer one is read in parts, and a buffer of as many sectors is taken.
 *
 * Answers 0, and `*blocks` are there; or NO_MEMORY; READ_REFUSED, WRITE_REFUSED or FLUSH_REFUSED of
 * the device; BAD_SUPER, BAD_VERSION, BAD_SIZE, BAD_HEAD or STAMPS_USED_UP of what it holds. */
uint32_t usbdisk_blocks_start(struct usbdisk_blocks **blocks,
                              const struct usbdisk_io_device *device, uint32_t most);

/* How many blocks there are. */
uint64_t usbdisk_blocks_count(struct usbdisk_blocks *blocks);

/* How many blocks one write may have: 48 in format 1, 240 in format 2. */
uint32_t usbdisk_blocks_limit(struct usbdisk_blocks *blocks);

/* Reads `count` blocks from `first` on, as they are after all accepted writes.
 *
 * Answers 0; READ_REFUSED, where the device cannot read one; BAD_LENGTH, of no blocks; BAD_RANGE,
 * behind the last one; DEAD. At all but 0 the bytes may be any. */
uint32_t usbdisk_blocks_read(struct usbdisk_blocks *blocks, uint64_t first, uint8_t *bytes,
                             size_t count);

/* Writes `count` blocks from `first` on, by one write, of which a cut leaves all or nothing. The
 * next good sync promises it.
 *
 * Answers 0; WRITE_REFUSED or FLUSH_REFUSED of the device, and each later call that needs it
 * answers DEAD until the next start; BAD_LENGTH, of none or more than the limit; BAD_RANGE; DEAD.
 */
uint32_t usbdisk_blocks_write(struct usbdisk_blocks *blocks, uint64_t first, const uint8_t *bytes,
                              size_t count);

/* Makes every accepted write durable. Answers 0; WRITE_REFUSED or FLUSH_REFUSED, as above; DEAD.
 *
 * A write and a sync return when the device has nothing to do: they have it bring blocks of the
 * record before home too, so that the next sync finds that done. */
uint32_t usbdisk_blocks_sync(struct usbdisk_blocks *blocks);

/* Nothing came for a while: brings home some of what was written. Answers true while more is left.
 */
bool usbdisk_blocks_idle(struct usbdisk_blocks *blocks);

/* Stops, and frees the memory. It writes nothing: what was not synchronised is lost as by a cut. Of
 * NULL: nothing. */
void usbdisk_blocks_stop(struct usbdisk_blocks *blocks);

/* The sense to answer a host with for what a call answered: sense key, additional sense code and
 * its qualifier, in one byte each from bit 16 on down. 0 of 0. */
uint32_t usbdisk_blocks_sense(uint32_t code);

#ifdef __cplusplus
}
#endif
#endif
