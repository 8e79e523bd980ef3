/* A device that is memory, and an image of zeros in it. */
#ifndef IMAGE_H
#define IMAGE_H

#include "usbdisk.h"

/* Has `medium` carry out the next call of a handle. False: none is wanted, and `call`, which may be
 * told, is NOTHING. */
bool carry_one(struct usbdisk *it, uint8_t *medium, struct usbdisk_call *call);

/* Has it carry out all that is wanted: behind a start the state is SERVING then, or FAILED, and
 * behind a format DONE. */
void carry_all(struct usbdisk *it, uint8_t *medium);

/* Makes an image of this format in `size` bytes. Answers as usbdisk_format. */
uint32_t format_memory(uint8_t *medium, size_t size, uint32_t format, uint64_t blocks,
                       uint64_t slots);

#endif
