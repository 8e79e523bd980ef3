/* How the calls of a handle are carried out by a device: for the files beside this one alone. */
#ifndef USBDISK_CARRY_H
#define USBDISK_CARRY_H

#include "usbdisk_io.h"

/* A handle of the library, and its device. The fields before the call are filled in by who starts
 * it. */
struct usbdisk_carry {
    struct usbdisk core;
    const struct usbdisk_io_device *device;
    struct usbdisk_call call;     /* under way; of NOTHING none is */
    struct usbdisk_layout layout; /* what sector 0 tells; 0 in each field where it is no super */
    uint8_t *buffer;              /* of the call under way */
    size_t most;                  /* sectors that it has room for */
    uint64_t turns; /* in the background, one behind the other, with no call of the device */
    uint32_t fault; /* WRITE_REFUSED or FLUSH_REFUSED once the device refused one */
};

/* Memory of rattle_alloc, or NULL. */
void *usbdisk_carry_alloc(size_t size);

/* Something was just started: has the device read sector 0, and takes a buffer for so many sectors;
 * 0: for the longest call of the image that is there. Answers 0, NO_MEMORY or READ_REFUSED. */
uint32_t usbdisk_carry_begin(struct usbdisk_carry *carry, size_t most);

/* The next call of the device, where none is under way. False: none is wanted. */
bool usbdisk_carry_next(struct usbdisk_carry *carry);

/* Carries out the call that is under way. False: the device refused. */
bool usbdisk_carry_out(const struct usbdisk_carry *carry);

/* The call that is under way has ended. */
void usbdisk_carry_done(struct usbdisk_carry *carry, bool ok);

/* All three, until nothing is wanted. Answers whether there was a call. */
bool usbdisk_carry_all(struct usbdisk_carry *carry);

/* Why there is nothing on the device, or what it refused; or 0. */
uint32_t usbdisk_carry_fault(struct usbdisk_carry *carry);

/* Makes background work. True while more is left. */
bool usbdisk_carry_idle(struct usbdisk_carry *carry);

/* Whether the device refused a write or a flush, or the background comes to no end: no block is
 * served any more. */
bool usbdisk_carry_has_ended(const struct usbdisk_carry *carry);

/* Stops what was started, and frees the buffer. */
void usbdisk_carry_stop(struct usbdisk_carry *carry);

#endif
