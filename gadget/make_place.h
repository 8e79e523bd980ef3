/* The file or block device that usbdisk-make works on: what it holds, how long it is, and what is
 * written to it. It is opened, locked, read and written as a disk of the gadgets. */
#ifndef MAKE_PLACE_H
#define MAKE_PLACE_H

#include "device.h"

struct place {
    struct disk disk; /* its path, file, sectors and status */
    bool is_new; /* the file was made by place_open, and goes away where no image is made on it */
    bool is_device; /* a block device, whose length stays */
    bool is_empty;  /* a file that place_empty emptied: all that nobody wrote since is zeros */
    bool has_rest;  /* its length is no multiple of 512 */
    struct usbdisk_io_device device;
    uint64_t done, all; /* sectors that are written, and that are to be */
};

/* How it is opened: to be read alone; to be changed; or to be made, where no file is there. */
enum place_use { PLACE_READ, PLACE_CHANGE, PLACE_MAKE };

/* Opens and locks it. False: said why. */
bool place_open(struct place *place, const char *path, enum place_use use);

/* Whether nobody misses what it holds, or it may be replaced. False: said what it holds. */
bool place_is_free(struct place *place, bool replaces);

/* Empties a file, and gives it this many sectors of zeros. Of a device, which is to have as many,
 * sector 0 alone is wiped, so that no image is left on it. False: said why. */
bool place_empty(struct place *place, uint64_t sectors);

/* The first sector from this one on that is no hole; UINT64_MAX if there is none. */
uint64_t place_next_data(const struct place *place, uint64_t sector);

/* So many sectors more are written: tells a terminal how far it is. */
void place_tell(struct place *place, uint64_t count);

/* Whether a signal asks to end; signals come in a wait alone. */
bool place_is_stopped(void);

/* A file gets room for this many sectors, with no holes in it, and never gets shorter. False: said
 * why. */
bool place_fill(struct place *place, uint64_t sectors);

/* Makes it a device of the port layer, of which some `sectors` are to be written. What it refuses
 * it says, and a signal that asks to end is a refusal of a write. */
void place_begin(struct place *place, uint64_t sectors);

/* There is an image: makes the file's name durable. */
void place_keep(const struct place *place);

/* What the port layer answers in place of an image. What the device refused is said already. */
bool refuse_image(struct place *place, uint32_t fault);

/* Reads what image there is. False: said why. */
bool read_layout(struct place *place, struct usbdisk_layout *layout);

/* Lets it go. A new file on which no image was made is removed. */
void place_close(struct place *place, bool has_image);

/* Whether it is what stands at this path too. */
bool place_is_at(const struct place *place, const char *path);

/* What these first bytes begin, by the marks of the common file systems; or NULL. */
const char *mark_found(const uint8_t *bytes, uint64_t size);

#endif
