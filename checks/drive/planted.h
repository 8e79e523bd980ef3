/* Faults that examples/c/behind.c is to find, around the calls of the library (planted.c). */
#ifndef PLANTED_H
#define PLANTED_H

#include "usbdisk.h"
#include <stdlib.h>

/* The number of the fault, which the environment's PLANTED tells, or 0. */
static inline int planted_number(void)
{
    static int number = -1;
    const char *told = number < 0 ? getenv("PLANTED") : NULL;
    if (number < 0)
        number = told ? atoi(told) : 0;
    return number;
}

#define PLANTED planted_number()

/* The calls of the library, which the linker hands through the functions of planted.c. */
#define REAL(name) __real_usbdisk_##name
#define WRAP(name) __wrap_usbdisk_##name

uint32_t REAL(start)(struct usbdisk *, const struct usbdisk_options *);
uint32_t REAL(next)(struct usbdisk *, struct usbdisk_call *, uint8_t *, size_t);
uint32_t REAL(done)(struct usbdisk *, bool, const uint8_t *, size_t);
uint32_t REAL(out)(struct usbdisk *, const uint8_t *, size_t, size_t *);
uint32_t REAL(in)(struct usbdisk *, uint8_t *, size_t, size_t *);
uint32_t REAL(setup)(struct usbdisk *, const uint8_t *, uint8_t *, uint32_t *);
uint32_t REAL(idle)(struct usbdisk *);
uint32_t REAL(ahead)(struct usbdisk *, uint64_t, uint32_t);

/* A call that was taken out of the library before its turn. */
struct taken {
    struct usbdisk_call call;
    uint8_t *bytes;
};

/* What is known of a disk from outside. */
struct spy {
    const struct usbdisk *disk;
    struct usbdisk_call call; /* under way at the device, or none */
    struct usbdisk_layout layout;
    bool is_started;  /* it is a disk, and not the work on an image */
    bool has_served;  /* bytes of a host were taken */
    unsigned mended;  /* so many FLUSHes were told */
    bool has_written; /* a WRITE was told */
    bool is_open;     /* the first sectors were read, and something else was told since */
    bool is_refused;  /* the device refused a WRITE or a FLUSH */
    bool is_idled;    /* steps were made since the call began */
    bool is_again;    /* the READ that failed is told once more */
    bool rests;       /* nothing is under way, and nothing was told to be */
    /* the command in progress: bytes of its data that are due; what it is */
    uint64_t due;
    uint8_t code, tag[4];
    bool is_cached, is_forced, reads;
    bool waits;     /* a promise was asked for, and its status was not given */
    bool has_ended; /* a call ended since then */
    bool owes;      /* a status was given that the library still holds */
    /* sectors that were read ahead, and their bytes */
    struct usbdisk_call ahead;
    uint8_t ahead_bytes[USBDISK_LIMIT(2) * 512];
    bool is_ahead, is_ahead_lost;
    bool is_told; /* the FLUSH that is under way was told done */
    /* what a READ was told, and how many bytes */
    uint8_t read_bytes[USBDISK_LIMIT(2) * 512];
    size_t read_size;
    /* the first block of a READ, how many bytes of it came, and the numbers that fill blocks at
     * home, where a WRITE brought them there */
    uint32_t address, sent, home[512];
    bool is_home[512];
    struct taken queue[64];
    size_t oldest, queued;
    unsigned packets;
};

/* The spy of a disk. */
struct spy *spy_of(const struct usbdisk *disk);

/* Notes what command these bytes, which were taken, begin or go on with. */
void spy_notes(struct spy *it, const uint8_t *bytes, size_t size);

/* Forgets the command in progress. */
void spy_resets(struct spy *it);

/* Takes the status that the library still holds, where it gives it. False: it holds one. */
bool spy_settles(struct spy *it, struct usbdisk *disk);

/* A WRITE of these bytes was told: what it brings home is noted. */
void spy_writes(struct spy *it, const uint8_t *bytes);

/* Of so many bytes of a READ each block that was brought home becomes what lies there. */
void spy_sends_home(struct spy *it, uint8_t *room, size_t given);

/* Whether a status that waits is told now. */
bool spy_tells_early(const struct spy *it);

#endif
