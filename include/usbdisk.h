/* A USB disk that keeps whole writes when power is lost: the device side of the bulk-only transport
 * (USB Mass Storage Class Bulk-Only Transport 1.0), behind any USB controller, over any medium of
 * sectors of 512 bytes, of any size.
 *
 * Most programs need not this page but port/usbdisk_io.h, a layer over it in C: three functions of
 * a device, and whole transfers. docs/MAKERS.md begins with it.
 *
 * The library makes no call of the device. It says what the device is to do next, one call at a
 * time: usbdisk_next tells the call, the program has the device carry it out, by DMA, in a thread
 * or at once, and usbdisk_done tells how it ended. In between the disk serves the bus as ever. A
 * start is such calls too, and so are a format and a migration.
 *
 *     usbdisk_start(&disk, &options);
 *     for (;;) {
 *         if (the device has ended the call)
 *             usbdisk_done(&disk, ok, buffer, of a READ: call.count * 512, else 0);
 *         if (the device is free)
 *             usbdisk_next(&disk, &call, buffer, sizeof buffer), and begin it where there is one
 *         if (the bus has bytes, a token or a request)
 *             usbdisk_out, usbdisk_in, usbdisk_setup
 *         else if (the bus rests)
 *             usbdisk_idle(&disk)
 *     }
 *
 * What a loss of power leaves, wherever the device is: the next start finds the accepted writes in
 * order, none in part, and all that were promised to the host. A status that promises (of a WRITE
 * with FUA or with the write cache off, a READ with FUA, a SYNCHRONIZE CACHE, a MODE SELECT while
 * the write cache is on) is laid out when the device has carried out all that waited.
 *
 * A packet is acknowledged once its bytes are all there. While the device works for its command,
 * Bulk-Out answers NAK, Bulk-In NAK or the STALL of its halt, and requests are answered. A class
 * reset drops the command: its write is the last one, whole, or is none. Where the device refuses a
 * call of it, it fails, and another command's status stays. docs/MAKERS.md says what the device
 * must promise.
 *
 * Link the program with libusbdisk_c.a, and define the two functions at the end of this file.
 *
 * Threads: a handle is used by one thread at a time. The library has no data of its own, and none
 * of a thread, so a handle may go from one to another behind a lock of the program's. No call may
 * be made from a signal handler or from an interrupt that can interrupt another call. No call
 * waits. Memory is taken by the calls that start something, and by usbdisk_done while that starts.
 *
 * Errors: a call that answers one of the errors, from 16 on, changed nothing, neither what the
 * handle holds nor what its pointers point to. Of several that apply the first is answered: EMPTY
 * or STARTED, then OTHER_KIND, then those of the arguments in the order in which the call names
 * them. No pointer may be null, also where the size beside it is 0, and no two may overlap.
 *
 * This header is C99 and C++; the port layer is C11. */
#ifndef USBDISK_H
#define USBDISK_H

#include <stdbool.h>
#include <stddef.h>
#include <stdint.h>

#ifdef __cplusplus
extern "C" {
#endif

/* The version, 1.15.0: two bytes hold the first number, and one byte each of the others. The
 * library reports its own. Where the two differ, header and library are not of one version. */
#define USBDISK_VERSION 0x010F00u

uint32_t usbdisk_version(void);

/* A handle. It holds a disk, a store, or the work on an image. Set it to USBDISK_NONE before the
 * call that starts one of them; never write or copy it after. */
struct usbdisk {
    void *at;
};

#define USBDISK_NONE                                                                               \
    {                                                                                              \
        0                                                                                          \
    }

/* What an endpoint is to answer. */
enum usbdisk_answer {
    USBDISK_ACK = 0,  /* taken, or here are bytes */
    USBDISK_NAK = 1,  /* nothing now: the host tries again */
    USBDISK_STALL = 2 /* the endpoint is halted, or the request is refused */
};

/* Why there is no disk, no store or no image on the device. */
enum usbdisk_fault {
    USBDISK_NO_MEMORY = 1,
    USBDISK_READ_REFUSED = 2,  /* the device refused a READ */
    USBDISK_WRITE_REFUSED = 3, /* the device refused a WRITE */
    USBDISK_FLUSH_REFUSED = 4, /* the device refused a FLUSH */
    USBDISK_BAD_SUPER = 5,     /* sector 0 is no super: no image, or a format was cut off */
    USBDISK_BAD_VERSION = 6,
    USBDISK_BAD_SIZE = 7, /* bad sizes, or the device is too short for them */
    USBDISK_BAD_HEAD = 8, /* sector 1 is no head */
    USBDISK_STAMPS_USED_UP = 9,
    USBDISK_LOG_TOO_SMALL = 10, /* of usbdisk_migrate alone: fewer than 5 slots */
    USBDISK_DEAD = 11           /* of a store: it neither reads nor writes until the next start */
};

/* What a store answers before the device has done what it has to. */
enum { USBDISK_BUSY = 12 };

/* What is wrong with a call. */
enum usbdisk_error {
    USBDISK_EMPTY = 16,           /* the handle holds nothing: not started, or stopped */
    USBDISK_STARTED = 17,         /* the handle holds something already */
    USBDISK_BAD_IDENTITY = 19,    /* a character is not printable ASCII (20h to 7Eh) */
    USBDISK_BAD_PACKET_SIZE = 20, /* neither 64 nor 512 */
    USBDISK_BAD_LENGTH = 21,      /* bytes of no sectors or blocks, or a part of one, or too few */
    USBDISK_BAD_SIZES = 22, /* sizes out of their limits, or the device is too short for them */
    USBDISK_BAD_RANGE = 24, /* a block behind the last one */
    USBDISK_NOT_ASKED = 26, /* no call of the device is under way */
    USBDISK_OTHER_KIND = 27 /* the handle holds something of another kind */
};

/* What the device is to do. */
enum usbdisk_kind { USBDISK_NOTHING = 0, USBDISK_WRITE = 1, USBDISK_FLUSH = 2, USBDISK_READ = 3 };

/* A call of the device: `count` sectors, at least 1, from sector `sector` on, are to be read or
 * written. Of NOTHING and FLUSH both are 0. */
struct usbdisk_call {
    uint32_t kind; /* of enum usbdisk_kind */
    uint64_t sector;
    uint64_t count;
};

/* What a handle is at. */
enum usbdisk_state {
    USBDISK_STARTING =
        0,               /* the device has not carried out all that the start, or the work, takes */
    USBDISK_SERVING = 1, /* a disk or a store serves */
    USBDISK_FAULTED = 2, /* the device refused a WRITE or a FLUSH of a disk or a store */
    USBDISK_DONE = 3,    /* the work on an image is done */
    USBDISK_FAILED = 4   /* there is no disk, no store or no image, for the reason that is told */
};

/* What image begins with a sector 0. */
struct usbdisk_layout {
    uint32_t format;  /* 1 or 2 */
    uint64_t slots;   /* how many slots the log has, 1 to 64 */
    uint64_t blocks;  /* how many blocks a host sees, 1 to 2^31 */
    uint64_t home;    /* the sector where the blocks lie, behind the log */
    uint64_t sectors; /* how many sectors the image takes: the device has to have as many */
};

/* Tells from the bytes of sector 0 what image there is. It looks at nothing else, so a start may
 * still be refused.
 *
 * Answers 0; or BAD_SUPER, BAD_VERSION or BAD_SIZE, as a start does, and `*layout` stays. */
uint32_t usbdisk_look(const uint8_t sector[512], struct usbdisk_layout *layout);

/* The log of an image, and where its blocks lie behind it. */
struct usbdisk_log {
    uint64_t limit;        /* how many blocks a READ or a WRITE has at most */
    uint64_t slot_sectors; /* how many sectors a slot has; the first slot begins with sector 2 */
    uint64_t end;          /* the sector behind the last slot */
    uint64_t home;         /* the first sector from there on that is a multiple of `page` */
};

/* Reports the log of an image of this format (1 or 2) with `slots` log slots, and the first home
 * sector where blocks have to begin at a multiple of `page` sectors. With page 1 it is `end`.
 *
 * Answers 0; or BAD_SIZES, and `*log` stays: there is no such format or number of slots, `page` is
 * 0, or home may not begin there. In format 2 each page of up to 249 sectors will do. */
uint32_t usbdisk_log_of(uint32_t format, uint64_t slots, uint64_t page, struct usbdisk_log *log);

/* `limit` and `end` of it, for the size of an array. */
#define USBDISK_LIMIT(format) ((format) == 1 ? 48 : 240)
#define USBDISK_LOG_END(format, slots) (2 + ((format) == 1 ? 50 : 249) * (slots))

/* How many bytes of memory a disk takes, on an image of this format (1 or 2) with `slots` log
 * slots, of every size of the device, where `kept` of its options is 0. A store takes 24,576 bytes
 * less in format 1 and 122,880 less in format 2. Neither takes more while it starts. 0 where there
 * is no such format or number of slots. */
uint64_t usbdisk_memory(uint32_t format, uint64_t slots);

/* The same where `kept` is that of its options. */
uint64_t usbdisk_memory_kept(uint32_t format, uint64_t slots, uint32_t kept);

/* How many bytes of memory usbdisk_format and usbdisk_lay_log take at most, for an image of this
 * format with `slots` log slots: the same for every number of either. 0 where there is no such
 * format or number of slots. */
uint64_t usbdisk_memory_to_format(uint32_t format, uint64_t slots);

/* How many bytes of memory usbdisk_migrate takes at most, of an image of format 1 with `slots` log
 * slots. 0 where there is no such number of slots. */
uint64_t usbdisk_memory_to_migrate(uint64_t slots);

/* Who the disk is, as INQUIRY reports it: printable ASCII, padded with spaces, with no final 0. C++
 * takes no string literal of full length for such a field: usbdisk_identify fills it there too. */
struct usbdisk_identity {
    char vendor[8];
    char product[16];
    char revision[4];
    char serial[12];
};

/* Fills a field with a text and spaces behind it. Answers whether the text fits. */
static inline bool usbdisk_put_text(char *field, size_t size, const char *text)
{
    size_t at;
    for (at = 0; at < size; at++)
        field[at] = *text ? *text++ : ' ';
    return !*text;
}

/* Makes an identity of strings. False, and `*who` stays, where one is longer than its field. */
static inline bool usbdisk_identify(struct usbdisk_identity *who, const char *vendor,
                                    const char *product, const char *revision, const char *serial)
{
    struct usbdisk_identity it;
    bool fits = usbdisk_put_text(it.vendor, sizeof it.vendor, vendor) &&
                usbdisk_put_text(it.product, sizeof it.product, product) &&
                usbdisk_put_text(it.revision, sizeof it.revision, revision) &&
                usbdisk_put_text(it.serial, sizeof it.serial, serial);
    if (fits)
        *who = it;
    return fits;
}

/* What is started. All is copied: nothing of it has to stay.
 *
 * `kept`: how many records of the log lie in memory at most, until their blocks are home; 0 for
 * four. More than 64 counts as 64, and more than there are slots as many as there are slots. One
 * more takes 128,720 bytes in format 2 and 26,952 in format 1. In format 2 a disk that keeps three
 * or more makes one flush for each forced WRITE, for ever; one that keeps fewer makes three. */
struct usbdisk_options {
    uint64_t sectors;                 /* how many sectors the device has */
    struct usbdisk_identity identity; /* of a disk alone */
    uint32_t packet;                  /* of a disk alone: 64 at full speed, 512 at high speed */
    uint32_t kept;                    /* records of the log in memory; 0: four */
};

/* Starts a disk: on what the device holds, which it recovers from whatever a loss of power left.
 * The device is to carry out the recovery first: a FLUSH, READs of the first sectors, up to 64 at a
 * time, a FLUSH, a WRITE of the head and a FLUSH; where power was lost, blocks are read and written
 * too, as many in a row as lie in one. Until it has, the disk is STARTING. Where there is no disk
 * on the device, or it refuses a call of the recovery, it is FAILED, and nothing is left but to stop
 * it; of a device of no sectors at once, by BAD_SUPER.
 *
 * The first command behind a start, other than INQUIRY and REQUEST SENSE, ends with CHECK CONDITION
 * and 6/29/00: the power was off. REQUEST SENSE tells it too, and ends it.
 *
 * Answers 0; STARTED, BAD_PACKET_SIZE or BAD_IDENTITY; or NO_MEMORY, and the handle stays empty. */
uint32_t usbdisk_start(struct usbdisk *disk, const struct usbdisk_options *options);

/* Stops what the handle holds, and frees all memory. It writes nothing: what was not synchronised
 * is lost as by a cut, and an image is left as by a cut. A call that is under way is the device's
 * own: let it end, or not. Answers 0 or EMPTY. */
uint32_t usbdisk_stop(struct usbdisk *disk);

/* The next call of the device, which is under way from then on, until usbdisk_done tells that it
 * has ended. NOTHING: none is wanted now, or one is under way; ask again behind the next call of
 * the bus or of the store, or idle.
 *
 * WRITE: the bytes lie in `buffer`, `count` sectors one behind the other, as many as wait in a row
 * and as it has room for: one write of the device. FLUSH: all writes that were told done are to be
 * made durable. READ: `count` sectors are to be read, into any place: before it serves, at most as
 * many as the buffer has room for; then at most 240, in format 1 at most 48. A READ that the host
 * waits for, or a read of the store, is told before the calls that wait: what these write is laid
 * over what the device gives. The buffer is the program's, who may have the device read it until
 * usbdisk_done: the library writes it in this call alone, and never keeps its address.
 *
 * Where nothing else is to be done, and no status is still to be told, it also tells the WRITEs
 * and the FLUSH that make a full batch of a disk or a store durable, while the next one is filled;
 * and where none is full, WRITEs that bring blocks home, 241 sectors at a time at most, so that the
 * next forced WRITE, or the next sync, finds that done. None of these is a FLUSH.
 *
 * size: 512 for each sector that there is room for; 122,880 is enough for each run and each READ.
 *
 * Answers 0; or EMPTY, or BAD_LENGTH where size is 0 or no multiple of 512. */
uint32_t usbdisk_next(struct usbdisk *disk, struct usbdisk_call *call, uint8_t *buffer,
                      size_t size);

/* The call that is under way has ended. ok: the device carried it out. Of a READ `bytes` are what
 * it gave, 512 for each sector; of the others they are not looked at: pass any address, and 0.
 *
 * Not ok, a call of the recovery, or any call of the work on an image: it is FAILED. Not ok, a READ
 * behind the start: the READ of the host that lacks these sectors ends with CHECK CONDITION and
 * 3/11/00, and the disk goes on. Not ok, a WRITE or FLUSH of a disk or a store: it is FAULTED. No
 * promise is told that was not told before, and the device is asked for nothing more. A pending
 * command that writes or promises ends with 01h, and REQUEST SENSE tells 3/0C/00, a write error; a
 * status that waits stays. Each later command that needs the medium ends with CHECK CONDITION and
 * 4/44/00, until the next start. What was promised before is on the device. Writes that were not
 * promised may be lost, as by a cut; any part of the WRITE may be on the device.
 *
 * A pending command goes on: behind it Bulk-Out may take a packet, and Bulk-In have one.
 *
 * Answers 0. Errors, in this order: EMPTY; NOT_ASKED where no call is under way; BAD_LENGTH where
 * the bytes of a good READ are not as many as were asked for: the call is still under way. */
uint32_t usbdisk_done(struct usbdisk *disk, bool ok, const uint8_t *bytes, size_t size);

/* Answers STARTING, SERVING, FAULTED, DONE or FAILED, or EMPTY. `*fault` is why, of enum
 * usbdisk_fault, where it is FAILED, and else 0. */
uint32_t usbdisk_state(struct usbdisk *disk, uint32_t *fault);

/* Bytes came to the Bulk-Out endpoint: a transfer of the host, or a part of one that ends where a
 * packet does. They are taken packet by packet, each as many bytes as a packet has, the last maybe
 * fewer; no bytes are one empty packet. `*taken` counts how many were taken, at NAK and STALL too.
 *
 * Answers ACK: all of them. NAK: the disk starts, a command is pending, or the host has not taken
 * the status of the command before. Nothing happened to the packet behind those that were taken:
 * hand it in again, behind the next done, idle or status; where a bus reset comes first, let go of
 * it. STALL: the endpoint is halted. Errors: EMPTY, OTHER_KIND.
 *
 * A command is pending that lacks sectors, or asks for writes: a WRITE for which memory has no
 * room, or one that promises. usbdisk_next tells its calls from now on. */
uint32_t usbdisk_out(struct usbdisk *disk, const uint8_t *bytes, size_t size, size_t *taken);

/* The host asks the Bulk-In endpoint for packets. They lie one behind the other in the room, and
 * `*given` tells how many bytes they have: until one is shorter than a packet may be, or a further
 * one has no room, or there is none now. The bytes behind them stay. It asks the device for
 * nothing.
 *
 * A packet is given where the rest of the room has place for a whole one, 64 or 512 bytes, though
 * it may be shorter: a room of a multiple of that leaves none behind. Data whose last packet is a
 * whole one may be followed by the status, 13 bytes, in the same call; the host takes both as they
 * come, packet by packet. At NAK and at STALL `*given` is 0.
 *
 * Answers ACK: here they are. NAK: there is none now, or a command is pending: ask again behind the
 * next done. STALL: the endpoint is halted. Where packets came before a NAK or a STALL, the
 * answer is ACK; ask again. Errors: EMPTY, OTHER_KIND; BAD_LENGTH where there is no room for a
 * packet. */
uint32_t usbdisk_in(struct usbdisk *disk, uint8_t *room, size_t size, size_t *given);

/* A request for the mass storage interface or one of its endpoints came to the control endpoint:
 * the class reset, GET MAX LUN, CLEAR_FEATURE(ENDPOINT_HALT) and GET_STATUS of an endpoint. `setup`
 * is the setup packet, for interface 0 and the endpoints 81h and 02h: with other numbers rewrite
 * its byte 4, which in the first two is the interface. At ACK `*size` bytes, 0 to 2, go to the
 * host. A class reset drops an answer that waits, and a pending command, whose WRITE is accepted
 * whole or not at all; it takes no accepted write back. Calls of the device that wait or are under
 * way go on behind it. It is answered whatever the device is at, but by STALL until it is recovered:
 * connect to the bus when the state is SERVING. Answers ACK, STALL, EMPTY or OTHER_KIND. */
uint32_t usbdisk_setup(struct usbdisk *disk, const uint8_t setup[8], uint8_t data[2],
                       uint32_t *size);

/* Background work, up to 32 steps, while few calls wait for the device and no command is pending;
 * of a store where no call waits. Call it while the bus is idle; it may be called at any time. Answers
 * 1 while steps are left, or EMPTY or OTHER_KIND; 0 where every accepted write is durable and at
 * its home place once the device has carried out what waits. While it is recovered, and of what
 * failed or faulted, it answers 1. */
uint32_t usbdisk_idle(struct usbdisk *disk);

/* The device is to read `count` sectors from sector `first` of the device on before a READ of the
 * host lacks them: those behind the last READ that usbdisk_next told, say. It tells them as a READ,
 * once no other call is left. A READ of the host inside of them needs no device then, as long as no
 * other sectors were read since. Call it when the bus rests, or while the host takes the bytes of a
 * READ.
 *
 * Answers 1 where they will be read, or EMPTY or OTHER_KIND. Else 0, and nothing changes: where the
 * disk does not serve; count is 0, or more than the limit of a READ of the host (48 in format 1,
 * 240 in format 2), or the device has not as many; or the device is at a call, calls wait for it, or
 * a command is pending; or since the last packet sectors were read ahead, or are to be.
 *
 * A packet leaves the wish; a READ that lacks sectors takes it away. Where the device cannot read
 * them (usbdisk_done with ok false) no READ of the host ends for that: one that lacks them has them
 * read anew. */
uint32_t usbdisk_ahead(struct usbdisk *disk, uint64_t first, uint32_t count);

/* What image is made. It takes `home + blocks` sectors; what lies behind them is spared.
 *
 * `home` is the sector of block 0. With 0 it is the first behind the log, `end` of usbdisk_log_of.
 * In format 2 it may be up to 248 more, so that blocks begin where a page of the device does:
 * `home` of usbdisk_log_of. */
struct usbdisk_plan {
    uint64_t sectors; /* how many sectors the device has */
    uint32_t format;  /* 1 or 2 */
    uint64_t slots;   /* log slots, 1 to 64 */
    uint64_t blocks;  /* 1 to 2^31 */
    uint64_t home;    /* the sector where the blocks begin; 0: directly behind the log */
};

/* Makes an image of blocks of zeros. The device is to read sector 0, and then to carry out as many
 * calls as the image has sectors, and seven more, in runs of up to 32. No more than these wait at a
 * time, so the memory is the same for every number of blocks and slots. When the state is DONE the
 * image is there. Power may go at any point: a cut leaves what was there before, until the second
 * write is carried out, no image, or the new one, whole.
 *
 * Answers 0; STARTED or BAD_SIZES; or NO_MEMORY, and the handle stays empty. */
uint32_t usbdisk_format(struct usbdisk *image, const struct usbdisk_plan *plan);

/* Makes an image around blocks that are at home already: super, head and log alone. The new image
 * stands for what home holds; no sector from there on is written, and none is read. What waited in
 * an old log is gone. A cut leaves what was there before, no image, or the new one, whole.
 *
 * Answers as usbdisk_format. */
uint32_t usbdisk_lay_log(struct usbdisk *image, const struct usbdisk_plan *plan);

/* Turns an image of format 1 into one of format 2, with the same blocks at the same home sectors:
 * recovers it, and brings the records that wait home. An image of format 2 is recovered. Of the
 * plan it reads `sectors` alone. At each point of it the image stands for the same blocks.
 *
 * Answers 0; STARTED; or NO_MEMORY, and the handle stays empty. */
uint32_t usbdisk_migrate(struct usbdisk *image, const struct usbdisk_plan *plan);

/* The store without the transport, for a USB stack that has SCSI in it: its callbacks read and
 * write blocks of 512 bytes and synchronise them. docs/MAKERS.md has a section on it, and
 * port/usbdisk_tinyusb.c has the callbacks.
 *
 * Where one of the calls answers BUSY, nothing happened that has to be undone: have the device
 * carry out what usbdisk_next tells, until it tells NOTHING, and make the same call again. While
 * it is recovered each of these calls answers BUSY, whatever it is given.
 *
 * Starts a store, as usbdisk_start starts a disk; of the options it reads `sectors` and `kept`. In
 * format 2 with three records kept or more it brings blocks home ahead of the flush of its next
 * record: a sync flushes once for each record that it writes. Answers 0; STARTED; or NO_MEMORY, and
 * the handle stays empty. */
uint32_t usbdisk_store_start(struct usbdisk *store, const struct usbdisk_options *options);

/* How many blocks there are, and how many of them one read or write may have: 48 in format 1, 240
 * in format 2. Answers 0; BUSY; a number from 1 to 10 where the start failed; EMPTY or OTHER_KIND.
 */
uint32_t usbdisk_store_sizes(struct usbdisk *store, uint64_t *blocks, uint32_t *limit);

/* Reads whole blocks, from `block` on, as they are after all accepted writes. size: 512 for each.
 *
 * Answers 0, and the bytes are there; BUSY; READ_REFUSED where the device could not read a sector
 * that it lacks; DEAD; a number from 1 to 10 where the start failed. Errors: EMPTY, OTHER_KIND;
 * BAD_LENGTH where the bytes are no whole blocks, none, or more blocks than the limit; BAD_RANGE
 * where a block is behind the last one. */
uint32_t usbdisk_store_read(struct usbdisk *store, uint64_t block, uint8_t *bytes, size_t size);

/* Writes whole blocks, from `block` on: one write, of which a cut leaves all or nothing. The next
 * good sync promises it. It is no call of the device, and is accepted while that works, as long as
 * memory has room for it.
 *
 * Answers 0 where it is accepted; BUSY, and it is not: the batch before has to be written first;
 * DEAD, and none of it is written: the store was dead, or died in this call; a number from 1 to 10
 * where the start failed. Errors: EMPTY, OTHER_KIND, BAD_LENGTH and BAD_RANGE, as of
 * usbdisk_store_read. */
uint32_t usbdisk_store_write(struct usbdisk *store, uint64_t block, const uint8_t *bytes,
                             size_t size);

/* Makes every accepted write durable. Answers 0: all are. BUSY: what the device has to carry out
 * for that waits. DEAD, and nothing more is promised; a number from 1 to 10 where the start failed;
 * EMPTY or OTHER_KIND. */
uint32_t usbdisk_store_sync(struct usbdisk *store);

/* What the program gives to the library.
 *
 * rattle_alloc: `size` bytes, 1 or more, aligned to `alignment`, a power of two up to 16; `ok` is
 * false where there are none, and then `at` is not read. rattle_dealloc: frees a block.
 * port/usbdisk_heap.c has both over malloc, port/usbdisk_arena.c out of one array. */
struct rattle_tried {
    bool ok;
    void *at;
};

struct rattle_tried rattle_alloc(size_t size, size_t alignment);
void rattle_dealloc(void *at);

#ifdef __cplusplus
}
#endif
#endif
