/* What the parts of the judge behind.c share: a device with a cache that carries out one call at a
 * time, a host that sends transfers in parts, and a bench of both with a disk between. */
#ifndef BEHIND_H
#define BEHIND_H

#include "usbdisk.h"

enum {
    BLOCKS = 300,
    MOST = 40,
    MOST_SLOTS = 6,
    SECTORS = USBDISK_LOG_END(2, MOST_SLOTS) + BLOCKS,
    LONGEST = USBDISK_LIMIT(2),
    MENDS = 64 /* so many sectors are read at a time while the image is recovered, at most */
};

extern uint64_t seed;
unsigned random_below(unsigned most);

/* Says what is wrong. Answers false, as all do that end a life. */
extern const char *wrong;
bool fails(const char *what);

/* ---- the device */

struct unflushed {
    uint64_t sector;
    uint8_t bytes[512];
};

/* What it holds for good, what it reads as, and the writes between, in order; those of a run that
 * is under way come last. */
struct device {
    uint8_t *durable, *now;
    struct unflushed *unflushed;
    size_t count;
    struct usbdisk_call call; /* under way, or none */
    uint8_t buffer[LONGEST * 512];
};

bool device_open(struct device *device);
void device_close(struct device *device);

/* An image of some slots is made on it, all of which is there for good. */
bool device_make(struct device *device, uint32_t format);

/* Begins the call in `call`. A WRITE has its bytes in the buffer. */
bool device_begin(struct device *device);

/* Ends it; where it is not good a READ gives nothing, and of a WRITE any part is there. */
void device_end(struct device *device, bool is_good);

/* Nobody waits for the call under way any more: it ends, carried out or not. */
void device_forsake(struct device *device);

/* Leaves on another device, or on this one, what a cut may leave of it: of the unflushed writes
 * those of `kept`, where they are few, else any, or each. */
enum { FEW = 4, ANY = 1 << FEW, EACH };
void device_cut(const struct device *device, unsigned kept, struct device *other);

/* ---- the host */

struct command {
    uint8_t code, flags;
    unsigned address, count; /* of blocks, or of the bytes that it wants */
    uint32_t number;         /* that fills each block of a WRITE */
    bool cache;              /* that a MODE SELECT sets */
};

bool writes(const struct command *command);
bool reads(const struct command *command);

/* Whether a host asks for a promise, or for one if it sees the write cache enabled. */
bool promises(const struct command *command, bool is_cached);

/* WRITEs and READs, of a few blocks or many, some forced, and what promises without data; or nearly
 * WRITEs alone that promise nothing. */
struct command some_command(bool is_plain);

enum stage { AT_REST, WRAPPER, DATA_OUT, DATA_IN, STATUS, RESET };
enum outcome { WRONG, GOES_ON, CARRIED_OUT, ENDED };

struct host {
    struct usbdisk *disk;
    unsigned packet;
    enum stage stage;
    struct command command;
    unsigned length, moved; /* of its data */
    int requests;           /* made of a reset */
    uint8_t data[MOST * 512];
    uint8_t status;
    bool promises;            /* the command is good only when all is durable */
    bool is_refused;          /* the last packet was, or the last token */
    bool is_opening;          /* the image is recovered: requests may be refused */
    unsigned commands, parts; /* how many there were, and transfers that were taken in part */
};

/* Begins a command, where none is in progress. `promises`: it is good only when all is durable. */
void host_begin(struct host *host, const struct command *command, bool promises);

/* Sends the next bytes or token. ENDED: the status came, and the data before it lies in `data`. */
enum outcome host_step(struct host *host);

/* Gives the command up, and makes a class reset and clears both halts, by the next three steps. */
void host_reset(struct host *host);

/* Sends a packet that is wrong where the disk is now. */
bool host_errs(struct host *host);

/* ---- a command that is pending */

/* Whether the bytes of a command were taken, and its status is not there; and whether it may be
 * pending, as the device may have something to do for it. */
bool is_taken(const struct host *host);
bool may_be_pending(const struct host *host);

/* The bytes of a command were taken. It is dropped by a class reset; or it failed, and a MODE
 * SELECT that does leaves the write cache as it was. */
void note_taken(const struct host *host, bool is_cached);
void note_reset(const struct host *host);
void note_failure(const struct host *host, bool *is_cached);
void forget_last(void);

/* Whether the last WRITE may have been dropped by a reset. */
bool is_unsure(void);

/* Whether a command has to come next, and which: for the sense; the WRITE again of which is not
 * known whether a reset dropped it; or for the write cache behind a MODE SELECT that failed or may
 * have been dropped. */
bool is_asked(bool has_sense, struct command *command);
bool judge_cache(const struct host *host, bool *is_cached);

/* ---- the bench */

struct bench {
    struct usbdisk disk;
    struct device device;
    struct host host;
    bool rests;      /* nothing is under way, and the disk has nothing for the device */
    bool is_faulted; /* the device refused a WRITE or a FLUSH, */
    unsigned spared; /* when the bytes of this command were taken, and no status was given */
    bool has_failed; /* it refused a call of that */
    uint32_t fault;  /* which, of enum usbdisk_fault */
    uint64_t behind; /* the sector behind the last one that it was to read */
    bool is_unread;  /* it could not read this sector, */
    uint64_t unread;
    unsigned unread_in;       /* while this command was in progress */
    struct usbdisk_call wish; /* to be read ahead, as no packet came since; or none */
    bool reads_ahead;         /* the call under way is such a READ */
    unsigned goes_on;         /* one call in so many is refused, or none is */
};

/* Starts a disk on what the device holds: it is to read that first. */
bool bench_start(struct bench *bench, unsigned packet);
void bench_stop(struct bench *bench);

/* The device takes the next call, or ends the one that it is at. */
bool bench_device(struct bench *bench);

/* Some sectors are wished for ahead. False: something is wrong. */
bool bench_ahead(struct bench *bench);

/* The host's next bytes or token. They may have to wait, but never where the device rests. */
enum outcome bench_host(struct bench *bench);

/* A command, with a device that is as fast as the host. */
bool bench_run(struct bench *bench, const struct command *command);

/* Whether the disk tells what it is at. */
bool bench_state(struct bench *bench);

/* ---- what a start finds */

struct write {
    unsigned address, count;
    uint32_t number;
};

/* What a host knows of a life: the blocks that it began with, the accepted writes behind them, and
 * how many of these were promised to it. Of a life before it on a device that kept its power there
 * may be writes that were not promised. */
enum { WRITES_OF_A_LIFE = 400, WRITES = 2 * WRITES_OF_A_LIFE };
struct history {
    uint32_t opening[BLOCKS];
    struct write writes[WRITES];
    size_t accepted, promised;
};

bool finds_open(void);
void finds_close(void);

/* A write is put into blocks. */
void put(uint32_t blocks[BLOCKS], const struct write *write);

/* The number in a block, or one that no write has where it is filled with several. */
uint32_t number_in(const uint8_t block[512]);

/* Whether these are the blocks after the first k writes, for a k that may be, and which it is. */
bool is_allowed(const struct history *history, const uint32_t found[BLOCKS], size_t *writes);

/* The writes that were promised are a part of what the life began with. */
void settle(struct history *history);

/* Cuts a device, starts a disk on what is left of another one, and reads all blocks of that.
 * Whether they are those after the first k writes, for a k that may be. */
bool finds_what_it_may(const struct device *device, unsigned kept, const struct history *history,
                       uint32_t found[BLOCKS]);

#endif
