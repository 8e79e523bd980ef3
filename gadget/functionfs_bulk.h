/* The bulk endpoints of the FunctionFS gadget: what stands between the kernel's transfers and the
 * disk's packets. */
#ifndef FUNCTIONFS_BULK_H
#define FUNCTIONFS_BULK_H

#include "disk.h"
#include "functionfs_queue.h"

struct bulk {
    struct disk *disk;
    struct engine engine;
    struct queue in, out;
    bool is_enabled;   /* the host has set the configuration */
    bool is_locked;    /* a refused wrapper: both endpoints are halted until the class reset */
    bool halts_in;     /* Bulk-In is to be halted when all before it is sent */
    uint64_t reads;    /* bytes of the READ on its way, behind which nobody has looked */
    uint64_t in_left;  /* bytes of data that the host still waits for */
    uint64_t out_left; /* bytes of data that the disk still waits for */
    uint64_t out_due;  /* those of them that no transfer asks for yet */
    size_t taken;      /* how many bytes of the oldest transfer from the host the disk has taken */
    bool fills;        /* whoever plays now fills also the long data of a READ */
    bool is_left;      /* such data were left to the next one */
    bool is_moving;    /* something has changed since the last look */
    bool is_resting; /* the system refused a transfer to the host: the next try comes with the next
                        look */
    int refusal;     /* why it did, or 0 */
};

/* Opens both endpoints in the folder of FunctionFS. False: the system refused. */
bool bulk_open(struct bulk *bulk, struct disk *disk, const char *folder);

/* Takes all transfers back, and gives memory and files back. */
void bulk_close(struct bulk *bulk);

/* Does all that can be done without waiting; the long data of a READ only where it `fills`, since
 * who has read a wrapper lets the host ask for them, and reads on. Answers how many milliseconds
 * later it wants to be called and to fill at the latest, where nothing comes before; or -1. */
int bulk_play(struct bulk *bulk, bool fills);

/* The class reset: takes all transfers back, with what the controller holds of them, and the disk
 * expects a wrapper. The host clears its halts in the controller, which tells nobody, so the disk's
 * end here. */
void bulk_reset(struct bulk *bulk);

/* Whether a command is in progress. */
bool bulk_is_busy(const struct bulk *bulk);

#endif
