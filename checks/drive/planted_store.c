/* Faults that examples/c/behind_store.c is to find, around the calls of the library. The
 * environment's PLANTED is the number of one:
 *
 * 1 a sync is good while the device has something to carry out
 * 2 a call that the device refused counts as done
 * 3 a flush is left out
 * 4 a write that was not accepted is told to be
 * 5 the read behind one that was refused is refused too
 * 6 a read tells old bytes, which the device gave before
 * 7 a call is answered BUSY once more than it has to be, and then for good
 * 8 a start flushes nothing before its first write */
#include "planted.h"
#include <string.h>

uint32_t REAL(store_read)(struct usbdisk *, uint64_t, uint8_t *, size_t);
uint32_t REAL(store_write)(struct usbdisk *, uint64_t, const uint8_t *, size_t);
uint32_t REAL(store_sync)(struct usbdisk *);

/* The call that was told last, of any store: the judge plays one at a time. */
static uint32_t kind;
static size_t reads;

/* Whether a store starts that was told no WRITE yet. The judge has one that it cuts, and others,
 * one behind the other, that start on what is left. */
static bool is_unwritten(struct usbdisk *store, const struct usbdisk_call *call)
{
    static const struct usbdisk *first;
    static bool has_written[2];
    uint32_t fault;
    first = first ? first : store;
    bool *it = &has_written[store != first];
    *it &= call->kind != USBDISK_READ || call->sector != 0;
    *it |= call->kind == USBDISK_WRITE;
    return !*it && usbdisk_state(store, &fault) == USBDISK_STARTING;
}

uint32_t WRAP(next)(struct usbdisk *store, struct usbdisk_call *call, uint8_t *buffer, size_t size)
{
    uint32_t code = REAL(next)(store, call, buffer, size);
    bool is_early = PLANTED == 8 && !code && is_unwritten(store, call);
    while ((PLANTED == 3 || is_early) && !code && call->kind == USBDISK_FLUSH) {
        REAL(done)(store, true, buffer, 0);
        code = REAL(next)(store, call, buffer, size);
    }
    kind = code ? kind : call->kind;
    return code;
}

uint32_t WRAP(done)(struct usbdisk *store, bool ok, const uint8_t *bytes, size_t size)
{
    static uint8_t kept[USBDISK_LIMIT(2) * 512];
    bool is_read = kind == USBDISK_READ && ok, is_taken = PLANTED == 2 && kind != USBDISK_READ;
    uint32_t fault;
    bool is_old = PLANTED == 6 && is_read && ++reads % 8 == 0 &&
                  usbdisk_state(store, &fault) == USBDISK_SERVING;
    uint32_t code = REAL(done)(store, ok || is_taken, is_old ? kept : bytes, size);
    if (is_read && size <= sizeof kept)
        memcpy(kept, bytes, size);
    return code;
}

uint32_t WRAP(store_read)(struct usbdisk *store, uint64_t block, uint8_t *bytes, size_t size)
{
    static bool is_again;
    if (PLANTED == 5 && is_again) {
        is_again = false;
        return USBDISK_READ_REFUSED;
    }
    uint32_t code = REAL(store_read)(store, block, bytes, size);
    is_again = code == USBDISK_READ_REFUSED;
    return code;
}

uint32_t WRAP(store_write)(struct usbdisk *store, uint64_t block, const uint8_t *bytes, size_t size)
{
    uint32_t code = REAL(store_write)(store, block, bytes, size);
    return PLANTED == 4 && code == USBDISK_BUSY ? 0 : code;
}

uint32_t WRAP(store_sync)(struct usbdisk *store)
{
    static size_t syncs;
    uint32_t code = REAL(store_sync)(store);
    bool is_late = PLANTED == 7 && !code && ++syncs > 100;
    if (is_late)
        return USBDISK_BUSY;
    return PLANTED == 1 && code == USBDISK_BUSY ? 0 : code;
}
