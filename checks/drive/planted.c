/* Faults that examples/c/behind.c is to find, around the calls of the library. The
 * environment's PLANTED is the number of one:
 *
 * 1 a promise is told before the device has caught up
 * 2 a call that the device refused counts as done
 * 3 a READ is given up where steps were made meanwhile
 * 4 a WRITE with the write cache off is taken for one that promises nothing
 * 5 the device is asked to read before it has carried out what waits
 * 6 the answer of a command that asks for nothing waits until the device has caught up
 * 7 a status that waits is told while the last call is under way
 * 8 a status waits on behind a refusal
 * 9 sectors that the device could not read are asked for again
 * 10 packets are taken, and told to be not taken
 * 11 a second call is handed out while one is under way
 * 12 a flush that waits behind a run is left out
 * 13 SYNCHRONIZE CACHE(16) is taken for a command that promises nothing
 * 14 so is MODE SELECT
 * 15 and a READ with FUA
 * 16 a status that waits is told when a call has ended, though others wait behind it
 * 17 no packet is taken while a call is under way
 * 18 a READ is played without the sectors that it lacks
 * 19 a start goes on where the device refused a READ of the first sectors
 * 20 a start reads more at once than the buffer has room for
 * 21 what was read ahead stands, though it was written since
 * 22 a READ ahead that fails ends the READ of the host that lacks these sectors
 * 23 a wish to read ahead is forgotten
 * 24 of a transfer that is taken in part nothing is told to be taken
 * 25 a byte of the room behind the packets changes
 * 26 a start flushes nothing before its first write
 * 27 in format 2 a block that goes home while no promise waits is told done, and stays away
 * 28 a class reset leaves a command that is pending
 * 29 a READ is told the bytes of the READ before it
 * 30 a FLUSH is told done when it begins
 * 31 a READ sends what lies at home, and not what waits to go there
 * 32 a recovery writes nothing */
#include "planted.h"
#include <stdlib.h>
#include <string.h>

uint32_t WRAP(start)(struct usbdisk *disk, const struct usbdisk_options *options)
{
    struct spy *it = spy_of(disk);
    for (; it->queued; it->queued--)
        free(it->queue[it->oldest++ % 64].bytes);
    memset(it, 0, sizeof *it);
    it->disk = disk;
    it->is_started = it->is_cached = true;
    return REAL(start)(disk, options);
}

/* ---- the device */

static bool is_same(const struct usbdisk_call *one, const struct usbdisk_call *other)
{
    return one->kind == other->kind && one->sector == other->sector && one->count == other->count;
}

static void queue_up(struct spy *it, const struct usbdisk_call *call, const uint8_t *bytes)
{
    struct taken *last = &it->queue[(it->oldest + it->queued++) % 64];
    size_t size = call->kind == USBDISK_WRITE ? 512 * (size_t)call->count : 1;
    *last = (struct taken){ *call, malloc(size) };
    memcpy(last->bytes, bytes, size);
}

/* Takes out what waits before a READ, and tells it done; then the READ is first. */
static void read_first(struct spy *it, struct usbdisk *disk, struct usbdisk_call *call,
                       uint8_t *buffer, size_t size)
{
    while (it->queued < 64 && (call->kind == USBDISK_WRITE || call->kind == USBDISK_FLUSH)) {
        queue_up(it, call, buffer);
        REAL(done)(disk, true, buffer, 0);
        REAL(next)(disk, call, buffer, size);
    }
}

static bool takes_queued(struct spy *it, struct usbdisk_call *call, uint8_t *buffer, size_t size)
{
    struct taken *first = &it->queue[it->oldest % 64];
    if (!it->queued || 512 * first->call.count > size)
        return false;
    *call = first->call;
    memcpy(buffer, first->bytes, call->kind == USBDISK_WRITE ? 512 * (size_t)call->count : 1);
    free(first->bytes);
    it->oldest++;
    it->queued--;
    return true;
}

/* Whether a READ has sectors that were read ahead. */
static bool meets_ahead(const struct spy *it, const struct usbdisk_call *call)
{
    const struct usbdisk_call *ahead = &it->ahead;
    return call->kind == USBDISK_READ && call->sector < ahead->sector + ahead->count &&
           ahead->sector < call->sector + call->count;
}

/* Whether a block goes home on a disk of format 2, which works ahead where its device rests. */
static bool is_home(const struct spy *it, const struct usbdisk_call *call)
{
    return it->layout.format == 2 && call->kind == USBDISK_WRITE && call->sector >= it->layout.home;
}

/* Whether a call is left out, and how it is told to have ended. */
static bool is_left_out(struct spy *it, const struct usbdisk_call *call, bool *ok)
{
    bool is_read = call->kind == USBDISK_READ && it->is_open, is_lost = false;
    bool is_flush = call->kind == USBDISK_FLUSH;
    if (PLANTED == 22)
        is_lost = it->is_ahead_lost && is_read && meets_ahead(it, call) && !it->is_ahead;
    *ok = !is_read;
    it->is_ahead_lost &= !is_lost;
    return (PLANTED == 12 && is_flush && it->is_open && it->call.kind == USBDISK_WRITE) ||
           (PLANTED == 32 && call->kind == USBDISK_WRITE && it->is_started && it->mended < 3) ||
           (PLANTED == 26 && is_flush && !it->has_written) ||
           (PLANTED == 27 && is_home(it, call) && it->has_served && !it->waits) ||
           (PLANTED == 18 && is_read) || is_lost;
}

/* Three flushes end the recovery of a start; what is written or flushed next comes behind the READs
 * of the first sectors. */
static uint32_t ask(struct spy *it, struct usbdisk *disk, struct usbdisk_call *call,
                    uint8_t *buffer, size_t size)
{
    uint32_t code = REAL(next)(disk, call, buffer, size);
    bool is_flush = call->kind == USBDISK_FLUSH, is_write = call->kind == USBDISK_WRITE;
    if (code)
        return code;
    it->is_open |= it->mended >= 3 && (is_flush || is_write);
    it->has_written |= is_write;
    it->mended += is_flush;
    return 0;
}

/* The next call of the library, but for those that are left out. */
static uint32_t tell_next(struct spy *it, struct usbdisk *disk, struct usbdisk_call *call,
                          uint8_t *buffer, size_t size)
{
    bool ok;
    uint32_t code = ask(it, disk, call, buffer, size);
    while (!code && is_left_out(it, call, &ok)) {
        REAL(done)(disk, ok, buffer, 0);
        code = ask(it, disk, call, buffer, size);
    }
    if (PLANTED == 5 && it->is_open && it->reads)
        read_first(it, disk, call, buffer, size);
    if (PLANTED == 5 && call->kind == USBDISK_NOTHING)
        takes_queued(it, call, buffer, size);
    return code;
}

uint32_t WRAP(next)(struct usbdisk *disk, struct usbdisk_call *call, uint8_t *buffer, size_t size)
{
    struct spy *it = spy_of(disk);
    bool is_under_way = it->call.kind != USBDISK_NOTHING && !it->rests, is_longer = PLANTED == 20;
    if ((PLANTED == 11 && is_under_way) || it->is_again) {
        *call = it->call;
        it->is_again = it->rests = false;
        return 0;
    }
    if (it->is_told)
        *call = (struct usbdisk_call){ .kind = USBDISK_NOTHING };
    if (is_under_way)
        return it->is_told ? 0 : REAL(next)(disk, call, buffer, size);
    is_longer &= !it->is_open && size < sizeof it->ahead_bytes;
    bool is_queued = PLANTED == 5 && takes_queued(it, call, buffer, size);
    uint32_t code = is_queued ? 0 : tell_next(it, disk, call, buffer, size + 512 * is_longer);
    if (code)
        return code;
    it->rests = call->kind == USBDISK_NOTHING;
    it->is_ahead &= is_same(call, &it->ahead);
    it->is_idled = false;
    it->call = it->rests ? it->call : *call;
    it->is_told = PLANTED == 30 && it->is_open && call->kind == USBDISK_FLUSH;
    if (it->is_told)
        REAL(done)(disk, true, buffer, 0);
    spy_writes(it, buffer);
    return 0;
}

/* The bytes of the READ before, where it had as many. */
static const uint8_t *bytes_before(struct spy *it, const uint8_t *bytes, size_t size)
{
    static uint8_t told[USBDISK_LIMIT(2) * 512];
    memcpy(told, it->read_size == size ? it->read_bytes : bytes, size);
    memcpy(it->read_bytes, bytes, size);
    it->read_size = size;
    return told;
}

/* What a READ of a host is told to hold. */
static const uint8_t *told_bytes(struct spy *it, const uint8_t *bytes, size_t size)
{
    static uint8_t mixed[USBDISK_LIMIT(2) * 512];
    const struct usbdisk_call *ahead = &it->ahead;
    if (PLANTED == 29)
        return bytes_before(it, bytes, size);
    if (PLANTED != 21 || it->is_ahead || !meets_ahead(it, &it->call) || !size)
        return bytes;
    memcpy(mixed, bytes, size);
    for (uint64_t i = 0; i < it->call.count; i++) {
        uint64_t at = it->call.sector + i - ahead->sector;
        if (at < ahead->count)
            memcpy(mixed + 512 * i, it->ahead_bytes + 512 * at, 512);
    }
    return mixed;
}

static void note_read(struct spy *it, bool ok, const uint8_t *bytes, size_t size)
{
    if (it->is_ahead && ok)
        memcpy(it->ahead_bytes, bytes, size);
    it->is_ahead_lost = it->is_ahead && !ok;
    it->is_ahead = false;
}

uint32_t WRAP(done)(struct usbdisk *disk, bool ok, const uint8_t *bytes, size_t size)
{
    struct spy *it = spy_of(disk);
    bool is_read = it->call.kind == USBDISK_READ, is_host = is_read && it->is_open;
    if (it->is_again)
        return USBDISK_NOT_ASKED;
    if (it->rests || it->call.kind == USBDISK_NOTHING)
        return REAL(done)(disk, ok, bytes, size);
    if (is_read && ok && size != 512 * it->call.count)
        return REAL(done)(disk, ok, bytes, size);
    it->rests = it->has_ended = true;
    if (it->is_told) {
        it->is_told = false;
        return 0;
    }
    if (PLANTED == 9 && is_host && !ok && !it->is_ahead) {
        it->is_again = true;
        return 0;
    }
    bool is_taken = PLANTED == 2 && !is_read, is_filled = PLANTED == 19 && is_read && !it->is_open;
    bool is_given_up = PLANTED == 3 && is_host && it->is_idled;
    if (is_read && ok && !it->is_open && !it->call.sector)
        usbdisk_look(bytes, &it->layout);
    it->is_refused |= !ok && !is_read;
    uint32_t code = REAL(done)(disk, (ok && !is_given_up) || is_taken || is_filled,
                               is_host ? told_bytes(it, bytes, size) : bytes, size);
    if (is_host)
        note_read(it, ok, bytes, size);
    /* (a call of the queue, which the library knows to be done) */
    return PLANTED == 5 && code == USBDISK_NOT_ASKED ? 0 : code;
}

/* ---- the bus */

/* The wrapper that the library is handed in place of the host's. */
static void change_wrapper(struct spy *it, uint8_t wrapper[31])
{
    bool is_read = wrapper[15] == 0x28 || wrapper[15] == 0x88;
    it->reads = is_read;
    if (PLANTED == 13 && wrapper[15] == 0x91)
        memset(wrapper + 15, 0, 16);
    if (PLANTED == 15 && is_read)
        wrapper[16] = 0;
}

/* The same of bytes: of a MODE SELECT the write cache stays on. */
static const uint8_t *changed(struct spy *it, const uint8_t *bytes, size_t size)
{
    static uint8_t copy[31];
    bool is_wrapper = !it->due && size == 31 && !memcmp(bytes, "USBC", 4);
    bool is_list = it->due && it->code == 0x15 && size == 24;
    if (!is_wrapper && !(PLANTED == 4 && is_list))
        return bytes;
    memcpy(copy, bytes, size);
    if (is_wrapper)
        change_wrapper(it, copy);
    else
        copy[6] = 4;
    return copy;
}

uint32_t WRAP(out)(struct usbdisk *disk, const uint8_t *bytes, size_t size, size_t *taken)
{
    struct spy *it = spy_of(disk);
    bool is_busy = PLANTED == 17 && it->call.kind != USBDISK_NOTHING && !it->rests;
    bool is_data = it->due > 0;
    if (!spy_settles(it, disk) || is_busy) {
        *taken = 0;
        return USBDISK_NAK;
    }
    uint32_t code = REAL(out)(disk, changed(it, bytes, size), size, taken);
    if (code != USBDISK_ACK && code != USBDISK_NAK)
        return code;
    if (*taken || code == USBDISK_ACK)
        spy_notes(it, bytes, *taken);
    it->has_served |= *taken > 0;
    if (PLANTED == 24 && code == USBDISK_NAK)
        *taken = 0;
    if (PLANTED != 10 || !is_data || ++it->packets % 64)
        return code;
    *taken = 0;
    return USBDISK_NAK;
}

static uint32_t tell_status(struct spy *it, uint8_t *room, size_t *given)
{
    const uint8_t status[13] = {
        'U', 'S', 'B', 'S', it->tag[0], it->tag[1], it->tag[2], it->tag[3]
    };
    memcpy(room, status, sizeof status);
    *given = sizeof status;
    it->owes = true;
    it->waits = false;
    return USBDISK_ACK;
}

uint32_t WRAP(in)(struct usbdisk *disk, uint8_t *room, size_t size, size_t *given)
{
    struct spy *it = spy_of(disk);
    bool is_quiet = (it->code == 0x03 || it->code == 0x1A) && size >= 512;
    bool is_late =
        (PLANTED == 6 && is_quiet && !it->rests) || (PLANTED == 8 && it->is_refused && it->waits);
    *given = is_late ? 0 : *given;
    if (is_late)
        return USBDISK_NAK;
    uint32_t code = REAL(in)(disk, room, size, given);
    if (code == USBDISK_NAK && !it->owes && spy_tells_early(it))
        return tell_status(it, room, given);
    it->waits &= code != USBDISK_ACK;
    if (PLANTED == 31 && code == USBDISK_ACK)
        spy_sends_home(it, room, *given);
    if (PLANTED == 25 && code == USBDISK_ACK && *given < size)
        room[*given] ^= 1;
    return code;
}

uint32_t WRAP(setup)(struct usbdisk *disk, const uint8_t setup[8], uint8_t data[2], uint32_t *size)
{
    struct spy *it = spy_of(disk);
    bool is_reset = setup[0] == 0x21 && setup[1] == 0xFF, is_left = PLANTED == 28 && it->waits;
    uint32_t code = is_reset && is_left ? USBDISK_ACK : REAL(setup)(disk, setup, data, size);
    if (code == USBDISK_ACK && is_reset)
        spy_resets(it);
    return code;
}

uint32_t WRAP(idle)(struct usbdisk *disk)
{
    spy_of(disk)->is_idled = true;
    return REAL(idle)(disk);
}

uint32_t WRAP(ahead)(struct usbdisk *disk, uint64_t first, uint32_t count)
{
    struct spy *it = spy_of(disk);
    if (PLANTED == 23)
        return count > 0 && count <= USBDISK_LIMIT(1) && it->rests;
    uint32_t answer = REAL(ahead)(disk, first, count);
    if (answer != 1)
        return answer;
    it->ahead = (struct usbdisk_call){ USBDISK_READ, first, count };
    it->is_ahead = true;
    it->is_ahead_lost = false;
    return answer;
}
