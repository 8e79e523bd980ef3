/* The bulk endpoints of the FunctionFS gadget. */
#include "functionfs_bulk.h"
#include "program.h"
#include <errno.h>
#include <stdio.h>
#include <string.h>
#include <time.h>

enum { BULK_IN = 0x81, BULK_OUT = 0x02, WRAPPER = 31, SOON = 1, LOCK = 10, TRIES = 100 };

bool bulk_open(struct bulk *bulk, struct disk *disk, const char *folder)
{
    char path[4096];
    memset(bulk, 0, sizeof *bulk);
    bulk->disk = disk;
    snprintf(path, sizeof path, "%s/ep1", folder);
    if (!engine_open(&bulk->engine) || !queue_open(&bulk->in, path, true))
        return false;
    snprintf(path, sizeof path, "%s/ep2", folder);
    return queue_open(&bulk->out, path, false);
}

void bulk_close(struct bulk *bulk)
{
    queue_cancel(&bulk->engine, &bulk->in);
    queue_cancel(&bulk->engine, &bulk->out);
    queue_close(&bulk->in);
    queue_close(&bulk->out);
    engine_close(&bulk->engine);
}

static void submit(struct bulk *bulk, struct queue *queue, size_t size)
{
    queue_submit(&bulk->engine, queue, size);
    bulk->is_moving = true;
}

/* A transfer failed. Where the host has let the endpoint go an event tells so; else only its reset
 * goes on from here. */
static void fail(struct bulk *bulk, int cause)
{
    if (bulk->is_enabled && cause != ESHUTDOWN && cause != ECONNRESET)
        say_of_host("a transfer failed, and the disk waits for a reset: %s", strerror(cause));
    bulk->is_enabled = false;
}

/* The system refused a transfer to the host, which is said once for each time that it begins to. */
static void rest(struct bulk *bulk, int refusal)
{
    if (bulk->refusal != refusal)
        say_of_host("a transfer to the host was refused and is tried again: %s", strerror(refusal));
    bulk->refusal = refusal;
    bulk->is_resting = true;
}

static bool is_halted(struct bulk *bulk, uint8_t endpoint)
{
    const uint8_t get_status[8] = { 0x82, 0, 0, 0, endpoint, 0, 2, 0 };
    uint8_t data[2] = { 0, 0 };
    uint32_t size;
    disk_setup(bulk->disk, get_status, data, &size);
    return data[0] & 1;
}

/* The disk has halted Bulk-Out, when it took a wrapper: nothing is in flight there. The controller
 * ends the halt without a word, so the disk's ends now. Where it does not end, the wrapper was
 * refused, and both endpoints are locked. */
static void halt_out(struct bulk *bulk)
{
    disk_clear_halt(bulk->disk, BULK_OUT);
    bulk->is_locked = is_halted(bulk, BULK_OUT);
    for (int tries = 0; !bulk->is_locked && tries < TRIES && queue_halt(&bulk->out) == EAGAIN;
         tries++)
        nanosleep(&(struct timespec){ 0, SOON * 1000000 }, NULL);
}

/* What follows a wrapper that the disk took, as its bytes tell. */
static void begin_command(struct bulk *bulk, const uint8_t *wrapper, size_t size)
{
    uint64_t length = 0;
    if (size == WRAPPER)
        length = wrapper[8] | wrapper[9] << 8 | wrapper[10] << 16 | (uint64_t)wrapper[11] << 24;
    bool sends = size == WRAPPER && wrapper[12] & 0x80;
    bulk->in_left = bulk->reads = sends ? length : 0;
    bulk->out_left = 0;
    if (is_halted(bulk, BULK_OUT))
        halt_out(bulk);
    else if (!sends)
        bulk->out_left = length;
    bulk->out_due = bulk->out_left;
}

/* The disk took a whole transfer from the host. A short one ends the data. */
static void end_transfer(struct bulk *bulk, struct transfer *transfer)
{
    size_t size = (size_t)transfer->result;
    bool is_wrapper = bulk->out_left == 0;
    bool ends = size < transfer->size || size >= bulk->out_left;
    bulk->taken = 0;
    queue_pop(&bulk->out);
    if (is_wrapper) {
        begin_command(bulk, transfer->bytes, size);
        return;
    }
    bulk->out_left = ends ? 0 : bulk->out_left - size;
    if (ends) {
        bulk->out_due = 0;
        queue_cancel(&bulk->engine, &bulk->out);
    }
}

/* Hands the oldest transfer from the host to the disk. */
static void feed(struct bulk *bulk)
{
    struct transfer *transfer = queue_done(&bulk->out);
    if (!transfer || bulk->is_locked)
        return;
    if (transfer->result < 0) {
        fail(bulk, (int)-transfer->result);
        queue_pop(&bulk->out);
        return;
    }
    size_t taken, left = (size_t)transfer->result - bulk->taken;
    uint32_t code = disk_out(bulk->disk, transfer->bytes + bulk->taken, left, &taken);
    bulk->is_moving |= taken > 0;
    bulk->taken += taken;
    if (code == USBDISK_ACK) {
        bulk->is_moving = true;
        end_transfer(bulk, transfer);
    }
}

/* Fills one transfer to the host. The status has a transfer of its own. */
static void fetch(struct bulk *bulk)
{
    struct transfer *transfer = queue_free(&bulk->in);
    bulk->is_left = !bulk->fills && bulk->in_left >= CHUNK;
    if (!transfer || bulk->halts_in || bulk->is_locked || bulk->is_left || !bulk->is_enabled)
        return;
    size_t got, room = bulk->disk->packet;
    if (bulk->in_left)
        room = bulk->in_left < CHUNK ? bulk->in_left : CHUNK;
    uint32_t code = disk_in(bulk->disk, transfer->bytes, room, &got);
    bool ends = code == USBDISK_STALL || (code == USBDISK_ACK && got < room);
    bulk->in_left = ends || got > bulk->in_left ? 0 : bulk->in_left - got;
    bulk->halts_in = code == USBDISK_STALL;
    if (got || code == USBDISK_ACK)
        submit(bulk, &bulk->in, got);
}

/* A transfer that the system refused goes again, with all behind it. Where one of these has moved
 * already, what the host has is wrong, and it gets no status. */
static void go_again(struct bulk *bulk)
{
    int refusal = queue_refused(&bulk->in);
    if (!refusal || !bulk->is_enabled)
        return;
    if (queue_ready_again(&bulk->engine, &bulk->in))
        rest(bulk, refusal);
    else
        fail(bulk, refusal);
}

/* Lets go of what the host has read. */
static void release(struct bulk *bulk)
{
    struct transfer *transfer;
    go_again(bulk);
    while ((transfer = queue_done(&bulk->in))) {
        bulk->is_moving = true;
        if (transfer->result < 0)
            fail(bulk, (int)-transfer->result);
        else
            bulk->refusal = 0;
        queue_pop(&bulk->in);
    }
}

/* Hands over what is ready for the host. What is refused at once is noted at once, before what is
 * behind it moves. */
static void send(struct bulk *bulk)
{
    int refusal = bulk->is_resting || !bulk->is_enabled ? 0 : queue_send(&bulk->engine, &bulk->in);
    if (may_pass(refusal))
        rest(bulk, refusal);
    else if (refusal)
        fail(bulk, refusal);
    engine_collect(&bulk->engine);
    go_again(bulk);
}

/* Halts Bulk-In when all before the halt is sent. What follows waits in the controller until the
 * host ends the halt. */
static void halt_in(struct bulk *bulk)
{
    if (!bulk->halts_in || bulk->in.count)
        return;
    int refusal = queue_halt(&bulk->in);
    if (refusal == EAGAIN)
        return;
    if (refusal)
        fail(bulk, refusal);
    bulk->halts_in = false;
    bulk->is_moving = true;
    disk_clear_halt(bulk->disk, BULK_IN);
}

/* Asks for the data that the disk waits for, in transfers as long as may be; or for the next
 * wrapper. */
static void ask(struct bulk *bulk)
{
    uint32_t packet = bulk->disk->packet;
    while (bulk->out_due && bulk->is_enabled && queue_free(&bulk->out)) {
        uint64_t size = bulk->out_due < CHUNK ? bulk->out_due : CHUNK;
        bulk->out_due -= size;
        submit(bulk, &bulk->out, (size + packet - 1) / packet * packet);
    }
    if (!bulk->out_left && !bulk->out.count && bulk->is_enabled && !bulk->is_locked)
        submit(bulk, &bulk->out, packet);
}

/* FunctionFS has no wedge: the host can end the halts of a refused wrapper. They are made again,
 * until the class reset. */
static void keep_lock(struct bulk *bulk)
{
    queue_cancel(&bulk->engine, &bulk->in);
    queue_cancel(&bulk->engine, &bulk->out);
    bulk->halts_in = false;
    queue_halt(&bulk->in);
    queue_halt(&bulk->out);
}

/* How many milliseconds later something is to be tried again; or -1. */
static int next_look(const struct bulk *bulk)
{
    if (!bulk->is_enabled)
        return -1;
    if (bulk->is_left)
        return 0;
    if (bulk->is_locked)
        return LOCK;
    return bulk->halts_in || bulk->is_resting ? SOON : -1;
}

int bulk_play(struct bulk *bulk, bool fills)
{
    engine_collect(&bulk->engine);
    bulk->is_resting = false;
    bulk->fills = fills;
    do {
        bulk->is_moving = false;
        release(bulk);
        feed(bulk);
        fetch(bulk);
        if (!bulk->in.handed) /* the bus idles: what follows goes by one call at the end */
            send(bulk);
        halt_in(bulk);
        ask(bulk);
    } while (bulk->is_moving && bulk->is_enabled);
    send(bulk);
    if (bulk->reads && bulk->in.count && !bulk->in_left) {
        disk_look_ahead(bulk->disk, bulk->reads);
        bulk->reads = 0;
    }
    if (bulk->is_locked && bulk->is_enabled)
        keep_lock(bulk);
    return next_look(bulk);
}

void bulk_reset(struct bulk *bulk)
{
    queue_cancel(&bulk->engine, &bulk->in);
    queue_cancel(&bulk->engine, &bulk->out);
    queue_flush(&bulk->in);
    queue_flush(&bulk->out);
    disk_bus_reset(bulk->disk);
    bulk->is_locked = bulk->halts_in = false;
    bulk->refusal = 0;
    bulk->reads = bulk->in_left = bulk->out_left = bulk->out_due = bulk->taken = 0;
}

bool bulk_is_busy(const struct bulk *bulk)
{
    return bulk->in.count || bulk->out_left;
}
