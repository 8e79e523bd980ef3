/* A disk between a host and a device: what a maker's loop does, a step of it at a time. */
#include "behind.h"

bool bench_start(struct bench *bench, unsigned packet)
{
    struct usbdisk_options options = {
        .sectors = SECTORS,
        .identity = { "EXAMPLE ", "BEHIND          ", "0001", "000000000001" },
        .packet = packet,
        .kept = 1 + random_below(6),
    };
    bench->rests = bench->is_faulted = bench->has_failed = bench->is_unread = false;
    bench->reads_ahead = false;
    bench->spared = 0;
    bench->wish.kind = USBDISK_NOTHING;
    bench->host = (struct host){ .disk = &bench->disk, .packet = packet, .is_opening = true };
    return !usbdisk_start(&bench->disk, &options) || fails("a start is refused");
}

void bench_stop(struct bench *bench)
{
    usbdisk_stop(&bench->disk);
}

/* While a call is under way there is no other, and at rest there is none to end. */
static bool is_alone(struct bench *bench)
{
    struct usbdisk_call call = { .kind = USBDISK_WRITE };
    uint8_t sector[512];
    bool is_under_way = bench->device.call.kind != USBDISK_NOTHING;
    if (random_below(8))
        return true;
    if (!is_under_way && usbdisk_done(&bench->disk, true, sector, 0) != USBDISK_NOT_ASKED)
        return fails("a call ends that was not begun");
    if (!is_under_way)
        return true;
    if (usbdisk_next(&bench->disk, &call, sector, sizeof sector) || call.kind != USBDISK_NOTHING)
        return fails("a second call is handed out while one is under way");
    return true;
}

/* The disk has nothing for the device. What waited for it must not wait any more. */
static bool note_rest(struct bench *bench)
{
    if (bench->rests && bench->host.is_refused)
        return fails("a packet or an answer waits though the device rests");
    if (bench->wish.kind != USBDISK_NOTHING)
        return fails("what is wished for ahead is never read");
    bench->rests = true;
    bench->host.is_refused = false;
    return true;
}

/* Whether a READ of the host may be pending. */
static bool may_lack(const struct host *host)
{
    return may_be_pending(host) && reads(&host->command) && !host->moved;
}

/* A READ: of a start; of what is wished for; or of what a READ of the host lacks. */
static bool judge_read(struct bench *bench, size_t room)
{
    const struct usbdisk_call *call = &bench->device.call;
    const struct usbdisk_call *wish = &bench->wish;
    bool is_again = bench->is_unread && bench->unread == call->sector &&
                    bench->unread_in == bench->host.commands;
    bool is_wished =
        wish->kind != USBDISK_NOTHING && call->sector == wish->sector && call->count == wish->count;
    bench->reads_ahead = is_wished && !may_lack(&bench->host);
    bench->wish.kind = USBDISK_NOTHING;
    bench->behind = call->sector + call->count;
    if (bench->host.is_opening && (call->count > MENDS || 512 * call->count > room))
        return fails("a start reads too many sectors at a time");
    if (!bench->host.is_opening && !is_wished && !may_lack(&bench->host))
        return fails("sectors are read that nobody lacks or wished for");
    if (is_again && !bench->reads_ahead)
        return fails("sectors that could not be read are asked for again");
    bench->is_unread &= bench->reads_ahead;
    return true;
}

static bool begin(struct bench *bench)
{
    struct device *device = &bench->device;
    size_t room = 512 * (1 + (size_t)random_below(random_below(8) ? LONGEST : 4));
    uint8_t *behind = device->buffer + room - (room == sizeof device->buffer), was = *behind;
    if (usbdisk_next(&bench->disk, &device->call, device->buffer, room))
        return fails("no next call is told");
    if (device->call.kind == USBDISK_NOTHING)
        return note_rest(bench);
    bench->rests = false;
    if (device->call.kind == USBDISK_WRITE && 512 * device->call.count > room)
        return fails("a run is longer than the buffer");
    if (room < sizeof device->buffer && *behind != was)
        return fails("a byte behind the buffer has changed");
    bool is_read = device->call.kind == USBDISK_READ;
    return (!is_read || judge_read(bench, room)) && device_begin(device);
}

/* A call of a start has ended, maybe the last one. */
static void note_opening(struct bench *bench)
{
    uint32_t fault;
    bench->host.is_opening = usbdisk_state(&bench->disk, &fault) == USBDISK_STARTING;
}

static void note_refusal(struct bench *bench, struct usbdisk_call call)
{
    static const uint32_t faults[] = { 0, USBDISK_WRITE_REFUSED, USBDISK_FLUSH_REFUSED,
                                       USBDISK_READ_REFUSED };
    if (bench->host.is_opening) {
        bench->has_failed = true;
        bench->fault = faults[call.kind];
    } else if (call.kind != USBDISK_READ) {
        bench->is_faulted = true;
        bench->spared = is_taken(&bench->host) ? bench->host.commands : 0;
    }
    if (bench->is_faulted)
        bench->wish.kind = USBDISK_NOTHING;
    if (bench->host.is_opening || call.kind != USBDISK_READ || bench->reads_ahead)
        return;
    bench->is_unread = true;
    bench->unread = call.sector;
    bench->unread_in = bench->host.commands;
}

/* Whether the device carries its call out. A refused READ ends a command, or none where it is read
 * ahead; another call ends the life. */
static bool is_carried_out(const struct bench *bench)
{
    if (bench->device.call.kind == USBDISK_READ && bench->reads_ahead)
        return random_below(4);
    bool is_cheap = bench->device.call.kind == USBDISK_READ && !bench->host.is_opening;
    return !bench->goes_on || random_below(is_cheap ? 8 : bench->goes_on);
}

static bool end(struct bench *bench)
{
    struct device *device = &bench->device;
    struct usbdisk_call call = device->call;
    size_t size = call.kind == USBDISK_READ ? 512 * (size_t)call.count : 0;
    bool is_good = is_carried_out(bench);
    device_end(device, is_good);
    if (is_good && size && !random_below(8) &&
        usbdisk_done(&bench->disk, true, device->buffer, size - 512) != USBDISK_BAD_LENGTH)
        return fails("a part of what was asked for is taken for all");
    if (usbdisk_done(&bench->disk, is_good, device->buffer, size))
        return fails("no call ends");
    if (is_good && bench->host.is_opening)
        note_opening(bench);
    if (!is_good)
        note_refusal(bench, call);
    return true;
}

bool bench_device(struct bench *bench)
{
    if (!is_alone(bench))
        return false;
    return bench->device.call.kind == USBDISK_NOTHING ? begin(bench) : end(bench);
}

bool bench_ahead(struct bench *bench)
{
    uint64_t first = bench->behind - (bench->behind > MOST ? random_below(MOST) : 0);
    uint32_t count = 1 + random_below(random_below(4) ? MOST : LONGEST);
    if (!random_below(4))
        first = random_below(SECTORS);
    uint32_t answer = usbdisk_ahead(&bench->disk, first, count);
    if (answer > 1 || (answer && (bench->device.call.kind || first + count > SECTORS)))
        return fails("sectors are to be read ahead that cannot be");
    if (!answer)
        return true;
    bench->wish = (struct usbdisk_call){ USBDISK_READ, first, count };
    bench->rests = false;
    return true;
}

enum outcome bench_host(struct bench *bench)
{
    enum outcome outcome = host_step(&bench->host);
    if (bench->rests && bench->host.is_refused && is_taken(&bench->host)) {
        fails("an answer waits though the device rests");
        return WRONG;
    }
    bench->rests &= bench->host.is_refused;
    return outcome;
}

bool bench_run(struct bench *bench, const struct command *command)
{
    enum outcome outcome = GOES_ON;
    host_begin(&bench->host, command, promises(command, true));
    while (outcome == GOES_ON || outcome == CARRIED_OUT) {
        outcome = bench_host(bench);
        if (!bench_device(bench))
            return false;
    }
    return outcome == ENDED;
}

/* What a disk answers that could not be recovered. */
static bool is_refused_at_all(struct bench *bench)
{
    static const uint8_t max_lun[8] = { 0xA1, 0xFE, 0, 0, 0, 0, 1 };
    struct usbdisk_call call = { .kind = USBDISK_WRITE };
    uint8_t packet[512] = { 0 };
    uint32_t size;
    size_t moved = 7;
    return !usbdisk_next(&bench->disk, &call, packet, sizeof packet) && !call.kind &&
           usbdisk_done(&bench->disk, true, packet, 0) == USBDISK_NOT_ASKED &&
           usbdisk_out(&bench->disk, packet, 31, &moved) == USBDISK_NAK &&
           usbdisk_in(&bench->disk, packet, sizeof packet, &moved) == USBDISK_NAK &&
           usbdisk_setup(&bench->disk, max_lun, packet, &size) == USBDISK_STALL &&
           usbdisk_idle(&bench->disk) == 1 && !usbdisk_ahead(&bench->disk, 0, 1);
}

bool bench_state(struct bench *bench)
{
    uint32_t fault = 7, state = usbdisk_state(&bench->disk, &fault);
    if ((state == USBDISK_FAILED) != bench->has_failed ||
        fault != (bench->has_failed ? bench->fault : 0))
        return fails("a start that failed is not told, or one that did not");
    if (bench->has_failed)
        return is_refused_at_all(bench) || fails("a failed start answers something else");
    if ((state == USBDISK_FAULTED) != bench->is_faulted)
        return fails("the state of a disk is not told");
    return !bench->rests || state != USBDISK_STARTING || fails("a start never ends");
}
