/* A disk of the port layer over an image file or a block device: what is said and counted of it. */
#include "device.h"
#include "program.h"
#include <errno.h>
#include <inttypes.h>
#include <stdio.h>
#include <string.h>

enum { STATUS = 13 }; /* bytes of a status */

/* A slot of the log begins with the first sector of a record. */
static uint64_t records_in(const struct usbdisk_log *log, uint64_t first, uint64_t count)
{
    uint64_t records = 0;
    for (uint64_t sector = first; sector < first + count; sector++)
        records += sector >= 2 && sector < log->end && (sector - 2) % log->slot_sectors == 0;
    return records;
}

/* The device, as the port layer calls it: in the thread of the disk, but for sector 0. */
static bool read_for(void *context, uint64_t first, uint8_t *bytes, size_t count)
{
    return read_sectors(context, bytes, first, count);
}

static bool write_for(void *context, uint64_t first, const uint8_t *bytes, size_t count)
{
    return write_sectors(context, bytes, first, count);
}

static bool flush_for(void *context)
{
    return flush(context);
}

/* The next call of the device. */
static bool take_call(void *of)
{
    struct disk *disk = of;
    struct counters *counters = &disk->counters;
    const struct usbdisk_call *call = usbdisk_io_next(disk->io);
    if (!call)
        return false;
    disk->kind = call->kind;
    disk->place = call->sector;
    disk->count = call->count;
    if (call->kind == USBDISK_READ) {
        counters->reads++;
        counters->read += call->count * 512;
    } else if (call->kind == USBDISK_WRITE) {
        counters->writes++;
        counters->written += call->count * 512;
        counters->records += records_in(&disk->log, call->sector, call->count);
    } else
        counters->flushes++;
    return true;
}

static void carry_out_call(void *of)
{
    struct disk *disk = of;
    errno = EIO;
    disk->cause = usbdisk_io_carry_out(disk->io) ? 0 : errno;
}

/* Why no disk starts, or 0. The lock is held. */
static uint32_t fault_of(struct disk *disk)
{
    uint32_t fault = 0;
    usbdisk_io_state(disk->io, &fault);
    return fault;
}

static bool is_starting(struct disk *disk)
{
    uint32_t fault;
    return usbdisk_io_state(disk->io, &fault) == USBDISK_STARTING;
}

/* The device refused the call of a disk that goes on. What was promised stays. Behind a write or a
 * flush nothing that follows it is asked for any more, and no answer goes out good that is not out
 * yet. What is read ahead and refused nobody has asked for. */
static void tell_refusal(struct disk *disk, bool is_ahead)
{
    errno = disk->cause;
    if (disk->kind != USBDISK_READ) {
        refuse_call(disk,
                    disk->kind == USBDISK_WRITE ? "a write was refused" : "a flush was refused");
        refuse(disk, STATUS_FILE,
               "serves no block until the next start; look after the device before it");
        disk->has_faulted = true;
        device_thread_await(&disk->thread, A_CALL);
        return;
    }
    if (is_ahead || is_starting(disk))
        return;
    disk->counters.unread++;
    say_of_host("%s: %" PRIu64 " sectors from %" PRIu64 " on are not read: %s", disk->path,
                disk->count, disk->place, strerror(disk->cause));
}

static void end_call(void *of)
{
    struct disk *disk = of;
    bool is_ahead = usbdisk_io_reads_ahead(disk->io);
    usbdisk_io_done(disk->io, !disk->cause);
    /* (why a start fails, the start tells) */
    if (disk->cause && !fault_of(disk))
        tell_refusal(disk, is_ahead);
}

static const struct device_work work = { take_call, carry_out_call, end_call };

static void lock(struct disk *disk)
{
    device_thread_lock(&disk->thread);
}

static void unlock(struct disk *disk)
{
    device_thread_unlock(&disk->thread);
}

/* What sector 0 tells; nothing, where it is no super: what is wrong with it the start says. */
static bool read_super(struct disk *disk)
{
    struct usbdisk_layout layout = { 0 };
    uint8_t sector[512];
    if (!read_sectors(disk, sector, 0, 1))
        return refuse_call(disk, "sector 0 is not read");
    usbdisk_look(sector, &layout);
    disk->format = layout.format;
    disk->blocks = layout.blocks;
    usbdisk_log_of(layout.format, layout.slots, 1, &disk->log);
    return true;
}

bool disk_open(struct disk *disk, const char *path)
{
    memset(disk, 0, sizeof *disk);
    disk->path = path;
    disk->file = -1;
    number_disk(disk);
    disk_name(disk, &(struct names){ 0 });
    bool is_open = device_thread_open(&disk->thread) || refuse_call(disk, "no file for events");
    if (is_open && open_device(disk) && read_super(disk))
        return true;
    disk_close(disk);
    return false;
}

/* A read that the device refused is said here, since the start is what asked for it. */
static bool refuse_start(struct disk *disk, uint32_t fault)
{
    char cause[128];
    const char *help = fault == USBDISK_BAD_SUPER ? " (docs/GADGET.md tells how to make one)" : "";
    if (fault == USBDISK_READ_REFUSED)
        return refuse_call(disk, "a read was refused");
    if (fault == USBDISK_WRITE_REFUSED)
        return refuse_call(disk, "a write was refused");
    if (fault == USBDISK_FLUSH_REFUSED)
        return refuse_call(disk, "a flush was refused");
    snprintf(cause, sizeof cause, "refused: %s%s", usbdisk_text(fault), help);
    return refuse(disk, fault == USBDISK_NO_MEMORY ? STATUS_MEMORY : STATUS_REFUSED, cause);
}

/* Begins a disk, and has the device carry out its start. False: said why. */
static bool try_start(struct disk *disk, uint32_t packet)
{
    disk_stop(disk);
    disk->has_faulted = disk->is_held = false;
    uint32_t fault = usbdisk_io_begin(&disk->io, &disk->device, &disk->identity, packet);
    if (fault)
        return refuse_start(disk, fault);
    disk->packet = packet;
    if (!device_thread_begin(&disk->thread, &work, disk))
        return refuse_call(disk, "no thread for the device");
    disk_rest(disk);
    lock(disk);
    fault = fault_of(disk);
    unlock(disk);
    errno = disk->cause;
    return fault ? refuse_start(disk, fault) : !disk_has_faulted(disk);
}

bool disk_start(struct disk *disk, uint32_t packet)
{
    disk->device = (struct usbdisk_io_device){ disk,      disk->sectors, read_for,
                                               write_for, flush_for,     0 };
    if (try_start(disk, packet))
        return true;
    disk_stop(disk);
    return false;
}

int disk_ended(const struct disk *disk)
{
    return disk->thread.ended;
}

void disk_note_end(struct disk *disk)
{
    device_thread_noted(&disk->thread);
}

bool disk_is_busy(struct disk *disk)
{
    lock(disk);
    bool is_busy = disk->thread.is_busy;
    unlock(disk);
    return is_busy;
}

void disk_rest(struct disk *disk)
{
    device_thread_rest(&disk->thread);
}

bool disk_has_faulted(struct disk *disk)
{
    lock(disk);
    bool has_faulted = disk->has_faulted;
    unlock(disk);
    return has_faulted;
}

uint32_t disk_out(struct disk *disk, const uint8_t *bytes, size_t size, size_t *taken)
{
    lock(disk);
    uint32_t code = usbdisk_io_out(disk->io, bytes, size, taken);
    disk->counters.waits += code == USBDISK_NAK && !(disk->is_held && !*taken);
    disk->counters.from_host += *taken;
    disk->is_held = code == USBDISK_NAK;
    if (code == USBDISK_NAK)
        device_thread_await(&disk->thread, A_CALL);
    unlock(disk);
    return code;
}

/* A status is a packet of its own, and the last one of a transfer, since it is short. */
uint32_t disk_in(struct disk *disk, uint8_t *bytes, size_t size, size_t *got)
{
    lock(disk);
    uint32_t code = usbdisk_io_in(disk->io, bytes, size, got);
    disk->counters.to_host += *got;
    if (*got % disk->packet == STATUS)
        disk->counters.commands += !memcmp(bytes + *got - STATUS, "USBS", 4);
    if (code == USBDISK_NAK)
        device_thread_await(&disk->thread, A_CALL);
    unlock(disk);
    return code;
}

void disk_look_ahead(struct disk *disk, uint64_t size)
{
    lock(disk);
    usbdisk_io_look_ahead(disk->io, size);
    unlock(disk);
}

uint32_t disk_setup(struct disk *disk, const uint8_t setup[8], uint8_t data[2], uint32_t *size)
{
    lock(disk);
    uint32_t code = usbdisk_io_setup(disk->io, setup, data, size);
    unlock(disk);
    return code;
}

void disk_clear_halt(struct disk *disk, uint8_t endpoint)
{
    lock(disk);
    usbdisk_io_clear_halt(disk->io, endpoint);
    unlock(disk);
}

void disk_bus_reset(struct disk *disk)
{
    if (!disk->io)
        return;
    lock(disk);
    usbdisk_io_reset(disk->io);
    disk->is_held = false;
    unlock(disk);
}

bool disk_tick(struct disk *disk)
{
    lock(disk);
    bool is_left = disk->thread.is_busy || usbdisk_io_idle(disk->io);
    device_thread_await(&disk->thread, is_left ? ALL_CALLS : 0);
    unlock(disk);
    return is_left;
}

bool disk_settle(struct disk *disk)
{
    disk_rest(disk);
    while (disk_tick(disk))
        disk_rest(disk);
    disk_rest(disk);
    lock(disk);
    bool has_faulted = usbdisk_io_has_faulted(disk->io);
    unlock(disk);
    if (has_faulted)
        return refuse(disk, STATUS_FILE,
                      "the disk has faulted: what was not synchronised may be lost");
    say("%s: all is written and at home", disk->path);
    return true;
}

void disk_count(struct disk *disk)
{
    lock(disk);
    const struct counters counters = disk->counters, *it = &counters;
    unlock(disk);
    say("%s: %" PRIu64 " commands, %" PRIu64 " bytes to the host, %" PRIu64 " from it, %" PRIu64
        " waits; %" PRIu64 " records",
        disk->path, it->commands, it->to_host, it->from_host, it->waits, it->records);
    say("%s: %" PRIu64 " writes to the device of %" PRIu64 " bytes, %" PRIu64 " flushes, %" PRIu64
        " reads of %" PRIu64 " bytes, %" PRIu64 " of them refused",
        disk->path, it->writes, it->written, it->flushes, it->reads, it->read, it->unread);
}

void disk_stop(struct disk *disk)
{
    device_thread_end(&disk->thread);
    usbdisk_io_stop(disk->io);
    disk->io = NULL;
    disk->packet = 0;
}

void disk_close(struct disk *disk)
{
    disk_stop(disk);
    close_device(disk);
    device_thread_close(&disk->thread);
}
