/* A USB disk in firmware without an operating system: the library between a block device that can
 * be flushed and packets (bus.c). All machines share this file; machine.h tells what one has. For a
 * board write block.c, bus.c, uart.c and the addresses in link.ld anew. */
#include "board.h"
#include "usbdisk.h"
#include <machine.h>

/* A transfer of a host has up to LIMIT blocks, and they lie from sector HOME on. */
enum { LIMIT = USBDISK_LIMIT(FORMAT), HOME = USBDISK_LOG_END(FORMAT, SLOTS) };

static const struct usbdisk_identity who = { "EXAMPLE ", "BARE            ", "0001",
                                             "000000000001" };
static struct usbdisk disk = USBDISK_NONE;
static uint8_t buffer[LIMIT * SECTOR];

static bool make_call(const struct usbdisk_call *call)
{
    switch (call->kind) {
    case USBDISK_READ:
        return block_read(call->sector, buffer, (size_t)call->count);
    case USBDISK_WRITE:
        return block_write(call->sector, buffer, (size_t)call->count);
    default:
        return block_flush();
    }
}

/* Has the device carry out all that the disk, or the work on an image, wants of it. What it refuses
 * the library knows then. Answers whether it wanted anything. */
static bool carry_out(struct usbdisk *handle)
{
    struct usbdisk_call call;
    bool is_made = false;
    while (!usbdisk_next(handle, &call, buffer, sizeof buffer) && call.kind != USBDISK_NOTHING) {
        bool ok = make_call(&call);
        size_t size = call.kind == USBDISK_READ && ok ? (size_t)call.count * SECTOR : 0;
        usbdisk_done(handle, ok, buffer, size);
        is_made = true;
    }
    return is_made;
}

/* The same of a start or of the work on an image. Answers what state this leaves. */
static uint32_t carry_through(struct usbdisk *handle, uint32_t *fault)
{
    carry_out(handle);
    return usbdisk_state(handle, fault);
}

/* Makes an image on a device that has none: super, head and log, around what lies behind them. */
static void lay_image(void)
{
    struct usbdisk image = USBDISK_NONE;
    uint64_t sectors = block_sectors();
    if (sectors <= HOME)
        give_up("a small device, of sectors", sectors);
    const struct usbdisk_plan plan = { sectors, FORMAT, SLOTS, sectors - HOME, 0 };
    uint32_t fault, code = usbdisk_lay_log(&image, &plan);
    if (code)
        give_up("no image is made:", code);
    if (carry_through(&image, &fault) != USBDISK_DONE)
        give_up("no image is made:", fault);
    usbdisk_stop(&image);
    tell("a new image, of blocks", plan.blocks);
}

/* A new device has zeros in sector 0. One with anything else stays as it is. */
static bool is_new(void)
{
    if (!block_read(0, buffer, 1))
        give_up("not read: sector", 0);
    for (int i = 0; i < SECTOR; i++)
        if (buffer[i])
            return false;
    return true;
}

static void start(void)
{
    const struct usbdisk_options options = { block_sectors(), who, PACKET, KEPT };
    if (is_new())
        lay_image();
    uint32_t fault, code = usbdisk_start(&disk, &options);
    if (code)
        give_up("no disk:", code);
    if (carry_through(&disk, &fault) != USBDISK_SERVING)
        give_up("no disk:", fault);
    tell("started, memory", usbdisk_memory_kept(FORMAT, SLOTS, KEPT));
}

/* A packet to Bulk-Out. One that waits for the device is taken once it has carried out what it
 * waits for: that may be more than once, where memory has room for few records. */
static uint32_t bulk_out(const struct event *event)
{
    size_t taken;
    uint32_t code;
    if (event->size > PACKET)
        return USBDISK_BAD_LENGTH;
    do
        code = usbdisk_out(&disk, event->bytes, event->size, &taken);
    while (code == USBDISK_NAK && carry_out(&disk));
    return code;
}

static uint32_t bulk_in(uint8_t packet[PACKET], uint32_t *size)
{
    size_t given = 0;
    uint32_t code = usbdisk_in(&disk, packet, PACKET, &given);
    *size = (uint32_t)given;
    return code;
}

/* A bus reset does what a host's reset recovery does: class reset, both halts cleared. */
static uint32_t reset(void)
{
    static const uint8_t requests[3][8] = {
        { 0x21, 0xFF, 0, 0, 0, 0, 0, 0 },
        { 0x02, 1, 0, 0, 0x81, 0, 0, 0 },
        { 0x02, 1, 0, 0, 0x02, 0, 0, 0 },
    };
    uint8_t data[2];
    uint32_t size, code = USBDISK_ACK;
    for (int i = 0; i < 3; i++)
        code |= usbdisk_setup(&disk, requests[i], data, &size);
    return code;
}

/* Plays an event, and tells its code, and the bytes for the host. */
static uint32_t play(const struct event *event, uint8_t packet[PACKET], uint32_t *size)
{
    *size = 0;
    switch (event->kind) {
    case BULK_OUT:
        return bulk_out(event);
    case BULK_IN:
        return bulk_in(packet, size);
    case SETUP:
        return usbdisk_setup(&disk, event->bytes, packet, size);
    case BUS_RESET:
        return reset();
    default:
        return usbdisk_idle(&disk);
    }
}

int main(void)
{
    static struct event event;
    static uint8_t packet[PACKET];
    uint32_t code, size;
    uart_start();
    if (usbdisk_version() != USBDISK_VERSION)
        give_up("a library of version", usbdisk_version());
    block_start();
    start();
    for (;;) {
        next_event(&event);
        code = play(&event, packet, &size);
        tell_host(code, packet, size); /* a status does not wait for what the disk does ahead */
        carry_out(&disk);
    }
}
