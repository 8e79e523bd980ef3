#include "link.h"
#include <string.h>

/* The link: 35 MB/s, and 100 microseconds between two commands. */
static const double PACKET_TIME = 512 / 35.0, TURN = 100;
enum { PACKET = 512 };

static uint8_t buffer[512 * MOST];

/* ---- the device */

static bool is_working(const struct linked *linked)
{
    return linked->call.kind != USBDISK_NOTHING;
}

static double time_of(const struct device_costs *costs, const struct usbdisk_call *call)
{
    if (call->kind == USBDISK_FLUSH)
        return costs->flush;
    double sector = call->kind == USBDISK_READ ? costs->read : costs->write;
    return costs->command + sector * (double)call->count;
}

/* The device begins its next call, if there is one. Where there is none, the disk may make steps in
 * the background. */
static void begin_call(struct linked *linked)
{
    if (usbdisk_next(&linked->host.disk, &linked->call, buffer, sizeof buffer))
        fail("the disk does not say what comes next");
    if (linked->is_eager && !is_working(linked) && usbdisk_idle(&linked->host.disk) <= 1)
        usbdisk_next(&linked->host.disk, &linked->call, buffer, sizeof buffer);
    if (!is_working(linked))
        return;
    double time = time_of(linked->costs, &linked->call);
    linked->call_ends = linked->now + time;
    linked->worked += time;
}

static void end_call(struct linked *linked)
{
    bool is_read = linked->call.kind == USBDISK_READ;
    const uint8_t *bytes = is_read ? linked->host.device + 512 * linked->call.sector : buffer;
    if (usbdisk_done(&linked->host.disk, true, bytes, is_read ? 512 * linked->call.count : 0))
        fail("the end of a call is not taken");
    linked->call.kind = USBDISK_NOTHING;
}

/* The device works until the clock comes to this time. */
static void work_until(struct linked *linked, double time)
{
    if (!is_working(linked))
        begin_call(linked);
    while (is_working(linked) && linked->call_ends <= time) {
        linked->now = linked->call_ends;
        end_call(linked);
        begin_call(linked);
    }
    linked->now = time;
}

/* The device works until its call has ended: the host has to wait. */
static void wait_for_device(struct linked *linked)
{
    if (!is_working(linked))
        begin_call(linked);
    if (!is_working(linked))
        fail("the host waits, and the device for nothing");
    work_until(linked, linked->call_ends);
}

void end_linked(struct linked *linked)
{
    begin_call(linked);
    while (is_working(linked))
        wait_for_device(linked);
}

/* ---- the host */

/* A packet comes over the link, and the disk takes it. */
static void send_packet(struct linked *linked, const uint8_t *bytes, size_t size)
{
    size_t taken;
    uint32_t code;
    work_until(linked, linked->now + PACKET_TIME * (double)size / PACKET);
    while ((code = usbdisk_out(&linked->host.disk, bytes, size, &taken)) == USBDISK_NAK)
        wait_for_device(linked);
    if (code != USBDISK_ACK)
        fail("a packet is not taken");
}

/* A packet of so many bytes goes to the host, when the disk has it. */
static void receive_packet(struct linked *linked, size_t size)
{
    uint8_t room[PACKET];
    size_t given;
    uint32_t code;
    while ((code = usbdisk_in(&linked->host.disk, room, sizeof room, &given)) == USBDISK_NAK)
        wait_for_device(linked);
    if (code != USBDISK_ACK || given != size)
        fail("no packet of this size comes");
    if (size == 13 && room[12])
        fail("a command fails");
    work_until(linked, linked->now + PACKET_TIME * (double)size / PACKET);
}

static uint32_t call_store(struct host *host, const struct command *command)
{
    static uint8_t data[512 * MOST];
    switch (command->code) {
    case READ_10:
        return usbdisk_store_read(&host->disk, command->address, data, 512 * command->blocks);
    case WRITE_10:
        return usbdisk_store_write(&host->disk, command->address, data, 512 * command->blocks);
    default:
        return usbdisk_store_sync(&host->disk);
    }
}

/* A stack asks the store, as often as it is told BUSY. */
static void ask_store(struct linked *linked, const struct command *command)
{
    uint32_t code;
    while ((code = call_store(&linked->host, command)) == USBDISK_BUSY)
        wait_for_device(linked);
    if (code)
        fail("a store fails");
}

/* The same command where a stack plays it on a store: data come before the store is asked for a
 * write, and go behind a read. */
static void play_stored(struct linked *linked, const struct command *command)
{
    static const struct command synchronize = { .code = SYNCHRONIZE_10 };
    double began = linked->now + TURN, data = PACKET_TIME * command->blocks;
    bool is_read = command->code == READ_10;
    work_until(linked, began + (is_read ? 0 : data));
    ask_store(linked, command);
    if (command->is_forced)
        ask_store(linked, &synchronize);
    if (is_read) {
        work_until(linked, linked->now + data);
        linked->reads[linked->reads_played++] = linked->now - began;
    }
}

static void play_wrapped(struct linked *linked, const struct command *command)
{
    static const uint8_t data[PACKET];
    uint8_t wrapper[WRAPPER];
    double began = linked->now + TURN;
    bool is_read = command->code == READ_10, is_write = command->code == WRITE_10;
    make_wrapper(command, wrapper);
    work_until(linked, began);
    send_packet(linked, wrapper, sizeof wrapper);
    for (uint32_t sent = 0; is_write && sent < command->blocks; sent++)
        send_packet(linked, data, sizeof data);
    for (uint32_t got = 0; is_read && got < command->blocks; got++)
        receive_packet(linked, PACKET);
    receive_packet(linked, 13);
    if (is_read)
        linked->reads[linked->reads_played++] = linked->now - began;
}

void play_linked(struct linked *linked, const struct command *command)
{
    if (linked->host.is_store)
        play_stored(linked, command);
    else
        play_wrapped(linked, command);
}
