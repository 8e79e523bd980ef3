#include "host.h"
#include "image.h"
#include <stdio.h>
#include <stdlib.h>
#include <string.h>

static uint8_t buffer[512 * MOST];

void fail(const char *what)
{
    fprintf(stderr, "bench/device: %s\n", what);
    exit(EXIT_FAILURE);
}

void let_device_work(struct host *host)
{
    struct usbdisk_call call;
    for (;;) {
        if (usbdisk_next(&host->disk, &call, buffer, sizeof buffer))
            fail("the disk does not say what comes next");
        if (call.kind == USBDISK_NOTHING)
            return;
        if (host->note)
            host->note(host, &call);
        bool is_read = call.kind == USBDISK_READ;
        const uint8_t *bytes = is_read ? host->device + 512 * call.sector : buffer;
        if (usbdisk_done(&host->disk, true, bytes, is_read ? 512 * call.count : 0))
            fail("the end of a call is not taken");
    }
}

static void send(struct host *host, const uint8_t *bytes, size_t size)
{
    size_t taken, at = 0;
    uint32_t code;
    while ((code = usbdisk_out(&host->disk, bytes + at, size - at, &taken)) == USBDISK_NAK) {
        at += taken;
        let_device_work(host);
    }
    if (code != USBDISK_ACK)
        fail("a packet is not taken");
    let_device_work(host);
}

static void receive(struct host *host, size_t size)
{
    static uint8_t bytes[512 * MOST + 512];
    size_t given;
    if (usbdisk_in(&host->disk, bytes, sizeof bytes, &given) || given != size)
        fail("no packets of this size come");
    if (bytes[size - 1])
        fail("a command fails");
}

void make_wrapper(const struct command *command, uint8_t wrapper[WRAPPER])
{
    uint32_t length = command->code == SYNCHRONIZE_10 ? 0 : 512 * command->blocks;
    uint32_t address = command->address;
    const uint8_t bytes[WRAPPER] = {
        'U',
        'S',
        'B',
        'C',
        1,
        [8] = length & 255,
        length >> 8 & 255,
        length >> 16 & 255,
        [12] = command->code == READ_10 ? 0x80 : 0,
        [14] = 10,
        command->code,
        [16] = command->is_forced ? 8 : 0,
        address >> 24,
        address >> 16 & 255,
        address >> 8 & 255,
        address & 255,
        [22] = command->blocks >> 8 & 255,
        command->blocks & 255,
    };
    memcpy(wrapper, bytes, sizeof bytes);
}

void play_command(struct host *host, const struct command *command)
{
    static const uint8_t data[512 * MOST];
    uint8_t wrapper[WRAPPER];
    make_wrapper(command, wrapper);
    send(host, wrapper, sizeof wrapper);
    if (command->code == WRITE_10)
        send(host, data, 512 * command->blocks);
    receive(host, (command->code == READ_10 ? 512 * command->blocks : 0) + 13);
}

/* A command of 18 bytes of sense, which ends the unit attention. */
static void request_sense(struct host *host)
{
    static const uint8_t wrapper[WRAPPER] = {
        'U', 'S', 'B', 'C', 1, [8] = 18, [12] = 0x80, [14] = 6, 0x03, [19] = 18
    };
    send(host, wrapper, sizeof wrapper);
    uint8_t room[512];
    size_t given;
    if (usbdisk_in(&host->disk, room, sizeof room, &given) || given != 18)
        fail("no sense data come");
    receive(host, 13);
}

void start_disk(struct host *host)
{
    struct usbdisk_options options = {
        .identity = { "EXAMPLE ", "MEASURE         ", "0001", "000000000001" },
        .packet = 512,
        .kept = host->kept,
    };
    struct usbdisk_log log;
    if (usbdisk_log_of(host->format, host->slots, 1, &log))
        fail("no such image");
    host->sectors = log.home + BLOCKS;
    host->limit = (uint32_t)log.limit;
    host->device = malloc(512 * host->sectors);
    if (!host->device ||
        format_memory(host->device, 512 * host->sectors, host->format, BLOCKS, host->slots))
        fail("no image");
    options.sectors = host->sectors;
    if (host->is_store ? usbdisk_store_start(&host->disk, &options)
                       : usbdisk_start(&host->disk, &options))
        fail("no disk");
    let_device_work(host);
    if (!host->is_store)
        request_sense(host);
}

void stop_disk(struct host *host)
{
    usbdisk_stop(&host->disk);
    free(host->device);
}

bool rest_once(struct host *host)
{
    bool is_left = usbdisk_idle(&host->disk) == 1;
    let_device_work(host);
    return is_left;
}
