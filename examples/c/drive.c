/* A maker's loop whose device works while packets come; and beside it the loop by which each packet
 * waits for the device. Prints what plain WRITEs of 120 KiB reach on a link of 35 MB/s by each:
 * drive [WRITES]. What device and link take is a model (drive_device.c). */
#include "drive.h"
#include "image.h"
#include <stdio.h>
#include <stdlib.h>
#include <string.h>

enum { SLOTS = 6, BLOCKS = 60000, SECTORS = USBDISK_LOG_END(2, SLOTS) + BLOCKS, WARM = 60 };

struct maker {
    struct usbdisk disk;
    struct device device;
    struct host host;
    struct usbdisk_call call;       /* under way, or none */
    uint8_t buffer[TRANSFER * 512]; /* of that call */
};

/* The device has ended its call, or is at none: it takes the next one, where there is one. This
 * device refuses none. */
static void serve_device(struct maker *it)
{
    size_t given = it->call.kind == USBDISK_READ ? 512 * it->call.count : 0;
    if (it->call.kind != USBDISK_NOTHING && !device_has_ended(&it->device))
        return;
    if (it->call.kind != USBDISK_NOTHING)
        usbdisk_done(&it->disk, true, it->buffer, given);
    usbdisk_next(&it->disk, &it->call, it->buffer, sizeof it->buffer);
    if (it->call.kind != USBDISK_NOTHING)
        device_begin(&it->device, &it->call, it->buffer);
}

/* The bus has a packet, or asks for one. */
static void serve_bus(struct maker *it)
{
    uint8_t packet[PACKET];
    uint32_t size = host_packet(&it->host, packet), code;
    size_t moved = 0;
    if (size)
        code = usbdisk_out(&it->disk, packet, size, &moved);
    else
        code = usbdisk_in(&it->disk, packet, sizeof packet, &moved);
    host_hears(&it->host, code, packet, size ? size : (uint32_t)moved);
}

static void serve(struct maker *it)
{
    while (!host_is_done(&it->host)) {
        serve_device(it);
        if (host_is_ready(&it->host)) {
            serve_bus(it);
            continue;
        }
        if (it->call.kind == USBDISK_NOTHING && host_rests(&it->host)) {
            usbdisk_idle(&it->disk);
            serve_device(it);
        }
        wait_for_either(&it->device, &it->host);
    }
}

/* The device carries out all that is wanted, and nothing else happens meanwhile. */
static void finish(struct maker *it)
{
    serve_device(it);
    while (it->call.kind != USBDISK_NOTHING) {
        device_wait(&it->device);
        serve_device(it);
    }
}

static void serve_by_turns(struct maker *it)
{
    while (!host_is_done(&it->host)) {
        if (!host_is_ready(&it->host))
            wait_for_either(&it->device, &it->host);
        serve_bus(it);
        finish(it);
    }
}

/* By one of these loops, on a disk that has filled its log before. */
static double measure(void serves(struct maker *it), const struct costs *costs, uint8_t *bytes,
                      uint32_t writes)
{
    static const struct usbdisk_options options = {
        .sectors = SECTORS,
        .identity = { "EXAMPLE ", "DRIVE           ", "0001", "000000000001" },
        .packet = PACKET,
    };
    static struct maker maker;
    maker = (struct maker){ .disk = USBDISK_NONE };
    if (!device_open(&maker.device, costs, bytes) || usbdisk_start(&maker.disk, &options))
        return 0;
    finish(&maker);
    host_open(&maker.host, WARM, BLOCKS);
    serves(&maker);
    host_open(&maker.host, writes, BLOCKS);
    serves(&maker);
    double speed = host_speed(&maker.host);
    device_close(&maker.device);
    usbdisk_stop(&maker.disk);
    return speed;
}

int main(int count, char **words)
{
    static const struct costs models[] = { { "an eMMC of 80 MB/s", 100000, 6400, 1000000 },
                                           { "an SD card of 20 MB/s", 400000, 25600, 5000000 } };
    uint32_t writes = count > 1 ? (uint32_t)atoi(words[1]) : 200;
    uint8_t *bytes = malloc((size_t)SECTORS * 512);
    if (!bytes || !writes)
        return EXIT_FAILURE;
    for (size_t i = 0; i < sizeof models / sizeof *models; i++) {
        if (format_memory(bytes, (size_t)SECTORS * 512, 2, BLOCKS, SLOTS))
            return EXIT_FAILURE;
        double turns = measure(serve_by_turns, &models[i], bytes, writes);
        double both = measure(serve, &models[i], bytes, writes);
        printf(
            "%s: %.1f MB/s where each packet waits for the device, %.1f where it works meanwhile\n",
            models[i].name, turns, both);
    }
    free(bytes);
    return EXIT_SUCCESS;
}
