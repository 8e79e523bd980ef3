/* How much stack the calls of the library take: the stack below is painted, the calls are made, and
 * then it is looked how far the paint is gone. */
#include "stack.h"
#include "gadget.h"
#include "image.h"
#include "usbdisk.h"
#include <stdint.h>
#include <stdlib.h>
#include <string.h>

enum { BLOCKS = 500, SLOTS = 2, COUNT = 40, PAINT = 0x5A, STACK = 1 << 20 };
enum { DATA_IN = 0x80, MOST = USBDISK_LIMIT(2) };

/* An image in memory stands for the device. */
struct device {
    uint8_t *bytes;
    size_t sectors;
    uint64_t written;
    bool reads, refuses; /* it can read; it refuses a write or a flush */
};

/* A command block, and the bytes that the host means to move. */
struct played {
    uint8_t flags;
    uint16_t length;
    uint8_t size;
    uint8_t block[16];
};

/* Each command of the disk, with each of its pages, and some that it refuses. */
static const struct played commands[] = {
    { DATA_IN, 0, 6, { 0x00 } },
    { DATA_IN, 18, 6, { 0x03, 0, 0, 0, 18 } },
    { DATA_IN, 36, 6, { 0x12, 0, 0, 0, 36 } },
    { DATA_IN, 255, 6, { 0x12, 1, 0x00, 0, 255 } },
    { DATA_IN, 255, 6, { 0x12, 1, 0x80, 0, 255 } },
    { DATA_IN, 255, 6, { 0x12, 1, 0x83, 0, 255 } },
    { DATA_IN, 255, 6, { 0x12, 1, 0xB0, 0, 255 } },
    { DATA_IN, 255, 6, { 0x12, 1, 0xB1, 0, 255 } },
    { DATA_IN, 255, 6, { 0x12, 1, 0xB2, 0, 255 } },
    { DATA_IN, 255, 6, { 0x12, 1, 0xEE, 0, 255 } },
    { DATA_IN, 192, 6, { 0x1A, 0, 0x3F, 0, 192 } },
    { DATA_IN, 192, 6, { 0x1A, 0, 0x08, 0, 192 } },
    { DATA_IN, 8, 10, { 0x25 } },
    { DATA_IN, 32, 16, { 0x9E, 0x10, [13] = 32 } },
    { DATA_IN, COUNT * 512, 10, { 0x28, [5] = 100, [8] = COUNT } },
    { DATA_IN, COUNT * 512, 16, { 0x88, [9] = 60, [13] = COUNT } },
    { 0, COUNT * 512, 10, { 0x2A, 0, [5] = 100, [8] = COUNT } },
    { 0, COUNT * 512, 10, { 0x2A, 8, [5] = 110, [8] = COUNT } },
    { 0, COUNT * 512, 16, { 0x8A, 8, [9] = 120, [13] = COUNT } },
    { 0, 512, 10, { 0x2A, 0, 0xFF, 0xFF, 0xFF, 0xFF, [8] = 1 } },
    { 0, 0, 10, { 0x35 } },
    { 0, 0, 16, { 0x91 } },
    { DATA_IN, 0, 10, { 0x2F } },
};

/* GET MAX LUN, GET_STATUS of an endpoint, a request that is refused, the class reset, and both
 * halts cleared: the last two end each command. */
static const uint8_t requests[][8] = {
    { 0xA1, 0xFE, 0, 0, 0, 0, 1 }, { 0x82, 0, 0, 0, 0x81, 0, 2 },
    { 0x80, 6, 0, 1, 0, 0, 18 },   { 0x21, 0xFF },
    { 0x02, 1, 0, 0, 0x81 },       { 0x02, 1, 0, 0, 0x02 },
};
enum { REQUESTS = sizeof requests / sizeof *requests };

static const uint8_t zeros[COUNT * 512];

static bool make_device(struct device *device, uint32_t format)
{
    struct usbdisk_log log;
    if (usbdisk_log_of(format, SLOTS, 1, &log))
        return false;
    device->sectors = log.home + BLOCKS;
    device->bytes = malloc(512 * device->sectors);
    if (!device->bytes)
        return false;
    return !format_memory(device->bytes, 512 * device->sectors, format, BLOCKS, SLOTS);
}

/* Carries out what the disk wants of the device, by runs of all lengths. */
static void carry_out(struct usbdisk *disk, struct device *device)
{
    static uint8_t bytes[MOST * 512];
    static size_t room = MOST;
    struct usbdisk_call call;
    while (!usbdisk_next(disk, &call, bytes, 512 * room) && call.kind != USBDISK_NOTHING) {
        uint8_t *place = device->bytes + 512 * call.sector;
        bool is_read = call.kind == USBDISK_READ;
        if (call.kind == USBDISK_WRITE)
            memcpy(place, bytes, 512 * call.count);
        device->written += is_read ? 0 : call.count;
        bool ok = is_read ? device->reads : !device->refuses;
        usbdisk_done(disk, ok, place, is_read ? 512 * call.count : 0);
        room = room % MOST + 1;
    }
}

/* A transfer to the disk: what it lacks is read, or cannot be. */
static void hand_in(struct usbdisk *disk, struct device *device, const uint8_t *bytes, size_t size)
{
    size_t taken;
    while (usbdisk_out(disk, bytes, size, &taken) == USBDISK_NAK && taken < size) {
        bytes += taken;
        size -= taken;
        carry_out(disk, device);
    }
    carry_out(disk, device);
}

/* The control requests from this one on. */
static void request_from(struct usbdisk *disk, int first)
{
    uint8_t data[2];
    uint32_t size;
    for (int i = first; i < REQUESTS; i++)
        usbdisk_setup(disk, requests[i], data, &size);
}

static void take_packets(struct usbdisk *disk)
{
    static uint8_t room[MOST * 512];
    size_t given;
    while (usbdisk_in(disk, room, sizeof room, &given) == USBDISK_ACK)
        ;
}

/* A command: its wrapper, its data, and its status, behind a halt too. */
static void play(struct usbdisk *disk, struct device *device, const struct played *command,
                 const uint8_t *data)
{
    uint8_t packet[31] = { 'U', 'S', 'B', 'C', 1 };
    packet[8] = command->length & 0xFF;
    packet[9] = command->length >> 8;
    packet[12] = command->flags;
    packet[14] = command->size;
    memcpy(packet + 15, command->block, command->size);
    hand_in(disk, device, packet, sizeof packet);
    if (command->flags != DATA_IN && command->length)
        hand_in(disk, device, data, command->length);
    take_packets(disk);
    request_from(disk, REQUESTS - 2);
    take_packets(disk);
}

/* MODE SELECT of the caching page, which turns the write cache off or on. */
static void select_cache(struct usbdisk *disk, struct device *device, bool is_on)
{
    static const struct played select = { 0, 24, 6, { 0x15, 0x10, 0, 0, 24 } };
    uint8_t page[24] = { 0, 0, 0, 0, 0x08, 0x12, is_on ? 4 : 0 };
    play(disk, device, &select, page);
}

static void play_all(struct usbdisk *disk, struct device *device, bool reads)
{
    device->reads = reads;
    for (size_t i = 0; i < sizeof commands / sizeof *commands; i++)
        play(disk, device, &commands[i], zeros);
}

static const struct played forced = { 0, COUNT * 512, 10, { 0x2A, 8, [5] = 10, [8] = COUNT } };

/* Events of all kinds. Forced WRITEs at the end leave a ring that is full. */
static void play_events(struct usbdisk *disk, struct device *device)
{
    play_all(disk, device, true);
    play_all(disk, device, false);
    select_cache(disk, device, false);
    play_all(disk, device, true);
    select_cache(disk, device, true);
    hand_in(disk, device, zeros, 3);
    request_from(disk, 0);
    while (usbdisk_idle(disk) == 1)
        carry_out(disk, device);
    carry_out(disk, device);
    for (int i = 0; i <= SLOTS; i++)
        play(disk, device, &forced, zeros);
}

static __attribute__((noinline)) void paint(void)
{
    uint8_t below[STACK];
    memset(below, PAINT, sizeof below);
    __asm__ volatile("" : : "r"(below) : "memory");
}

static __attribute__((noinline)) size_t unpainted(void)
{
    uint8_t below[STACK];
    size_t i = 64;
    __asm__ volatile("" : : "r"(below) : "memory");
    while (i < STACK && below[i] == PAINT)
        i++;
    return STACK - i;
}

static size_t more(size_t one, size_t other)
{
    return one > other ? one : other;
}

/* A start that brings home at least `home` blocks, the events after it, a refusal and a stop. */
static __attribute__((noinline)) bool live(struct device *device, uint64_t home,
                                           struct stacks *most)
{
    struct usbdisk_options options = {
        .sectors = device->sectors,
        .identity = { "EXAMPLE ", "MEMORY          ", "0001", "000000000001" },
        .packet = 512,
    };
    struct usbdisk disk = USBDISK_NONE;
    uint32_t fault;
    device->written = 0;
    device->reads = true;
    device->refuses = false;
    paint();
    uint32_t code = usbdisk_start(&disk, &options);
    carry_out(&disk, device);
    most->start = more(most->start, unpainted());
    bool found =
        !code && usbdisk_state(&disk, &fault) == USBDISK_SERVING && device->written >= home;
    paint();
    play_events(&disk, device);
    device->refuses = true;
    play(&disk, device, &forced, zeros);
    play_all(&disk, device, true);
    usbdisk_stop(&disk);
    most->event = more(most->event, unpainted());
    return found;
}

bool measure_stacks(struct stacks *most)
{
    bool good = true;
    *most = (struct stacks){ 0, 0 };
    for (uint32_t format = 1; format <= 2; format++) {
        struct device device;
        if (!make_device(&device, format))
            return false;
        good &= live(&device, 0, most) && live(&device, SLOTS * COUNT, most);
        free(device.bytes);
    }
    return good;
}
