/* The block device: virtio over memory-mapped registers, one queue, one request at a time, and no
 * interrupts. Virtual I/O Device (VIRTIO) 1.2: sections 2.7 (queues), 4.2 (registers), 5.2. */
#include "board.h"
#include <machine.h>

/* Registers, as numbers of 32-bit words. */
enum {
    MAGIC = 0x000 / 4,
    VERSION = 0x004 / 4,
    DEVICE = 0x008 / 4,
    DEVICE_FEATURES = 0x010 / 4,
    DEVICE_FEATURES_WORD = 0x014 / 4,
    DRIVER_FEATURES = 0x020 / 4,
    DRIVER_FEATURES_WORD = 0x024 / 4,
    QUEUE = 0x030 / 4,
    QUEUE_MOST = 0x034 / 4,
    QUEUE_SIZE = 0x038 / 4,
    QUEUE_READY = 0x044 / 4,
    QUEUE_NOTIFY = 0x050 / 4,
    STATUS = 0x070 / 4,
    QUEUE_DESCRIPTORS = 0x080 / 4,
    QUEUE_DRIVER = 0x090 / 4,
    QUEUE_DEVICE = 0x0a0 / 4,
    CAPACITY = 0x100 / 4
};

enum { IS_VIRTIO = 0x74726976, IS_BLOCK = 2 };
enum { ACKNOWLEDGE = 1, DRIVER = 2, DRIVER_OK = 4, FEATURES_OK = 8 };
/* Feature bits 9, a write cache that can be flushed, and 32, bit 0 of the second word. */
enum { HAS_FLUSH = 1 << 9, HAS_VERSION_1 = 1 << 0 };
enum { READ = 0, WRITE = 1, FLUSH = 4 };
enum { HAS_NEXT = 1, DEVICE_WRITES = 2 };
enum { PARTS = 4 };

struct descriptor {
    uint64_t at;
    uint32_t size;
    uint16_t flags, next;
};

static _Alignas(16) struct descriptor descriptors[PARTS];

/* What is for the device, and what the device is done with. */
static volatile struct {
    uint16_t flags, count, ring[PARTS];
} asked;

static _Alignas(4) volatile struct {
    uint16_t flags, count;
    struct {
        uint32_t first, size;
    } ring[PARTS];
} done;

static volatile uint32_t *device;

static volatile uint32_t *find_device(void)
{
    for (int i = 0; i < PLACES; i++) {
        volatile uint32_t *place = (volatile uint32_t *)(uintptr_t)(FIRST_PLACE + PLACE * i);
        if (place[MAGIC] == IS_VIRTIO && place[VERSION] == 2 && place[DEVICE] == IS_BLOCK)
            return place;
    }
    give_up("no virtio block device of version 2", 0);
}

static void set_address(int place, const volatile void *at)
{
    uint64_t number = (uintptr_t)at;
    device[place] = (uint32_t)number;
    device[place + 1] = (uint32_t)(number >> 32);
}

/* Without a flush no promise could be kept, so there is no disk on a device that has none. */
static void agree_on_features(void)
{
    device[DEVICE_FEATURES_WORD] = 0;
    if (!(device[DEVICE_FEATURES] & HAS_FLUSH))
        give_up("a device that cannot be flushed", device[DEVICE_FEATURES]);
    device[DRIVER_FEATURES_WORD] = 0;
    device[DRIVER_FEATURES] = HAS_FLUSH;
    device[DRIVER_FEATURES_WORD] = 1;
    device[DRIVER_FEATURES] = HAS_VERSION_1;
    device[STATUS] = ACKNOWLEDGE | DRIVER | FEATURES_OK;
    if (!(device[STATUS] & FEATURES_OK))
        give_up("a device that refuses the features", device[STATUS]);
}

void block_start(void)
{
    device = find_device();
    device[STATUS] = 0;
    device[STATUS] = ACKNOWLEDGE | DRIVER;
    agree_on_features();
    device[QUEUE] = 0;
    if (device[QUEUE_MOST] < PARTS)
        give_up("a short queue", device[QUEUE_MOST]);
    device[QUEUE_SIZE] = PARTS;
    set_address(QUEUE_DESCRIPTORS, descriptors);
    set_address(QUEUE_DRIVER, &asked);
    set_address(QUEUE_DEVICE, &done);
    device[QUEUE_READY] = 1;
    device[STATUS] = ACKNOWLEDGE | DRIVER | FEATURES_OK | DRIVER_OK;
}

uint64_t block_sectors(void)
{
    return device[CAPACITY] | (uint64_t)device[CAPACITY + 1] << 32;
}

/* Hands the descriptors over, from the first on, and waits until the device is done with them. */
static void request(void)
{
    uint16_t before = done.count;
    asked.ring[asked.count % PARTS] = 0;
    settle();
    asked.count++;
    settle();
    device[QUEUE_NOTIFY] = 0;
    while (done.count == before)
        ;
    settle();
}

/* A request: what is asked, the bytes, of which a flush has none, and a place for the answer. */
static bool ask(uint32_t what, uint64_t sector, const volatile void *bytes, size_t size)
{
    static struct {
        uint32_t what, zero;
        uint64_t sector;
    } head;
    static volatile uint8_t answer;
    uint16_t part = 0, direction = what == READ ? DEVICE_WRITES : 0;
    head.what = what;
    head.sector = sector;
    answer = 0xFF;
    descriptors[part++] = (struct descriptor){ (uintptr_t)&head, sizeof head, HAS_NEXT, 1 };
    if (size > 0)
        descriptors[part++] =
            (struct descriptor){ (uintptr_t)bytes, (uint32_t)size, HAS_NEXT | direction, 2 };
    descriptors[part] = (struct descriptor){ (uintptr_t)&answer, 1, DEVICE_WRITES, 0 };
    request();
    return answer == 0;
}

bool block_read(uint64_t sector, uint8_t *bytes, size_t count)
{
    return ask(READ, sector, bytes, count * SECTOR);
}

bool block_write(uint64_t sector, const uint8_t *bytes, size_t count)
{
    return ask(WRITE, sector, bytes, count * SECTOR);
}

bool block_flush(void)
{
    return ask(FLUSH, 0, NULL, 0);
}
