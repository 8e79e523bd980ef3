/* A host in memory around functionfs_bulk.c, over the controller of bulk_controller.c: commands
 * that pass and fail, data that is too long or too short, refused wrappers, class resets in the
 * midst of anything, in packets of both sizes, transfers that the system refuses once, and a
 * controller that keeps a packet until it is flushed. Each exchange is told by Bulk-Only Transport;
 * behind a reset recovery the disk serves again.
 *
 *   bulk_host IMAGE ROUNDS [PACKET]     the image has at least 2,048 blocks */
#include "bulk_host.h"
#include "../program.h"
#include <stdio.h>
#include <stdlib.h>
#include <string.h>

enum { LONGEST = USBDISK_LIMIT(2), MOST = LONGEST * 512 };
enum { STALLED = -1, NOTHING = -2, PATIENCE = 64 };

struct disk disk;
static struct bulk bulk;
static bool may_reset;
static uint64_t seed = 88172645463325252u, passed, failed, locks, resets;
static uint8_t data[2 * MOST], blocks[2048][512];
static uint32_t tag;

uint32_t below(uint32_t bound)
{
    seed ^= seed << 13;
    seed ^= seed >> 7;
    seed ^= seed << 17;
    return (uint32_t)(seed >> 11) % bound;
}

void check(bool holds, const char *what)
{
    if (holds)
        return;
    printf("failed: %s (command %u)\n", what, tag);
    exit(1);
}

/* The gadget plays; and the device does what it is at, or it is behind. */
static void play(void)
{
    bulk_play(&bulk, below(2));
    if (below(2))
        disk_rest(&disk);
}

/* The oldest transfer that the host has not finished, and the controller has. */
static struct transfer *open_transfer(struct queue *queue)
{
    unsigned count = queue->sends ? queue->handed : queue->count;
    for (unsigned i = 0; i < count; i++)
        if (!queue->ring[(queue->first + i) % DEPTH].is_done)
            return &queue->ring[(queue->first + i) % DEPTH];
    return NULL;
}

/* One packet to the disk: its size, STALLED, or NOTHING where it is not taken. */
static long send_packet(const uint8_t *bytes, size_t size)
{
    for (int i = 0; i < PATIENCE; i++) {
        struct transfer *transfer = open_transfer(&bulk.out);
        if (halted[0])
            return STALLED;
        if (transfer) {
            memcpy(transfer->bytes + transfer->result, bytes, size);
            transfer->result += (long)size;
            transfer->is_done = size < disk.packet || (size_t)transfer->result == transfer->size;
            if (below(3) == 0)
                bulk_play(&bulk, below(2));
            return (long)size;
        }
        play();
    }
    return NOTHING;
}

static long send(const uint8_t *bytes, size_t size)
{
    for (size_t at = 0; at < size; at += disk.packet) {
        size_t packet = size - at < disk.packet ? size - at : disk.packet;
        long sent = send_packet(bytes + at, packet);
        if (sent < 0)
            return sent;
    }
    return (long)size;
}

/* One packet of the disk. */
static long receive_packet(uint8_t *bytes)
{
    static size_t at;
    for (int i = 0; i < PATIENCE; i++) {
        struct transfer *transfer = open_transfer(&bulk.in);
        if (halted[1])
            return STALLED;
        if (kept.is_there) {
            kept.is_there = false;
            memcpy(bytes, kept.bytes, (size_t)kept.size);
            return kept.size;
        }
        if (transfer) {
            at = (size_t)transfer->result;
            size_t packet = transfer->size - at < disk.packet ? transfer->size - at : disk.packet;
            memcpy(bytes, transfer->bytes + at, packet);
            transfer->result += (long)packet;
            transfer->is_done = (size_t)transfer->result == transfer->size;
            return (long)packet;
        }
        play();
    }
    return NOTHING;
}

static long receive(uint8_t *bytes, size_t size)
{
    size_t got = 0;
    while (got < size) {
        long packet = receive_packet(bytes + got);
        if (packet < 0)
            return got ? (long)got : packet;
        got += (size_t)packet;
        if ((size_t)packet < disk.packet)
            break;
    }
    return (long)got;
}

static void recover(void)
{
    bulk_reset(&bulk);
    halted[0] = halted[1] = false;
    resets++;
}

/* One command: the wrapper, the data, the status. Answers the status, or -1 where the host had to
 * reset. */
static int command(const uint8_t *block, size_t length, size_t size, bool sends)
{
    uint8_t wrapper[31] = "USBC", status[512];
    ++tag;
    memcpy(wrapper + 4, &tag, 4);
    for (int i = 0; i < 4; i++)
        wrapper[8 + i] = (uint8_t)(size >> 8 * i);
    wrapper[12] = sends ? 0x80 : 0;
    wrapper[14] = (uint8_t)length;
    memcpy(wrapper + 15, block, length);
    check(send(wrapper, sizeof wrapper) == sizeof wrapper, "a wrapper is not taken");
    if (may_reset && below(40) == 0) {
        recover();
        return -1;
    }
    bulk_play(&bulk, below(2));
    long moved = 0;
    if (size)
        moved = sends ? receive(data, size) : send(data, size);
    check(moved != NOTHING, "data does not move");
    if (moved == STALLED)
        halted[sends] = false;
    bulk_play(&bulk, below(2));
    long got = receive(status, 13);
    if (got == STALLED) { /* once the host may clear the halt and read again */
        halted[1] = false;
        got = receive(status, 13);
    }
    halted[0] = false;
    check(got == 13 && !memcmp(status, "USBS", 4) && !memcmp(status + 4, &tag, 4),
          "a status is not one");
    if (status[12] == 2)
        recover();
    status[12] ? failed++ : passed++;
    return status[12];
}

static void transfer(uint8_t code, uint32_t address, uint32_t count, size_t size)
{
    uint8_t block[10] = {
        code, below(4) ? 0 : 8, 0, 0, (uint8_t)(address >> 8), (uint8_t)address, 0,
        0,    (uint8_t)count,   0
    };
    bool sends = code == 0x28, fits = size == count * 512 && address + count <= 2048;
    for (size_t i = 0; i < size && !sends; i++)
        data[i] = (uint8_t)below(256);
    int status = command(block, sizeof block, size, sends);
    if (fits && status >= 0)
        check(status == 0, "a good command fails");
    for (uint32_t i = 0; fits && status == 0 && i < count; i++)
        if (sends)
            check(!memcmp(data + 512 * i, blocks[address + i], 512),
                  "a block holds something else");
        else
            memcpy(blocks[address + i], data + 512 * i, 512);
}

/* A wrapper that is none: both endpoints are halted, and stay so when the host clears the halts,
 * until the class reset. */
static void bad_wrapper(void)
{
    uint8_t packet[512];
    size_t size = below(2) ? 31 : below(disk.packet);
    memset(packet, 0x55, sizeof packet);
    check(send(packet, size) == (long)size || size == 0, "a packet is not taken");
    if (size == 0)
        return recover();
    for (int i = 0; i < 3; i++) {
        halted[0] = halted[1] = false;
        for (int k = 0; k < PATIENCE; k++)
            play();
        check(halted[0] && halted[1], "the lock ends without a class reset");
        check(send_packet(packet, 31) == STALLED && receive_packet(data) == STALLED,
              "a locked disk answers");
    }
    locks++;
    recover();
}

/* READs that follow each other, in turns of a long one and the rest, as Linux makes them; what is
 * shown ahead of one may be written before it comes. */
static void read_on(void)
{
    uint32_t length = 1 + below(200), rest = 1 + below(40), address = below(500),
             reads = 2 + below(10);
    for (uint32_t i = 0; i < reads && address + length < 2048; i++) {
        uint32_t count = i % 2 ? rest : length;
        transfer(0x28, address, count, count * 512);
        address += count;
        if (below(8) == 0)
            transfer(0x2A, address + below(rest), 1, 512);
        if (below(4) == 0)
            disk_tick(&disk);
    }
}

static void round_of(void)
{
    static const uint8_t ready[6] = { 0 }, sense[6] = { 3, 0, 0, 0, 18, 0 }, unknown[6] = { 0xEE };
    uint32_t count = 1 + below(LONGEST), address = below(2049 - count), what = below(13);
    if (what < 4)
        transfer(0x2A, address, count, count * 512);
    else if (what < 8)
        transfer(0x28, address, count, count * 512);
    else if (what == 8)
        bad_wrapper();
    else if (what == 9) /* data of another size than the block's, which may not be what fits */
        transfer(below(2) ? 0x28 : 0x2A, 60000, 1 + below(4), 512 * below(6));
    else if (what == 10)
        read_on();
    else if (what == 11)
        command(unknown, 6, below(2) ? 0 : below(5000), below(2));
    else
        command(below(2) ? ready : sense, 6, below(2) ? 0 : 18 + below(2) * 494, true);
}

int main(int count, char **words)
{
    uint64_t rounds = count > 2 ? strtoull(words[2], NULL, 10) : 0;
    static const uint8_t sense[6] = { 3, 0, 0, 0, 18, 0 };
    if (!rounds || !disk_open(&disk, words[1]) || !disk_start(&disk, count > 3 ? 64 : 512) ||
        !bulk_open(&bulk, &disk, ""))
        return 1;
    recover();
    bulk.is_enabled = true;
    command(sense, 6, 18, true);
    for (uint32_t i = 0; i < 2048; i++)
        memset(blocks[i], 0, 512);
    for (uint32_t i = 0; i < 2048; i += 128)
        transfer(0x2A, i, 128, 128 * 512);
    for (uint64_t i = 0; i < rounds; i++) {
        may_reset = true;
        round_of();
        may_reset = false;
        command(sense, 6, 18, true); /* what failed is told, and the next one passes */
        if (below(10) == 0)
            disk_tick(&disk);
    }
    printf("packets of %u: %llu commands passed, %llu failed, %llu locks, %llu resets, "
           "%llu refusals, %llu flushes\n",
           disk.packet, (unsigned long long)passed, (unsigned long long)failed,
           (unsigned long long)locks, (unsigned long long)resets, (unsigned long long)refusals,
           (unsigned long long)flushes);
    bulk_close(&bulk);
    disk_close(&disk);
    return 0;
}
