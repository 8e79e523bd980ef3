/* Prints what a device feels of a disk: a host plays workloads of WRITEs on a disk over the library
 * for C, and a model of a device counts each call, which it carries out at once. Beside it the same
 * by a disk that writes through and promises nothing: the floor.
 *
 * device [MICROSECONDS A COMMAND [MICROSECONDS A FLUSH [MB A SECOND]]] */
#include "host.h"
#include "draw.h"
#include "model.h"
#include <stdio.h>
#include <stdlib.h>
#include <string.h>

enum { PAGE_BLOCKS = 8, MIB_BLOCKS = 2048 };

/* A workload: WRITEs of `blocks` blocks (0: as many as a transfer has), one behind the other or at
 * random pages, forced or not, with a SYNCHRONIZE CACHE behind each `sync_blocks` blocks (0: none),
 * and up to `idle` idle moments behind each WRITE, at random. */
struct workload {
    const char *what;
    uint32_t blocks;
    bool at_random, is_forced;
    uint32_t sync_blocks;
    unsigned writes, idle;
};

static const struct workload workloads[] = {
    { "longest WRITEs with FUA", 0, false, true, 0, 400, 0 },
    { "4 KiB with FUA, at random", PAGE_BLOCKS, true, true, 0, 2000, 0 },
    { "4 KiB at random, a SYNCHRONIZE CACHE each 32", PAGE_BLOCKS, true, false, 32 * PAGE_BLOCKS,
      3200, 0 },
    { "longest WRITEs, a SYNCHRONIZE CACHE each 1 MiB", 0, false, false, MIB_BLOCKS, 400, 0 },
    { "longest WRITEs, none forced", 0, false, false, 0, 400, 0 },
};
enum { WORKLOADS = sizeof workloads / sizeof *workloads };

/* Forced WRITEs with idle moments between, on a disk that retires ahead: as many flushes as
 * without, but for a twentieth. */
static const struct workload rested[] = {
    { "4 KiB with FUA, at random", PAGE_BLOCKS, true, true, 0, 2000, 2 },
    { "4 KiB with FUA, at random", PAGE_BLOCKS, true, true, 0, 2000, 10 },
    { "longest WRITEs with FUA", 0, false, true, 0, 400, 2 },
    { "longest WRITEs with FUA", 0, false, true, 0, 400, 10 },
};
enum { RESTED = sizeof rested / sizeof *rested };

/* A disk over a device that is a model, what the worst command took, and how many flushes idle
 * moments made. The host is the first field. */
struct bench {
    struct host host;
    struct device device;
    uint64_t most_calls, idle_flushes;
    double longest;
};

static uint64_t seed;

static uint32_t random_below(uint32_t most)
{
    return draw_below(&seed, most);
}

/* Counts a call that the device is told. */
static void note(struct host *host, const struct usbdisk_call *call)
{
    struct device *device = &((struct bench *)host)->device;
    if (call->kind == USBDISK_FLUSH)
        device_flush(device);
    else if (call->kind == USBDISK_WRITE)
        device_write_through(device, call->sector, call->count);
}

static uint64_t calls_of(const struct device *device)
{
    return device->sectors_written + device->flushes;
}

/* Plays a command, and notes what it took of the device. */
static void measure_command(struct bench *bench, const struct command *command)
{
    double began = bench->device.time[BY_RUNS];
    uint64_t before = calls_of(&bench->device);
    play_command(&bench->host, command);
    double took = bench->device.time[BY_RUNS] - began;
    uint64_t calls = calls_of(&bench->device) - before;
    bench->most_calls = calls > bench->most_calls ? calls : bench->most_calls;
    bench->longest = took > bench->longest ? took : bench->longest;
}

static uint32_t blocks_of(const struct bench *bench, const struct workload *work)
{
    return work->blocks ? work->blocks : bench->host.limit;
}

/* Where the next WRITE goes: on from the last one, or to a page at random. */
static uint32_t next_address(const struct workload *work, uint32_t blocks, unsigned i)
{
    if (work->at_random)
        return PAGE_BLOCKS * random_below(BLOCKS / PAGE_BLOCKS);
    return i * blocks % (BLOCKS - BLOCKS % blocks);
}

/* Up to so many idle moments, at random. */
static void rest(struct bench *bench, unsigned most)
{
    uint64_t before = bench->device.flushes;
    for (uint32_t left = most ? random_below(most + 1) : 0; left > 0; left--)
        rest_once(&bench->host);
    bench->idle_flushes += bench->device.flushes - before;
}

/* A WRITE, and the SYNCHRONIZE CACHE that is due behind it, by the disk. */
static void play_once(struct bench *bench, const struct workload *work, uint32_t address,
                      bool is_due)
{
    const struct command write = { WRITE_10, address, blocks_of(bench, work), work->is_forced };
    const struct command synchronize = { .code = SYNCHRONIZE_10 };
    measure_command(bench, &write);
    if (is_due)
        measure_command(bench, &synchronize);
    rest(bench, work->idle);
}

/* The same, by the floor. */
static void write_through(struct bench *floor, const struct workload *work, uint32_t address,
                          bool is_due)
{
    device_write_through(&floor->device, address, blocks_of(floor, work));
    if (work->is_forced || is_due)
        device_flush(&floor->device);
}

typedef void player(struct bench *bench, const struct workload *work, uint32_t address,
                    bool is_due);

static void play(struct bench *bench, const struct workload *work, unsigned writes, player *one)
{
    uint32_t blocks = blocks_of(bench, work), since = 0;
    for (unsigned i = 0; i < writes; i++) {
        since += blocks;
        bool is_due = work->sync_blocks && since + blocks > work->sync_blocks;
        one(bench, work, next_address(work, blocks, i), is_due);
        since = is_due ? 0 : since;
    }
}

/* What a workload came to, over the sectors that the host wrote. */
static void tell(const struct bench *bench, const struct bench *floor, const struct workload *work)
{
    const struct device *device = &bench->device;
    double sectors = (double)blocks_of(bench, work) * work->writes;
    printf("| %u | %llu | %s |", bench->host.format, (unsigned long long)bench->host.slots,
           work->what);
    printf(" %.2f | %.2f | %.1f |", 512 * sectors / device->time[BY_SECTORS],
           512 * sectors / device->time[BY_RUNS], 512 * sectors / floor->device.time[BY_RUNS]);
    printf(" %.2f | %.2f |", (double)device->flushes / work->writes,
           device->sectors_written / sectors);
    printf(" %.1f | %.2f |", (double)device->commands[BY_SECTORS] / work->writes,
           (double)device->commands[BY_RUNS] / work->writes);
    printf(" %.2f | %llu | %.2f |\n", device->partial_pages / (sectors / PAGE_BLOCKS),
           (unsigned long long)bench->most_calls, bench->longest / 1000);
}

/* The workload on a disk that has filled its log before. */
static struct bench played(const struct workload *work, uint32_t format, uint64_t slots,
                           const struct costs *costs)
{
    struct bench bench = { .host = { .format = format, .slots = slots, .note = note } };
    seed = 88172645463325252u;
    start_disk(&bench.host);
    play(&bench, work, 3 * (unsigned)slots + 40, play_once);
    bench.device = (struct device){ .costs = *costs };
    bench.most_calls = 0;
    bench.longest = 0;
    bench.idle_flushes = 0;
    play(&bench, work, work->writes, play_once);
    stop_disk(&bench.host);
    return bench;
}

/* The workload on such a disk, and on the floor. */
static void measure(const struct workload *work, uint32_t format, uint64_t slots,
                    const struct costs *costs)
{
    struct bench bench = played(work, format, slots, costs);
    struct bench floor = { .host = { .limit = bench.host.limit }, .device = { .costs = *costs } };
    play(&floor, work, work->writes, write_through);
    tell(&bench, &floor, work);
}

/* The flushes that forced WRITEs make themselves with idle moments between, and the worst command,
 * beside those without. */
static void measure_rest(const struct workload *work, uint64_t slots, const struct costs *costs)
{
    struct workload alone = *work;
    alone.idle = 0;
    struct bench bench = played(work, 2, slots, costs), without = played(&alone, 2, slots, costs);
    double own = (double)(bench.device.flushes - bench.idle_flushes) / work->writes;
    bool is_reached = own <= 1.05 && bench.longest <= without.longest + 1;
    printf("| %llu | %s | 0 to %u | %.2f | %.2f |", (unsigned long long)slots, work->what,
           work->idle, own, (double)bench.device.flushes / work->writes);
    printf(" %.2f | %.2f | %s |\n", bench.longest / 1000, without.longest / 1000,
           is_reached ? "reached" : "missed");
}

int main(int count, char **words)
{
    struct costs costs = { 100, 512.0 / 40, 1000 };
    static const uint64_t slots[] = { 1, 6, 8, 64 }, ahead[] = { 3, 6, 8, 22 };
    if (count > 1)
        costs.command = atof(words[1]);
    if (count > 2)
        costs.flush = atof(words[2]);
    if (count > 3)
        costs.sector = 512 / atof(words[3]);
    printf("A device with %.0f microseconds a command, %.0f a flush, %.1f MB a second:\n\n",
           costs.command, costs.flush, 512 / costs.sector);
    puts("| Format | Slots | Workload | MB/s, a command a sector | MB/s, in runs | MB/s, the floor "
         "| Flushes a WRITE "
         "| Sectors written a sector | Commands a WRITE, a sector each | Commands a WRITE, in runs "
         "| Partly written pages a page | Calls of the worst event | Its milliseconds |");
    puts("|---|---|---|---|---|---|---|---|---|---|---|---|---|");
    for (uint32_t format = 1; format <= 2; format++)
        for (size_t k = 0; k < sizeof slots / sizeof *slots; k++)
            for (int i = 0; i < WORKLOADS; i++)
                measure(&workloads[i], format, slots[k], &costs);
    puts("\nFormat 2, with steps in the background behind each WRITE, at most 1.05 flushes a "
         "WRITE, and no longer event than "
         "without steps:\n");
    puts("| Slots | Workload | Steps | Flushes a WRITE | Those of its steps too | Milliseconds of "
         "the worst event "
         "| Without steps | |");
    puts("|---|---|---|---|---|---|---|---|");
    for (size_t k = 0; k < sizeof ahead / sizeof *ahead; k++)
        for (int i = 0; i < RESTED; i++)
            measure_rest(&rested[i], ahead[k], &costs);
    return 0;
}
