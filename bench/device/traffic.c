/* Prints how fast a host writes through a disk over a link, while its device works: by a model of a
 * link of 35 MB/s, and of an SD card and an eMMC; then the same of a store behind a stack that has
 * SCSI in it. Beside it the same by a plain disk that promises no order, written through, and
 * written back as fast as link and device allow.
 *
 * traffic [FORMAT [SLOTS [KEPT]]], with KEPT records in memory */
#include "draw.h"
#include "link.h"
#include <stdio.h>
#include <stdlib.h>

enum { PAGE_BLOCKS = 8, PERCENT = 100 };

static const struct device_costs devices[] = {
    { "SD card", 100, 1000, 512 / 40.0, 512 / 20.0 },
    { "eMMC", 40, 300, 512 / 150.0, 512 / 80.0 },
};

static const struct traffic traffics[] = {
    { "120 KiB, plain", 240, false, false, 0, 0, 400 },
    { "120 KiB, a SYNCHRONIZE CACHE each 9", 240, false, false, 0, 9, 400 },
    { "120 KiB with FUA", 240, false, true, 0, 0, 400 },
    { "4 KiB with FUA, at random", PAGE_BLOCKS, true, true, 0, 0, 2000 },
    { "4 KiB at random, a SYNCHRONIZE CACHE each 32", PAGE_BLOCKS, true, false, 0, 32, 3200 },
    { "16 KiB at random, half READ, SYNCHRONIZE each 64", 32, true, false, 50, 64, 2000 },
};

static uint64_t seed;

static uint32_t random_below(uint32_t most)
{
    return draw_below(&seed, most);
}

static struct command next_command(const struct traffic *traffic, uint32_t blocks, unsigned played)
{
    bool is_read = random_below(PERCENT) < traffic->reads;
    uint32_t places = BLOCKS / blocks;
    uint32_t place = traffic->at_random ? random_below(places) : played % places;
    return (struct command){ is_read ? READ_10 : WRITE_10, place * blocks, blocks,
                             traffic->is_forced && !is_read };
}

/* Plays a traffic, and answers how many blocks were moved. */
static double play(struct linked *linked, const struct traffic *traffic, unsigned commands)
{
    uint32_t limit = linked->host.limit;
    uint32_t blocks = traffic->blocks < limit ? traffic->blocks : limit;
    const struct command synchronize = { .code = SYNCHRONIZE_10 };
    unsigned writes = 0;
    for (unsigned played = 0; played < commands; played++) {
        struct command command = next_command(traffic, blocks, played);
        play_linked(linked, &command);
        writes += command.code == WRITE_10;
        if (traffic->sync && command.code == WRITE_10 && writes % traffic->sync == 0)
            play_linked(linked, &synchronize);
    }
    return (double)blocks * commands;
}

static double time_of_device(const struct device_costs *costs, const struct traffic *traffic)
{
    double read = costs->command + traffic->blocks * costs->read;
    double write = costs->command + traffic->blocks * costs->write;
    return (traffic->reads * read + (PERCENT - traffic->reads) * write) / PERCENT;
}

static double flushes_of(const struct traffic *traffic)
{
    if (traffic->is_forced)
        return 1;
    return traffic->sync ? 1.0 / traffic->sync : 0;
}

/* MB/s of a plain disk: of each command the device's time comes behind the link's, or they overlap
 * but for its flushes. */
static double plain(const struct device_costs *costs, const struct traffic *traffic, bool is_back)
{
    double link = 100 + traffic->blocks * 512 / 35.0;
    double device = time_of_device(costs, traffic), longer = link > device ? link : device;
    double both = is_back && !traffic->is_forced ? longer : link + device;
    return traffic->blocks * 512 / (both + flushes_of(traffic) * costs->flush);
}

static int compare(const void *left, const void *right)
{
    double a = *(const double *)left, b = *(const double *)right;
    return (a > b) - (a < b);
}

/* Of 100 READs 99 took no longer, in milliseconds. */
static double slowest_read(struct linked *linked)
{
    if (!linked->reads_played)
        return 0;
    qsort(linked->reads, linked->reads_played, sizeof *linked->reads, compare);
    return linked->reads[linked->reads_played * 99 / PERCENT] / 1000;
}

static void measure(const struct device_costs *costs, const struct traffic *traffic,
                    const struct host *host)
{
    double reads[4000];
    struct linked linked = { .host = *host, .costs = costs, .reads = reads };
    seed = 88172645463325252u;
    start_disk(&linked.host);
    play(&linked, traffic, 3 * (unsigned)host->slots + 40);
    linked.worked = 0;
    linked.reads_played = 0;
    double began = linked.now;
    double blocks = play(&linked, traffic, traffic->commands);
    double took = linked.now - began;
    printf("| %s | %s%s | %.2f | %.0f | %.2f | %.2f | %.1f |\n", costs->name,
           host->is_store ? "store: " : "", traffic->name, 512 * blocks / took,
           PERCENT * linked.worked / took, plain(costs, traffic, false),
           plain(costs, traffic, true), slowest_read(&linked));
    end_linked(&linked);
    stop_disk(&linked.host);
}

static void measure_all(const struct host *host)
{
    for (size_t i = 0; i < sizeof devices / sizeof *devices; i++)
        for (size_t j = 0; j < sizeof traffics / sizeof *traffics; j++)
            measure(&devices[i], &traffics[j], host);
}

int main(int count, char **words)
{
    struct host host = { .format = count > 1 ? (uint32_t)atoi(words[1]) : 2,
                         .slots = count > 2 ? (uint64_t)atoi(words[2]) : 6,
                         .kept = count > 3 ? (uint32_t)atoi(words[3]) : 0 };
    puts("| Device | Traffic | MB/s | The device works, in 100 | MB/s, a plain disk, through "
         "| MB/s, written back | READ, 99 of 100, ms |");
    puts("|---|---|---|---|---|---|---|");
    measure_all(&host);
    host.is_store = true;
    measure_all(&host);
    return 0;
}
