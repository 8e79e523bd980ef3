/* How much memory starts and work on images take, by format, slots, blocks and records kept,
 * against what usbdisk_memory and docs/MAKERS.md tell, to the byte: what is held, the most, and all
 * that was taken on the way; how much stack a start and the events take. */
#include "gadget.h"
#include "image.h"
#include "stack.h"
#include <stdio.h>
#include <stdlib.h>
#include <string.h>

enum { BLOCKS = 500, PAGE = 200 };

/* The number of blocks in the super, which a start of a disk with more of them finds there. */
enum { BLOCKS_AT = 16 };
#define MOST_BLOCKS ((uint64_t)1 << 31)

/* What a start takes and gives back: its recovery. What a handle takes of which nothing is left to
 * do. */
enum { RECOVERY = 37472, HANDLE = 992 };

static uint8_t *medium;
static struct usbdisk_options options = {
    .identity = { "EXAMPLE ", "MEMORY          ", "0001", "000000000001" },
    .packet = 512,
};

static struct usbdisk_log log_of(uint32_t format, uint64_t slots)
{
    struct usbdisk_log log = { 0 };
    usbdisk_log_of(format, slots, 1, &log);
    return log;
}

/* An image in memory stands for the device. */
static void make_device(uint32_t format, uint64_t slots)
{
    options.sectors = log_of(format, slots).home + BLOCKS;
    medium = malloc(512 * options.sectors);
    if (!medium || format_memory(medium, 512 * options.sectors, format, BLOCKS, slots))
        exit(EXIT_FAILURE);
}

/* The same with so many blocks: no start reads one of them. */
static void have_blocks(uint32_t format, uint64_t slots, uint64_t blocks)
{
    options.sectors = log_of(format, slots).home + blocks;
    for (int i = 0; i < 8; i++)
        medium[BLOCKS_AT + i] = (uint8_t)(blocks >> 8 * i);
}

/* Of what follows all is counted anew. */
static void count_anew(void)
{
    heap_most = heap_now;
    heap_taken = 0;
}

/* What was taken: held, at most, and in all. */
static bool are_taken(const char *what, uint64_t now, uint64_t most, uint64_t taken)
{
    bool good = heap_now == now && heap_most == most && heap_taken == taken;
    if (!good)
        printf("%s: %zu bytes, at most %zu, taken %zu, not %llu, %llu and %llu\n", what, heap_now,
               heap_most, heap_taken, (unsigned long long)now, (unsigned long long)most,
               (unsigned long long)taken);
    return good;
}

/* Whether it serves, in so many bytes, and took on the way what a start takes. It stops. */
static bool serves_in(struct usbdisk *handle, const char *what, uint64_t told)
{
    uint32_t fault;
    carry_all(handle, medium);
    bool good = usbdisk_state(handle, &fault) == USBDISK_SERVING;
    if (!good)
        printf("%s: it does not serve, fault %u\n", what, fault);
    good &= are_taken(what, told, told, told + RECOVERY);
    usbdisk_stop(handle);
    return good && heap_blocks == 0;
}

static uint64_t store_takes_less(uint32_t format)
{
    return format == 1 ? 24576 : 122880;
}

/* The memory that a disk takes is what usbdisk_memory_kept tells, to the byte. A store takes so
 * much less than a disk, whatever the slots. */
static bool is_memory_told(uint32_t format, uint64_t slots, bool tells)
{
    struct usbdisk disk = USBDISK_NONE, store = USBDISK_NONE;
    uint64_t told = usbdisk_memory_kept(format, slots, options.kept);
    count_anew();
    bool good = !usbdisk_start(&disk, &options) && serves_in(&disk, "a disk", told);
    uint64_t less = told - store_takes_less(format);
    count_anew();
    good &= !usbdisk_store_start(&store, &options) && serves_in(&store, "a store", less);
    if (!good || tells)
        printf("format %u, %llu slots, %u kept: told %llu bytes\n", format,
               (unsigned long long)slots, options.kept, (unsigned long long)told);
    return good && (options.kept != 4 || told == usbdisk_memory(format, slots));
}

/* Both, on one device, with each number of records kept, none and one more than there are slots
 * among them; with few blocks, and where none or all are kept with the most. */
static bool are_told(uint32_t format, uint64_t slots, bool tells)
{
    make_device(format, slots);
    bool good = true;
    for (options.kept = 0; options.kept <= slots + 1; options.kept++) {
        have_blocks(format, slots, BLOCKS);
        good &= is_memory_told(format, slots, tells && (options.kept < 5 || options.kept > slots));
        if (options.kept % slots == 0) {
            have_blocks(format, slots, MOST_BLOCKS);
            good &= is_memory_told(format, slots, false);
        }
    }
    free(medium);
    return good;
}

typedef uint32_t begin(struct usbdisk *image, const struct usbdisk_plan *plan);

/* Work on an image takes so many bytes, and gives them back where it stops. One that is refused
 * holds its handle alone by then. */
static bool takes(begin work, const struct usbdisk_plan *plan, const char *what, uint64_t told)
{
    struct usbdisk image = USBDISK_NONE;
    uint32_t fault;
    count_anew();
    bool good = !work(&image, plan);
    carry_all(&image, medium);
    good &=
        are_taken(what, usbdisk_state(&image, &fault) == USBDISK_DONE ? told : HANDLE, told, told);
    usbdisk_stop(&image);
    return good && heap_blocks == 0;
}

/* What a format, a laying and a migration take. */
static bool is_work_told(uint32_t format, uint64_t slots, uint64_t between)
{
    uint64_t home = log_of(format, slots).home + between, sectors = home + BLOCKS;
    const struct usbdisk_plan plan = { sectors, format, slots, BLOCKS, home };
    uint64_t made = usbdisk_memory_to_format(format, slots);
    uint64_t moved =
        format == 1 ? usbdisk_memory_to_migrate(slots) : 4128 + 254208 * slots + 512 * between;
    medium = calloc(512, sectors);
    bool good = medium && takes(usbdisk_format, &plan, "a format", made) &&
                takes(usbdisk_lay_log, &plan, "a laying", made) &&
                takes(usbdisk_migrate, &plan, "a migration", moved);
    if (!good)
        printf("format %u, %llu slots\n", format, (unsigned long long)slots);
    free(medium);
    return good;
}

/* Each number of slots in both formats; by the word --few two of them, as on a processor that is
 * only played. */
int main(int count, char **words)
{
    bool few = count == 2 && !strcmp(words[1], "--few"), good = true;
    struct stacks most;
    for (uint32_t format = 1; format <= 2; format++)
        for (uint64_t slots = 1; slots <= 64; slots++) {
            bool tells = slots == 6 || slots == 64;
            if (few && !tells)
                continue;
            good &= are_told(format, slots, tells);
            good &= is_work_told(format, slots, 0);
            good &= format == 1 || is_work_told(format, slots, PAGE);
        }
    good &= measure_stacks(&most);
    printf("heap: %d bytes of a recovery, %llu of an image that is made\n", RECOVERY,
           (unsigned long long)usbdisk_memory_to_format(2, 64));
    for (uint32_t format = 1; format <= 2; format++)
        printf("a store of format %u: %llu bytes less\n", format,
               (unsigned long long)store_takes_less(format));
    printf("stack: %zu bytes in a start, %zu in an event\n", most.start, most.event);
    printf("%s\n", good ? "memory as told" : "a figure is wrong");
    return !good;
}
