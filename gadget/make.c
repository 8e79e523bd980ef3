/* usbdisk-make: makes an image on a file, a partition or a device, tells what one is, brings one to
 * format 2, and copies blocks in and out. */
#include "command.h"
#include "make_copy.h"
#include "make_words.h"
#include "program.h"
#include <inttypes.h>
#include <signal.h>
#include <stdio.h>
#include <string.h>

/* How many sectors of the place the image takes. 0: nothing tells it. */
static uint64_t wanted_sectors(const struct make_words *options, const struct place *place)
{
    if (options->size)
        return options->size / 512;
    if (options->blocks)
        return options->home + options->blocks;
    return place->disk.sectors;
}

static uint64_t wanted_blocks(const struct make_words *options, uint64_t sectors)
{
    uint64_t home = options->home;
    uint64_t blocks = sectors > home ? sectors - home : 0;
    return blocks < MOST_BLOCKS ? blocks : MOST_BLOCKS;
}

/* Asks whether an image may be made there. */
static bool may_make(const struct make_words *options, struct place *place, uint64_t sectors)
{
    char cause[160];
    if (!place_is_free(place, options->replaces))
        return false;
    if (!sectors)
        return refuse(&place->disk, STATUS_REFUSED,
                      "it is empty: --size SIZE or --blocks N tells how long it is to be");
    if (wanted_blocks(options, sectors))
        return true;
    snprintf(cause, sizeof cause,
             "too small: with %" PRIu64 " slots an image has %" PRIu64 " bytes or more",
             options->slots, (options->home + 1) * 512);
    return refuse(&place->disk, STATUS_REFUSED, cause);
}

/* Makes the image: a log alone around the blocks that are there, or all of it. False: said why. */
static bool make(const struct make_words *options, struct place *place)
{
    uint64_t sectors = wanted_sectors(options, place), blocks = wanted_blocks(options, sectors);
    if (!may_make(options, place, sectors) || !place_fill(place, sectors))
        return false;
    if (sectors > place->disk.sectors)
        return refuse(&place->disk, STATUS_REFUSED, "too small: it is shorter than that");
    place_begin(place, options->home + (options->zeroes ? blocks : 0));
    const struct usbdisk_plan plan = { .format = (uint32_t)options->format,
                                       .slots = options->slots,
                                       .blocks = blocks,
                                       .home = options->home };
    uint32_t fault = usbdisk_io_make(&place->device, &plan, !options->zeroes);
    if (fault)
        return refuse_image(place, fault);
    place_keep(place);
    printf("made: format %" PRIu64 ", %" PRIu64 " slots, %" PRIu64 " blocks (%" PRIu64 ".%" PRIu64
           " MiB)\n",
           options->format, options->slots, blocks, blocks / 2048, blocks % 2048 * 10 / 2048);
    return true;
}

/* Starts a disk on it in memory alone, up to the first WRITE: by then all is read that may be wrong
 * with an image, and a FLUSH before it has nothing to do. Answers why there is none, or 0. */
static uint32_t start(struct place *place)
{
    static uint8_t buffer[USBDISK_IO_MOST * 512];
    struct usbdisk disk = USBDISK_NONE;
    struct usbdisk_options options = { .sectors = place->disk.sectors, .packet = 512 };
    struct usbdisk_call call;
    memset(&options.identity, ' ', sizeof options.identity);
    uint32_t fault = usbdisk_start(&disk, &options);
    while (!fault && !usbdisk_next(&disk, &call, buffer, sizeof buffer) &&
           call.kind != USBDISK_WRITE) {
        bool ok = call.kind == USBDISK_FLUSH ||
                  read_sectors(&place->disk, buffer, call.sector, call.count);
        usbdisk_done(&disk, ok, buffer, ok ? call.count * 512 : 0);
        usbdisk_state(&disk, &fault);
    }
    usbdisk_stop(&disk);
    return fault;
}

/* The bytes of the blocks, and in the largest unit of 1024 that they fill. */
static void tell_size(uint64_t bytes)
{
    static const char *const units[] = { "KiB", "MiB", "GiB", "TiB" };
    uint64_t unit = 1;
    int n = 0;
    while (n < 4 && bytes / unit >= 1024) {
        unit *= 1024;
        n++;
    }
    printf("size %" PRIu64 " bytes", bytes);
    if (n)
        printf(", %" PRIu64 ".%" PRIu64 " %s", bytes / unit, bytes % unit * 10 / unit,
               units[n - 1]);
    puts("");
}

/* Tells what was found: a line each, or an object of JSON. */
static void tell(const struct usbdisk_layout *found, bool starts, bool as_json)
{
    uint64_t memory = usbdisk_memory(found->format, found->slots);
    if (as_json) {
        printf(
            "{\"format\": %" PRIu32 ", \"blocks\": %" PRIu64 ", \"block_bytes\": 512, \"slots\": "
            "%" PRIu64 ", \"home\": %" PRIu64 ", \"memory_bytes\": %" PRIu64 ", \"starts\": %s}\n",
            found->format, found->blocks, found->slots, found->home, memory,
            starts ? "true" : "false");
        return;
    }
    printf("format %" PRIu32 "\nblocks %" PRIu64 "\nslots %" PRIu64 "\nhome %" PRIu64 "\n",
           found->format, found->blocks, found->slots, found->home);
    tell_size(found->blocks * 512);
    printf("memory %" PRIu64 " bytes\n%s", memory, starts ? "starts\n" : "");
}

static bool show(struct place *place, bool as_json)
{
    struct usbdisk_layout layout;
    if (!read_layout(place, &layout))
        return false;
    uint32_t fault = start(place);
    if (fault == USBDISK_READ_REFUSED)
        return refuse_call(&place->disk, "its log is not read");
    tell(&layout, !fault, as_json);
    return !fault || refuse_image(place, fault);
}

static bool migrate(struct place *place)
{
    struct usbdisk_layout layout;
    if (!read_layout(place, &layout))
        return false;
    place_begin(place, layout.home);
    uint32_t fault = usbdisk_io_migrate(&place->device);
    if (fault)
        return refuse_image(place, fault);
    place_keep(place);
    puts(layout.format == 2 ? "already format 2" : "migrated");
    return true;
}

/* With a plain file or device, which is opened, and let go of. */
static bool copy(const struct make_words *options, struct place *place)
{
    struct place raw;
    bool imports = options->imports != NULL;
    const char *path = imports ? options->imports : options->exports;
    if (place_is_at(place, path))
        return refuse(&place->disk, STATUS_USAGE, "it cannot be copied to itself");
    bool is_done = place_open(&raw, path, imports ? PLACE_READ : PLACE_MAKE) &&
                   (imports ? import_blocks : export_blocks)(options, place, &raw);
    place_close(&raw, is_done);
    if (!is_done && !place->disk.status)
        place->disk.status = raw.disk.status;
    return is_done;
}

static bool work(const struct make_words *options, struct place *place)
{
    if (options->imports || options->exports)
        return copy(options, place);
    if (options->shows)
        return show(place, options->as_json);
    return options->migrates ? migrate(place) : make(options, place);
}

static enum place_use use_of(const struct make_words *options)
{
    if (options->shows || options->exports)
        return PLACE_READ;
    return options->migrates ? PLACE_CHANGE : PLACE_MAKE;
}

int main(int count, char **words)
{
    struct make_words options;
    struct place place;
    (void)count;
    /* (a file that may not get so long is refused, in place of a kill) */
    if (!program_begin("usbdisk-make") || signal(SIGXFSZ, SIG_IGN) == SIG_ERR)
        return STATUS_FILE;
    int ended = read_make_words(&options, words);
    if (ended != GO_ON)
        return ended;
    bool is_done = place_open(&place, options.image, use_of(&options)) && work(&options, &place);
    place_close(&place, is_done);
    if (is_done && fflush(stdout))
        is_done = refuse(&place.disk, STATUS_FILE, "the answer was not written");
    return is_done ? 0 : place.disk.status;
}
