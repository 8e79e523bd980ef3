/* Copies blocks from and to an image, neighbouring ones by one call. Holes stay holes. */
#include "make_copy.h"
#include "make_overlay.h"
#include "program.h"
#include "usbdisk_blocks.h"
#include <inttypes.h>
#include <stdio.h>
#include <string.h>

/* RUN: how many sectors of a plain file are read at once. PAGE: so many sectors of zeros in a row
 * are left out of a file that was just emptied. */
enum { RUN = 2048, PAGE = 8 };

static bool are_zeros(const uint8_t *bytes, uint64_t count)
{
    return bytes[0] == 0 && !memcmp(bytes, bytes + 1, 512 * count - 1);
}

static bool write_at(struct place *to, const uint8_t *bytes, uint64_t first, uint64_t count)
{
    return !count || write_sectors(&to->disk, bytes, first, count) ||
           refuse_call(&to->disk, "a write was refused");
}

/* Writes sectors to their place. Of a file that was just emptied those alone that are not zeros. */
static bool put(struct place *to, const uint8_t *bytes, uint64_t first, uint64_t count)
{
    uint64_t from = 0, at = 0;
    while (to->is_empty && at < count) {
        uint64_t page = count - at < PAGE ? count - at : PAGE;
        if (are_zeros(bytes + 512 * at, page)) {
            if (!write_at(to, bytes + 512 * from, first + from, at - from))
                return false;
            from = at + page;
        }
        at += page;
    }
    return write_at(to, bytes + 512 * from, first + from, count - from);
}

/* So many sectors more are copied. False: a signal asks to end. */
static bool goes_on(struct place *to, uint64_t count)
{
    place_tell(to, count);
    return !place_is_stopped() ||
           refuse(&to->disk, STATUS_FILE, "stopped on the way: run it again");
}

/* Copies all sectors of `raw` to those from home on. */
static bool copy_in(struct place *image, struct place *raw, uint64_t home)
{
    static uint8_t bytes[RUN * 512];
    uint64_t all = raw->disk.sectors, at = image->is_empty ? place_next_data(raw, 0) : 0;
    image->done = at < all ? at : all;
    image->all = all;
    while (at < all) {
        uint64_t count = all - at < RUN ? all - at : RUN;
        if (!read_sectors(&raw->disk, bytes, at, count))
            return refuse_call(&raw->disk, "a read was refused");
        if (!put(image, bytes, home + at, count))
            return false;
        uint64_t next = image->is_empty ? place_next_data(raw, at + count) : at + count;
        if (!goes_on(image, (next < all ? next : all) - at))
            return false;
        at = next;
    }
    return flush(&image->disk) || refuse_call(&image->disk, "a flush was refused");
}

/* Whether nobody misses what lies there. Of a file that is there each byte is lost. */
static bool may_empty(struct place *to, bool replaces)
{
    bool is_there = !to->is_device && !to->is_new && (to->disk.sectors || to->has_rest);
    if (is_there && !replaces)
        return refuse(&to->disk, STATUS_FILE, "it is there: --replace empties it first");
    return place_is_free(to, replaces);
}

bool import_blocks(const struct make_words *options, struct place *image, struct place *raw)
{
    uint64_t home = options->home, blocks = raw->disk.sectors;
    const struct usbdisk_plan plan = {
        .format = (uint32_t)options->format, .slots = options->slots, .blocks = blocks, .home = home
    };
    if (!blocks || raw->has_rest || blocks > MOST_BLOCKS)
        return refuse(&raw->disk, STATUS_REFUSED, "it has no whole blocks, or more than 2^31");
    if (!may_empty(image, options->replaces) || !place_empty(image, home + blocks) ||
        !copy_in(image, raw, home))
        return false;
    place_begin(image, home);
    uint32_t fault = usbdisk_io_make(&image->device, &plan, true);
    if (fault)
        return refuse_image(image, fault);
    place_keep(image);
    printf("imported: %" PRIu64 " blocks\n", blocks);
    return true;
}

/* The first block from this one on that may be other than zeros. */
static uint64_t next_block(const struct overlay *overlay, uint64_t home, uint64_t block)
{
    uint64_t data = place_next_data(overlay->place, home + block);
    uint64_t written = overlay_next(overlay, home + block);
    return (data < written ? data : written) - home;
}

/* Copies all blocks of an image on which a store was started. */
static bool copy_out(struct usbdisk_blocks *blocks, const struct overlay *overlay, uint64_t home,
                     struct place *raw)
{
    static uint8_t bytes[USBDISK_IO_MOST * 512];
    uint64_t all = usbdisk_blocks_count(blocks), at = 0;
    raw->done = 0;
    raw->all = all;
    while (at < all) {
        uint64_t from = raw->is_empty ? next_block(overlay, home, at) : at;
        from = from < all ? from : all;
        uint64_t count = all - from < USBDISK_IO_MOST ? all - from : USBDISK_IO_MOST;
        uint32_t fault = count ? usbdisk_blocks_read(blocks, from, bytes, count) : 0;
        if (fault)
            return refuse_image(overlay->place, fault);
        if (!put(raw, bytes, from, count) || !goes_on(raw, from + count - at))
            return false;
        at = from + count;
    }
    return flush(&raw->disk) || refuse_call(&raw->disk, "a flush was refused");
}

static bool export_on(struct overlay *overlay, struct usbdisk_blocks *blocks, uint64_t home,
                      bool replaces, struct place *raw)
{
    uint64_t all = usbdisk_blocks_count(blocks);
    if (!may_empty(raw, replaces) || !place_empty(raw, all) ||
        !copy_out(blocks, overlay, home, raw))
        return false;
    place_keep(raw);
    printf("exported: %" PRIu64 " blocks\n", all);
    return true;
}

bool export_blocks(const struct make_words *options, struct place *image, struct place *raw)
{
    struct usbdisk_layout layout;
    struct overlay overlay;
    struct usbdisk_blocks *blocks = NULL;
    if (!read_layout(image, &layout))
        return false;
    struct usbdisk_io_device device = overlay_begin(&overlay, image);
    uint32_t fault = usbdisk_blocks_start(&blocks, &device, USBDISK_IO_MOST);
    bool is_done = fault ? refuse_image(image, fault)
                         : export_on(&overlay, blocks, layout.home, options->replaces, raw);
    usbdisk_blocks_stop(blocks);
    overlay_end(&overlay);
    return is_done;
}
