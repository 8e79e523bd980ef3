/* What usbdisk_log_of answers for each format, number of slots and page: the header's numbers, and
 * the first home sector that a format takes. */
#include "numbers.h"
#include "gadget.h"
#include <string.h>

/* Whether an image may have home there. */
static bool takes(uint32_t format, uint64_t slots, uint64_t home)
{
    const struct usbdisk_plan plan = { UINT64_MAX, format, slots, 1, home };
    struct usbdisk image = USBDISK_NONE;
    uint32_t code = usbdisk_format(&image, &plan);
    must(code ? code == USBDISK_BAD_SIZES : !usbdisk_stop(&image), "a format of a log");
    return !code;
}

/* The first multiple of a page behind the log, or 0 where home may begin at none. */
static uint64_t home_on(uint32_t format, uint64_t slots, uint64_t page)
{
    uint64_t home = USBDISK_LOG_END(format, slots);
    while (takes(format, slots, home) && home % page)
        home++;
    return takes(format, slots, home) ? home : 0;
}

static void play_log(uint32_t format, uint64_t slots, uint64_t page)
{
    const struct usbdisk_log untold = { UNTOLD, UNTOLD, UNTOLD, UNTOLD };
    uint64_t home = page ? home_on(format, slots, page) : 0;
    struct usbdisk_log log = untold;
    uint32_t code = usbdisk_log_of(format, slots, page, &log);
    if (!home) {
        must(code == USBDISK_BAD_SIZES && !memcmp(&log, &untold, sizeof log), "no such log");
        return;
    }
    must(!code && log.limit == USBDISK_LIMIT(format) && log.home == home, "a log's home");
    must(log.slot_sectors == USBDISK_LOG_END(format, 1) - 2 &&
             log.end == USBDISK_LOG_END(format, slots),
         "a log's sectors");
}

void play_logs(void)
{
    static const uint64_t pages[] = { 0,   1,   2,   3,    8,       48,        128,
                                      249, 250, 256, 1000, 1 << 20, UINT64_MAX };
    for (uint32_t format = 0; format <= 3; format++)
        for (uint64_t slots = 0; slots <= 65; slots++)
            for (size_t i = 0; i < sizeof pages / sizeof *pages; i++)
                play_log(format, slots, pages[i]);
    must(!heap_blocks, "memory of a log");
}
