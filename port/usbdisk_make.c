/* Images on a device, and what the numbers mean. */
#include "usbdisk_carry.h"
#include <string.h>

/* What usbdisk_format, usbdisk_lay_log and usbdisk_migrate are. */
typedef uint32_t usbdisk_making(struct usbdisk *image, const struct usbdisk_plan *plan);

/* The plan's log. Where there is none such, which a format refuses, home is not known. */
static struct usbdisk_log log_of(const struct usbdisk_plan *plan)
{
    struct usbdisk_log log = { .limit = USBDISK_IO_MOST };
    usbdisk_log_of(plan->format, plan->slots, 1, &log);
    return log;
}

/* Begins work on the device's image, and has the device carry it out. */
static uint32_t work(const struct usbdisk_io_device *device, usbdisk_making *making,
                     const struct usbdisk_plan *plan)
{
    struct usbdisk_carry carry = { .core = USBDISK_NONE, .device = device };
    uint32_t code = making(&carry.core, plan);
    if (!code)
        code = usbdisk_carry_begin(&carry, (size_t)log_of(plan).limit);
    if (!code) {
        usbdisk_carry_all(&carry);
        code = usbdisk_carry_fault(&carry);
    }
    usbdisk_carry_stop(&carry);
    return code;
}

/* How many blocks there is room for behind the plan's log, or from its home on. */
static uint64_t most_blocks(const struct usbdisk_plan *plan)
{
    uint64_t home = plan->home ? plan->home : log_of(plan).home, most = (uint64_t)1 << 31;
    uint64_t left = plan->sectors > home ? plan->sectors - home : 0;
    return left < most ? left : most;
}

uint32_t usbdisk_io_make(const struct usbdisk_io_device *device, const struct usbdisk_plan *plan,
                         bool keeps)
{
    struct usbdisk_plan made = *plan;
    made.sectors = device->sectors;
    if (!made.blocks)
        made.blocks = most_blocks(&made);
    return work(device, keeps ? usbdisk_lay_log : usbdisk_format, &made);
}

uint32_t usbdisk_io_format(const struct usbdisk_io_device *device, uint32_t format, uint64_t slots,
                           uint64_t blocks)
{
    struct usbdisk_plan plan = { .format = format, .slots = slots, .blocks = blocks };
    return usbdisk_io_make(device, &plan, false);
}

/* Reads sector 0, and tells whether each of its bytes is 00h, or each is FFh. */
static uint32_t look_for_blank(const struct usbdisk_io_device *device, bool *is_blank)
{
    _Alignas(16) uint8_t sector[512];
    bool is_read = device->sectors && device->read(device->context, 0, sector, 1);
    bool is_even = is_read && !memcmp(sector, sector + 1, 511);
    *is_blank = is_even && (sector[0] == 0x00 || sector[0] == 0xFF);
    return is_read ? 0 : USBDISK_READ_REFUSED;
}

uint32_t usbdisk_io_format_blank(const struct usbdisk_io_device *device, uint32_t format,
                                 uint64_t slots, uint64_t blocks)
{
    bool is_blank = false;
    uint32_t code = look_for_blank(device, &is_blank);
    return is_blank ? usbdisk_io_format(device, format, slots, blocks) : code;
}

uint32_t usbdisk_io_lay_log(const struct usbdisk_io_device *device, uint32_t format, uint64_t slots,
                            uint64_t blocks)
{
    struct usbdisk_plan plan = { .format = format, .slots = slots, .blocks = blocks };
    return usbdisk_io_make(device, &plan, true);
}

uint32_t usbdisk_io_migrate(const struct usbdisk_io_device *device)
{
    struct usbdisk_plan plan = { .sectors = device->sectors };
    return work(device, usbdisk_migrate, &plan);
}

static const char *const texts[] = {
    [0] = "good",
    [USBDISK_NO_MEMORY] = "no memory",
    [USBDISK_READ_REFUSED] = "the device refused a read",
    [USBDISK_WRITE_REFUSED] = "the device refused a write",
    [USBDISK_FLUSH_REFUSED] = "the device refused a flush",
    [USBDISK_BAD_SUPER] = "no image: sector 0 is not ours",
    [USBDISK_BAD_VERSION] = "an image of a later version",
    [USBDISK_BAD_SIZE] = "the sizes in sector 0 do not fit: it was cut off, or changed",
    [USBDISK_BAD_HEAD] = "sector 1 is no head: it was torn, or changed",
    [USBDISK_STAMPS_USED_UP] = "its stamps are used up",
    [USBDISK_LOG_TOO_SMALL] = "its log is too small for format 2: it has fewer than 5 slots",
    [USBDISK_DEAD] = "dead until the next start",
    [USBDISK_BUSY] = "the device has something to carry out first",
    [USBDISK_EMPTY] = "not started",
    [USBDISK_STARTED] = "started already",
    [USBDISK_BAD_IDENTITY] = "the identity has a character that is not printable ASCII",
    [USBDISK_BAD_PACKET_SIZE] = "the packet size is neither 64 nor 512",
    [USBDISK_BAD_LENGTH] = "the bytes are no whole sectors or blocks, or too few or too many",
    [USBDISK_BAD_SIZES] = "the sizes are out of their limits",
    [USBDISK_BAD_RANGE] = "a block behind the last one",
    [USBDISK_NOT_ASKED] = "no call of the device is under way",
    [USBDISK_OTHER_KIND] = "the handle holds something of another kind",
    [USBDISK_IO_OVERFLOW] = "a packet is longer than the room for it",
};

const char *usbdisk_text(uint32_t code)
{
    const char *text = code < sizeof texts / sizeof *texts ? texts[code] : NULL;
    return text ? text : "a number that nobody knows";
}
