/* The device under test, call by call, until the power goes. */
#include "judge.h"
#include "device.h"
#include "draw.h"

enum { LONGEST = USBDISK_LIMIT(2) };

uint64_t seed;
long left;
bool goes_late, is_gone;
const char *wrong;

unsigned random_below(unsigned most)
{
    return draw_below(&seed, most);
}

bool fails(const char *what)
{
    wrong = what;
    return false;
}

static bool read_run(uint64_t first, uint8_t *bytes, size_t count)
{
    for (size_t i = 0; i < count; i++)
        if (!device_read(first + i, bytes + i * 512))
            return fails("the device refuses a read");
    return true;
}

/* The power goes: the call on the way does not end, and the life does. */
static bool lose_power(void)
{
    is_gone = true;
    return false;
}

/* Writes the sectors from the first on and from the last in turns. */
static bool write_run(uint64_t first, const uint8_t *bytes, size_t count)
{
    static bool backwards;
    backwards = !backwards;
    for (size_t i = 0; i < count; i++) {
        size_t at = backwards ? count - 1 - i : i;
        if (left-- <= 0 && !goes_late)
            return lose_power();
        if (!device_write(first + at, bytes + at * 512))
            return fails("the device refuses a call");
    }
    return true;
}

static bool flush_all(void)
{
    if (left-- <= 0)
        return lose_power();
    return device_flush() || fails("the device refuses a call");
}

static bool carry_out(const struct usbdisk_call *call, uint8_t *bytes)
{
    switch (call->kind) {
    case USBDISK_READ:
        return read_run(call->sector, bytes, call->count);
    case USBDISK_WRITE:
        return write_run(call->sector, bytes, call->count);
    default:
        return flush_all();
    }
}

bool carry_one(struct usbdisk *disk)
{
    static uint8_t bytes[LONGEST * 512];
    struct usbdisk_call call;
    if (is_gone || wrong || usbdisk_next(disk, &call, bytes, sizeof bytes) || !call.kind ||
        !carry_out(&call, bytes))
        return false;
    size_t size = call.kind == USBDISK_READ ? 512 * (size_t)call.count : 0;
    return !usbdisk_done(disk, true, bytes, size) || fails("a call does not end");
}

bool carry_all(struct usbdisk *disk)
{
    while (carry_one(disk))
        ;
    return !is_gone && !wrong;
}
