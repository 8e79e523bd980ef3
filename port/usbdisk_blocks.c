/* A store of the library over a device. */
#include "usbdisk_blocks.h"
#include "usbdisk_carry.h"

struct usbdisk_blocks {
    struct usbdisk_carry carry;
    uint64_t count;
    uint32_t limit;
};

/* Has the device carry out the start. Answers why there are no blocks, or 0. */
static uint32_t begin(struct usbdisk_blocks *blocks, uint32_t most)
{
    const struct usbdisk_io_device *device = blocks->carry.device;
    struct usbdisk_options options = { .sectors = device->sectors, .kept = device->kept };
    uint32_t code = usbdisk_store_start(&blocks->carry.core, &options);
    if (!code)
        code = usbdisk_carry_begin(&blocks->carry, most);
    if (code)
        return code;
    usbdisk_carry_all(&blocks->carry);
    usbdisk_store_sizes(&blocks->carry.core, &blocks->count, &blocks->limit);
    return usbdisk_carry_fault(&blocks->carry);
}

uint32_t usbdisk_blocks_start(struct usbdisk_blocks **blocks,
                              const struct usbdisk_io_device *device, uint32_t most)
{
    struct usbdisk_blocks *made = usbdisk_carry_alloc(sizeof *made);
    if (!made)
        return USBDISK_NO_MEMORY;
    *made = (struct usbdisk_blocks){ .carry = { .core = USBDISK_NONE, .device = device } };
    most = most < USBDISK_IO_MOST ? most : USBDISK_IO_MOST;
    uint32_t code = begin(made, most ? most : 1);
    if (code)
        usbdisk_blocks_stop(made);
    else
        *blocks = made;
    return code;
}

void usbdisk_blocks_stop(struct usbdisk_blocks *blocks)
{
    if (!blocks)
        return;
    usbdisk_carry_stop(&blocks->carry);
    rattle_dealloc(blocks);
}

uint64_t usbdisk_blocks_count(struct usbdisk_blocks *blocks)
{
    return blocks->count;
}

uint32_t usbdisk_blocks_limit(struct usbdisk_blocks *blocks)
{
    return blocks->limit;
}

/* Whether a call has to be made again, behind what it asked of the device. */
static bool is_due(struct usbdisk_blocks *blocks, uint32_t code)
{
    return code == USBDISK_BUSY && usbdisk_carry_all(&blocks->carry);
}

static uint32_t read_part(struct usbdisk_blocks *blocks, uint64_t block, uint8_t *bytes,
                          size_t size)
{
    uint32_t code;
    do
        code = usbdisk_store_read(&blocks->carry.core, block, bytes, size);
    while (is_due(blocks, code));
    return code;
}

uint32_t usbdisk_blocks_read(struct usbdisk_blocks *blocks, uint64_t first, uint8_t *bytes,
                             size_t count)
{
    uint32_t code = count ? 0 : USBDISK_BAD_LENGTH;
    size_t most = blocks->carry.most < blocks->limit ? blocks->carry.most : blocks->limit;
    if (first > blocks->count || count > blocks->count - first)
        return USBDISK_BAD_RANGE;
    for (size_t at = 0; !code && at < count; at += most) {
        size_t part = count - at < most ? count - at : most;
        code = read_part(blocks, first + at, bytes + at * 512, part * 512);
    }
    return code;
}

/* What a call that may write answers: `before` is what the device had refused before it. */
static uint32_t carried(struct usbdisk_blocks *blocks, uint32_t before, uint32_t code)
{
    struct usbdisk_carry *carry = &blocks->carry;
    carry->turns = 0;
    usbdisk_carry_all(carry);
    return carry->fault == before ? code : carry->fault;
}

uint32_t usbdisk_blocks_write(struct usbdisk_blocks *blocks, uint64_t first, const uint8_t *bytes,
                              size_t count)
{
    uint32_t code, before = blocks->carry.fault;
    if (count > blocks->limit)
        return USBDISK_BAD_LENGTH;
    do
        code = usbdisk_store_write(&blocks->carry.core, first, bytes, count * 512);
    while (is_due(blocks, code));
    return carried(blocks, before, code);
}

uint32_t usbdisk_blocks_sync(struct usbdisk_blocks *blocks)
{
    uint32_t code, before = blocks->carry.fault;
    do
        code = usbdisk_store_sync(&blocks->carry.core);
    while (is_due(blocks, code));
    return carried(blocks, before, code);
}

bool usbdisk_blocks_idle(struct usbdisk_blocks *blocks)
{
    bool is_left = usbdisk_carry_idle(&blocks->carry);
    usbdisk_carry_all(&blocks->carry);
    return is_left && !usbdisk_carry_has_ended(&blocks->carry);
}

uint32_t usbdisk_blocks_sense(uint32_t code)
{
    switch (code) {
    case 0:
        return 0;
    case USBDISK_READ_REFUSED: /* unrecovered read error */
        return 0x031100;
    case USBDISK_WRITE_REFUSED: /* write error */
    case USBDISK_FLUSH_REFUSED:
        return 0x030C00;
    case USBDISK_BAD_RANGE: /* logical block address out of range */
        return 0x052100;
    case USBDISK_BAD_LENGTH: /* invalid field in the command */
        return 0x052400;
    default: /* internal target failure */
        return 0x044400;
    }
}
