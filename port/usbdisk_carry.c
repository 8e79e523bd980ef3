/* Carries out what the library asks of a device. */
#include "usbdisk_carry.h"

/* More turns are never made in the background with no call of the device, but where they come to no
 * end. */
enum { TURNS = 34000 };

void *usbdisk_carry_alloc(size_t size)
{
    struct rattle_tried block = rattle_alloc(size, 16);
    return block.ok ? block.at : NULL;
}

bool usbdisk_carry_next(struct usbdisk_carry *carry)
{
    usbdisk_next(&carry->core, &carry->call, carry->buffer, carry->most * 512);
    return carry->call.kind != USBDISK_NOTHING;
}

bool usbdisk_carry_out(const struct usbdisk_carry *carry)
{
    const struct usbdisk_io_device *device = carry->device;
    const struct usbdisk_call *call = &carry->call;
    size_t count = (size_t)call->count;
    if (call->kind == USBDISK_FLUSH)
        return device->flush(device->context);
    if (call->kind == USBDISK_WRITE)
        return device->write(device->context, call->sector, carry->buffer, count);
    return count <= carry->most &&
           device->read(device->context, call->sector, carry->buffer, count);
}

void usbdisk_carry_done(struct usbdisk_carry *carry, bool ok)
{
    uint32_t kind = carry->call.kind;
    bool is_read = kind == USBDISK_READ;
    size_t size = is_read && ok ? (size_t)carry->call.count * 512 : 0;
    if (!ok && !is_read)
        carry->fault = kind == USBDISK_WRITE ? USBDISK_WRITE_REFUSED : USBDISK_FLUSH_REFUSED;
    carry->call.kind = USBDISK_NOTHING;
    carry->turns = 0;
    usbdisk_done(&carry->core, ok, carry->buffer, size);
}

bool usbdisk_carry_all(struct usbdisk_carry *carry)
{
    bool is_made = false;
    for (; usbdisk_carry_next(carry); is_made = true)
        usbdisk_carry_done(carry, usbdisk_carry_out(carry));
    return is_made;
}

/* The first calls of all that is started, up to the first READ, which is that of sector 0: nothing
 * but the layout is kept of its bytes. */
static void look(struct usbdisk_carry *carry)
{
    _Alignas(16) uint8_t sector[512] = { 0 };
    bool is_read = false;
    carry->buffer = sector;
    carry->most = 1;
    while (!is_read && usbdisk_carry_next(carry)) {
        bool ok = usbdisk_carry_out(carry);
        is_read = carry->call.kind == USBDISK_READ;
        if (is_read)
            usbdisk_look(sector, &carry->layout);
        usbdisk_carry_done(carry, ok);
    }
    carry->buffer = NULL;
}

uint32_t usbdisk_carry_begin(struct usbdisk_carry *carry, size_t most)
{
    struct usbdisk_log log = { .limit = USBDISK_IO_MOST };
    look(carry);
    usbdisk_log_of(carry->layout.format, carry->layout.slots, 1, &log);
    carry->most = most ? most : (size_t)log.limit;
    carry->buffer = usbdisk_carry_alloc(carry->most * 512);
    return carry->buffer ? usbdisk_carry_fault(carry) : USBDISK_NO_MEMORY;
}

uint32_t usbdisk_carry_fault(struct usbdisk_carry *carry)
{
    uint32_t fault = 0;
    usbdisk_state(&carry->core, &fault);
    return fault ? fault : carry->fault;
}

bool usbdisk_carry_idle(struct usbdisk_carry *carry)
{
    bool is_left = !usbdisk_carry_has_ended(carry) && usbdisk_idle(&carry->core) == 1;
    carry->turns += is_left;
    return is_left;
}

bool usbdisk_carry_has_ended(const struct usbdisk_carry *carry)
{
    return carry->fault || carry->turns > TURNS;
}

void usbdisk_carry_stop(struct usbdisk_carry *carry)
{
    usbdisk_stop(&carry->core);
    if (carry->buffer)
        rattle_dealloc(carry->buffer);
}
