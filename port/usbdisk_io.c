/* A disk of the library over a device. */
#include "usbdisk_carry.h"
#include <string.h>

enum { PACKET = 512 };

/* What the READs that follow each other will ask for next. */
struct guess {
    uint64_t behind; /* the sector behind the last READ */
    uint64_t before; /* how many sectors the READ before it had */
    uint64_t ahead;  /* how many from there on were read before they were asked for */
    bool reads_on;   /* the last READ began where the one before it ended */
};

/* Sectors that are to be read ahead; a count of 0: none. */
struct wish {
    uint64_t first;
    uint32_t count;
};

struct usbdisk_io {
    struct usbdisk_carry carry;
    struct guess guess;
    struct wish wish;
    uint32_t packet;
    bool is_beside;   /* who carries out calls of the device does it beside the other calls */
    bool reads_ahead; /* the call under way was a wish */
};

/* A call of the device is wanted. What the disk wants comes before what is only guessed. Sectors
 * before home the start reads. */
static bool is_wanted(struct usbdisk_io *io)
{
    struct usbdisk_carry *carry = &io->carry;
    if (usbdisk_carry_next(carry)) {
        const struct usbdisk_call *call = &carry->call;
        if (call->kind == USBDISK_READ && call->sector >= carry->layout.home) {
            io->guess.reads_on = call->sector == io->guess.behind;
            io->guess.behind = call->sector + call->count;
            io->guess.ahead = io->wish.count = 0;
        }
        return true;
    }
    if (!io->wish.count || usbdisk_ahead(&carry->core, io->wish.first, io->wish.count) != 1)
        return false;
    io->wish.count = 0;
    io->reads_ahead = usbdisk_carry_next(carry);
    return io->reads_ahead;
}

const struct usbdisk_call *usbdisk_io_next(struct usbdisk_io *io)
{
    bool is_free = io->carry.call.kind == USBDISK_NOTHING;
    return is_free && is_wanted(io) ? &io->carry.call : NULL;
}

bool usbdisk_io_reads_ahead(const struct usbdisk_io *io)
{
    return io->reads_ahead;
}

bool usbdisk_io_carry_out(const struct usbdisk_io *io)
{
    return usbdisk_carry_out(&io->carry);
}

void usbdisk_io_done(struct usbdisk_io *io, bool ok)
{
    if (io->reads_ahead)
        io->guess.ahead = ok ? io->carry.call.count : 0;
    io->reads_ahead = false;
    usbdisk_carry_done(&io->carry, ok);
}

/* Has the device carry out all that is wanted, where it does not work beside. Answers whether it
 * was asked for something. */
static bool carry_all(struct usbdisk_io *io)
{
    bool is_made = false;
    for (; !io->is_beside && is_wanted(io); is_made = true)
        usbdisk_io_done(io, usbdisk_carry_out(&io->carry));
    return is_made;
}

uint32_t usbdisk_io_begin(struct usbdisk_io **io, const struct usbdisk_io_device *device,
                          const struct usbdisk_identity *identity, uint32_t packet)
{
    struct usbdisk_options options = { device->sectors, *identity, packet, device->kept };
    struct usbdisk_io *made = usbdisk_carry_alloc(sizeof *made);
    if (!made)
        return USBDISK_NO_MEMORY;
    *made = (struct usbdisk_io){ .carry = { .core = USBDISK_NONE, .device = device },
                                 .packet = packet,
                                 .is_beside = true };
    uint32_t code = usbdisk_start(&made->carry.core, &options);
    if (!code)
        code = usbdisk_carry_begin(&made->carry, 0);
    if (code)
        usbdisk_io_stop(made);
    else
        *io = made;
    return code;
}

uint32_t usbdisk_io_start(struct usbdisk_io **io, const struct usbdisk_io_device *device,
                          const struct usbdisk_identity *identity, uint32_t packet)
{
    struct usbdisk_io *made;
    uint32_t code = usbdisk_io_begin(&made, device, identity, packet);
    if (code)
        return code;
    made->is_beside = false;
    carry_all(made);
    code = usbdisk_carry_fault(&made->carry);
    if (code)
        usbdisk_io_stop(made);
    else
        *io = made;
    return code;
}

void usbdisk_io_stop(struct usbdisk_io *io)
{
    if (!io)
        return;
    usbdisk_carry_stop(&io->carry);
    rattle_dealloc(io);
}

uint32_t usbdisk_io_state(struct usbdisk_io *io, uint32_t *fault)
{
    return usbdisk_state(&io->carry.core, fault);
}

bool usbdisk_io_has_faulted(const struct usbdisk_io *io)
{
    return usbdisk_carry_has_ended(&io->carry);
}

/* What had to wait for the device goes on once it has carried out what is wanted. */
uint32_t usbdisk_io_out(struct usbdisk_io *io, const uint8_t *bytes, size_t size, size_t *taken)
{
    static const uint8_t none[1];
    uint32_t code;
    *taken = 0;
    io->carry.turns = 0;
    do {
        size_t count = 0;
        code = usbdisk_out(&io->carry.core, size ? bytes + *taken : none, size - *taken, &count);
        *taken += count;
    } while (carry_all(io) && code == USBDISK_NAK);
    return code;
}

/* Where the rest of the room is shorter than a packet may be, one is fetched beside it. */
uint32_t usbdisk_io_in(struct usbdisk_io *io, uint8_t *bytes, size_t size, size_t *got)
{
    uint8_t packet[PACKET];
    size_t count = 0;
    *got = 0;
    do {
        size_t left = size - *got;
        bool fits = left >= io->packet;
        uint8_t *room = fits ? bytes + *got : packet;
        uint32_t code = usbdisk_in(&io->carry.core, room, fits ? left : io->packet, &count);
        if (code != USBDISK_ACK)
            return code;
        if (count > left)
            return USBDISK_IO_OVERFLOW;
        if (!fits)
            memcpy(bytes + *got, packet, count);
        *got += count;
    } while (count && count % io->packet == 0 && *got < size);
    return USBDISK_ACK;
}

uint32_t usbdisk_io_setup(struct usbdisk_io *io, const uint8_t setup[8], uint8_t data[2],
                          uint32_t *size)
{
    *size = 0;
    return usbdisk_setup(&io->carry.core, setup, data, size);
}

void usbdisk_io_clear_halt(struct usbdisk_io *io, uint8_t endpoint)
{
    const uint8_t setup[8] = { 0x02, 0x01, 0, 0, endpoint, 0, 0, 0 };
    uint8_t data[2];
    uint32_t size;
    usbdisk_io_setup(io, setup, data, &size);
}

/* What a host's reset recovery does: class reset, both halts cleared. */
void usbdisk_io_reset(struct usbdisk_io *io)
{
    static const uint8_t class_reset[8] = { 0x21, 0xFF, 0, 0, 0, 0, 0, 0 };
    uint8_t data[2];
    uint32_t size;
    io->wish.count = 0;
    usbdisk_io_setup(io, class_reset, data, &size);
    usbdisk_io_clear_halt(io, 0x81);
    usbdisk_io_clear_halt(io, 0x02);
}

bool usbdisk_io_idle(struct usbdisk_io *io)
{
    bool is_left = usbdisk_carry_idle(&io->carry);
    carry_all(io);
    return is_left && !usbdisk_io_has_faulted(io);
}

/* How many sectors from guess->behind on are to be read ahead, when the data of a READ is on its
 * way, `size` bytes; or 0. */
static uint64_t guess_next(struct guess *guess, uint64_t size, const struct usbdisk_layout *layout)
{
    uint64_t count = size / 512, next = guess->before, end = layout->home + layout->blocks;
    bool is_found = guess->ahead && guess->ahead == count;
    if (!count || (guess->ahead && !is_found))
        return 0;
    guess->before = count;
    guess->behind += guess->ahead;
    guess->ahead = 0;
    bool follows = is_found || guess->reads_on;
    return follows && next <= end - guess->behind ? next : 0;
}

void usbdisk_io_look_ahead(struct usbdisk_io *io, uint64_t size)
{
    uint64_t next = guess_next(&io->guess, size, &io->carry.layout);
    io->wish = (struct wish){ io->guess.behind, next <= io->carry.most ? (uint32_t)next : 0 };
    carry_all(io);
}

/* A request, whose bytes are the setup packet, and room for what goes to the host. */
static uint32_t play_setup(struct usbdisk_io *io, struct usbdisk_io_event *event)
{
    uint32_t size, code = usbdisk_io_setup(io, event->bytes, event->bytes + 8, &size);
    event->moved = size;
    return code;
}

/* The part of a transfer that has not moved yet. */
static uint32_t play_transfer(struct usbdisk_io *io, struct usbdisk_io_event *event)
{
    uint8_t *rest = event->bytes + event->moved;
    size_t size = event->size - event->moved, moved;
    uint32_t code = event->kind == USBDISK_IO_OUT ? usbdisk_io_out(io, rest, size, &moved)
                                                  : usbdisk_io_in(io, rest, size, &moved);
    event->moved += moved;
    return code;
}

uint32_t usbdisk_io_play(struct usbdisk_io *io, struct usbdisk_io_event *event)
{
    switch (event->kind) {
    case USBDISK_IO_SETUP:
        return play_setup(io, event);
    case USBDISK_IO_RESET:
        usbdisk_io_reset(io);
        return USBDISK_ACK;
    case USBDISK_IO_IDLE:
        return usbdisk_io_idle(io) ? USBDISK_ACK : USBDISK_NAK;
    default:
        return play_transfer(io, event);
    }
}
