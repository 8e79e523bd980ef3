/* A host, packet by packet. It sends a packet that was not taken again, and asks again for one that
 * was not there. */
#include "behind.h"
#include <string.h>

static const uint8_t requests[3][8] = {
    { 0x21, 0xFF },             /* bulk-only mass storage reset */
    { 0x02, 1, 0, 0, 0x81, 0 }, /* clear the halt of bulk-in */
    { 0x02, 1, 0, 0, 0x02, 0 }, /* clear the halt of bulk-out */
};

/* While the first sectors are read a request may be refused. */
static bool request(struct host *host, const uint8_t setup[8])
{
    uint8_t data[2];
    uint32_t size, code = usbdisk_setup(host->disk, setup, data, &size);
    return code == USBDISK_ACK || (code == USBDISK_STALL && host->is_opening) ||
           fails("a request is refused");
}

bool writes(const struct command *command)
{
    return command->code == 0x2A || command->code == 0x8A;
}

bool reads(const struct command *command)
{
    return command->code == 0x28 || command->code == 0x88;
}

bool promises(const struct command *command, bool is_cached)
{
    if (writes(command))
        return command->flags || !is_cached;
    if (reads(command))
        return command->flags;
    if (command->code == 0x15)
        return is_cached && !command->cache;
    return command->code != 0x03 && command->code != 0x1A;
}

struct command some_command(bool is_plain)
{
    static uint32_t numbers = 1;
    static const uint8_t codes[16] = { 0x35, 0x91, 0x15, 0x28, 0x88, 0x28, 0x28, 0x8A };
    unsigned which = random_below(16), count = 1 + random_below(random_below(8) ? 4 : MOST);
    if (is_plain && random_below(64)) {
        which = 15;
        count = MOST;
    }
    struct command command = { .code = codes[which] ? codes[which] : 0x2A, .count = count };
    command.address = random_below((random_below(4) && count < MOST ? MOST : BLOCKS) - count + 1);
    if (writes(&command) || reads(&command))
        command.flags = random_below(8) || which == 15 ? 0 : 8;
    if (command.code == 0x15)
        command = (struct command){ .code = 0x15, .flags = 0x10, .cache = random_below(4) != 0 };
    if (command.code == 0x35 || command.code == 0x91)
        command.address = command.count = 0;
    command.number = numbers++;
    return command;
}

static bool sends_data(const struct command *command)
{
    return writes(command) || command->code == 0x15;
}

static bool wants_data(const struct command *command)
{
    return reads(command) || command->code == 0x03 || command->code == 0x1A;
}

static unsigned length_of(const struct command *command)
{
    if (command->code == 0x15 || command->code == 0x1A)
        return 24;
    if (command->code == 0x03)
        return 18;
    return sends_data(command) || wants_data(command) ? 512 * command->count : 0;
}

void host_begin(struct host *host, const struct command *command, bool promises)
{
    host->command = *command;
    host->promises = promises;
    host->length = length_of(command);
    host->moved = 0;
    host->stage = WRAPPER;
    host->commands++;
}

void host_reset(struct host *host)
{
    note_reset(host);
    host->stage = RESET;
    host->requests = 0;
}

/* The command block, of 6, 10 or 16 bytes. */
static unsigned spell_block(const struct command *command, uint8_t block[16])
{
    block[0] = command->code;
    block[1] = command->flags;
    if (command->code < 0x20) {
        if (command->code == 0x1A) {
            block[1] = block[2] = 8; /* the caching page, and no block descriptor */
        }
        block[4] = (uint8_t)length_of(command);
        return 6;
    }
    bool is_long = command->code >= 0x80;
    block[is_long ? 8 : 4] = (uint8_t)(command->address >> 8);
    block[is_long ? 9 : 5] = (uint8_t)command->address;
    block[is_long ? 13 : 8] = (uint8_t)command->count;
    return is_long ? 16 : 10;
}

static void spell_wrapper(const struct host *host, uint8_t packet[31])
{
    memset(packet, 0, 31);
    memcpy(packet, "USBC", 4);
    packet[4] = (uint8_t)host->commands;
    packet[8] = host->length & 255;
    packet[9] = (uint8_t)(host->length >> 8);
    packet[12] = wants_data(&host->command) ? 0x80 : 0;
    packet[14] = (uint8_t)spell_block(&host->command, packet + 15);
}

/* A part of a WRITE's data, of a few packets or of all, or the parameter list of a MODE SELECT. */
static unsigned spell_data(const struct host *host, uint8_t *bytes)
{
    unsigned left = host->length - host->moved;
    unsigned part = host->packet * (1 + random_below(random_below(2) ? 3 : MOST * 8));
    unsigned size = left < part ? left : part;
    memset(bytes, 0, size);
    if (host->command.code == 0x15) {
        bytes[4] = 0x08;
        bytes[5] = 0x12;
        bytes[6] = host->command.cache ? 4 : 0;
        return size;
    }
    for (unsigned i = 0; i < size; i += 4)
        memcpy(bytes + i, &host->command.number, 4);
    return size;
}

/* A wrapper or data was taken. */
static enum outcome take_on(struct host *host, unsigned size)
{
    const struct command *command = &host->command;
    host->moved += host->stage == DATA_OUT ? size : 0;
    if (sends_data(command) && host->moved < host->length) {
        host->stage = DATA_OUT;
        return GOES_ON;
    }
    host->stage = wants_data(command) ? DATA_IN : STATUS;
    host->moved = 0;
    return CARRIED_OUT;
}

/* A packet was not taken, though no command is pending: a start is under way. */
static bool may_come_again(const struct host *host)
{
    uint32_t fault;
    return usbdisk_state(host->disk, &fault) == USBDISK_STARTING ||
           fails("a packet has to come again, and no command is pending");
}

/* How many of the bytes were taken: all, or so many packets. */
static enum outcome judge_taken(struct host *host, uint32_t code, unsigned size, size_t taken)
{
    bool is_whole = code == USBDISK_ACK && taken == size;
    bool is_part = code == USBDISK_NAK && taken < size && taken % host->packet == 0;
    host->is_refused = is_part;
    host->parts += is_part && taken > 0;
    if (is_part && !may_come_again(host))
        return WRONG;
    if (is_whole || (is_part && taken > 0))
        return take_on(host, (unsigned)taken);
    if (!is_part)
        fails("a good transfer is not taken");
    return is_part ? GOES_ON : WRONG;
}

/* At the end of its data a host may have sent the next wrapper already: that has to wait. */
static enum outcome send(struct host *host)
{
    static uint8_t bytes[MOST * 512 + 31];
    unsigned size = 31, more = 0;
    size_t taken = SIZE_MAX;
    if (host->stage == WRAPPER)
        spell_wrapper(host, bytes);
    else
        size = spell_data(host, bytes);
    if (host->stage == DATA_OUT && size % 512 == 0 && host->moved + size == host->length)
        more = random_below(4) ? 0 : 31;
    uint32_t code = usbdisk_out(host->disk, bytes, size + more, &taken);
    bool is_early = more && code == USBDISK_NAK && taken == size;
    host->parts += is_early;
    code = is_early ? USBDISK_ACK : code;
    return judge_taken(host, code, size, taken);
}

/* The status, behind all data or none. */
static enum outcome hear_status(struct host *host, const uint8_t *status, size_t size)
{
    if (size != 13 || memcmp(status, "USBS", 4) || status[4] != (uint8_t)host->commands) {
        fails("a status is none of the command");
        return WRONG;
    }
    host->status = status[12];
    host->stage = AT_REST;
    return ENDED;
}

/* Packets came: data, the status, or both. */
static enum outcome receive(struct host *host, const uint8_t *bytes, size_t size)
{
    size_t left = host->length - host->moved, of_data = size < left ? size : left;
    bool is_status = host->stage == STATUS || (size == 13 && !memcmp(bytes, "USBS", 4));
    if (is_status)
        return hear_status(host, bytes, size);
    memcpy(host->data + host->moved, bytes, of_data);
    host->moved += (unsigned)of_data;
    host->stage = host->moved < host->length ? DATA_IN : STATUS;
    return size > of_data ? hear_status(host, bytes + of_data, size - of_data) : GOES_ON;
}

/* The room is one packet for a status, and else some, or as many as the data wants, or one more. */
static size_t room_of(const struct host *host)
{
    size_t left = host->stage == DATA_IN ? host->length - host->moved : 0;
    size_t packets = (left + host->packet - 1) / host->packet;
    switch (random_below(4)) {
    case 0:
        return host->packet * (packets + 1);
    case 1:
        return host->packet * (1 + (size_t)random_below((unsigned)packets + 1));
    default:
        return host->packet * (packets + !packets);
    }
}

static bool keeps_the_rest(const uint8_t *room, size_t given, size_t size)
{
    for (size_t i = given; i < size && i < given + 64; i++)
        if (room[i] != 0xC3)
            return fails("a byte behind the packets has changed");
    return true;
}

/* A token was answered NAK or STALL. */
static enum outcome wait_or_halt(struct host *host, uint32_t code)
{
    if (code == USBDISK_NAK)
        return may_be_pending(host) || fails("an answer waits that asks the device for nothing")
                   ? GOES_ON
                   : WRONG;
    if (host->stage != DATA_IN || code != USBDISK_STALL)
        fails("a status is halted");
    else if (request(host, requests[1])) {
        host->stage = STATUS;
        return GOES_ON;
    }
    return WRONG;
}

static enum outcome ask(struct host *host)
{
    static uint8_t room[(MOST + 2) * 512];
    size_t size = room_of(host), given = 7;
    memset(room, 0xC3, sizeof room);
    if (!random_below(16) &&
        (usbdisk_in(host->disk, room, host->packet - 1, &given) != USBDISK_BAD_LENGTH ||
         given != 7)) {
        fails("room for a part of a packet is taken for enough");
        return WRONG;
    }
    uint32_t code = usbdisk_in(host->disk, room, size, &given);
    host->is_refused = code == USBDISK_NAK;
    if (!keeps_the_rest(room, code == USBDISK_ACK ? given : 0, size))
        return WRONG;
    return code == USBDISK_ACK ? receive(host, room, given) : wait_or_halt(host, code);
}

enum outcome host_step(struct host *host)
{
    host->is_refused = false;
    switch (host->stage) {
    case WRAPPER:
    case DATA_OUT:
        return send(host);
    case DATA_IN:
    case STATUS:
        return ask(host);
    case RESET:
        if (!request(host, requests[host->requests++]))
            return WRONG;
        host->stage = host->requests < 3 ? RESET : AT_REST;
        return GOES_ON;
    default:
        return GOES_ON;
    }
}

/* Behind a packet that spelled no wrapper both endpoints are halted. */
static bool are_halted(struct host *host)
{
    uint8_t packet[512] = { 0 };
    size_t moved;
    uint32_t in = usbdisk_in(host->disk, packet, sizeof packet, &moved);
    uint32_t out = usbdisk_out(host->disk, packet, 31, &moved);
    return (in == USBDISK_STALL && out == USBDISK_STALL) ||
           fails("an endpoint is not halted behind a wrong packet");
}

bool host_errs(struct host *host)
{
    uint8_t packet[31] = { 'U', 'S', 'B', 'C' };
    bool is_expected = host->stage == WRAPPER;
    size_t taken;
    if (!is_expected && host->stage != DATA_OUT)
        return true;
    uint32_t code = usbdisk_out(host->disk, packet, 5, &taken);
    if (code == USBDISK_NAK)
        return may_come_again(host);
    if (code != USBDISK_ACK)
        return fails("a wrong packet is not taken");
    if (is_expected && !are_halted(host))
        return false;
    host_reset(host);
    return true;
}
