/* The host of fuzz.c. */
#include "fuzz_host.h"
#include <arpa/inet.h>
#include <errno.h>
#include <stdio.h>
#include <stdlib.h>
#include <string.h>
#include <sys/socket.h>

enum { WRAPPER = 31, STATUS = 13, FROM = 1000 };

struct judged judged;

uint32_t below(struct source *source, uint32_t most)
{
    uint32_t number = 0;
    if (source->is_bounded) {
        for (int i = 0; i < 4 && source->left && most > 1u << (8 * i); i++) {
            number = number << 8 | *source->bytes++;
            source->left--;
        }
        return most ? number % most : 0;
    }
    source->seed ^= source->seed << 13;
    source->seed ^= source->seed >> 7;
    source->seed ^= source->seed << 17;
    return most ? (uint32_t)(source->seed >> 32) % most : 0;
}

bool is_out(const struct source *source)
{
    return source->is_bounded && source->left == 0;
}

void judge(bool holds, const char *what)
{
    if (holds)
        return;
    fprintf(stderr, "fuzz: not so, behind %lu answers: %s\n", judged.answers, what);
    abort();
}

void host_forget(struct host *host)
{
    host->socket = -1;
    host->is_attached = host->is_slow = false;
    host->count = host->bytes = host->have = 0;
}

static void put(uint8_t *at, uint32_t number)
{
    number = htonl(number);
    memcpy(at, &number, 4);
}

static uint32_t get(const uint8_t *at)
{
    uint32_t number;
    memcpy(&number, at, 4);
    return ntohl(number);
}

static void fill(struct source *source, uint8_t *bytes, size_t size)
{
    for (size_t i = 0; i < size; i++)
        bytes[i] = (uint8_t)below(source, 256);
}

static void put_head(struct host *host, uint8_t *head, bool in, uint32_t endpoint, uint32_t length)
{
    memset(head, 0, HEAD);
    put(head, SUBMIT);
    put(head + 4, ++host->number);
    put(head + 8, device_number());
    put(head + 12, in);
    put(head + 16, endpoint);
    put(head + 24, length);
}

/* A wrapper, right or nearly so, with any command. */
static void put_wrapper(struct source *source, uint8_t *bytes)
{
    static const uint8_t commands[] = { 0x00, 0x03, 0x12, 0x15, 0x1A, 0x1E, 0x25, 0x28,
                                        0x2A, 0x35, 0x5A, 0x88, 0x8A, 0x91, 0x9E };
    uint8_t command = commands[below(source, sizeof commands)];
    uint32_t count = below(source, 4);
    memset(bytes, 0, WRAPPER);
    memcpy(bytes, "USBC", 4);
    bytes[4] = (uint8_t)below(source, 256);
    bytes[8] = 0;
    bytes[9] = (uint8_t)(2 * count);
    bytes[12] = command == 0x2A || command == 0x8A ? 0 : 0x80;
    bytes[14] = 16;
    bytes[15] = command;
    put(bytes + (command >= 0x88 ? 21 : 17), FROM + below(source, 900));
    bytes[command >= 0x88 ? 28 : 23] = (uint8_t)count;
    if (below(source, 8) == 0)
        bytes[8 + below(source, WRAPPER - 8)] = (uint8_t)below(source, 256);
}

static size_t put_control(struct source *source, struct host *host, uint8_t *bytes)
{
    static const uint8_t setups[][8] = {
        { 0x80, 6, 0, 1, 0, 0, 255, 0 },  { 0x80, 6, 0, 2, 0, 0, 255, 0 },
        { 0x80, 6, 3, 3, 9, 4, 255, 0 },  { 0x80, 6, 0, 6, 0, 0, 10, 0 },
        { 0x80, 6, 0, 7, 0, 0, 64, 0 },   { 0x80, 0, 0, 0, 0, 0, 2, 0 },
        { 0x82, 0, 0, 0, 0x81, 0, 2, 0 }, { 0x02, 1, 0, 0, 0x81, 0, 0, 0 },
        { 0x02, 1, 0, 0, 2, 0, 0, 0 },    { 0x21, 0xFF, 0, 0, 0, 0, 0, 0 },
        { 0xA1, 0xFE, 0, 0, 0, 0, 1, 0 }, { 0x00, 9, 1, 0, 0, 0, 0, 0 },
        { 0x01, 11, 0, 0, 0, 0, 0, 0 },   { 0x81, 10, 0, 0, 0, 0, 1, 0 },
        { 0x80, 8, 0, 0, 0, 0, 1, 0 },
    };
    uint8_t setup[8];
    memcpy(setup, setups[below(source, sizeof setups / sizeof *setups)], 8);
    if (below(source, 4) == 0)
        setup[below(source, 8)] = (uint8_t)below(source, 256);
    bool in = below(source, 16) ? setup[0] >> 7 : below(source, 2);
    uint32_t most = in ? 300 : 100;
    uint32_t length = in || below(source, 4) == 0 ? below(source, most) : 0;
    put_head(host, bytes, in, CONTROL, length);
    memcpy(bytes + 40, setup, 8);
    fill(source, bytes + HEAD, in ? 0 : length);
    return HEAD + (in ? 0 : length);
}

static size_t put_out(struct source *source, struct host *host, uint8_t *bytes)
{
    uint32_t length = WRAPPER, kind = below(source, 8);
    if (kind < 4)
        put_wrapper(source, bytes + HEAD);
    else if (kind < 6)
        length = 512 * below(source, 5);
    else
        length = below(source, kind == 6 ? 2000 : 200000);
    if (kind >= 4)
        memset(bytes + HEAD, (int)below(source, 256), length);
    put_head(host, bytes, false, BULK_OUT, length);
    return HEAD + length;
}

static size_t put_in(struct source *source, struct host *host, uint8_t *bytes)
{
    uint32_t kind = below(source, 8);
    uint32_t length = STATUS;
    if (kind >= 7)
        length = below(source, TRANSFER_MOST + 1);
    else if (kind >= 3)
        length = 512 * below(source, 5);
    put_head(host, bytes, true, BULK_IN, length);
    put(bytes + 20, below(source, 2));
    return HEAD;
}

static size_t put_unlink(struct source *source, struct host *host, uint8_t *bytes)
{
    put_head(host, bytes, false, 0, 0);
    put(bytes, UNLINK);
    bool is_known = host->count && below(source, 2);
    put(bytes + 20, is_known ? host->asked[below(source, (uint32_t)host->count)].number
                             : host->number - below(source, 12));
    return HEAD;
}

/* A transfer that is refused: the wrong way, too long, isochronous, or with the number of one that
 * waits. */
static void put_refused(struct source *source, struct host *host, uint8_t *bytes)
{
    bool has_waiting = host->count && !host->is_slow && host->asked[0].command == SUBMIT;
    uint32_t kind = below(source, has_waiting ? 5 : 4), length = STATUS;
    if (kind == 0)
        length = TRANSFER_MOST + 1 + below(source, 1u << below(source, 32));
    put_head(host, bytes, kind != 1, kind == 2 ? BULK_OUT : BULK_IN, kind == 1 ? 0 : length);
    if (kind == 3)
        put(bytes + 32, 1 + below(source, 1u << 31));
    if (kind == 4)
        put(bytes + 4, host->asked[0].number);
}

/* A message of which one field is wrong, so that the connection has to end. */
static void spoil(struct source *source, struct host *host, uint8_t *bytes)
{
    switch (below(source, 6)) {
    case 0:
        put(bytes, 5 + below(source, 1u << 31));
        break;
    case 1:
        put(bytes + 8, device_number() + 1 + below(source, 1u << 16));
        break;
    case 2:
        put(bytes, SUBMIT);
        put(bytes + 16, 3 + below(source, 1u << 31));
        break;
    default:
        put_refused(source, host, bytes);
        break;
    }
}

/* Requests that clear what halts the disk, so that others get further, come often. */
static size_t put_recovery(struct host *host, uint8_t *bytes)
{
    static const uint8_t reset[8] = { 0x00, 9, 1 };
    put_head(host, bytes, false, CONTROL, 0);
    memcpy(bytes + 40, reset, 8);
    return HEAD;
}

size_t host_wrong_message(struct source *source, struct host *host, uint8_t *bytes)
{
    put_in(source, host, bytes);
    spoil(source, host, bytes);
    return HEAD;
}

size_t host_message(struct source *source, struct host *host, uint8_t *bytes)
{
    uint32_t kind = 2 + below(source, 98);
    if (host->count >= WAITING_MOST - 2 || host->bytes + 2 * TRANSFER_MOST > WAITING_BYTES_MOST ||
        kind < 8)
        return kind < 4 || !host->count ? put_recovery(host, bytes)
                                        : put_unlink(source, host, bytes);
    if (kind < 20)
        return put_control(source, host, bytes);
    if (kind < 60)
        return put_out(source, host, bytes);
    return kind < 92 ? put_in(source, host, bytes) : put_unlink(source, host, bytes);
}

void host_sent(struct host *host, const uint8_t *head)
{
    bool unlinks = get(head) == UNLINK;
    struct asked *next = &host->asked[host->count++];
    *next = (struct asked){ .command = get(head),
                            .number = get(head + 4),
                            .endpoint = get(head + 16),
                            .in = get(head + 12) == 1 };
    if (unlinks) {
        next->victim = get(head + 20);
        return;
    }
    next->flags = get(head + 20);
    next->length = get(head + 24);
    host->bytes += next->length;
}

static void forget(struct host *host, size_t i)
{
    host->bytes -= host->asked[i].length;
    host->count--;
    memmove(&host->asked[i], &host->asked[i + 1], (host->count - i) * sizeof *host->asked);
}

/* The place of what has this number among what is asked; or how many there are. */
static size_t find(const struct host *host, uint32_t command, uint32_t number)
{
    size_t i = 0;
    while (i < host->count &&
           (host->asked[i].number != number || host->asked[i].command != command))
        i++;
    return i;
}

static void judge_unlinked(struct host *host, size_t i, int32_t status)
{
    size_t victim = find(host, SUBMIT, host->asked[i].victim);
    judge(status == GOOD || status == UNLINKED, "an unlinking is answered by 0 or -104");
    judge((status == UNLINKED) == (victim < i),
          "what waits is unlinked, and what is answered is not");
    forget(host, i);
    if (victim < i)
        forget(host, victim);
}

static void judge_submitted(struct host *host, size_t i, int32_t status, uint32_t length)
{
    const struct asked *it = &host->asked[i];
    for (size_t k = 0; k < i; k++)
        judge(host->asked[k].command != SUBMIT || host->asked[k].endpoint != it->endpoint,
              "answers of an endpoint come in the order of its transfers");
    judge(length <= it->length, "no answer has more bytes than were asked for");
    bool is_short = length < it->length;
    bool is_good = status == GOOD && (it->endpoint != BULK_OUT || !is_short);
    bool is_in = it->endpoint == BULK_IN || (it->endpoint == CONTROL && it->in);
    judge(is_good || status == STALLED || (status == OVERFLOWED && it->endpoint == BULK_IN) ||
              (status == CUT_SHORT && is_in && is_short && it->flags & 1),
          "a status that the transfer allows");
    judge(!(status == GOOD && is_in && is_short && it->flags & 1),
          "a short transfer is told as one");
    forget(host, i);
}

/* Judges an answer that is whole. Answers how long it is, or 0 where more bytes have to come. */
static size_t judge_answer(struct host *host)
{
    uint32_t command = get(host->answer) - 2, length = get(host->answer + 24);
    judge(command == SUBMIT || command == UNLINK, "an answer of a command");
    size_t i = find(host, command, get(host->answer + 4));
    judge(i < host->count, "an answer of what was asked");
    bool has_bytes = command == SUBMIT && host->asked[i].in;
    judge(!has_bytes || length <= TRANSFER_MOST, "an answer has its bound");
    size_t size = HEAD + (has_bytes ? length : 0);
    if (host->have < size)
        return 0;
    int32_t status = (int32_t)get(host->answer + 20);
    if (command == UNLINK)
        judge_unlinked(host, i, status);
    else
        judge_submitted(host, i, status, length);
    judged.answers++;
    return size;
}

bool host_read(struct host *host)
{
    for (;;) {
        ssize_t got = recv(host->socket, host->answer + host->have,
                           sizeof host->answer - host->have, MSG_DONTWAIT);
        if (got < 0 && (errno == EAGAIN || errno == EWOULDBLOCK))
            return true;
        if (got <= 0)
            return false;
        host->have += (size_t)got;
        for (size_t size; host->have >= HEAD && (size = judge_answer(host));) {
            host->have -= size;
            memmove(host->answer, host->answer + size, host->have);
        }
    }
}

/* Gets what the disk sends, as many bytes as there is room for, or until a status. Where it waits
 * for its device it is asked again. */
static size_t get_bytes(struct disk *disk, uint8_t *bytes, size_t size)
{
    size_t got = 0;
    uint32_t code = disk_in(disk, bytes, size, &got);
    if (code == USBDISK_NAK && got == 0) {
        disk_rest(disk);
        code = disk_in(disk, bytes, size, &got);
    }
    return code == USBDISK_ACK ? got : 0;
}

static bool put_bytes(struct disk *disk, const uint8_t *bytes, size_t size)
{
    size_t taken, all = 0;
    uint32_t code = disk_out(disk, bytes, size, &all);
    for (int tries = 0; code == USBDISK_NAK && tries < 8; tries++) {
        disk_rest(disk);
        code = disk_out(disk, bytes + all, size - all, &taken);
        all += taken;
    }
    return code == USBDISK_ACK;
}

bool transact(struct disk *disk, uint8_t operation, uint8_t *blocks, uint32_t count)
{
    uint8_t wrapper[WRAPPER] = { 'U', 'S', 'B', 'C', 1, 2, 3, 4 }, status[512];
    size_t size = count * 512;
    for (int tries = 0; tries < 2; tries++) {
        wrapper[9] = (uint8_t)(size >> 8);
        wrapper[12] = operation == 0x28 ? 0x80 : 0;
        wrapper[14] = 10;
        wrapper[15] = operation;
        wrapper[16] = operation == 0x2A ? 8 : 0;
        wrapper[23] = (uint8_t)count;
        disk_bus_reset(disk);
        if (!put_bytes(disk, wrapper, sizeof wrapper))
            return false;
        if (operation == 0x28)
            get_bytes(disk, blocks, size);
        else
            put_bytes(disk, blocks, size);
        if (get_bytes(disk, status, sizeof status) == STATUS && status[12] == 0)
            return true;
    }
    return false;
}
