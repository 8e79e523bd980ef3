/* Judges the store by the calls of the library, as behind.c does a disk: lives over a device that
 * carries out one call at a time, and takes as long as it likes, while a stack reads, writes and
 * synchronises, and makes the same call again where it was answered BUSY. Between any two calls the
 * power may go, and in some lives the store stops and the device keeps its power. A store that
 * starts on what is left must find the blocks after the first k of the accepted writes, in order,
 * none in part: all that a good sync promised.
 *
 * behind_store [LIVES [FIRST SEED]] */
#include "behind.h"
#include "gadget.h"
#include "image.h"
#include "number.h"
#include <inttypes.h>
#include <limits.h>
#include <stdio.h>
#include <stdlib.h>
#include <string.h>

enum { STEPS = 1500, LIVES_OF_AN_IMAGE = 10 };

/* What a stack asks for, until it is answered otherwise than BUSY. */
enum asked { NONE, READS, WRITES_SOME, SYNCS };

static struct history history;
static struct device device, other;
static struct usbdisk store = USBDISK_NONE;

static struct {
    uint32_t blocks[BLOCKS]; /* after all accepted writes */
    enum asked asked;
    unsigned address, count, goes_on;
    bool is_faulted, has_failed, rests, waited;
    uint32_t fault;    /* why the start failed */
    bool is_unflushed; /* the device had unflushed sectors when the store started */
    bool keeps_power;  /* the device does, when the store stops */
    size_t found;      /* of the accepted writes, by the start; it makes them durable */
    unsigned refused;  /* READs that the device refused, and no read was told of */
} book;

static struct {
    uint64_t cuts, starting, stops, unflushed, writes, behind, reads, syncs, busy, refused;
} counts;

/* ---- the device */

static bool begin(struct usbdisk *it, struct device *at)
{
    size_t room = 512 * (1 + (size_t)random_below(random_below(8) ? LONGEST : 4));
    if (usbdisk_next(it, &at->call, at->buffer, room))
        return fails("no next call is told");
    if (at->call.kind == USBDISK_WRITE && 512 * at->call.count > room)
        return fails("a run is longer than the buffer");
    return at->call.kind == USBDISK_NOTHING || device_begin(at);
}

static bool end(struct usbdisk *it, struct device *at, bool is_good)
{
    size_t size = at->call.kind == USBDISK_READ ? 512 * (size_t)at->call.count : 0;
    device_end(at, is_good);
    return !usbdisk_done(it, is_good, at->buffer, size) || fails("no call ends");
}

static bool note_refusal(const struct usbdisk_call *call)
{
    static const uint32_t faults[] = { 0, USBDISK_WRITE_REFUSED, USBDISK_FLUSH_REFUSED,
                                       USBDISK_READ_REFUSED };
    uint32_t fault, state = usbdisk_state(&store, &fault);
    bool is_read = call->kind == USBDISK_READ;
    book.has_failed = state == USBDISK_FAILED && fault == faults[call->kind];
    book.fault = fault;
    book.is_faulted |= !is_read && !book.has_failed;
    book.refused += is_read;
    counts.refused++;
    return (state == USBDISK_FAULTED) == book.is_faulted || fails("a refusal is not told");
}

/* ---- what a start finds */

static bool open_store(struct usbdisk *it)
{
    const struct usbdisk_options options = { .sectors = SECTORS, .kept = 1 + random_below(6) };
    return !usbdisk_store_start(it, &options) || fails("a start is refused");
}

/* All that the device is to do. */
static bool finish(struct usbdisk *it, struct device *at)
{
    bool good = begin(it, at);
    while (good && at->call.kind != USBDISK_NOTHING)
        good = end(it, at, true) && begin(it, at);
    return good;
}

static bool find(uint32_t found[BLOCKS])
{
    static uint8_t bytes[MOST * 512];
    struct usbdisk it = USBDISK_NONE;
    bool good = open_store(&it) && finish(&it, &other);
    for (unsigned i = 0; good && i < BLOCKS; i += MOST) {
        unsigned left = BLOCKS - i, count = left < MOST ? left : MOST;
        uint32_t code = usbdisk_store_read(&it, i, bytes, 512 * (size_t)count);
        if (code == USBDISK_BUSY && finish(&it, &other))
            code = usbdisk_store_read(&it, i, bytes, 512 * (size_t)count);
        good = !code || fails("a read behind a start is not good");
        for (unsigned k = 0; k < count; k++)
            found[i + k] = number_in(bytes + 512 * k);
    }
    usbdisk_stop(&it);
    return good;
}

/* A cut that keeps these of the unflushed writes. `*writes` are those that a start finds. */
static bool cut(unsigned kept, uint32_t found[BLOCKS], size_t *writes)
{
    uint32_t fault;
    counts.cuts++;
    counts.starting += usbdisk_state(&store, &fault) == USBDISK_STARTING;
    device_cut(&device, kept, &other);
    return find(found) && is_allowed(&history, found, writes);
}

static bool cut_here(void)
{
    uint32_t found[BLOCKS];
    size_t writes;
    return cut(ANY, found, &writes);
}

/* A start on unflushed sectors: a cut is made behind each call by which it writes and flushes. */
static bool cut_start(void)
{
    uint32_t fault;
    if (!book.is_unflushed)
        return true;
    book.is_unflushed = usbdisk_state(&store, &fault) == USBDISK_STARTING;
    return cut_here();
}

static bool play_device(void)
{
    if (device.call.kind == USBDISK_NOTHING) {
        bool good = begin(&store, &device);
        book.rests = good && device.call.kind == USBDISK_NOTHING;
        return good;
    }
    struct usbdisk_call call = device.call;
    bool is_good = !book.goes_on || random_below(book.goes_on);
    if (!end(&store, &device, is_good) || (!is_good && !note_refusal(&call)))
        return false;
    if (!device.count && history.promised < book.found)
        history.promised = book.found;
    return call.kind == USBDISK_READ || cut_start();
}

/* ---- what a stack does */

static void ask(void)
{
    book.asked = (enum asked)(READS + random_below(3));
    book.count = 1 + random_below(random_below(8) ? 4 : MOST);
    book.address = random_below((random_below(4) ? MOST * 2 : BLOCKS) - book.count + 1);
    book.waited = false;
}

static bool judge_read(const uint8_t *bytes)
{
    counts.reads++;
    for (unsigned i = 0; i < book.count; i++)
        if (number_in(bytes + 512 * i) != book.blocks[book.address + i])
            return fails("a read tells other bytes than the last write");
    return true;
}

static void note_write(uint32_t number)
{
    struct write write = { book.address, book.count, number };
    history.writes[history.accepted++] = write;
    put(book.blocks, &write);
    counts.writes++;
    counts.behind += device.call.kind != USBDISK_NOTHING;
}

static bool judge_good(const uint8_t *bytes, uint32_t number)
{
    if (book.is_faulted)
        return fails("a call is good though the device refused one");
    if (book.asked == WRITES_SOME)
        note_write(number);
    if (book.asked == SYNCS) {
        history.promised = history.accepted;
        counts.syncs++;
    }
    return book.asked != READS || judge_read(bytes);
}

/* BUSY is told while the device has something to do, and not twice where it rests. */
static bool judge_busy(void)
{
    counts.busy++;
    if (book.waited && book.rests)
        return fails("a call is answered BUSY though the device rests");
    book.waited = book.rests;
    book.rests = false;
    return true;
}

static bool judge_error(uint32_t code)
{
    bool is_unread = code == USBDISK_READ_REFUSED && book.asked == READS && book.refused;
    if (book.has_failed)
        return code == book.fault || fails("why a start failed is not told");
    book.refused -= is_unread;
    return (code == USBDISK_DEAD && book.is_faulted) || is_unread ||
           fails("a call is not good, and nothing was refused");
}

static uint32_t call_store(uint8_t *bytes, uint32_t number)
{
    size_t size = 512 * (size_t)book.count;
    switch (book.asked) {
    case READS:
        return usbdisk_store_read(&store, book.address, bytes, size);
    case WRITES_SOME:
        for (size_t i = 0; i < size; i += 4)
            memcpy(bytes + i, &number, 4);
        return usbdisk_store_write(&store, book.address, bytes, size);
    default:
        return usbdisk_store_sync(&store);
    }
}

static bool play_stack(void)
{
    static uint8_t bytes[MOST * 512];
    static uint32_t number = 1;
    if (book.asked == NONE)
        ask();
    uint32_t code = call_store(bytes, ++number);
    if (code == USBDISK_BUSY)
        return judge_busy();
    bool good = code ? judge_error(code) : judge_good(bytes, number);
    book.asked = NONE;
    return good;
}

static bool play_idle(void)
{
    uint32_t left = usbdisk_idle(&store);
    book.rests = book.waited = false;
    return left <= 1 || fails("idle answers an error");
}

/* ---- lives */

static bool play_one(unsigned speed)
{
    unsigned turn = random_below(64);
    if (turn < speed)
        return play_device();
    return turn < speed + 4 ? play_idle() : play_stack();
}

/* What is known when a life begins, on what the last one left. */
static void open_book(void)
{
    book.goes_on = random_below(3) ? 0 : 40;
    book.asked = NONE;
    book.is_faulted = book.has_failed = book.rests = false;
    book.refused = 0;
    memcpy(book.blocks, history.opening, sizeof book.blocks);
    for (size_t i = 0; i < history.accepted; i++)
        put(book.blocks, &history.writes[i]);
    book.found = history.accepted;
    book.is_unflushed = device.count > 0;
    book.keeps_power = random_below(3) == 0;
}

/* The power goes, or it stays with what was not flushed: the next life begins with what a start
 * finds then. */
static bool end_life(bool keeps_power)
{
    uint32_t found[BLOCKS];
    size_t writes;
    if (keeps_power)
        device_forsake(&device);
    else
        device_cut(&device, ANY, &device);
    counts.stops += keeps_power;
    counts.unflushed += device.count > 0;
    if (!cut(EACH, found, &writes))
        return false;
    history.accepted = writes;
    if (!keeps_power)
        history.promised = writes;
    settle(&history);
    return true;
}

static bool play_life(void)
{
    unsigned speed = 8 + random_below(48), steps = random_below(STEPS);
    open_book();
    size_t most = book.found + WRITES_OF_A_LIFE;
    bool good = open_store(&store);
    for (unsigned i = 0; good && i < steps && history.accepted < most; i++) {
        good = play_one(speed) && (random_below(64) || cut_here());
        if (book.keeps_power && device.call.kind == USBDISK_FLUSH && !random_below(16))
            steps = i;
    }
    good = good && cut_here();
    usbdisk_stop(&store);
    bool has_room = history.accepted - history.promised <= WRITES_OF_A_LIFE;
    return good && end_life(book.keeps_power && has_room);
}

static bool make_image(uint32_t format)
{
    if (format_memory(device.now, (size_t)SECTORS * 512, format, BLOCKS,
                      1 + random_below(MOST_SLOTS)))
        return fails("no image is made");
    memcpy(device.durable, device.now, (size_t)SECTORS * 512);
    device.count = 0;
    memset(&history, 0, sizeof history);
    return true;
}

static bool play_lives(uint32_t format, uint64_t lives)
{
    memset(&counts, 0, sizeof counts);
    for (uint64_t life = 0; life < lives; life++)
        if ((life % LIVES_OF_AN_IMAGE == 0 && !make_image(format)) || !play_life()) {
            printf("format %u, life %" PRIu64 " of a store: %s\n", format, life, wrong);
            return false;
        }
    printf("format %u: %" PRIu64 " lives of a store, each start finds what it may\n", format,
           lives);
    printf("  %" PRIu64 " cuts, %" PRIu64 " of a start; %" PRIu64 " stops with no cut, %" PRIu64
           " of them with unflushed sectors\n",
           counts.cuts, counts.starting, counts.stops, counts.unflushed);
    printf("  %" PRIu64 " writes, %" PRIu64 " of them while the device worked; ", counts.writes,
           counts.behind);
    printf("%" PRIu64 " reads, %" PRIu64 " syncs, %" PRIu64 " answers BUSY, %" PRIu64 " refusals\n",
           counts.reads, counts.syncs, counts.busy, counts.refused);
    return true;
}

int main(int count, char **words)
{
    uint64_t lives = 200, first = 1;
    if (count > 3 || (count > 1 && !read_number(words[1], 1, LONG_MAX, &lives)) ||
        (count > 2 && !read_number(words[2], 0, UINT64_MAX, &first))) {
        fprintf(stderr, "behind_store [LIVES [FIRST SEED]]: numbers in digits\n");
        return 2;
    }
    seed = first * 0x9E3779B97F4A7C15u | 1;
    if (!device_open(&device) || !device_open(&other))
        return EXIT_FAILURE;
    bool good = play_lives(1, lives) && play_lives(2, lives) && !heap_blocks;
    device_close(&device);
    device_close(&other);
    return good ? EXIT_SUCCESS : EXIT_FAILURE;
}
