/* Judges a disk by the calls of the library: lives over a device that carries out one call at a
 * time, and takes as long as it likes, while a host goes on with WRITEs, READs, SYNCHRONIZE CACHEs,
 * MODE SELECTs, class resets and wrong packets, from the first READ of a start on. Between any two
 * calls the power may go, and of the writes since the last flush, those of a run under way among
 * them, any may be missing. A disk that starts on what is left must find the blocks after the first
 * k of the accepted writes, in order, none in part: all that were promised by a status that the
 * host was given. Only the answer of a command may wait that asks the device for something, none
 * where the device rests; and only such a command may fail by a call that the device refuses.
 *
 * In some lives the disk stops and the device keeps its power, with what it had not flushed. The
 * next disk starts on that, and is cut behind each of the calls by which it does.
 *
 * behind [LIVES [FIRST SEED]] */
#include "behind.h"
#include "gadget.h"
#include "number.h"
#include <inttypes.h>
#include <limits.h>
#include <stdio.h>
#include <stdlib.h>
#include <string.h>

enum { STEPS = 3000, LIVES_OF_AN_IMAGE = 10, CUTS_AT_ONCE = 3, SEEN = 50 };
enum sense { POWER_ON = 1, UNREAD = 2, REFUSED = 4, LATER = 8 };

/* What the judge knows of a life besides what was promised. */
static struct history history;
static struct {
    uint32_t blocks[BLOCKS]; /* after all accepted writes */
    size_t found;            /* of these, by the start; it makes them durable */
    size_t mark;             /* the writes that the last command promises, where it is good */
    bool is_cached;          /* the host sees the write cache enabled */
    bool is_settled;         /* no step is left since the last write */
    bool is_plain;           /* nearly all of its commands are WRITEs that promise nothing */
    bool is_unflushed;       /* the device had unflushed sectors when the disk started */
    bool keeps_power;        /* the device does, when the disk stops */
    unsigned senses;         /* of these one is told next, or none */
} book;

static struct {
    uint64_t cuts, under_way, pending; /* of them while the device works, and a command waits, */
    uint64_t starting, faulted;        /* while a start is under way, and behind a refusal */
    uint64_t stops, unflushed;         /* with no cut, and of them with unflushed sectors */
    uint64_t writes, behind, parts, reads, refused, ahead, failed, resets, dropped, wrong;
    uint64_t spared; /* commands that are good though the device refused a call */
} counts;

static struct bench bench;

static bool cut(unsigned kept, uint32_t found[BLOCKS])
{
    uint32_t fault;
    counts.cuts++;
    counts.under_way += bench.device.call.kind != USBDISK_NOTHING;
    counts.pending += may_be_pending(&bench.host);
    counts.starting += usbdisk_state(&bench.disk, &fault) == USBDISK_STARTING;
    counts.faulted += bench.is_faulted;
    return finds_what_it_may(&bench.device, kept, &history, found);
}

/* What a cut leaves here: each part of a few unflushed writes, or some parts of many. */
static bool cut_here(void)
{
    uint32_t found[BLOCKS];
    bool are_few = bench.device.count <= FEW, good = true;
    unsigned ways = are_few ? 1u << bench.device.count : CUTS_AT_ONCE;
    for (unsigned i = 0; good && i < ways; i++)
        good = cut(are_few ? i : ANY, found);
    return good;
}

/* ---- what the host does */

/* Often a promise is asked for while the flush is under way that it may need. */
static bool is_flushing(void)
{
    return bench.device.call.kind == USBDISK_FLUSH && !bench.host.is_opening && random_below(2);
}

static void begin(void)
{
    struct command command;
    if (!is_asked(book.senses, &command))
        command = is_flushing() ? (struct command){ .code = 0x35 } : some_command(book.is_plain);
    host_begin(&bench.host, &command, promises(&command, book.is_cached));
}

/* The last packet of a command was taken: what it wrote is accepted from here on. */
static void note_command(void)
{
    const struct command *command = &bench.host.command;
    note_taken(&bench.host, book.is_cached);
    if (bench.is_faulted)
        return;
    if (writes(command)) {
        struct write write = { command->address, command->count, command->number };
        history.writes[history.accepted++] = write;
        put(book.blocks, &write);
        book.is_settled = false;
        counts.writes++;
        counts.behind += bench.device.call.kind != USBDISK_NOTHING;
    }
    if (command->code == 0x15)
        book.is_cached = command->cache;
    book.mark = history.accepted;
}

/* Which sense comes: of the power that was off, of a read or a write of the device that ended a
 * command, or of a unit that was faulted before. */
static enum sense sense_of(const uint8_t *told)
{
    static const uint8_t codes[][2] = { { 6, 0x29 }, { 3, 0x11 }, { 3, 0x0C }, { 4, 0x44 } };
    for (unsigned i = 0; i < 4; i++)
        if ((told[2] & 15) == codes[i][0] && told[12] == codes[i][1])
            return (enum sense)(1u << i);
    return 0;
}

static bool judge_sense(void)
{
    bool is_told = book.senses & sense_of(bench.host.data);
    book.senses = 0;
    return is_told || fails("a sense is not that of what went wrong");
}

static bool judge_read(const struct command *command)
{
    counts.reads++;
    for (unsigned i = 0; i < command->count; i++)
        if (number_in(bench.host.data + 512 * i) != book.blocks[command->address + i])
            return fails("a READ sends other bytes than the last WRITE");
    return true;
}

/* Whether the bytes of the command were taken before the device refused a call. */
static bool is_spared(void)
{
    return bench.spared == bench.host.commands;
}

/* What a command may fail by: a READ by sectors that were not read, and where the unit is faulted;
 * one that asks for writes where one of these was refused. None does of which data came. */
static bool judge_failure(const struct command *command)
{
    bool may_ask = writes(command) || bench.host.promises;
    if (reads(command) && bench.is_unread)
        book.senses = UNREAD;
    if (bench.is_faulted && (reads(command) || !is_spared()))
        book.senses |= LATER;
    if (bench.is_faulted && is_spared() && may_ask)
        book.senses |= REFUSED;
    counts.refused += book.senses == UNREAD;
    bench.is_unread = false;
    note_failure(&bench.host, &book.is_cached);
    if (reads(command) && bench.host.moved)
        return fails("a READ that failed has sent its blocks");
    return book.senses || fails("a command is not good");
}

/* A status came. One that is good and promises is what a cut is held to. */
static bool judge_status(void)
{
    const struct command *command = &bench.host.command;
    if (bench.host.status)
        return judge_failure(command);
    if (command->code == 0x03)
        return judge_sense();
    if (command->code == 0x1A)
        return judge_cache(&bench.host, &book.is_cached);
    if (bench.is_faulted && !is_spared())
        return fails("a command is good though the device refused a call");
    counts.spared += bench.is_faulted;
    if (bench.host.promises)
        history.promised = book.mark;
    return !reads(command) || judge_read(command);
}

/* A class reset. A sense that was on its way is told to nobody. */
static void give_up(void)
{
    if (bench.host.command.code == 0x03 && bench.host.stage != WRAPPER)
        book.senses = 0;
    counts.resets++;
    counts.dropped += may_be_pending(&bench.host);
    host_reset(&bench.host);
}

static bool play_host(void)
{
    unsigned often = book.is_plain ? 4096 : 256;
    bool is_busy = bench.host.stage != AT_REST && bench.host.stage != RESET;
    if (bench.host.stage == AT_REST)
        begin();
    if (is_busy && !random_below(often))
        give_up();
    if (is_busy && !random_below(often)) {
        counts.wrong++;
        bench.rests = false;
        return host_errs(&bench.host);
    }
    switch (bench_host(&bench)) {
    case WRONG:
        return false;
    case CARRIED_OUT:
        note_command();
        return true;
    case ENDED:
        /* what a promise is worth shows where the power goes next */
        return judge_status() && (random_below(8) || cut_here());
    default:
        return true;
    }
}

/* ---- lives */

static bool play_idle(void)
{
    uint32_t left = usbdisk_idle(&bench.disk);
    bench.rests = false;
    book.is_settled = left == 0 && !bench.is_faulted;
    return left <= 1 || fails("idle answers an error");
}

/* A start on unflushed sectors: a cut is made behind each call by which it writes and flushes. */
static bool cut_start(void)
{
    uint32_t fault;
    if (bench.device.call.kind != USBDISK_NOTHING || !book.is_unflushed)
        return true;
    book.is_unflushed = usbdisk_state(&bench.disk, &fault) == USBDISK_STARTING;
    return cut_here();
}

static bool play_device(void)
{
    if (!bench_device(&bench))
        return false;
    if (!bench.device.count && history.promised < book.found)
        history.promised = book.found;
    if (bench.rests && book.is_settled && !bench.is_faulted && !is_unsure())
        history.promised = history.accepted;
    return cut_start();
}

/* The bus rests: steps in the background, or sectors that the next READ may want. */
static bool play_rest(void)
{
    bool is_ahead = random_below(2);
    counts.ahead += is_ahead;
    return is_ahead ? bench_ahead(&bench) : play_idle();
}

/* What happens next, and how often of 64 times it is the device's turn, and the background's. */
static bool play_one(unsigned speed, unsigned idle)
{
    unsigned turn = random_below(64);
    if (turn < speed)
        return play_device();
    return turn < speed + idle ? play_rest() : play_host();
}

/* How often it is the device's turn: in most starts often, as they are long. */
static unsigned speed_now(unsigned speed, bool is_late)
{
    if (bench.host.is_opening && !is_late)
        return 48;
    return book.is_plain && history.accepted ? 1 : speed;
}

/* A life goes on for a while behind a refusal, and may stop while the device is to flush. */
static bool is_over(void)
{
    bool is_flushing = bench.device.call.kind == USBDISK_FLUSH;
    return (bench.is_faulted && !random_below(64)) ||
           (book.keeps_power && is_flushing && !random_below(16));
}

/* Steps of the host, the device and the background, until the power goes or something is wrong. */
static bool live(void)
{
    static const unsigned speeds[] = { 1, 4, 16, 32, 56 };
    unsigned speed = speeds[random_below(5)], idle = book.is_plain ? 0 : random_below(3) * 2;
    unsigned steps = random_below(STEPS), rare = random_below(8) ? 128 : 32;
    bool goes_on = true, is_late = !random_below(8);
    size_t most = book.found + WRITES_OF_A_LIFE;
    for (unsigned i = 0; goes_on && i < steps && history.accepted < most; i++) {
        goes_on = play_one(speed_now(speed, is_late), idle);
        if (is_over())
            steps = i;
        if (goes_on && (bench.has_failed || !random_below(rare)))
            goes_on = bench_state(&bench) && cut_here();
        if (bench.has_failed)
            break;
    }
    counts.parts += bench.host.parts;
    counts.failed += bench.has_failed;
    return goes_on;
}

/* The power goes, and what a start finds is what the next life begins with. */
static bool end_by_cut(void)
{
    uint32_t found[BLOCKS];
    device_cut(&bench.device, ANY, &bench.device);
    bool good = cut(ANY, found);
    memcpy(history.opening, found, sizeof found);
    history.accepted = history.promised = 0;
    return good;
}

/* The disk stops, and the device keeps its power. What a start finds now a cut may still take back,
 * where it was not promised, until the start has flushed it. */
static bool end_by_stop(void)
{
    uint32_t found[BLOCKS];
    size_t writes;
    device_forsake(&bench.device);
    counts.stops++;
    counts.unflushed += bench.device.count > 0;
    if (!cut(EACH, found) || !is_allowed(&history, found, &writes))
        return false;
    history.accepted = writes;
    settle(&history);
    return true;
}

/* What is known when a life begins, on what the last one left. */
static void open_book(void)
{
    memcpy(book.blocks, history.opening, sizeof book.blocks);
    for (size_t i = 0; i < history.accepted; i++)
        put(book.blocks, &history.writes[i]);
    book.found = book.mark = history.accepted;
    book.is_unflushed = bench.device.count > 0;
    book.is_cached = true;
    book.is_settled = false;
    forget_last();
    book.is_plain = random_below(4) == 0;
    book.keeps_power = random_below(3) == 0;
    book.senses = POWER_ON; /* the first command is told that the power was off */
}

/* A life on what the last one left. Its own end may come at once, before its start is carried out.
 */
static bool play_life(void)
{
    open_book();
    bench.goes_on = random_below(3) ? 0 : 60;
    bool good = bench_start(&bench, random_below(4) ? 512 : 64) && live();
    bool has_room = history.accepted - history.promised <= WRITES_OF_A_LIFE;
    bench_stop(&bench);
    return good && (book.keeps_power && has_room ? end_by_stop() : end_by_cut());
}

static bool make_image(uint32_t format)
{
    memset(&history, 0, sizeof history);
    return device_make(&bench.device, format);
}

/* Behind some lives what a judge has to see was seen. */
static bool has_seen(long lives)
{
    if (lives < SEEN)
        return true;
    if (!counts.behind)
        return fails("no write is accepted while a call is under way");
    return lives < 3 * SEEN || counts.unflushed || fails("no start finds unflushed sectors");
}

static bool play_lives(uint32_t format, long lives)
{
    memset(&counts, 0, sizeof counts);
    for (long life = 0; life < lives; life++) {
        if ((life % LIVES_OF_AN_IMAGE == 0 && !make_image(format)) || !play_life() ||
            !has_seen(life)) {
            printf("format %u, life %ld: %s\n", format, life, wrong);
            return false;
        }
    }
    printf("format %u: %ld lives, each start finds what it may\n", format, lives);
    printf("  %" PRIu64 " cuts, %" PRIu64 " of them while a call was under way, %" PRIu64
           " while a command waited,\n",
           counts.cuts, counts.under_way, counts.pending);
    printf("  %" PRIu64 " in a start, %" PRIu64 " behind a refusal; %" PRIu64
           " starts failed, %" PRIu64 " commands spared\n",
           counts.starting, counts.faulted, counts.failed, counts.spared);
    printf("  %" PRIu64 " stops with no cut, %" PRIu64 " of them with unflushed sectors\n",
           counts.stops, counts.unflushed);
    printf("  %" PRIu64 " writes accepted, %" PRIu64 " of them while a call was under way, %" PRIu64
           " transfers taken in part\n",
           counts.writes, counts.behind, counts.parts);
    printf("  %" PRIu64 " reads, %" PRIu64 " of refused sectors, %" PRIu64
           " wishes to read ahead\n",
           counts.reads, counts.refused, counts.ahead);
    printf("  %" PRIu64 " class resets, %" PRIu64 " of them while a command waited; %" PRIu64
           " wrong packets\n",
           counts.resets, counts.dropped, counts.wrong);
    return true;
}

int main(int count, char **words)
{
    uint64_t lives = 1000, first = 1;
    if (count > 3 || (count > 1 && !read_number(words[1], 1, LONG_MAX, &lives)) ||
        (count > 2 && !read_number(words[2], 0, UINT64_MAX, &first))) {
        fprintf(stderr, "behind [LIVES [FIRST SEED]]: numbers in digits, of lives at least 1\n");
        return 2;
    }
    seed = first * 0x9E3779B97F4A7C15u;
    if (!seed)
        seed = 1; /* at 0 the generator stands still */
    setvbuf(stdout, NULL, _IOLBF, 0);
    if (!device_open(&bench.device) || !finds_open())
        return EXIT_FAILURE;
    bool good = play_lives(1, (long)lives) && play_lives(2, (long)lives);
    device_close(&bench.device);
    finds_close();
    if (heap_blocks)
        printf("%zu blocks of memory are left\n", heap_blocks);
    return good && !heap_blocks ? EXIT_SUCCESS : EXIT_FAILURE;
}
