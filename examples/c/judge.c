/* Judges a device (device.h): lives of a disk over it, each with random WRITEs, READs and
 * SYNCHRONIZE CACHEs until the power is cut at a random call of the device, in every other life at
 * the next flush behind it, when all that it is to keep is written. The next start must find the
 * blocks after the first n of the accepted writes, for some n, in order, none in part: all that
 * were promised, and past the accepted ones at most the one in progress, whole.
 *
 * judge [LIVES [FIRST SEED]]
 *
 * JUDGED is the name of the device's file. It is built for one device: make judge DEVICE=yours.c.
 */
#include "judge.h"
#include "device.h"
#include "number.h"
#include <limits.h>
#include <stdio.h>
#include <stdlib.h>
#include <string.h>

enum { BLOCKS = 40, SLOTS = 3, SECTORS = USBDISK_LOG_END(2, SLOTS) + BLOCKS + 3 };
enum { MOST = 4, WRITES = 400 };
#ifndef JUDGED
#define JUDGED "a device"
#endif

enum { PACKET = 512, BEHIND = 0xC7 };

static struct usbdisk_options options = {
    .sectors = SECTORS,
    .identity = { "EXAMPLE ", "JUDGE           ", "0001", "000000000001" },
    .packet = PACKET,
};

/* The blocks are filled with numbers. A write puts one number into a few of them. */
struct write {
    unsigned address, count;
    uint32_t number;
};

/* What the judge knows of a life: the blocks that it began with, the accepted writes behind them,
 * how many of these were promised, and whether one more is in progress, the last of the list. */
static struct {
    uint32_t opening[BLOCKS];
    struct write writes[WRITES + 1];
    size_t accepted, promised;
    bool in_progress;
} book;

/* ---- the host */

/* Bytes to the disk, and what they make, at once or later. False: they are not taken, or the power
 * went. */
static bool send(struct usbdisk *disk, const void *bytes, size_t size, const char *refusal)
{
    size_t taken = 0;
    while (usbdisk_out(disk, bytes, size, &taken) == USBDISK_NAK)
        if (!carry_one(disk))
            return !is_gone && !wrong && fails(refusal);
    if (taken != size)
        return fails(refusal);
    return random_below(2) || carry_all(disk);
}

/* Bytes from the disk, as soon as its device lets it. False: none come, or the power went. */
static bool receive(struct usbdisk *disk, void *bytes, size_t wanted, const char *refusal)
{
    uint8_t room[PACKET];
    size_t given = 0;
    while (usbdisk_in(disk, room, sizeof room, &given) == USBDISK_NAK)
        if (!carry_one(disk))
            return !is_gone && !wrong && fails(refusal);
    memcpy(bytes, room, wanted);
    return given == wanted || fails(refusal);
}

/* A command block wrapper for a command of ten bytes. */
static bool ask(struct usbdisk *disk, uint8_t code, uint8_t flags, unsigned address, unsigned count)
{
    uint8_t wrapper[31] = { 'U', 'S', 'B', 'C', 7 };
    wrapper[9] = (uint8_t)(count * 2);
    wrapper[12] = code == 0x28 ? 0x80 : 0;
    wrapper[14] = 10;
    wrapper[15] = code;
    wrapper[16] = flags;
    wrapper[20] = (uint8_t)address;
    wrapper[23] = (uint8_t)count;
    return send(disk, wrapper, sizeof wrapper, "a wrapper is not taken");
}

static bool status_is_good(struct usbdisk *disk)
{
    uint8_t status[13];
    return receive(disk, status, sizeof status, "no status comes") &&
           (!status[12] || fails("a command is not good"));
}

/* The first command after a start is told that the power was off. */
static bool hear_attention(struct usbdisk *disk)
{
    uint8_t status[13];
    return ask(disk, 0x00, 0, 0, 0) && receive(disk, status, sizeof status, "no status comes");
}

static bool write_some(struct usbdisk *disk, bool forced)
{
    static uint32_t numbers = 1;
    unsigned count = 1 + random_below(MOST), address = random_below(BLOCKS - count + 1);
    uint32_t block[128];
    for (int i = 0; i < 128; i++)
        block[i] = numbers;
    book.writes[book.accepted] = (struct write){ address, count, numbers++ };
    if (!ask(disk, 0x2A, forced ? 8 : 0, address, count))
        return false;
    for (unsigned i = 0; i < count; i++) {
        book.in_progress = i + 1 == count;
        if (!send(disk, block, sizeof block, "data is not taken"))
            return false;
    }
    book.in_progress = false;
    book.accepted++;
    if (!status_is_good(disk))
        return false;
    if (forced)
        book.promised = book.accepted;
    return true;
}

static bool synchronize(struct usbdisk *disk)
{
    if (!ask(disk, 0x35, 0, 0, 0) || !status_is_good(disk))
        return false;
    book.promised = book.accepted;
    return true;
}

/* The number in a block, or one that no write has where it is filled with several. */
static bool read_block(struct usbdisk *disk, unsigned address, uint32_t *number)
{
    uint32_t block[128];
    if (!ask(disk, 0x28, 0, address, 1) ||
        !receive(disk, block, sizeof block, "a block is not sent"))
        return false;
    *number = block[0];
    for (int i = 1; i < 128; i++)
        if (block[i] != block[0])
            *number = UINT32_MAX;
    return status_is_good(disk);
}

/* The blocks after the first `count` writes. */
static void blocks_after(size_t count, uint32_t blocks[BLOCKS])
{
    memcpy(blocks, book.opening, sizeof book.opening);
    for (size_t i = 0; i < count; i++)
        for (unsigned j = 0; j < book.writes[i].count; j++)
            blocks[book.writes[i].address + j] = book.writes[i].number;
}

static bool read_some(struct usbdisk *disk)
{
    uint32_t blocks[BLOCKS], number;
    unsigned address = random_below(BLOCKS);
    blocks_after(book.accepted, blocks);
    if (!read_block(disk, address, &number))
        return false;
    return number == blocks[address] || fails("a READ sends other bytes than the last WRITE");
}

/* Starts a disk on what the device holds. False: the power went on the way, or there is none. */
static bool start(struct usbdisk *disk)
{
    uint32_t fault = 0;
    options.kept = random_below(SLOTS + 1);
    if (usbdisk_start(disk, &options))
        return fails("no memory");
    carry_all(disk);
    if (usbdisk_state(disk, &fault) == USBDISK_FAILED)
        return fails(fault == USBDISK_BAD_HEAD ? "a start finds no head"
                                               : "a start finds no image");
    return !is_gone && !wrong;
}

/* Steps in the background, a few or all. */
static bool rest(struct usbdisk *disk)
{
    uint32_t steps = 1 + random_below(4);
    while (steps-- && usbdisk_idle(disk) == 1)
        if (!carry_all(disk))
            return false;
    return carry_all(disk);
}

/* Random commands until the power goes, or something is wrong. */
static void live(struct usbdisk *disk)
{
    bool goes_on = hear_attention(disk);
    while (goes_on && book.accepted < WRITES) {
        switch (random_below(8)) {
        case 0:
            goes_on = synchronize(disk);
            break;
        case 1:
        case 2:
            goes_on = read_some(disk);
            break;
        case 3:
            goes_on = rest(disk);
            break;
        default:
            goes_on = write_some(disk, random_below(4) == 0);
        }
    }
}

/* What a start on the device finds must be allowed by the book, and opens the next one. */
static bool finds_what_it_may(void)
{
    struct usbdisk disk = USBDISK_NONE;
    uint32_t found[BLOCKS] = { 0 }, blocks[BLOCKS];
    size_t most = book.accepted + book.in_progress;
    bool good = start(&disk) && hear_attention(&disk);
    for (unsigned i = 0; good && i < BLOCKS; i++)
        good = read_block(&disk, i, &found[i]);
    usbdisk_stop(&disk);
    bool allowed = false;
    for (size_t k = book.promised; good && k <= most && !allowed; k++) {
        blocks_after(k, blocks);
        allowed = memcmp(blocks, found, sizeof found) == 0;
    }
    memcpy(book.opening, found, sizeof found);
    book.accepted = book.promised = 0;
    book.in_progress = false;
    return good && (allowed || fails("a start finds what no cut may leave"));
}

/* The device has some sectors more than an image of this format. */
static uint64_t sectors_of(uint32_t format)
{
    struct usbdisk_log log = { 0 };
    usbdisk_log_of(format, SLOTS, 1, &log);
    return log.home + BLOCKS;
}

/* The sectors behind the image hold what they held before the format. */
static bool spares_the_rest(uint32_t format)
{
    uint8_t bytes[512];
    for (uint64_t sector = sectors_of(format); sector < SECTORS; sector++) {
        if (!device_read(sector, bytes))
            return false;
        for (size_t i = 0; i < sizeof bytes; i++)
            if (bytes[i] != BEHIND)
                return fails("a sector behind the image has changed");
    }
    return true;
}

static bool lay_image(uint32_t format)
{
    const struct usbdisk_plan plan = { SECTORS, format, SLOTS, BLOCKS, 0 };
    struct usbdisk image = USBDISK_NONE;
    uint32_t fault;
    if (usbdisk_format(&image, &plan) || !carry_all(&image))
        return fails("no format");
    bool good = usbdisk_state(&image, &fault) == USBDISK_DONE;
    usbdisk_stop(&image);
    return good || fails("a format is never done");
}

static bool make_image(uint32_t format)
{
    uint8_t bytes[512];
    memset(&book, 0, sizeof book);
    memset(bytes, BEHIND, sizeof bytes);
    left = LONG_MAX;
    if (!device_open(SECTORS))
        return fails("the device is not opened");
    for (uint64_t i = 0; i < SECTORS; i++)
        if (!device_write(i, bytes))
            return fails("the device refuses a write");
    if (!device_flush())
        return fails("the device refuses a flush");
    return lay_image(format) && spares_the_rest(format);
}

/* A life, and what a start finds behind its cut. */
static bool play_life(bool is_late)
{
    struct usbdisk disk = USBDISK_NONE;
    left = random_below(300);
    goes_late = is_late;
    if (start(&disk))
        live(&disk);
    usbdisk_stop(&disk);
    left = LONG_MAX;
    is_gone = false;
    return !wrong && device_cut() && finds_what_it_may();
}

static bool judge(uint32_t format, long lives)
{
    long life = 0;
    bool good = make_image(format);
    for (; good && life < lives; life += good)
        good = play_life(life % 2);
    if (good && spares_the_rest(format))
        printf("format %u: %ld lives, each start finds what it may\n", format, lives);
    else
        printf("format %u, life %ld: %s\n", format, life, wrong ? wrong : "no cut");
    return good && !wrong;
}

int main(int count, char **words)
{
    uint64_t most = 1000, first = 1;
    if (count > 3 || (count > 1 && !read_number(words[1], 1, LONG_MAX, &most)) ||
        (count > 2 && !read_number(words[2], 0, UINT64_MAX, &first))) {
        fprintf(stderr, "judge [LIVES [FIRST SEED]]: numbers in digits, of lives at least 1\n");
        return 2;
    }
    long lives = (long)most;
    seed = first * 0x9E3779B97F4A7C15u;
    if (!seed)
        seed = 1; /* at 0 the generator stands still */
    setvbuf(stdout, NULL, _IOLBF, 0);
    printf("%s: %ld lives in each format\n", JUDGED, lives);
    bool good = true;
    for (uint32_t format = 1; good && format <= 2; format++)
        good = judge(format, lives);
    return good ? EXIT_SUCCESS : EXIT_FAILURE;
}
