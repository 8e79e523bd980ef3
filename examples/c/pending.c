/* A command that is pending: its bytes were taken, and the device works for it. What the bus is
 * answered meanwhile, what a class reset drops, and which command may fail by a call that the
 * device refuses, in both formats. */
#include "gadget.h"
#include "image.h"
#include <stdio.h>
#include <stdlib.h>
#include <string.h>

enum { BLOCKS = 64, SLOTS = 5, SECTORS = USBDISK_LOG_END(2, SLOTS) + BLOCKS, TO_HOST = 0x80 };
enum { GOOD = 0, FAILED = 1, NONE = 0, WRITE_ERROR = 0x030C00, LATER = 0x044400 };

static uint8_t medium[SECTORS * 512], buffer[USBDISK_LIMIT(2) * 512];
static struct usbdisk disk = USBDISK_NONE;
static struct usbdisk_call call;
static uint32_t format;

static const uint8_t inquiry[16] = { 0x12, [4] = 36 }, sense[16] = { 0x03, [4] = 18 },
                     sync[16] = { 0x35 }, read_one[16] = { 0x28, [5] = 3, [8] = 1 },
                     read_other[16] = { 0x28, [5] = 40, [8] = 1 },
                     write_four[16] = { 0x2A, [5] = 2, [8] = 4 },
                     write_forced[16] = { 0x2A, 8, [5] = 2, [8] = 4 },
                     mode_sense[16] = { 0x1A, 8, 8, [4] = 24 },
                     mode_select[16] = { 0x15, 0x10, [4] = 24 }, no_list[16] = { 0x15, 0x10 };
static const uint8_t reset[8] = { 0x21, 0xFF }, clear_in[8] = { 0x02, 1, 0, 0, 0x81 },
                     status_in[8] = { 0x82, 0, 0, 0, 0x81, 0, 2 };

static void must(bool good, const char *what)
{
    if (good)
        return;
    printf("pending, format %u: %s\n", format, what);
    exit(EXIT_FAILURE);
}

/* ---- the device */

static bool begins(void)
{
    must(!usbdisk_next(&disk, &call, buffer, sizeof buffer), "a next call");
    return call.kind != USBDISK_NOTHING;
}

static void ends(bool ok)
{
    uint8_t *place = medium + 512 * call.sector;
    size_t size = 512 * (size_t)call.count;
    if (ok && call.kind == USBDISK_WRITE)
        memcpy(place, buffer, size);
    must(!usbdisk_done(&disk, ok, place, call.kind == USBDISK_READ ? size : 0), "a call ends");
}

/* ---- the host */

static uint32_t out(const uint8_t *bytes, size_t size)
{
    size_t taken;
    return usbdisk_out(&disk, bytes, size, &taken);
}

/* A command for which the host announces so many bytes. */
static uint32_t ask(const uint8_t command[16], uint8_t way, uint32_t size)
{
    uint8_t wrapper[31] = { 'U', 'S', 'B', 'C', [12] = way, [14] = 10 };
    memcpy(wrapper + 8, &size, 4);
    memcpy(wrapper + 15, command, 16);
    return out(wrapper, sizeof wrapper);
}

static uint32_t token(uint8_t *bytes, size_t *given)
{
    return usbdisk_in(&disk, bytes, 512, given);
}

static bool is_now(uint32_t answer)
{
    uint8_t bytes[512];
    size_t given;
    return token(bytes, &given) == answer;
}

static uint32_t request(const uint8_t setup[8], uint8_t data[2])
{
    uint32_t size;
    return usbdisk_setup(&disk, setup, data, &size);
}

static bool is_halted(void)
{
    uint8_t data[2];
    must(!request(status_in, data), "GET_STATUS");
    return data[0];
}

static void reset_class(void)
{
    uint8_t data[2];
    must(!request(reset, data), "a class reset");
}

/* The status that is there now, or -1. */
static int status(void)
{
    uint8_t bytes[512];
    size_t given;
    return token(bytes, &given) || given != 13 ? -1 : bytes[12];
}

/* A command that sends so many bytes, and asks the device for nothing. */
static bool sends(const uint8_t command[16], uint32_t size, uint8_t *bytes)
{
    size_t given;
    return !ask(command, TO_HOST, size) && !token(bytes, &given) && given == size &&
           status() == GOOD;
}

static uint32_t sense_now(void)
{
    uint8_t bytes[512] = { 0 };
    must(sends(sense, 18, bytes), "REQUEST SENSE");
    return (uint32_t)(bytes[2] & 15) << 16 | (uint32_t)bytes[12] << 8 | bytes[13];
}

static bool is_cached(void)
{
    uint8_t bytes[512] = { 0 };
    must(sends(mode_sense, 24, bytes), "MODE SENSE");
    return bytes[6] & 4;
}

/* A MODE SELECT that says so of the write cache, up to its data. */
static void select_cache(uint8_t cache)
{
    uint8_t list[24] = { [4] = 0x08, 0x12, cache };
    must(!ask(mode_select, 0, 24) && !out(list, 24), "a MODE SELECT is taken");
}

static void give(const uint8_t command[16], uint8_t fill)
{
    uint8_t bytes[2048];
    memset(bytes, fill, sizeof bytes);
    must(!ask(command, 0, sizeof bytes) && !out(bytes, sizeof bytes), "a WRITE is taken");
}

/* ---- scenes, each on a disk with a WRITE of which the device has nothing */

/* One of its blocks was read before. */
static void begin(void)
{
    uint8_t bytes[512];
    size_t given;
    const struct usbdisk_options options = { .sectors = SECTORS,
                                             .identity = { "EXAMPLE ", "PENDING         ", "0001",
                                                           "000000000001" },
                                             .packet = 512 };
    memset(medium, 0, sizeof medium);
    must(!format_memory(medium, sizeof medium, format, BLOCKS, SLOTS), "an image");
    must(!usbdisk_start(&disk, &options), "a start");
    carry_all(&disk, medium);
    sense_now();
    must(!ask(read_one, TO_HOST, 512), "a READ");
    carry_all(&disk, medium);
    must(!token(bytes, &given) && status() == GOOD, "its block");
    give(write_four, 0xA5);
    must(status() == GOOD, "a WRITE has room");
}

static void end(void)
{
    must(!usbdisk_stop(&disk) && !heap_blocks, "memory is left");
}

/* The first call of the background is refused. */
static void refuse_in_background(void)
{
    usbdisk_idle(&disk);
    must(begins(), "a call of the background");
    ends(false);
}

/* A status that waits stays good, and so does no command behind it. */
static void play_background(const uint8_t command[16], uint32_t size)
{
    uint8_t bytes[512];
    size_t given;
    begin();
    must(!ask(command, TO_HOST, size), "a command in front of a refusal");
    refuse_in_background();
    must(!token(bytes, &given) && given == size && status() == GOOD, "a status is taken back");
    must(sense_now() == NONE, "a command that was good has a sense");
    must(!ask(read_one, TO_HOST, 512) && is_now(USBDISK_STALL), "a READ behind a refusal");
    must(!request(clear_in, bytes) && status() == FAILED && sense_now() == LATER,
         "the unit is not faulted");
    end();
}

/* A MODE SELECT that turns the write cache off, of which the device refuses the call of this
 * number. False: it has no such call, and is good. */
static bool play_own(unsigned number)
{
    begin();
    select_cache(0);
    while (begins() && --number)
        ends(true);
    bool is_refused = call.kind != USBDISK_NOTHING;
    must(!is_refused || is_now(USBDISK_NAK), "a promise is told before it is kept");
    if (is_refused)
        ends(false);
    must(status() == (is_refused ? FAILED : GOOD), "the status of a MODE SELECT");
    must(sense_now() == (is_refused ? WRITE_ERROR : NONE), "its sense");
    must(is_cached() == is_refused, "a MODE SELECT that failed turns the write cache off");
    end();
    return is_refused;
}

/* A SYNCHRONIZE CACHE comes while the device is at the call of this number of the background: it
 * promises nothing before that has ended. False: there is no such call. */
static bool play_under_way(unsigned number)
{
    bool is_there;
    begin();
    for (;;) {
        usbdisk_idle(&disk);
        is_there = begins();
        if (!is_there || !--number)
            break;
        ends(true);
    }
    must(!is_there || (!ask(sync, 0, 0) && is_now(USBDISK_NAK)), "a promise is told too early");
    if (is_there)
        ends(true);
    carry_all(&disk, medium);
    must(!is_there || status() == GOOD, "the status of a SYNCHRONIZE CACHE");
    end();
    return is_there;
}

/* Bulk-In is halted behind short data, and the reset that drops the status leaves that. */
static void play_halt(void)
{
    uint8_t bytes[512];
    size_t given;
    begin();
    must(!ask(inquiry, TO_HOST, 64) && !token(bytes, &given) && given == 36, "an INQUIRY");
    reset_class();
    must(!ask(sync, 0, 0) && begins() && is_halted(), "a SYNCHRONIZE CACHE");
    must(is_now(USBDISK_STALL), "Bulk-In is halted, and does not tell it");
    must(!request(clear_in, bytes) && is_now(USBDISK_NAK), "a promise behind a halt");
    ends(true);
    carry_all(&disk, medium);
    must(status() == GOOD, "its status");
    end();
}

/* The halt of a command that is pending comes when it is done. */
static void play_late_halt(void)
{
    uint8_t bytes[512];
    begin();
    must(!ask(sync, TO_HOST, 64) && begins(), "a SYNCHRONIZE CACHE with data");
    must(!is_halted() && is_now(USBDISK_NAK), "a halt before the command is done");
    ends(true);
    carry_all(&disk, medium);
    must(is_halted() && is_now(USBDISK_STALL), "no halt behind the command");
    must(!request(clear_in, bytes) && status() == GOOD, "the status behind the halt");
    end();
}

/* A reset drops what is pending, and no command behind it waits. */
static void play_reset(void)
{
    uint8_t bytes[512];
    begin();
    must(!ask(sync, 0, 0) && begins() && is_now(USBDISK_NAK), "a SYNCHRONIZE CACHE waits");
    must(ask(inquiry, TO_HOST, 36) == USBDISK_NAK, "a packet while a command is pending");
    reset_class();
    must(sends(inquiry, 36, bytes), "an INQUIRY waits for a promise that was dropped");
    ends(true);
    carry_all(&disk, medium);
    must(is_now(USBDISK_NAK), "the status of a command that was dropped");
    end();
}

/* Commands that ask the device for nothing are answered at once, good or not. */
static void play_others(void)
{
    uint8_t bytes[512];
    begin();
    usbdisk_idle(&disk);
    must(begins(), "a call of the background");
    select_cache(3);
    must(status() == FAILED && sense_now() == 0x052600, "a MODE SELECT with a bad list waits");
    must(!ask(no_list, 0, 0) && status() == GOOD, "a MODE SELECT without a list waits");
    must(sends(read_one, 512, bytes) && bytes[0] == 0xA5, "a READ of what waits");
    ends(true);
    end();
}

/* A READ is taken, and its blocks come when the device has read them: those that wait lie over
 * them. Then comes a READ of which the device can read nothing. */
static void play_read(void)
{
    const uint8_t read_both[16] = { 0x28, [5] = 5, [8] = 2 };
    uint8_t bytes[512];
    size_t given;
    begin();
    must(!ask(read_both, TO_HOST, 1024) && is_now(USBDISK_NAK), "a READ that lacks a block");
    must(begins() && call.kind == USBDISK_READ && is_now(USBDISK_NAK), "the device reads");
    ends(true);
    must(!token(bytes, &given) && bytes[0] == 0xA5 && !token(bytes, &given) && !bytes[0] &&
             status() == GOOD,
         "what waits is not read");
    must(!ask(read_other, TO_HOST, 512) && begins() && call.kind == USBDISK_READ, "another READ");
    ends(false);
    must(is_now(USBDISK_STALL) && !request(clear_in, bytes) && status() == FAILED &&
             sense_now() == 0x031100,
         "a READ that the device refused");
    must(sends(inquiry, 36, bytes), "a command behind it");
    end();
}

/* A READ is pending when a write of the background is refused: it fails as one behind that. */
static void play_read_behind(void)
{
    uint8_t bytes[2];
    begin();
    usbdisk_idle(&disk);
    must(begins() && call.kind == USBDISK_WRITE, "a write of the background");
    must(!ask(read_other, TO_HOST, 512) && is_now(USBDISK_NAK), "a READ behind it");
    ends(false);
    must(is_now(USBDISK_STALL) && !request(clear_in, bytes) && status() == FAILED &&
             sense_now() == LATER,
         "a READ fails by a write that is none of its own");
    end();
}

/* A forced WRITE that a reset drops is taken anew, and is there when its status is. */
static void play_forced(void)
{
    begin();
    give(write_forced, 0x5A);
    must(begins() && is_now(USBDISK_NAK), "a forced WRITE waits");
    reset_class();
    give(write_forced, 0x3C);
    ends(true);
    carry_all(&disk, medium);
    must(status() == GOOD, "a forced WRITE behind a reset");
    end();
}

int main(void)
{
    unsigned calls = 0;
    for (format = 1; format <= 2; format++) {
        play_background(inquiry, 36);
        play_background(read_one, 512);
        for (unsigned number = 1; play_own(number); number++)
            calls++;
        for (unsigned number = 1; play_under_way(number); number++)
            calls++;
        play_halt();
        play_late_halt();
        play_reset();
        play_others();
        play_read();
        play_read_behind();
        play_forced();
    }
    printf("a pending command fails by its own calls alone, in %u places, and nothing waits for "
           "it\n",
           calls);
    return calls ? EXIT_SUCCESS : EXIT_FAILURE;
}
