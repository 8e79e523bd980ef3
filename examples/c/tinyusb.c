/* A host in the place of TinyUSB, over the callbacks of port/usbdisk_tinyusb.c: it cuts the power,
 * and what was promised is there after. Last a device that refuses a call. */
#include "device.h"
#include "gadget.h"
#include "usbdisk_tinyusb.h"
#include <stdio.h>
#include <stdlib.h>
#include <string.h>
#include <tusb.h>

#ifndef USBDISK_SHOWS_CACHE
#define USBDISK_SHOWS_CACHE 0
#endif

/* SPAN: how many blocks the stack's buffer has. */
enum { BLOCKS = 200, SLOTS = 4, SECTORS = USBDISK_LOG_END(2, SLOTS) + BLOCKS, SPAN = 8 };

static const struct usbdisk_identity who = { "EXAMPLE ", "POWER SAFE DISK ", "0001",
                                             "000000000001" };
static struct usbdisk_blocks *disk;

/* ---- the device */

/* For the test: the device refuses the write or flush of this number from here on, or none; and it
 * cannot read this sector, or any. */
static uint32_t refuses;
static uint64_t worn = UINT64_MAX;

static bool is_refused(void)
{
    return refuses && --refuses == 0;
}

static bool read_run(void *context, uint64_t first, uint8_t *bytes, size_t count)
{
    (void)context;
    for (size_t i = 0; i < count; i++)
        if (first + i == worn || !device_read(first + i, bytes + 512 * i))
            return false;
    return true;
}

/* One command of your device; this one writes sector by sector, and may refuse in the middle. */
static bool write_run(void *context, uint64_t first, const uint8_t *bytes, size_t count)
{
    (void)context;
    for (size_t i = 0; i < count; i++)
        if (is_refused() || !device_write(first + i, bytes + 512 * i))
            return false;
    return true;
}

static bool flush(void *context)
{
    (void)context;
    return !is_refused() && device_flush();
}

static const struct usbdisk_io_device device = { NULL, SECTORS, read_run, write_run, flush, 0 };

/* ---- a start, and a host */

static uint32_t sense;

bool tud_msc_set_sense(uint8_t lun, uint8_t key, uint8_t code, uint8_t qualifier)
{
    (void)lun;
    sense = (uint32_t)key << 16 | (uint32_t)code << 8 | qualifier;
    return true;
}

static void must(bool good, const char *what)
{
    if (good)
        return;
    printf("tinyusb: %s\n", what);
    exit(1);
}

static void start(void)
{
    uint32_t code = usbdisk_blocks_start(&disk, &device, SPAN);
    must(!code, usbdisk_text(code));
    usbdisk_tinyusb_serve(disk, &who);
}

/* The power goes: what was written and not flushed may be lost. */
static void restart(void)
{
    usbdisk_blocks_stop(disk);
    must(device_cut(), "the cut");
    start();
}

/* The host's SYNCHRONIZE CACHE(10) and (16), and START STOP UNIT. */
static bool synchronise(unsigned which)
{
    static const uint8_t commands[2][16] = { { 0x35 }, { 0x91 } };
    if (which == 2)
        return tud_msc_start_stop_cb(0, 0, false, true);
    return !tud_msc_scsi_cb(0, commands[which], NULL, 0);
}

static bool write_blocks(uint32_t lba, unsigned char fill)
{
    uint8_t bytes[SPAN * 512];
    memset(bytes, fill, sizeof bytes);
    return tud_msc_write10_cb(0, lba, 0, bytes, sizeof bytes) == sizeof bytes;
}

static bool has_blocks(uint32_t lba, unsigned char fill)
{
    uint8_t bytes[SPAN * 512] = { 0 }, wanted[SPAN * 512];
    memset(wanted, fill, sizeof wanted);
    return tud_msc_read10_cb(0, lba, 0, bytes, sizeof bytes) == sizeof bytes &&
           !memcmp(bytes, wanted, sizeof bytes);
}

/* A host that is shown no cache sends no sync: then what was written is there. */
static void live(unsigned round)
{
    for (uint32_t lba = 0; lba < BLOCKS; lba += SPAN)
        must(write_blocks(lba, (unsigned char)(round + lba)), "a write");
    if (USBDISK_SHOWS_CACHE || round % 2)
        must(synchronise(round / 2 % 3), "a sync");
    while (round % 3 == 0 && usbdisk_blocks_idle(disk))
        ;
    restart();
    for (uint32_t lba = 0; lba < BLOCKS; lba += SPAN)
        must(has_blocks(lba, (unsigned char)(round + lba)), "a read");
}

/* ---- a device that refuses a call */

/* Behind a refusal each call says so, and the device is asked for nothing. */
static void is_dead(void)
{
    refuses = 1;
    must(!write_blocks(0, 3) && sense == 0x044400, "a write behind a refused call");
    must(!has_blocks(0, 3) && sense == 0x044400, "a read behind a refused call");
    must(!synchronise(0) && sense == 0x044400, "a sync behind a refused call");
    must(!usbdisk_blocks_idle(disk) && refuses == 1, "a dead store asks for something");
    refuses = 0;
}

/* Writes, synchronises and makes all steps, on a device that refuses its call of this number.
 * Answers whether it was reached. What was promised is there behind a cut, and a write is there
 * whole or not. */
static bool refuse_one(uint32_t call, unsigned char was, unsigned char fill)
{
    refuses = call;
    sense = 0;
    bool is_begun = write_blocks(0, fill), is_written = is_begun && write_blocks(SPAN, fill);
    bool is_synchronised = is_written && synchronise(0);
    bool first = is_synchronised || (!USBDISK_SHOWS_CACHE && is_begun);
    bool second = is_synchronised || (!USBDISK_SHOWS_CACHE && is_written);
    while (is_synchronised && usbdisk_blocks_idle(disk))
        ;
    bool is_reached = refuses == 0;
    refuses = 0;
    must(is_synchronised || sense == 0x030C00, "another sense");
    if (is_reached)
        is_dead();
    must(is_reached || is_synchronised, "a call fails, and the device refused none");
    restart();
    must(has_blocks(0, fill) || (!first && has_blocks(0, was)), "a write is in part, or lost");
    must(has_blocks(SPAN, fill) || (!second && has_blocks(SPAN, was)),
         "a write is in part, or lost");
    must(has_blocks(0, fill) || has_blocks(SPAN, was),
         "the second write is there without the first");
    must(write_blocks(0, was) && write_blocks(SPAN, was) && synchronise(0), "the next writes");
    return is_reached;
}

/* A sector that cannot be read fails one read, or a start; and so does a lack of memory. */
static void play_worn(void)
{
    uint32_t code = USBDISK_NO_MEMORY;
    restart();
    worn = SECTORS - BLOCKS + 3;
    must(!has_blocks(0, 1) && sense == 0x031100, "a read of a worn sector");
    must(has_blocks(SPAN, 1), "a read beside a worn sector");
    usbdisk_blocks_stop(disk);
    for (worn = 0; worn < 2; worn++)
        must(usbdisk_blocks_start(&disk, &device, SPAN) == USBDISK_READ_REFUSED && !heap_blocks,
             "a start over a worn sector");
    worn = UINT64_MAX;
    for (int number = 1; code; number++) {
        heap_fails = number;
        code = usbdisk_blocks_start(&disk, &device, SPAN);
        heap_fails = 0;
        must(!code || (code == USBDISK_NO_MEMORY && !heap_blocks), "a start without memory");
    }
    usbdisk_tinyusb_serve(disk, &who);
    must(has_blocks(0, 1), "a sector that can be read again");
}

static void misuse(void)
{
    uint8_t bytes[512] = { 0 };
    must(tud_msc_scsi_cb(0, bytes, NULL, 0) < 0 && sense == 0x052000,
         "a command that is not known");
    must(tud_msc_read10_cb(0, 0, 1, bytes, 512) < 0 && sense == 0x052400, "a read within a block");
    must(tud_msc_write10_cb(0, BLOCKS, 0, bytes, 512) < 0 && sense == 0x052100,
         "a block behind the last one");
    must(tud_msc_read10_cb(0, BLOCKS, 0, bytes, 512) < 0 && sense == 0x052100,
         "a block behind the last one");
    usbdisk_blocks_stop(disk);
    usbdisk_tinyusb_serve(NULL, &who);
    must(!tud_msc_test_unit_ready_cb(0) && !heap_blocks, "the end");
    must(!has_blocks(0, 1) && !write_blocks(0, 1) && !synchronise(0) && !synchronise(2),
         "a call of no disk");
}

int main(void)
{
    uint8_t vendor[8], product[16], revision[4];
    uint32_t blocks;
    uint16_t size;
    must(device_open(SECTORS) && !usbdisk_io_format(&device, 2, SLOTS, BLOCKS), "no format");
    start();
    tud_msc_inquiry_cb(0, vendor, product, revision);
    tud_msc_capacity_cb(0, &blocks, &size);
    must(tud_msc_test_unit_ready_cb(0) && blocks == BLOCKS && size == 512, "the capacity");
    for (unsigned round = 1; round <= 20; round++)
        live(round);
    must(write_blocks(0, 1) && write_blocks(SPAN, 1) && synchronise(0), "the first writes");
    uint32_t calls = 1;
    while (refuse_one(calls, 1, 2))
        calls++;
    play_worn();
    misuse();
    printf("a stack with SCSI in it, %s: 20 cuts and %lu refused calls, all that was promised is "
           "there\n",
           USBDISK_SHOWS_CACHE ? "a write cache shown" : "no write cache shown",
           (unsigned long)calls - 1);
    return 0;
}
