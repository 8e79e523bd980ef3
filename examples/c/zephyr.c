/* A user of disks in the place of Zephyr, over port/usbdisk_zephyr.c: it cuts the power, and what
 * was written or synchronised is there after. The disk below is the device of device.h; last it
 * refuses a call. With -DWAITS_FOR_SYNC=1 a write is durable behind the next sync alone. */
#include "device.h"
#include "gadget.h"
#include "usbdisk_zephyr.h"
#include <errno.h>
#include <stdio.h>
#include <stdlib.h>
#include <string.h>
#include <zephyr/storage/disk_access.h>

#ifndef WAITS_FOR_SYNC
#define WAITS_FOR_SYNC 0
#endif

enum { SLOTS = 4, BLOCKS = 600, SECTORS = USBDISK_LOG_END(2, SLOTS) + BLOCKS };
enum { SPAN = 8, LONG = 300 };

static void must(bool good, const char *what)
{
    if (good)
        return;
    printf("zephyr: %s\n", what);
    exit(1);
}

/* ---- the disk below */

static uint32_t refuses, sector_size = 512;

static int below_init(struct disk_info *disk)
{
    (void)disk;
    return 0;
}

static int below_read(struct disk_info *disk, uint8_t *bytes, uint32_t first, uint32_t count)
{
    (void)disk;
    for (uint32_t i = 0; i < count; i++)
        if (!device_read(first + i, bytes + 512 * (size_t)i))
            return -EIO;
    return 0;
}

static int below_write(struct disk_info *disk, const uint8_t *bytes, uint32_t first, uint32_t count)
{
    (void)disk;
    if (refuses && --refuses == 0)
        return -EIO;
    for (uint32_t i = 0; i < count; i++)
        if (!device_write(first + i, bytes + 512 * (size_t)i))
            return -EIO;
    return 0;
}

static int below_ioctl(struct disk_info *disk, uint8_t cmd, void *buff)
{
    (void)disk;
    if (cmd == DISK_IOCTL_CTRL_SYNC)
        return device_flush() ? 0 : -EIO;
    *(uint32_t *)buff = cmd == DISK_IOCTL_GET_SECTOR_SIZE ? sector_size : SECTORS;
    return 0;
}

/* ---- the disks by their names */

static const struct disk_operations below_operations = { below_init, below_init, below_read,
                                                         below_write, below_ioctl };
static struct disk_info below = { "SD", &below_operations };
static struct usbdisk_zephyr safe = { .disk.name = "SAFE",
                                      .below = "SD",
                                      .format = 2,
                                      .slots = SLOTS,
                                      .most = SPAN,
                                      .waits_for_sync = WAITS_FOR_SYNC };
static struct disk_info *registered;

int disk_access_register(struct disk_info *disk)
{
    registered = disk;
    return 0;
}

static struct disk_info *named(const char *name)
{
    struct disk_info *found = strcmp(name, below.name) ? registered : &below;
    must(!strcmp(found->name, name), "a disk of another name");
    return found;
}

int disk_access_init(const char *pdrv)
{
    return named(pdrv)->ops->init(named(pdrv));
}

int disk_access_status(const char *pdrv)
{
    return named(pdrv)->ops->status(named(pdrv));
}

int disk_access_read(const char *pdrv, uint8_t *bytes, uint32_t first, uint32_t count)
{
    return named(pdrv)->ops->read(named(pdrv), bytes, first, count);
}

int disk_access_write(const char *pdrv, const uint8_t *bytes, uint32_t first, uint32_t count)
{
    return named(pdrv)->ops->write(named(pdrv), bytes, first, count);
}

int disk_access_ioctl(const char *pdrv, uint8_t cmd, void *buff)
{
    return named(pdrv)->ops->ioctl(named(pdrv), cmd, buff);
}

/* ---- a user */

static uint8_t bytes[LONG * 512];

/* Each block has another filling than the one before it. */
static int write_blocks(uint32_t first, uint32_t count, uint8_t fill)
{
    for (uint32_t i = 0; i < count * 512; i++)
        bytes[i] = (uint8_t)(fill + i / 512);
    return disk_access_write("SAFE", bytes, first, count);
}

static bool has_blocks(uint32_t first, uint32_t count, uint8_t fill)
{
    memset(bytes, (uint8_t)~fill, count * 512);
    bool is_read = !disk_access_read("SAFE", bytes, first, count);
    for (uint32_t i = 0; is_read && i < count * 512; i++)
        is_read = bytes[i] == (uint8_t)(fill + i / 512);
    return is_read;
}

static uint32_t number(uint8_t cmd)
{
    uint32_t found = 0;
    must(!disk_access_ioctl("SAFE", cmd, &found), "a number of the disk");
    return found;
}

static void restart(void)
{
    usbdisk_zephyr_stop(&safe);
    must(disk_access_status("SAFE") == DISK_STATUS_UNINIT && !heap_blocks, "a stop");
    must(device_cut() && !disk_access_init("SAFE"), "a start behind a cut");
    must(disk_access_status("SAFE") == DISK_STATUS_OK, "a status");
}

/* What was written is there behind a cut, or with a sync; so is a write that is longer than one may
 * be, of which a sync is the promise. */
static void live(uint8_t round)
{
    for (uint32_t i = 0; i < BLOCKS - SPAN; i += SPAN)
        must(!write_blocks(i, SPAN, (uint8_t)(round + i)), "a write");
    if (round % 4 == 0)
        must(!write_blocks(0, LONG, round), "a long write");
    if (WAITS_FOR_SYNC || round % 2)
        must(!disk_access_ioctl("SAFE", DISK_IOCTL_CTRL_SYNC, NULL), "a sync");
    while (round % 3 == 0 && usbdisk_zephyr_idle(&safe))
        ;
    restart();
    for (uint32_t i = round % 4 ? 0 : LONG + SPAN - LONG % SPAN; i < BLOCKS - SPAN; i += SPAN)
        must(has_blocks(i, SPAN, (uint8_t)(round + i)), "a read");
    must(round % 4 || has_blocks(0, LONG, round), "a long read");
}

static void misuse(void)
{
    must(write_blocks(BLOCKS, 1, 1) == -EINVAL &&
             disk_access_read("SAFE", bytes, BLOCKS, 1) == -EINVAL,
         "a block behind the last one");
    must(write_blocks(0, 0, 1) == -EINVAL && disk_access_ioctl("SAFE", 99, NULL) == -EINVAL,
         "a call that is none");
    refuses = 1;
    int code = write_blocks(0, 1, 1);
    if (!code && WAITS_FOR_SYNC)
        code = disk_access_ioctl("SAFE", DISK_IOCTL_CTRL_SYNC, NULL);
    must(code == -EIO && write_blocks(0, 1, 1) == -EIO && !has_blocks(0, 1, 1),
         "a disk below that refuses a write");
    must(disk_access_ioctl("SAFE", DISK_IOCTL_CTRL_DEINIT, NULL) == -EIO && !heap_blocks, "an end");
    must(write_blocks(0, 1, 1) == -EIO && disk_access_read("SAFE", bytes, 0, 1) == -EIO,
         "a block behind the end");
    must(disk_access_ioctl("SAFE", DISK_IOCTL_CTRL_SYNC, NULL) == -EIO &&
             !usbdisk_zephyr_idle(&safe),
         "a call behind the end");
    sector_size = 4096;
    must(disk_access_init("SAFE") == -EINVAL, "sectors of another size");
    sector_size = 512;
    heap_fails = 1;
    must(disk_access_init("SAFE") == -ENOMEM, "a start without memory");
    heap_fails = 0;
    must(!disk_access_ioctl("SAFE", DISK_IOCTL_CTRL_INIT, NULL) && !disk_access_init("SAFE"),
         "a start");
    must(!disk_access_ioctl("SAFE", DISK_IOCTL_CTRL_DEINIT, NULL) && !heap_blocks, "the end");
}

int main(void)
{
    must(device_open(SECTORS) && !usbdisk_zephyr_register(&safe), "a new disk");
    must(disk_access_status("SAFE") == DISK_STATUS_UNINIT && !disk_access_init("SAFE"), "a start");
    must(number(DISK_IOCTL_GET_SECTOR_COUNT) == BLOCKS, "how many blocks");
    must(number(DISK_IOCTL_GET_SECTOR_SIZE) == 512 && number(DISK_IOCTL_GET_ERASE_BLOCK_SZ) == 1,
         "how long a block is");
    for (uint8_t round = 1; round <= 24; round++)
        live(round);
    misuse();
    printf("a disk of Zephyr over another one, %s: 24 cuts, all that was promised is there\n",
           WAITS_FOR_SYNC ? "durable by a sync" : "durable by each write");
    return 0;
}
