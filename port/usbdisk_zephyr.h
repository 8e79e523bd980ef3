/* The blocks of usbdisk_blocks.h as a disk of Zephyr, over another disk of Zephyr: an SD card
 * ("SD"), an eMMC, or flash behind a translation layer. Zephyr's USB mass storage and its file
 * systems take it by its name.
 *
 *     static struct usbdisk_zephyr safe = { .disk.name = "SAFE", .below = "SD", .format = 2,
 *                                           .slots = 6, .most = 16 };
 *
 *     usbdisk_zephyr_register(&safe);
 *     USBD_DEFINE_MSC_LUN(lun, "SAFE", "EXAMPLE", "POWER SAFE", "1.00");    of USB in Zephyr 4
 *
 * Where the disk below is blank it gets an image the first time: see usbdisk_io_format_blank. What
 * that disk must promise docs/MAKERS.md tells; its flush is DISK_IOCTL_CTRL_SYNC. In prj.conf:
 * CONFIG_DISK_ACCESS=y, and a heap or USBDISK_ARENA for the library.
 *
 * Zephyr's USB stack has SCSI in it, and shows its host no write cache. So each write is durable
 * before it is answered. A user that makes DISK_IOCTL_CTRL_SYNC itself, as a file system does, may
 * set `waits_for_sync`. */
#ifndef USBDISK_ZEPHYR_H
#define USBDISK_ZEPHYR_H

#include "usbdisk_blocks.h"
#include <zephyr/drivers/disk.h>

#ifdef __cplusplus
extern "C" {
#endif

/* A disk, which has to stay where it is. Fill in what is above the line; the rest is the layer's.
 * format, slots, kept: docs/MAKERS.md, "Which format". most: how many blocks one read has at most.
 */
struct usbdisk_zephyr {
    struct disk_info disk; /* .name */
    const char *below;
    uint32_t format, slots, kept, most;
    bool waits_for_sync;
    /* ---- */
    struct usbdisk_io_device device;
    struct usbdisk_blocks *blocks;
};

/* Registers the disk under its name. It starts when it is first initialised, by disk_access_init.
 * Answers 0, or a negative errno. */
int usbdisk_zephyr_register(struct usbdisk_zephyr *safe);

/* Nothing came for a while: as usbdisk_blocks_idle. Call it from the thread that uses the disk, or
 * with a lock around both. */
bool usbdisk_zephyr_idle(struct usbdisk_zephyr *safe);

/* Stops the disk: it can be initialised anew. */
void usbdisk_zephyr_stop(struct usbdisk_zephyr *safe);

#ifdef __cplusplus
}
#endif
#endif
