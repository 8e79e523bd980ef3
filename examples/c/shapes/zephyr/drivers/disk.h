/* What port/usbdisk_zephyr.c uses of Zephyr's include/zephyr/drivers/disk.h, in its place, so that
 * it can be compiled and played where the sources are not. It is what Zephyr 3.5 to 4.0 declares
 * there (github.com/zephyrproject-rtos/zephyr, licence Apache-2.0), as far as it is used, with
 * comments of our own. Written down from its documentation: it was not compared with that file by a
 * program. */
#ifndef ZEPHYR_DRIVERS_DISK_H
#define ZEPHYR_DRIVERS_DISK_H

#include <stdint.h>

/* What an ioctl asks for: three numbers of 32 bits, that what was written is durable, and from
 * Zephyr 3.7 on a start and an end. */
#define DISK_IOCTL_GET_SECTOR_COUNT 1
#define DISK_IOCTL_GET_SECTOR_SIZE 2
#define DISK_IOCTL_GET_ERASE_BLOCK_SZ 4
#define DISK_IOCTL_CTRL_SYNC 5
#define DISK_IOCTL_CTRL_INIT 6
#define DISK_IOCTL_CTRL_DEINIT 7

/* Bits of a status. */
#define DISK_STATUS_OK 0x00
#define DISK_STATUS_UNINIT 0x01

struct disk_operations;

/* A disk, by its name. There are more members, which are Zephyr's own. */
struct disk_info {
    const char *name;
    const struct disk_operations *ops;
};

/* What each disk does. All answer 0, or a negative errno; a status, its bits. */
struct disk_operations {
    int (*init)(struct disk_info *disk);
    int (*status)(struct disk_info *disk);
    int (*read)(struct disk_info *disk, uint8_t *data_buf, uint32_t start_sector,
                uint32_t num_sector);
    int (*write)(struct disk_info *disk, const uint8_t *data_buf, uint32_t start_sector,
                 uint32_t num_sector);
    int (*ioctl)(struct disk_info *disk, uint8_t cmd, void *buff);
};

int disk_access_register(struct disk_info *disk);

#endif
