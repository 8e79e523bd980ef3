/* What port/usbdisk_zephyr.c uses of Zephyr's include/zephyr/storage/disk_access.h, in its place:
 * see zephyr/drivers/disk.h beside this folder, which tells version and licence too. */
#ifndef ZEPHYR_STORAGE_DISK_ACCESS_H
#define ZEPHYR_STORAGE_DISK_ACCESS_H

#include <zephyr/drivers/disk.h>

/* The same of the disk of this name. */
int disk_access_init(const char *pdrv);
int disk_access_status(const char *pdrv);
int disk_access_read(const char *pdrv, uint8_t *data_buf, uint32_t start_sector,
                     uint32_t num_sector);
int disk_access_write(const char *pdrv, const uint8_t *data_buf, uint32_t start_sector,
                      uint32_t num_sector);
int disk_access_ioctl(const char *pdrv, uint8_t cmd, void *buff);

#endif
