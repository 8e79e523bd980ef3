/* A disk of Zephyr over another one: see usbdisk_zephyr.h. */
#include "usbdisk_zephyr.h"
#include <errno.h>
#include <zephyr/storage/disk_access.h>

/* ---- the device: the disk below */

static bool read_run(void *context, uint64_t first, uint8_t *bytes, size_t count)
{
    const struct usbdisk_zephyr *safe = context;
    return !disk_access_read(safe->below, bytes, (uint32_t)first, (uint32_t)count);
}

static bool write_run(void *context, uint64_t first, const uint8_t *bytes, size_t count)
{
    const struct usbdisk_zephyr *safe = context;
    return !disk_access_write(safe->below, bytes, (uint32_t)first, (uint32_t)count);
}

static bool flush(void *context)
{
    const struct usbdisk_zephyr *safe = context;
    return !disk_access_ioctl(safe->below, DISK_IOCTL_CTRL_SYNC, NULL);
}

/* ---- what the disk does */

/* The disk is the first member. */
static struct usbdisk_zephyr *of(struct disk_info *disk)
{
    return (struct usbdisk_zephyr *)(void *)disk;
}

static int answered(uint32_t code)
{
    switch (code) {
    case 0:
        return 0;
    case USBDISK_NO_MEMORY:
        return -ENOMEM;
    case USBDISK_BAD_LENGTH:
    case USBDISK_BAD_RANGE:
        return -EINVAL;
    default:
        return -EIO;
    }
}

/* The disk below, and how long it is. */
static int find_below(struct usbdisk_zephyr *safe)
{
    uint32_t size = 0, sectors = 0;
    int code = disk_access_init(safe->below);
    if (!code)
        code = disk_access_ioctl(safe->below, DISK_IOCTL_GET_SECTOR_SIZE, &size);
    if (!code)
        code = disk_access_ioctl(safe->below, DISK_IOCTL_GET_SECTOR_COUNT, &sectors);
    if (!code && size != 512)
        code = -EINVAL;
    safe->device =
        (struct usbdisk_io_device){ safe, sectors, read_run, write_run, flush, safe->kept };
    return code;
}

static int disk_init(struct disk_info *disk)
{
    struct usbdisk_zephyr *safe = of(disk);
    if (safe->blocks)
        return 0;
    int code = find_below(safe);
    if (code)
        return code;
    uint32_t found = usbdisk_io_format_blank(&safe->device, safe->format, safe->slots, 0);
    if (!found)
        found = usbdisk_blocks_start(&safe->blocks, &safe->device, safe->most);
    return answered(found);
}

static int disk_status(struct disk_info *disk)
{
    return of(disk)->blocks ? DISK_STATUS_OK : DISK_STATUS_UNINIT;
}

static int disk_read(struct disk_info *disk, uint8_t *data_buf, uint32_t start_sector,
                     uint32_t num_sector)
{
    struct usbdisk_zephyr *safe = of(disk);
    if (!safe->blocks)
        return -EIO;
    return answered(usbdisk_blocks_read(safe->blocks, start_sector, data_buf, num_sector));
}

/* A write of more blocks than one may have is several, of which a cut may leave the first ones. */
static int disk_write(struct disk_info *disk, const uint8_t *data_buf, uint32_t start_sector,
                      uint32_t num_sector)
{
    struct usbdisk_zephyr *safe = of(disk);
    if (!safe->blocks)
        return -EIO;
    uint32_t code = num_sector ? 0 : USBDISK_BAD_LENGTH, most = usbdisk_blocks_limit(safe->blocks);
    for (uint32_t done = 0, part; !code && done < num_sector; done += part) {
        part = num_sector - done < most ? num_sector - done : most;
        code = usbdisk_blocks_write(safe->blocks, (uint64_t)start_sector + done,
                                    data_buf + 512 * (size_t)done, part);
    }
    if (!code && !safe->waits_for_sync)
        code = usbdisk_blocks_sync(safe->blocks);
    return answered(code);
}

/* A stop that loses nothing. */
static int finish(struct usbdisk_zephyr *safe)
{
    uint32_t code = safe->blocks ? usbdisk_blocks_sync(safe->blocks) : 0;
    usbdisk_zephyr_stop(safe);
    return answered(code);
}

static int asked(struct usbdisk_zephyr *safe, uint8_t cmd, void *buff)
{
    switch (cmd) {
    case DISK_IOCTL_GET_SECTOR_COUNT:
        *(uint32_t *)buff = (uint32_t)usbdisk_blocks_count(safe->blocks);
        return 0;
    case DISK_IOCTL_GET_SECTOR_SIZE:
        *(uint32_t *)buff = 512;
        return 0;
    case DISK_IOCTL_GET_ERASE_BLOCK_SZ: /* in blocks */
        *(uint32_t *)buff = 1;
        return 0;
    case DISK_IOCTL_CTRL_SYNC:
        return answered(usbdisk_blocks_sync(safe->blocks));
    default:
        return -EINVAL;
    }
}

static int disk_ioctl(struct disk_info *disk, uint8_t cmd, void *buff)
{
    struct usbdisk_zephyr *safe = of(disk);
#ifdef DISK_IOCTL_CTRL_DEINIT /* since Zephyr 3.7 */
    if (cmd == DISK_IOCTL_CTRL_INIT)
        return disk_init(disk);
    if (cmd == DISK_IOCTL_CTRL_DEINIT)
        return finish(safe);
#endif
    return safe->blocks ? asked(safe, cmd, buff) : -EIO;
}

static const struct disk_operations operations = {
    .init = disk_init,
    .status = disk_status,
    .read = disk_read,
    .write = disk_write,
    .ioctl = disk_ioctl,
};

int usbdisk_zephyr_register(struct usbdisk_zephyr *safe)
{
    safe->disk.ops = &operations;
    safe->blocks = NULL;
    return disk_access_register(&safe->disk);
}

bool usbdisk_zephyr_idle(struct usbdisk_zephyr *safe)
{
    return safe->blocks && usbdisk_blocks_idle(safe->blocks);
}

void usbdisk_zephyr_stop(struct usbdisk_zephyr *safe)
{
    usbdisk_blocks_stop(safe->blocks);
    safe->blocks = NULL;
}
