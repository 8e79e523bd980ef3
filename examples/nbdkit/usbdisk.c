/* An image as a network block device: a plugin of nbdkit over the port layer. What a client writes
 * with FUA or before a good flush stays whatever happens to the power, and of all else a cut leaves
 * the first writes, in order and none in part; a write longer than the limit of the image is
 * several.
 *
 *     make
 *     nbdkit ./nbdkit-usbdisk-plugin.so image=disk.img
 *     nbdcopy nbd://localhost ext4.raw
 *
 * nbdkit makes one call at a time, with a lock between the threads that do. */
#define NBDKIT_API_VERSION 2
#define THREAD_MODEL NBDKIT_THREAD_MODEL_SERIALIZE_ALL_REQUESTS
#include "usbdisk_blocks.h"
#include <errno.h>
#include <fcntl.h>
#include <nbdkit-plugin.h>
#include <stdlib.h>
#include <string.h>
#include <sys/file.h>
#include <unistd.h>

static char *path;
static int file = -1;
static struct usbdisk_io_device device;
static struct usbdisk_blocks *blocks;

/* ---- the device: an image file, or a block device with an image on it */

static bool read_file(void *context, uint64_t first, uint8_t *bytes, size_t count)
{
    ssize_t done = 1;
    (void)context;
    for (size_t at = 0; done > 0 && at < count * 512; at += (size_t)done)
        done = pread(file, bytes + at, count * 512 - at, (off_t)(first * 512 + at));
    return done > 0;
}

static bool write_file(void *context, uint64_t first, const uint8_t *bytes, size_t count)
{
    ssize_t done = 1;
    (void)context;
    for (size_t at = 0; done > 0 && at < count * 512; at += (size_t)done)
        done = pwrite(file, bytes + at, count * 512 - at, (off_t)(first * 512 + at));
    return done > 0;
}

static bool flush_file(void *context)
{
    (void)context;
    return fdatasync(file) == 0;
}

/* ---- the plugin */

/* Says why, and answers as a call of nbdkit does that fails. */
static int fail(int number, const char *why)
{
    nbdkit_error("%s: %s", path ? path : "usbdisk", why);
    nbdkit_set_error(number);
    return -1;
}

/* What a call of the blocks answered. */
static int answered(uint32_t code)
{
    return code ? fail(EIO, usbdisk_text(code)) : 0;
}

static int usbdisk_config(const char *key, const char *value)
{
    if (strcmp(key, "image"))
        return fail(EINVAL, "the only parameter is image=FILE");
    free(path);
    path = nbdkit_realpath(value);
    return path ? 0 : -1;
}

static int usbdisk_config_complete(void)
{
    return path ? 0 : fail(EINVAL, "image=FILE is left out");
}

static int usbdisk_get_ready(void)
{
    file = open(path, O_RDWR | O_CLOEXEC);
    off_t length = file < 0 ? -1 : lseek(file, 0, SEEK_END);
    if (length < 0)
        return fail(errno, strerror(errno));
    if (flock(file, LOCK_EX | LOCK_NB))
        return fail(EBUSY, "locked by another program");
    device = (struct usbdisk_io_device){
        NULL, (uint64_t)length / 512, read_file, write_file, flush_file, 0,
    };
    return answered(usbdisk_blocks_start(&blocks, &device, USBDISK_IO_MOST));
}

static void *usbdisk_open(int readonly)
{
    (void)readonly;
    return NBDKIT_HANDLE_NOT_NEEDED;
}

static int64_t usbdisk_get_size(void *handle)
{
    (void)handle;
    return (int64_t)(usbdisk_blocks_count(blocks) * 512);
}

static int usbdisk_block_size(void *handle, uint32_t *least, uint32_t *preferred, uint32_t *most)
{
    (void)handle;
    *least = 512;
    *preferred = 4096;
    *most = usbdisk_blocks_limit(blocks) * 512;
    return 0;
}

static int usbdisk_can_fua(void *handle)
{
    (void)handle;
    return NBDKIT_FUA_NATIVE;
}

static int usbdisk_flush(void *handle, uint32_t flags)
{
    (void)handle;
    (void)flags;
    return answered(usbdisk_blocks_sync(blocks));
}

static int usbdisk_pread(void *handle, void *bytes, uint32_t size, uint64_t offset, uint32_t flags)
{
    (void)handle;
    (void)flags;
    if (size % 512 || offset % 512)
        return fail(EINVAL, "a read of a part of a block");
    return answered(usbdisk_blocks_read(blocks, offset / 512, bytes, size / 512));
}

static int usbdisk_pwrite(void *handle, const void *bytes, uint32_t size, uint64_t offset,
                          uint32_t flags)
{
    uint32_t most = usbdisk_blocks_limit(blocks) * 512, code = 0;
    if (size % 512 || offset % 512)
        return fail(EINVAL, "a write of a part of a block");
    for (uint32_t at = 0; !code && at < size; at += most) {
        uint32_t part = size - at < most ? size - at : most;
        code = usbdisk_blocks_write(blocks, (offset + at) / 512, (const uint8_t *)bytes + at,
                                    part / 512);
    }
    if (code || !(flags & NBDKIT_FLAG_FUA))
        return answered(code);
    return usbdisk_flush(handle, 0);
}

/* The end brings all home, so that any other tool finds it there; a kill is a loss of power. */
static void usbdisk_unload(void)
{
    if (blocks && usbdisk_blocks_sync(blocks) == 0)
        while (usbdisk_blocks_idle(blocks))
            ;
    usbdisk_blocks_stop(blocks);
    if (file >= 0)
        close(file);
    free(path);
}

static struct nbdkit_plugin plugin = {
    .name = "usbdisk",
    .longname = "an image of a USB disk that keeps whole writes when power is lost",
    .config = usbdisk_config,
    .config_help = "image=FILE  an image that usbdisk-make or usbdisk_image made",
    .config_complete = usbdisk_config_complete,
    .magic_config_key = "image",
    .get_ready = usbdisk_get_ready,
    .open = usbdisk_open,
    .get_size = usbdisk_get_size,
    .block_size = usbdisk_block_size,
    .can_fua = usbdisk_can_fua,
    .pread = usbdisk_pread,
    .pwrite = usbdisk_pwrite,
    .flush = usbdisk_flush,
    .unload = usbdisk_unload,
};

NBDKIT_REGISTER_PLUGIN(plugin)
