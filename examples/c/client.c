/* The least that there is to write: your device as three functions, an image where it is blank, and
 * what the bus brings. Here the device is a file, and bus.h stands for your controller. */
#include "bus.h"
#include "usbdisk_io.h"
#include <fcntl.h>
#include <stdio.h>
#include <unistd.h>

static bool read_file(void *file, uint64_t first, uint8_t *bytes, size_t count)
{
    return pread(*(int *)file, bytes, count * 512, (off_t)first * 512) == (ssize_t)count * 512;
}

static bool write_file(void *file, uint64_t first, const uint8_t *bytes, size_t count)
{
    return pwrite(*(int *)file, bytes, count * 512, (off_t)first * 512) == (ssize_t)count * 512;
}

static bool flush_file(void *file)
{
    return !fdatasync(*(int *)file);
}

int main(int count, char **words)
{
    struct usbdisk_identity who = { "EXAMPLE ", "FILE            ", "0001", "000000000001" };
    int file = count == 2 ? open(words[1], O_RDWR) : -1;
    off_t size = lseek(file, 0, SEEK_END);
    struct usbdisk_io_device device = { &file, size / 512, read_file, write_file, flush_file, 0 };
    struct usbdisk_io *io = NULL;
    struct usbdisk_io_event event;
    uint32_t code = usbdisk_io_format_blank(&device, 2, 6, 0);
    if (!code)
        code = usbdisk_io_start(&io, &device, &who, 512);
    printf("start: %s\n", usbdisk_text(code));
    while (io && bus_next(&event))
        bus_answer(&event, usbdisk_io_play(io, &event));
    usbdisk_io_stop(io);
    return code != 0;
}
