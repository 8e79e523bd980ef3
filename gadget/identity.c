/* What a disk is called. */
#include "device.h"
#include <fcntl.h>
#include <inttypes.h>
#include <stdio.h>
#include <stdlib.h>
#include <string.h>
#include <unistd.h>

/* A number that is the same each time for the same bytes, and hardly for others (FNV-1a). */
static uint64_t add_to_hash(uint64_t hash, const char *text)
{
    for (; *text; text++)
        hash = (hash ^ (uint8_t)*text) * 0x100000001B3u;
    return hash;
}

/* What tells this machine from others: systemd's number of it, or that of its board; else nothing.
 */
static uint64_t hash_machine(uint64_t hash)
{
    static const char *const files[] = { "/etc/machine-id", "/proc/device-tree/serial-number" };
    char text[65];
    for (size_t i = 0; i < sizeof files / sizeof *files; i++) {
        int file = open(files[i], O_RDONLY | O_CLOEXEC);
        ssize_t size = file < 0 ? -1 : read(file, text, sizeof text - 1);
        text[size < 0 ? 0 : size] = 0;
        hash = add_to_hash(hash, text);
        if (file >= 0)
            close(file);
    }
    return hash;
}

void number_disk(struct disk *disk)
{
    char *whole = realpath(disk->path, NULL);
    uint64_t hash = add_to_hash(hash_machine(0xCBF29CE484222325u), whole ? whole : disk->path);
    free(whole);
    snprintf(disk->serial, sizeof disk->serial, "%012" PRIX64,
             (hash ^ hash >> 48) & 0xFFFFFFFFFFFFu);
}

static const char *or_else(const char *text, const char *otherwise)
{
    return text ? text : otherwise;
}

void disk_name(struct disk *disk, const struct names *names)
{
    usbdisk_identify(&disk->identity, or_else(names->vendor, "USBDISK"),
                     or_else(names->product, "POWER SAFE DISK"), or_else(names->revision, "0001"),
                     or_else(names->serial, disk->serial));
    memcpy(disk->serial, disk->identity.serial, sizeof disk->identity.serial);
}
