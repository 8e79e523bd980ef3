/* What a device holds, by the marks that the common file systems, partition tables and containers
 * bear. */
#include "make_place.h"
#include <string.h>

struct mark {
    uint32_t place;
    uint8_t size;
    char bytes[11];
    const char *name;
};

/* The boot sector's mark comes last: many of the others have it too. */
static const struct mark marks[] = {
    { 0, 8, "RDSUPER1", "an image" },
    { 1080, 2, "\x53\xEF", "a file system, ext2, ext3 or ext4" },
    { 82, 5, "FAT32", "a file system, FAT" },
    { 54, 4, "FAT1", "a file system, FAT" },
    { 3, 8, "EXFAT   ", "a file system, exFAT" },
    { 3, 8, "NTFS    ", "a file system, NTFS" },
    { 0, 4, "XFSB", "a file system, XFS" },
    { 65600, 8, "_BHRfS_M", "a file system, Btrfs" },
    { 1024, 4, "\x10\x20\xF5\xF2", "a file system, F2FS" },
    { 1024, 2, "H+", "a file system, HFS+" },
    { 32, 4, "NXSB", "a file system, APFS" },
    { 1024, 4, "\xE2\xE1\xF5\xE0", "a file system, EROFS" },
    { 0, 4, "hsqs", "a file system, SquashFS" },
    { 32769, 5, "CD001", "a file system, ISO 9660" },
    { 0, 6, "LUKS\xBA\xBE", "an encrypted volume, LUKS" },
    { 512, 8, "LABELONE", "a volume of LVM" },
    { 4096, 4, "\xFC\x4E\x2B\xA9", "a part of a RAID" },
    { 4086, 10, "SWAPSPACE2", "a swap space" },
    { 512, 8, "EFI PART", "a partition table, GPT" },
    { 510, 2, "\x55\xAA", "a partition table or a boot sector" },
};

const char *mark_found(const uint8_t *bytes, uint64_t size)
{
    for (size_t i = 0; i < sizeof marks / sizeof *marks; i++) {
        const struct mark *mark = &marks[i];
        if (mark->place + mark->size <= size &&
            !memcmp(bytes + mark->place, mark->bytes, mark->size))
            return mark->name;
    }
    return NULL;
}
