/* Opens, fills and writes the file or device that usbdisk-make works on. */
#include "make_place.h"
#include "program.h"
#include <errno.h>
#include <fcntl.h>
#include <libgen.h>
#include <stdio.h>
#include <stdlib.h>
#include <string.h>
#include <sys/file.h>
#include <sys/stat.h>
#include <unistd.h>
#ifdef HAS_BLKID
#include <blkid/blkid.h>
#endif

/* SEEN: how many first bytes are looked at for marks. RUN: how many sectors of zeros are written at
 * a time. TOLD: after how many sectors a terminal is told how far it is (16 MiB). */
enum { SEEN = 68 * 1024, RUN = 2048, TOLD = 32768 };

/* Makes the file where none is there; but none among the devices, where a name is mistyped. */
static bool make_file(struct place *place)
{
    if (!strncmp(place->disk.path, "/dev/", 5) && strncmp(place->disk.path, "/dev/shm/", 9))
        return refuse(&place->disk, STATUS_FILE, "no such device");
    int file = open(place->disk.path, O_RDWR | O_CREAT | O_EXCL | O_CLOEXEC, 0666);
    place->is_new = file >= 0;
    if (file < 0)
        return errno == EEXIST || refuse_call(&place->disk, "not made");
    close(file);
    return true;
}

/* Opens it to be read alone, which needs less permission, and locks it as the others do. */
static bool open_to_read(struct disk *disk)
{
    struct stat what;
    disk->file = open(disk->path, O_RDONLY | O_NONBLOCK | O_CLOEXEC);
    if (disk->file < 0 || fstat(disk->file, &what))
        return refuse_call(disk, "not opened");
    if (!S_ISREG(what.st_mode) && !S_ISBLK(what.st_mode))
        return refuse(disk, STATUS_FILE, "neither a regular file nor a block device");
    if (flock(disk->file, LOCK_EX | LOCK_NB) == 0)
        return true;
    return errno == EWOULDBLOCK ? refuse(disk, STATUS_FILE, "locked by another program")
                                : refuse_call(disk, "not locked");
}

bool place_open(struct place *place, const char *path, enum place_use use)
{
    struct stat what;
    *place = (struct place){ .disk = { .path = path, .file = -1 } };
    bool is_there = stat(path, &what) == 0 || errno != ENOENT;
    if (use == PLACE_MAKE && !is_there && !make_file(place))
        return false;
    if (!(use == PLACE_READ ? open_to_read : open_file)(&place->disk))
        return false;
    off_t length = lseek(place->disk.file, 0, SEEK_END);
    if (length < 0 || fstat(place->disk.file, &what))
        return refuse_call(&place->disk, "its length is not known");
    place->is_device = S_ISBLK(what.st_mode);
    place->disk.sectors = (uint64_t)length / 512;
    place->has_rest = length % 512 != 0;
    return true;
}

#ifdef HAS_BLKID
/* What libblkid finds: far more kinds than the marks here. */
static const char *blkid_found(int file)
{
    static char name[64];
    const char *type = NULL;
    blkid_probe probe = blkid_new_probe();
    if (!probe)
        return NULL;
    blkid_probe_enable_partitions(probe, 1);
    if (blkid_probe_set_device(probe, file, 0, 0) == 0 && blkid_do_safeprobe(probe) == 0 &&
        (blkid_probe_lookup_value(probe, "TYPE", &type, NULL) == 0 ||
         blkid_probe_lookup_value(probe, "PTTYPE", &type, NULL) == 0))
        snprintf(name, sizeof name, "what libblkid calls %s", type);
    blkid_free_probe(probe);
    return type ? name : NULL;
}
#else
static const char *blkid_found(int file)
{
    (void)file;
    return NULL;
}
#endif

/* A device that bears no mark may be taken, whatever a former owner left there. Of a file only
 * zeros are nothing. */
static const char *holds(const struct place *place)
{
    static uint8_t bytes[SEEN];
    ssize_t size = pread(place->disk.file, bytes, sizeof bytes, 0);
    if (size < 0)
        return "what cannot be read";
    const char *found = mark_found(bytes, (uint64_t)size);
    if (!found)
        found = blkid_found(place->disk.file);
    if (found || place->is_device)
        return found;
    for (ssize_t i = 0; i < size; i++)
        if (bytes[i])
            return "something else";
    return NULL;
}

bool place_is_free(struct place *place, bool replaces)
{
    char cause[160];
    const char *held = replaces ? NULL : holds(place);
    if (!held)
        return true;
    snprintf(cause, sizeof cause, "it holds %s: --replace makes an image in its place", held);
    return refuse(&place->disk, STATUS_FILE, cause);
}

/* On one line of the terminal. */
void place_tell(struct place *place, uint64_t count)
{
    uint64_t told = place->done / TOLD;
    place->done += count;
    bool is_last = place->done == place->all;
    if (place->all >= TOLD && (place->done / TOLD > told || is_last) && isatty(2))
        fprintf(stderr, "\r%llu of %llu MiB%s", (unsigned long long)place->done / 2048,
                (unsigned long long)place->all / 2048, is_last ? "\n" : "");
}

bool place_is_stopped(void)
{
    wait_for(NULL, 0, 0);
    return is_asked_to_end();
}

/* Zeros in place of what a file system cannot hand out at once. */
static bool write_zeros(struct place *place, uint64_t first, uint64_t end)
{
    static uint8_t zeros[RUN * 512];
    place->done = 0;
    place->all = end - first;
    for (uint64_t at = first; at < end;) {
        uint64_t count = end - at < RUN ? end - at : RUN;
        if (place_is_stopped())
            return refuse(&place->disk, STATUS_FILE, "stopped: no image is made");
        if (!write_sectors(&place->disk, zeros, at, count))
            return refuse_call(&place->disk, "no room for it");
        at += count;
        place_tell(place, count);
    }
    return true;
}

bool place_fill(struct place *place, uint64_t sectors)
{
    if (place->is_device || sectors == 0)
        return true;
    if (fallocate(place->disk.file, 0, 0, (off_t)(sectors * 512))) {
        if (errno != EOPNOTSUPP)
            return refuse_call(&place->disk, "no room for it");
        if (sectors > place->disk.sectors && !write_zeros(place, place->disk.sectors, sectors))
            return false;
    }
    if (sectors > place->disk.sectors)
        place->disk.sectors = sectors;
    return true;
}

bool place_is_at(const struct place *place, const char *path)
{
    struct stat here, there;
    return fstat(place->disk.file, &here) == 0 && stat(path, &there) == 0 &&
           here.st_dev == there.st_dev && here.st_ino == there.st_ino;
}

/* A device may be wiped where an image begins. */
static bool wipe(struct place *place)
{
    static const uint8_t zeros[512];
    return (write_sectors(&place->disk, zeros, 0, 1) && flush(&place->disk)) ||
           refuse_call(&place->disk, "a write was refused");
}

bool place_empty(struct place *place, uint64_t sectors)
{
    if (place->is_device && sectors > place->disk.sectors)
        return refuse(&place->disk, STATUS_REFUSED, "too small: it is shorter than that");
    if (place->is_device)
        return wipe(place);
    if (ftruncate(place->disk.file, 0) || ftruncate(place->disk.file, (off_t)(sectors * 512)))
        return refuse_call(&place->disk, "no room for it");
    place->disk.sectors = sectors;
    place->is_empty = true;
    return true;
}

/* A file system that tells no holes has none. */
uint64_t place_next_data(const struct place *place, uint64_t sector)
{
    off_t at = lseek(place->disk.file, (off_t)(sector * 512), SEEK_DATA);
    if (at < 0)
        return errno == ENXIO ? UINT64_MAX : sector;
    return (uint64_t)at / 512;
}

static bool read_for(void *context, uint64_t first, uint8_t *bytes, size_t count)
{
    struct place *place = context;
    return read_sectors(&place->disk, bytes, first, count) ||
           refuse_call(&place->disk, "a read was refused");
}

static bool write_for(void *context, uint64_t first, const uint8_t *bytes, size_t count)
{
    struct place *place = context;
    if (place_is_stopped())
        return refuse(&place->disk, STATUS_FILE, "stopped on the way: run it again");
    if (!write_sectors(&place->disk, bytes, first, count))
        return refuse_call(&place->disk, "a write was refused");
    place_tell(place, count);
    return true;
}

static bool flush_for(void *context)
{
    struct place *place = context;
    return flush(&place->disk) || refuse_call(&place->disk, "a flush was refused");
}

void place_begin(struct place *place, uint64_t sectors)
{
    place->done = 0;
    place->all = sectors;
    place->device =
        (struct usbdisk_io_device){ place, place->disk.sectors, read_for, write_for, flush_for, 0 };
}

/* The folder of a new file keeps its name only once it is flushed too. Some file systems cannot do
 * that, and need not. */
static void keep_name(const struct place *place)
{
    char *path = strdup(place->disk.path);
    int folder = path ? open(dirname(path), O_RDONLY | O_DIRECTORY | O_CLOEXEC) : -1;
    if (folder >= 0) {
        fsync(folder);
        close(folder);
    }
    free(path);
}

void place_keep(const struct place *place)
{
    if (place->is_new)
        keep_name(place);
}

void place_close(struct place *place, bool has_image)
{
    if (place->is_new && !has_image)
        unlink(place->disk.path);
    close_device(&place->disk);
}

bool refuse_image(struct place *place, uint32_t fault)
{
    if (fault >= USBDISK_READ_REFUSED && fault <= USBDISK_FLUSH_REFUSED)
        return false;
    int status = fault == USBDISK_NO_MEMORY ? STATUS_MEMORY : STATUS_REFUSED;
    return refuse(&place->disk, status, usbdisk_text(fault));
}

bool read_layout(struct place *place, struct usbdisk_layout *layout)
{
    uint8_t sector[512];
    if (!place->disk.sectors || !read_sectors(&place->disk, sector, 0, 1))
        return refuse(&place->disk, STATUS_FILE,
                      place->disk.sectors ? "sector 0 is not read" : "it is empty");
    uint32_t fault = usbdisk_look(sector, layout);
    if (!fault && layout->sectors > place->disk.sectors)
        fault = USBDISK_BAD_SIZE;
    return !fault || refuse_image(place, fault);
}
