/* The image file or block device under a disk. */
#include "device.h"
#include "program.h"
#include <dirent.h>
#include <errno.h>
#include <fcntl.h>
#include <linux/loop.h>
#include <stdio.h>
#include <string.h>
#include <sys/file.h>
#include <sys/ioctl.h>
#include <sys/stat.h>
#include <unistd.h>

enum { PATH_MOST = 4096, NO_LOOP = -1 };

bool refuse(struct disk *disk, int status, const char *cause)
{
    say("%s: %s", disk->path, cause);
    disk->status = status;
    return false;
}

bool refuse_call(struct disk *disk, const char *call)
{
    char cause[128];
    snprintf(cause, sizeof cause, "%s: %s", call, strerror(errno));
    return refuse(disk, STATUS_FILE, cause);
}

/* Whether a call that moves bytes is to be made again: it moved some, or a signal came first. */
static bool goes_on(ssize_t moved)
{
    if (moved == 0)
        errno = EIO;
    return moved > 0 || (moved < 0 && errno == EINTR);
}

bool read_sectors(struct disk *disk, uint8_t *bytes, uint64_t first, uint64_t count)
{
    uint64_t done = 0;
    while (done < count * 512) {
        ssize_t read =
            pread(disk->file, bytes + done, count * 512 - done, (off_t)(first * 512 + done));
        if (!goes_on(read))
            return false;
        done += read > 0 ? (uint64_t)read : 0;
    }
    return true;
}

bool write_sectors(struct disk *disk, const uint8_t *bytes, uint64_t first, uint64_t count)
{
    uint64_t done = 0;
    while (done < count * 512) {
        ssize_t written =
            pwrite(disk->file, bytes + done, count * 512 - done, (off_t)(first * 512 + done));
        if (!goes_on(written))
            return false;
        done += written > 0 ? (uint64_t)written : 0;
    }
    return true;
}

/* Over NFS and FUSE it may be interrupted. */
bool flush(struct disk *disk)
{
    int answer;
    do
        answer = fdatasync(disk->file);
    while (answer && errno == EINTR);
    return answer == 0;
}

/* Where the system tells which file a loop device has open: `loop` is the device's folder in /sys.
 */
static bool read_backing(const char *loop, char path[PATH_MOST])
{
    char name[PATH_MOST];
    if (snprintf(name, sizeof name, "%s/loop/backing_file", loop) >= PATH_MOST)
        return false;
    int file = open(name, O_RDONLY | O_CLOEXEC);
    ssize_t size = file < 0 ? -1 : read(file, path, PATH_MOST - 1);
    if (file >= 0)
        close(file);
    if (size <= 1)
        return false;
    path[size - 1] = 0;
    return true;
}

/* The number of a loop device, but for `except`, that has this file open; or NO_LOOP. */
static int loop_over(const struct stat *file, int except)
{
    char folder[512], path[PATH_MOST];
    DIR *all = opendir("/sys/block");
    struct dirent *entry;
    int found = NO_LOOP, number;
    while (all && found == NO_LOOP && (entry = readdir(all))) {
        struct stat open;
        if (sscanf(entry->d_name, "loop%d", &number) != 1 || number == except)
            continue;
        snprintf(folder, sizeof folder, "/sys/block/%s", entry->d_name);
        if (read_backing(folder, path) && stat(path, &open) == 0 && open.st_dev == file->st_dev &&
            open.st_ino == file->st_ino)
            found = number;
    }
    if (all)
        closedir(all);
    return found;
}

static bool lock(struct disk *disk, int file)
{
    if (flock(file, LOCK_EX | LOCK_NB) == 0)
        return true;
    return errno == EWOULDBLOCK ? refuse(disk, STATUS_FILE, "locked by another program")
                                : refuse_call(disk, "not locked");
}

/* Locks this file, unless another loop device than `loop`, through which it is used, has it open.
 */
static bool take_file(struct disk *disk, int file, int loop)
{
    struct stat what;
    char cause[64];
    if (fstat(file, &what))
        return refuse_call(disk, "not opened");
    int other = loop_over(&what, loop);
    snprintf(cause, sizeof cause, "/dev/loop%d has it open", other);
    return other == NO_LOOP ? lock(disk, file) : refuse(disk, STATUS_FILE, cause);
}

/* The file under a loop device, or -1: what stands under that name now may be another one. */
static int open_backing(const struct loop_info64 *loop)
{
    char folder[64], path[PATH_MOST];
    struct stat under;
    snprintf(folder, sizeof folder, "/sys/block/loop%u", (unsigned)loop->lo_number);
    int file = read_backing(folder, path) ? open(path, O_RDWR | O_CLOEXEC) : -1;
    if (file >= 0 && fstat(file, &under) == 0 && under.st_dev == loop->lo_device &&
        under.st_ino == loop->lo_inode)
        return file;
    if (file >= 0)
        close(file);
    return -1;
}

/* Locks what the device stands on, where that is a loop device: the file under it, and so on. So a
 * lock of either keeps everybody from both. */
static bool take_below(struct disk *disk)
{
    struct loop_info64 loop;
    int file = disk->file;
    while (ioctl(file, LOOP_GET_STATUS64, &loop) == 0) {
        if (disk->locks == LOCKS_MOST)
            return refuse(disk, STATUS_FILE, "too many loop devices, one over another");
        file = open_backing(&loop);
        if (file < 0)
            return refuse(disk, STATUS_FILE,
                          "the file under this loop device is not found, so it cannot be locked");
        disk->locked[disk->locks++] = file;
        if (!take_file(disk, file, (int)loop.lo_number))
            return false;
    }
    return true;
}

bool open_file(struct disk *disk)
{
    struct stat what;
    if (stat(disk->path, &what))
        return refuse_call(disk, "not opened");
    if (!S_ISREG(what.st_mode) && !S_ISBLK(what.st_mode))
        return refuse(disk, STATUS_FILE, "neither a plain file nor a block device");
    disk->file = open(disk->path, O_RDWR | O_CLOEXEC | (S_ISBLK(what.st_mode) ? O_EXCL : 0));
    if (disk->file < 0 && errno == EBUSY)
        return refuse(disk, STATUS_FILE, "in use, perhaps mounted");
    if (disk->file < 0)
        return refuse_call(disk, "not opened");
    return take_file(disk, disk->file, NO_LOOP) && take_below(disk);
}

/* What the system's cache still keeps is brought out and let go, so that what is read is what the
 * device holds, also behind a flush that was refused. */
static bool measure(struct disk *disk)
{
    off_t length = lseek(disk->file, 0, SEEK_END);
    if (length < 0)
        return refuse_call(disk, "its length is not known");
    if (length == 0 || length % 512)
        return refuse(disk, STATUS_REFUSED,
                      "no image: it is empty, or its length is no multiple of 512");
    if (!flush(disk))
        return refuse_call(disk, "a flush was refused");
    posix_fadvise(disk->file, 0, 0, POSIX_FADV_DONTNEED);
    disk->sectors = (uint64_t)length / 512;
    return true;
}

bool open_device(struct disk *disk)
{
    return open_file(disk) && measure(disk);
}

void close_device(struct disk *disk)
{
    while (disk->locks)
        close(disk->locked[--disk->locks]);
    if (disk->file >= 0)
        close(disk->file);
    disk->file = -1;
}
