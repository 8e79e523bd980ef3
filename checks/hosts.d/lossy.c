/* Linked into a program, it stands before two calls of the C library. It keeps in the file $LOSSY, beside each write to the image
 * that is not flushed yet, what stood there before, sector by sector. A flush empties the file; with $LOSSY_LIES it does not, as
 * if the device's flush did nothing. The file outlives SIGKILL: `poke lose` then takes writes back, as a loss of power does. */
#include <fcntl.h>
#include <stdint.h>
#include <stdlib.h>
#include <string.h>
#include <sys/syscall.h>
#include <unistd.h>

/* FLUSH: how many microseconds a flush takes, as of a card, so that a kill comes before one as often as behind it. */
enum { SECTOR = 512, MOST = 32, FLUSH = 4000 };

struct record {
    uint64_t place;
    uint8_t was[SECTOR];
};

static struct {
    int file;
    struct record records[MOST];
} journal = { .file = -1 };

__attribute__((constructor)) static void begin(void)
{
    const char *path = getenv("LOSSY");
    if (path)
        journal.file = open(path, O_WRONLY | O_CREAT | O_APPEND | O_CLOEXEC, 0600);
}

static void note(int image, size_t size, off_t place)
{
    size_t count = size / SECTOR;
    for (size_t i = 0; i < count; i += MOST) {
        size_t now = count - i < MOST ? count - i : MOST;
        for (size_t k = 0; k < now; k++) {
            journal.records[k].place = (uint64_t)place + (i + k) * SECTOR;
            if (pread(image, journal.records[k].was, SECTOR, (off_t)journal.records[k].place) != SECTOR)
                memset(journal.records[k].was, 0, SECTOR);
        }
        if (write(journal.file, journal.records, now * sizeof *journal.records) < 0)
            abort();
    }
}

ssize_t pwrite(int file, const void *bytes, size_t size, off_t place)
{
    if (journal.file >= 0)
        note(file, size, place);
    return syscall(SYS_pwrite64, file, bytes, size, place);
}

int fdatasync(int file)
{
    if (journal.file >= 0)
        usleep(FLUSH);
    if (journal.file >= 0 && !getenv("LOSSY_LIES") && ftruncate(journal.file, 0))
        return -1;
    return (int)syscall(SYS_fdatasync, file);
}
