/* Linked into a program, it stands before two calls of the C library.
 *
 * The flush whose number FLUSHES tells, counted from 1, is refused. With INTERRUPTED each flush is
 * interrupted so many times, as over NFS, before it is made. The write whose number WRITES tells is
 * refused when a part of its sectors is written. With SHORT every second write of several sectors
 * stops short. With SLOW each flush takes so many milliseconds. Behind a refusal nothing may be
 * asked for: a program that does ends with status 99. */
#include <errno.h>
#include <stdlib.h>
#include <sys/syscall.h>
#include <unistd.h>

static int refused;

static int refuse_once(void)
{
    refused = 1;
    errno = EIO;
    return -1;
}

static int number_of(const char *name)
{
    if (refused)
        _exit(99);
    const char *text = getenv(name);
    return text ? atoi(text) : 0;
}

int fdatasync(int file)
{
    static int flushes, interruptions;
    int number = number_of("FLUSHES"), times = number_of("INTERRUPTED");
    usleep(1000 * (unsigned)number_of("SLOW"));
    if (interruptions++ % (times + 1) < times) {
        errno = EINTR;
        return -1;
    }
    if (!number || ++flushes < number)
        return (int)syscall(SYS_fdatasync, file);
    return refuse_once();
}

ssize_t pwrite(int file, const void *bytes, size_t size, off_t place)
{
    static int writes;
    int number = number_of("WRITES");
    writes++;
    if (number_of("SHORT") && size > 512 && writes % 2)
        return syscall(SYS_pwrite64, file, bytes, size / 3, place);
    if (!number || writes < number)
        return syscall(SYS_pwrite64, file, bytes, size, place);
    if (writes == number && size > 512 &&
        syscall(SYS_pwrite64, file, bytes, size / 1024 * 512, place) < 0)
        return -1;
    return refuse_once();
}
