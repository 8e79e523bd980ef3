/* Linked into usbdisk-gadget by --wrap, it stands before some calls of the C library. REFUSE tells
 * which one is refused once: its kind, the number of the error, and how many of this kind pass
 * before. The kinds: `submit` hands transfers to the kernel, `read` asks for what the host sends,
 * `answer` writes to ep0 (descriptors and strings are two of them), `write` writes to the image. */
#include <errno.h>
#include <stdarg.h>
#include <stdbool.h>
#include <stdio.h>
#include <stdlib.h>
#include <string.h>
#include <sys/syscall.h>
#include <sys/types.h>
#include <unistd.h>

long __real_syscall(long number, ...);
long __wrap_syscall(long number, ...);
ssize_t __real_read(int file, void *bytes, size_t size);
ssize_t __wrap_read(int file, void *bytes, size_t size);
ssize_t __real_write(int file, const void *bytes, size_t size);
ssize_t __wrap_write(int file, const void *bytes, size_t size);
ssize_t __real_pwrite(int file, const void *bytes, size_t size, off_t place);
ssize_t __wrap_pwrite(int file, const void *bytes, size_t size, off_t place);

static bool is_refused(const char *kind)
{
    static int passed;
    char asked[16] = "";
    int cause = 0, most = 0;
    const char *words = getenv("REFUSE");
    if (!words || sscanf(words, "%15s %d %d", asked, &cause, &most) != 3 || strcmp(asked, kind) ||
        passed++ != most)
        return false;
    errno = cause;
    return true;
}

static bool is_end(int file, const char *name)
{
    char link[64], path[256];
    snprintf(link, sizeof link, "/proc/self/fd/%d", file);
    ssize_t size = readlink(link, path, sizeof path - 1);
    path[size < 0 ? 0 : size] = 0;
    return size > 4 && !strcmp(path + size - 4, name);
}

long __wrap_syscall(long number, ...)
{
    long words[6];
    va_list rest;
    va_start(rest, number);
    for (int i = 0; i < 6; i++)
        words[i] = va_arg(rest, long);
    va_end(rest);
    if (number == SYS_io_submit && is_refused("submit"))
        return -1;
    return __real_syscall(number, words[0], words[1], words[2], words[3], words[4], words[5]);
}

ssize_t __wrap_read(int file, void *bytes, size_t size)
{
    return is_end(file, "/ep2") && is_refused("read") ? -1 : __real_read(file, bytes, size);
}

ssize_t __wrap_write(int file, const void *bytes, size_t size)
{
    return is_end(file, "/ep0") && is_refused("answer") ? -1 : __real_write(file, bytes, size);
}

ssize_t __wrap_pwrite(int file, const void *bytes, size_t size, off_t place)
{
    return is_refused("write") ? -1 : __real_pwrite(file, bytes, size, place);
}
