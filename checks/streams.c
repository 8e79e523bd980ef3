/* A library to be loaded before a program (LD_PRELOAD), by which its streams fail in mid-stream.
 * WRITER tells how many bytes standard output takes, at most 7 a call, before a write is refused
 * (EPIPE). READER tells how many lines the file `script` gives, one a call, before a read is
 * refused (EIO), at its end too. Every other call is answered by the C library. No header is
 * included, so that the toolchain's own compiler builds it anywhere. */

typedef unsigned long size;

extern long __read(int descriptor, void *bytes, size length);
extern long __write(int descriptor, const void *bytes, size length);
extern long readlink(const char *name, char *path, size length);
extern int snprintf(char *text, size length, const char *format, ...);
extern int strcmp(const char *one, const char *other);
extern char *getenv(const char *name);
extern long atol(const char *digits);
extern int *__errno_location(void);

static long written, lines;

static long refused(int error)
{
    *__errno_location() = error;
    return -1;
}

static int is_script(int descriptor)
{
    char name[32], path[4096];
    long length;

    snprintf(name, sizeof name, "/proc/self/fd/%d", descriptor);
    length = readlink(name, path, sizeof path - 1);
    if (length < 7)
        return 0;
    path[length] = 0;
    return !strcmp(path + length - 7, "/script");
}

long write(int descriptor, const void *bytes, size length)
{
    const char *most = getenv("WRITER");
    long left, count;

    if (!most || descriptor != 1)
        return __write(descriptor, bytes, length);
    left = atol(most) - written;
    if (left <= 0)
        return refused(32); /* EPIPE */
    if (length > 7)
        length = 7;
    count = __write(1, bytes, length < (size)left ? length : (size)left);
    written += count > 0 ? count : 0;
    return count;
}

long read(int descriptor, void *bytes, size length)
{
    const char *most = getenv("READER");
    char *to = bytes;
    size count = 0;

    if (!most || !is_script(descriptor))
        return __read(descriptor, bytes, length);
    if (lines++ >= atol(most))
        return refused(5); /* EIO */
    while (count < length && __read(descriptor, to + count, 1) == 1)
        if (to[count++] == '\n')
            break;
    return count;
}
