/* A library to be loaded before a program (LD_PRELOAD): each call by which the program opens a
 * file, locks it, gives it a length or a mode, reads, writes or synchronises it is a line on
 * descriptor 9, with the descriptor of the file first, and behind a read or write its place and how
 * many bytes were moved. Where SHORT tells a number, no read and no write moves more bytes than
 * that. No header is included, so that the toolchain's own compiler builds it anywhere. */

typedef unsigned long size;

extern void *dlsym(void *handle, const char *name);
extern int dprintf(int descriptor, const char *format, ...);
extern char *getenv(const char *name);
extern int atoi(const char *digits);

/* The C library's own call of this name: that of the next library (RTLD_NEXT). */
#define NEXT(name) ((__typeof__(&name))dlsym((void *)-1L, #name))

#define IS_WRITTEN 3  /* O_WRONLY or O_RDWR */
#define IS_NEW 0200   /* O_EXCL */
#define IS_MADE 0100  /* O_CREAT */
#define EMPTIES 01000 /* O_TRUNC */

static size at_most(size count)
{
    const char *told = getenv("SHORT");
    size most = told ? (size)atoi(told) : count;

    return most < count ? most : count;
}

static const char *access_of(int flags)
{
    if (flags & EMPTIES)
        return "empty";
    if (!(flags & IS_WRITTEN))
        return flags & IS_MADE ? "make" : "look";
    if (flags & IS_NEW)
        return "make";
    return flags & IS_MADE ? "replace" : "change";
}

int open(const char *path, int flags, ...)
{
    __builtin_va_list more;
    int mode, file;

    __builtin_va_start(more, flags);
    mode = flags & IS_MADE ? __builtin_va_arg(more, int) : 0;
    __builtin_va_end(more);
    file = NEXT(open)(path, flags, mode);
    dprintf(9, "%d open %s %s\n", file, access_of(flags), path);
    return file;
}

int flock(int file, int operation)
{
    dprintf(9, "%d lock\n", file);
    return NEXT(flock)(file, operation);
}

int ftruncate(int file, long length)
{
    dprintf(9, "%d size %ld\n", file, length);
    return NEXT(ftruncate)(file, length);
}

int fchmod(int file, unsigned mode)
{
    dprintf(9, "%d mode %o\n", file, mode);
    return NEXT(fchmod)(file, mode);
}

int fsync(int file)
{
    dprintf(9, "%d sync\n", file);
    return NEXT(fsync)(file);
}

long pread(int file, void *bytes, size count, long place)
{
    long moved = NEXT(pread)(file, bytes, at_most(count), place);

    dprintf(9, "%d read %ld %ld\n", file, place, moved);
    return moved;
}

long pwrite(int file, const void *bytes, size count, long place)
{
    long moved = NEXT(pwrite)(file, bytes, at_most(count), place);

    dprintf(9, "%d write %ld %ld\n", file, place, moved);
    return moved;
}
