/* A library to be loaded before a program (LD_PRELOAD): it counts what memory the program has
 * taken, and at each end of a line on standard output tells on descriptor 9 how many bytes are
 * taken now, the most since the line before, and how many bytes were taken since then in all, by
 * how many requests. No header is included, so that the toolchain's own compiler builds it
 * anywhere. */

typedef unsigned long size;

extern void *__libc_malloc(size length);
extern void __libc_free(void *block);
extern void *dlsym(void *handle, const char *name);
extern int dprintf(int descriptor, const char *format, ...);
extern void *memcpy(void *to, const void *from, size length);
extern void *memset(void *to, int byte, size length);

#define NEXT(name) ((__typeof__(&name))dlsym((void *)-1L, #name))
/* The length of a block lies in front of it. */
#define HEAD 16

static size now, most, taken, requests;

void *malloc(size length)
{
    char *block = __libc_malloc(length + HEAD);

    if (!block)
        return 0;
    *(size *)block = length;
    now += length;
    most = now > most ? now : most;
    taken += length;
    requests++;
    return block + HEAD;
}

void free(void *block)
{
    if (!block)
        return;
    now -= *(size *)((char *)block - HEAD);
    __libc_free((char *)block - HEAD);
}

void *calloc(size count, size length)
{
    void *block = malloc(count * length);

    return block ? memset(block, 0, count * length) : 0;
}

void *realloc(void *block, size length)
{
    size held = block ? *(size *)((char *)block - HEAD) : 0;
    void *other = malloc(length);

    if (other && block) {
        memcpy(other, block, held < length ? held : length);
        free(block);
    }
    return other;
}

long write(int file, const void *bytes, size count)
{
    long written = NEXT(write)(file, bytes, count);

    if (file == 1 && count && ((const char *)bytes)[count - 1] == '\n') {
        dprintf(9, "%lu %lu %lu %lu\n", now, most, taken, requests);
        most = now;
        taken = requests = 0;
    }
    return written;
}
