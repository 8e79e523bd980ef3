/* A library to be loaded before a program (LD_PRELOAD): the request for memory whose number REFUSE
 * tells, counted from 1, is answered that there is none, and every other one by the C library.
 * Where one was refused, descriptor 9 is written to. No header is included, so that the toolchain's
 * own compiler builds it anywhere. */

typedef unsigned long size;

extern void *__libc_malloc(size length);
extern void *__libc_calloc(size count, size length);
extern void *__libc_realloc(void *block, size length);
extern void *__libc_memalign(size alignment, size length);
extern char *getenv(const char *name);
extern int atoi(const char *digits);
extern long write(int descriptor, const void *bytes, size length);

static int requests;

static int is_refused(void)
{
    const char *number = getenv("REFUSE");

    if (!number || ++requests != atoi(number))
        return 0;
    write(9, "refused\n", 8);
    return 1;
}

void *malloc(size length)
{
    return is_refused() ? 0 : __libc_malloc(length);
}

void *calloc(size count, size length)
{
    return is_refused() ? 0 : __libc_calloc(count, length);
}

void *realloc(void *block, size length)
{
    return is_refused() ? 0 : __libc_realloc(block, length);
}

void *aligned_alloc(size alignment, size length)
{
    return is_refused() ? 0 : __libc_memalign(alignment, length);
}

int posix_memalign(void **block, size alignment, size length)
{
    *block = is_refused() ? 0 : __libc_memalign(alignment, length);
    return *block ? 0 : 12; /* ENOMEM */
}
