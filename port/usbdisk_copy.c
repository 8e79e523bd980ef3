/* memcpy and memmove by words, for a processor of 32 bits whose C library copies byte by byte, as
 * small ones do. The library's work on a packet is for the most part such copies. Put this file
 * before the C library where you link.
 *
 * Bytes are read and written by words that lie at multiples of four, whatever the addresses: none
 * is read that does not belong to what is copied. Little endian. */
#include <stddef.h>
#include <stdint.h>

/* A compiler that knows memcpy would make a call of it from a loop that copies: here it may not. */
#ifdef __clang__
#define PLAIN __attribute__((no_builtin("memcpy", "memmove")))
#elif defined __GNUC__
#define PLAIN __attribute__((optimize("no-tree-loop-distribute-patterns")))
#else
#define PLAIN
#endif
#ifdef __GNUC__
typedef uint32_t __attribute__((may_alias)) word;
#else
typedef uint32_t word;
#endif

enum { WORD = 4, ROUND = 8 };

void *memcpy(void *restrict to, const void *restrict from, size_t size);
void *memmove(void *to, const void *from, size_t size);

static size_t least(size_t one, size_t two)
{
    return one < two ? one : two;
}

/* How many bytes there are up to the next word. */
static size_t before_word(const uint8_t *at)
{
    return (size_t)(-(uintptr_t)at % WORD);
}

PLAIN static void copy_bytes(uint8_t *to, const uint8_t *from, size_t size)
{
    while (size--)
        *to++ = *from++;
}

/* Eight words, and both places go on behind them. Each word is read before one at its place or
 * higher is written. */
PLAIN static inline void copy_round(word **to, const word **from)
{
#if defined __thumb__ && defined __GNUC__
    __asm__ volatile("ldmia %1!, {r3, r4, r5, r6}\n\t"
                     "stmia %0!, {r3, r4, r5, r6}\n\t"
                     "ldmia %1!, {r3, r4, r5, r6}\n\t"
                     "stmia %0!, {r3, r4, r5, r6}"
                     : "+l"(*to), "+l"(*from)
                     :
                     : "r3", "r4", "r5", "r6", "memory");
#else
    const word *at = *from;
    word a = at[0], b = at[1], c = at[2], d = at[3];
    word e = at[4], f = at[5], g = at[6], h = at[7];
    (*to)[0] = a;
    (*to)[1] = b;
    (*to)[2] = c;
    (*to)[3] = d;
    (*to)[4] = e;
    (*to)[5] = f;
    (*to)[6] = g;
    (*to)[7] = h;
    *to += ROUND;
    *from += ROUND;
#endif
}

/* So many words from one place to another, both at words. */
PLAIN static void copy_words(word *to, const word *from, size_t words)
{
    for (; words >= ROUND; words -= ROUND)
        copy_round(&to, &from);
    while (words--)
        *to++ = *from++;
}

/* So many words to a place at a word, from one that lies `over` bytes behind a word and not at it.
 * `held` has the bytes behind that word, which are read already. */
PLAIN static void shift_words(word *to, const word *next, word held, unsigned over, size_t words)
{
    unsigned low = 8 * over, high = 32 - low;
    while (words--) {
        word read = *next++;
        *to++ = held >> low | read << high;
        held = read;
    }
}

/* The bytes of a word that lie `over` bytes behind its begin or later; zeros for the others. */
static word bytes_held(const uint8_t *from, unsigned over)
{
    word held = 0;
    for (unsigned i = over; i < WORD; i++)
        held |= (word)*from++ << 8 * i;
    return held;
}

/* From the lowest byte to the highest: right where `to` does not lie inside of what is copied. */
static void copy_up(uint8_t *to, const uint8_t *from, size_t size)
{
    size_t head = least(before_word(to), size), over = (uintptr_t)(from + head) % WORD, words;
    copy_bytes(to, from, head);
    to += head;
    from += head;
    size -= head;
    if (over == 0) {
        words = size / WORD;
        copy_words((word *)to, (const word *)from, words);
    } else {
        words = size < 2 * WORD ? 0 : (size - WORD) / WORD;
        if (words)
            shift_words((word *)to, (const word *)(from + WORD - over),
                        bytes_held(from, (unsigned)over), (unsigned)over, words);
    }
    copy_bytes(to + WORD * words, from + WORD * words, size - WORD * words);
}

/* From the highest byte to the lowest. */
PLAIN static void copy_down(uint8_t *to, const uint8_t *from, size_t size)
{
    uint8_t *end = to + size;
    const uint8_t *last = from + size;
    if ((uintptr_t)end % WORD == (uintptr_t)last % WORD) {
        for (; size && (uintptr_t)end % WORD; size--)
            *--end = *--last;
        for (; size >= WORD; size -= WORD) {
            end -= WORD;
            last -= WORD;
            *(word *)end = *(const word *)last;
        }
    }
    while (size--)
        *--end = *--last;
}

void *memcpy(void *restrict to, const void *restrict from, size_t size)
{
    copy_up(to, from, size);
    return to;
}

void *memmove(void *to, const void *from, size_t size)
{
    if ((uintptr_t)to - (uintptr_t)from >= size)
        copy_up(to, from, size);
    else
        copy_down(to, from, size);
    return to;
}
