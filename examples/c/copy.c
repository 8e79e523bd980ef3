/* A test of port/usbdisk_copy.c: each alignment of both places, each length up to LENGTH and some
 * larger ones, and each distance of an overlap in both directions. Each byte around the copy has to
 * stay as it was. The file is compiled with its two functions under other names:
 *
 *     cc -Dmemcpy=tried_copy -Dmemmove=tried_move -c ../../port/usbdisk_copy.c */
#include <stdint.h>
#include <stdio.h>
#include <stdlib.h>

void *tried_copy(void *restrict to, const void *restrict from, size_t size);
void *tried_move(void *to, const void *from, size_t size);

enum { PLACES = 8, LENGTH = 140, FAR = 70, ROOM = 4096 };

static unsigned long tries;

/* A byte for each place, none like its neighbours'. */
static uint8_t drawn(size_t at)
{
    return (uint8_t)(at * 167 + (at >> 8) + 13);
}

static void draw(uint8_t *room, size_t size)
{
    for (size_t i = 0; i < size; i++)
        room[i] = drawn(i);
}

/* Whether a room of drawn bytes has got `size` of those from `from` on at `to`, and no others. */
static void judge(const char *what, const uint8_t *room, size_t all, size_t to, size_t from,
                  size_t size)
{
    for (size_t i = 0; i < all; i++)
        if (room[i] != drawn(i >= to && i < to + size ? i - to + from : i)) {
            printf("%s of %zu bytes from %zu to %zu: byte %zu is wrong\n", what, size, from, to, i);
            exit(EXIT_FAILURE);
        }
    tries++;
}

/* A move inside of one room. */
static void move(size_t to, size_t from, size_t size)
{
    static uint8_t held[ROOM];
    size_t all = (to > from ? to : from) + size + PLACES;
    draw(held, all);
    if (tried_move(held + to, held + from, size) != held + to)
        exit(EXIT_FAILURE);
    judge("a move", held, all, to, from, size);
}

/* A copy between two blocks that have no byte more, so that a sanitizer sees one that is read or
 * written beyond them. */
static void copy(size_t to, size_t from, size_t size)
{
    uint8_t *one = malloc(to + size + 1), *two = malloc(from + size + 1);
    if (!one || !two)
        exit(EXIT_FAILURE);
    draw(one, to);
    draw(two, from + size);
    if (tried_copy(one + to, two + from, size) != one + to)
        exit(EXIT_FAILURE);
    judge("a copy", one, to + size, to, from, size);
    judge("what a copy reads", two, from + size, 0, 0, 0);
    free(one);
    free(two);
}

/* Each of these lengths at each alignment, apart, and by a move in which they lie over each other.
 */
static void each_at(size_t size)
{
    for (size_t to = 0; to < PLACES; to++)
        for (size_t from = 0; from < PLACES; from++) {
            copy(to, from, size);
            move(to, from + size + PLACES, size);
            move(to + size + PLACES, from, size);
        }
}

static void each_overlap(size_t size)
{
    for (size_t at = 0; at < PLACES; at++)
        for (size_t far = 0; far < FAR; far++) {
            move(at, at + far, size);
            move(at + far, at, size);
        }
}

int main(void)
{
    static const size_t large[] = { 255, 256, 257, 511, 512, 513, 1024, 1027 };
    for (size_t size = 0; size < LENGTH; size++) {
        each_at(size);
        each_overlap(size);
    }
    for (size_t i = 0; i < sizeof large / sizeof *large; i++) {
        each_at(large[i]);
        each_overlap(large[i]);
    }
    printf("%lu copies and moves, each right\n", tries);
    return EXIT_SUCCESS;
}
