/* Numbers for judges, which are the same again for the same seed. */
#ifndef DRAW_H
#define DRAW_H

#include <stdint.h>

/* The next one, below `most`: an xorshift of 64 bits. The seed is not 0. */
static inline uint32_t draw_below(uint64_t *seed, uint32_t most)
{
    *seed ^= *seed << 13;
    *seed ^= *seed >> 7;
    *seed ^= *seed << 17;
    return (uint32_t)(*seed >> 33) % most;
}

#endif
