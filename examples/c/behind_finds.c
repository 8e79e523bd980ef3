/* What a disk finds that starts on what a cut has left. */
#include "behind.h"
#include <string.h>

static struct bench other;

void put(uint32_t blocks[BLOCKS], const struct write *write)
{
    for (unsigned i = 0; i < write->count; i++)
        blocks[write->address + i] = write->number;
}

uint32_t number_in(const uint8_t block[512])
{
    uint32_t number;
    memcpy(&number, block, 4);
    for (int i = 4; i < 512; i += 4)
        if (memcmp(block + i, block, 4))
            return UINT32_MAX;
    return number;
}

static bool read_blocks(uint32_t found[BLOCKS], unsigned address)
{
    unsigned left = BLOCKS - address, count = left < MOST ? left : MOST;
    const struct command read = { .code = 0x28, .address = address, .count = count };
    if (!bench_run(&other, &read))
        return false;
    for (unsigned i = 0; i < count; i++)
        found[address + i] = number_in(other.host.data + 512 * i);
    return !other.host.status || fails("a READ behind a start is not good");
}

/* Starts a disk on the other device, and reads all blocks. The first command hears that power was
 * off. */
static bool find(uint32_t found[BLOCKS])
{
    static const struct command sense = { .code = 0x03 };
    bool good = bench_start(&other, 512) && bench_run(&other, &sense);
    for (unsigned i = 0; good && i < BLOCKS; i += MOST)
        good = read_blocks(found, i);
    bench_stop(&other);
    return good;
}

bool is_allowed(const struct history *history, const uint32_t found[BLOCKS], size_t *writes)
{
    uint32_t blocks[BLOCKS];
    memcpy(blocks, history->opening, sizeof blocks);
    for (size_t k = 0; k <= history->accepted; k++) {
        if (k > 0)
            put(blocks, &history->writes[k - 1]);
        *writes = k;
        if (k >= history->promised && !memcmp(blocks, found, sizeof blocks))
            return true;
    }
    return fails("a start finds what no cut may leave");
}

void settle(struct history *history)
{
    size_t left = history->accepted - history->promised;
    for (size_t k = 0; k < history->promised; k++)
        put(history->opening, &history->writes[k]);
    memmove(history->writes, history->writes + history->promised, left * sizeof *history->writes);
    history->accepted = left;
    history->promised = 0;
}

bool finds_what_it_may(const struct device *device, unsigned kept, const struct history *history,
                       uint32_t found[BLOCKS])
{
    size_t writes;
    device_cut(device, kept, &other.device);
    return find(found) && is_allowed(history, found, &writes);
}

bool finds_open(void)
{
    return device_open(&other.device);
}

void finds_close(void)
{
    device_close(&other.device);
}
