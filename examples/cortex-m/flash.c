/* The device: memory that a reset leaves as it is, in the place of flash, behind a cache that a
 * reset loses. It is as unkind as a device may be. What is written lies in the cache until a flush,
 * or until the cache puts any of it into the flash at a time of its own; so of writes that were not
 * flushed some stay, in any order. And it is as slow as flash, so that the power goes in it.
 *
 * A sector is whole or absent, wherever a reset comes: its bytes go to a place that no sector has,
 * and one word, which of all places it has now, makes that place the sector's. This is what a
 * translation layer over real flash does. */
#include "board.h"
#include <machine.h>

enum { PLACES = SECTORS + 1, MADE = 0x464C5348, SLOW = 12000 };

/* What a reset leaves: whether it was made, the chances of the cache, the place of each sector, and
 * the bytes of all places. */
struct flash {
    uint32_t made, chance;
    uint32_t place[SECTORS];
    uint8_t bytes[PLACES * SECTOR];
};
#define FLASH ((volatile struct flash *)FLASH_PLACE)

/* The cache: which sector, and its bytes. One that is not used has the sector UNUSED. */
enum { UNUSED = SECTORS };
static struct {
    uint32_t sector;
    uint8_t bytes[SECTOR];
} cache[CACHED];

/* The place that no sector has. */
static uint32_t spare;

/* A number below this one (xorshift). */
static uint32_t draw(uint32_t below)
{
    uint32_t number = FLASH->chance;
    number ^= number << 13;
    number ^= number >> 17;
    number ^= number << 5;
    FLASH->chance = number;
    return number % below;
}

/* A new flash has zeros in each sector. */
static void make(void)
{
    FLASH->made = 0;
    FLASH->chance = 1;
    for (uint32_t i = 0; i < SECTORS; i++)
        FLASH->place[i] = i;
    for (uint32_t i = 0; i < SECTORS * SECTOR; i++)
        FLASH->bytes[i] = 0;
    settle();
    FLASH->made = MADE;
}

/* Of all places one has no sector: what is missing in their sum. */
void block_start(void)
{
    if (FLASH->made != MADE)
        make();
    spare = SECTORS * (SECTORS + 1) / 2;
    for (uint32_t i = 0; i < SECTORS; i++)
        spare -= FLASH->place[i];
    for (uint32_t i = 0; i < CACHED; i++)
        cache[i].sector = UNUSED;
}

uint64_t block_sectors(void)
{
    return SECTORS;
}

static void copy(volatile uint8_t *to, const volatile uint8_t *from)
{
    for (uint32_t i = 0; i < SECTOR; i++)
        to[i] = from[i];
}

static void wait(uint32_t turns)
{
    for (volatile uint32_t i = 0; i < turns; i++)
        ;
}

/* Puts a sector of the cache into the flash. */
static void put(uint32_t entry)
{
    uint32_t sector = cache[entry].sector, before = FLASH->place[sector];
    wait(SLOW);
    copy(FLASH->bytes + SECTOR * spare, cache[entry].bytes);
    wait(SLOW);
    settle();
    FLASH->place[sector] = spare;
    settle();
    spare = before;
    cache[entry].sector = UNUSED;
}

/* Where in the cache this sector is, or CACHED. */
static uint32_t find(uint32_t sector)
{
    uint32_t entry = 0;
    while (entry < CACHED && cache[entry].sector != sector)
        entry++;
    return entry;
}

static void write_sector(uint32_t sector, const uint8_t *bytes)
{
    uint32_t entry = find(sector);
    if (entry == CACHED)
        entry = draw(CACHED);
    if (cache[entry].sector != UNUSED && cache[entry].sector != sector)
        put(entry);
    cache[entry].sector = sector;
    copy(cache[entry].bytes, bytes);
}

static void read_sector(uint32_t sector, uint8_t *bytes)
{
    uint32_t entry = find(sector);
    copy(bytes, entry < CACHED ? cache[entry].bytes : FLASH->bytes + SECTOR * FLASH->place[sector]);
}

bool block_read(uint64_t sector, uint8_t *bytes, size_t count)
{
    if (sector > SECTORS || count > SECTORS - sector)
        return false;
    for (size_t i = 0; i < count; i++)
        read_sector((uint32_t)(sector + i), bytes + SECTOR * i);
    return true;
}

bool block_write(uint64_t sector, const uint8_t *bytes, size_t count)
{
    if (sector > SECTORS || count > SECTORS - sector)
        return false;
    for (size_t i = 0; i < count; i++)
        write_sector((uint32_t)(sector + i), bytes + SECTOR * i);
    return true;
}

bool block_flush(void)
{
    for (uint32_t i = 0; i < CACHED; i++)
        if (cache[i].sector != UNUSED)
            put(i);
    return true;
}
