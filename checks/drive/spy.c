/* What is known of a disk from outside: the command in progress, and whether it promises. */
#include "planted.h"
#include <string.h>

enum { READ_10 = 0x28, READ_16 = 0x88, WRITE_10 = 0x2A, WRITE_16 = 0x8A };
enum { SYNC_10 = 0x35, SYNC_16 = 0x91, SELECT = 0x15 };

struct spy *spy_of(const struct usbdisk *disk)
{
    static struct spy spies[4];
    for (size_t i = 0; i < sizeof spies / sizeof *spies; i++)
        if (spies[i].disk == disk || !spies[i].disk) {
            spies[i].disk = disk;
            return &spies[i];
        }
    return NULL;
}

/* Whether the command promises all that was accepted, where it is good. */
static bool promises(const struct spy *it)
{
    switch (it->code) {
    case WRITE_10:
    case WRITE_16:
        return it->is_forced || !it->is_cached;
    case SELECT:
        return it->is_cached;
    default:
        return it->code == SYNC_10 || it->code == SYNC_16;
    }
}

static void note_wrapper(struct spy *it, const uint8_t *wrapper)
{
    uint32_t length;
    memcpy(&length, wrapper + 8, 4);
    memcpy(it->tag, wrapper + 4, 4);
    it->code = wrapper[15];
    it->is_forced = wrapper[16] & 8;
    it->due = wrapper[12] & 0x80 ? 0 : length;
    it->waits = !it->due && promises(it);
    it->has_ended = false;
    it->sent = 0;
    it->address = wrapper[20] | (uint32_t)wrapper[19] << 8;
    if (it->code == READ_16)
        it->address = wrapper[24] | (uint32_t)wrapper[23] << 8;
}

void spy_notes(struct spy *it, const uint8_t *bytes, size_t size)
{
    if (!it->due) {
        if (size == 31 && !memcmp(bytes, "USBC", 4))
            note_wrapper(it, bytes);
        return;
    }
    it->due -= size < it->due ? size : it->due;
    if (it->due)
        return;
    it->waits = promises(it);
    it->has_ended = false;
    if (it->code == SELECT && size >= 24)
        it->is_cached = bytes[6] & 4;
}

void spy_resets(struct spy *it)
{
    it->due = 0;
    it->waits = it->owes = false;
}

bool spy_settles(struct spy *it, struct usbdisk *disk)
{
    uint8_t packet[512];
    size_t given;
    if (it->owes && REAL(in)(disk, packet, sizeof packet, &given) == USBDISK_ACK)
        it->owes = false;
    return !it->owes;
}

void spy_writes(struct spy *it, const uint8_t *bytes)
{
    const struct usbdisk_call *call = &it->call;
    for (uint64_t i = 0; i < call->count && call->kind == USBDISK_WRITE && !it->rests; i++) {
        uint64_t block = call->sector + i - it->layout.home;
        if (call->sector < it->layout.home || block >= it->layout.blocks)
            continue;
        memcpy(&it->home[block], bytes + 512 * i, 4);
        it->is_home[block] = true;
    }
}

void spy_sends_home(struct spy *it, uint8_t *room, size_t given)
{
    bool is_read = it->code == READ_10 || it->code == READ_16;
    for (size_t at = 0; is_read && at + 512 <= given && it->sent % 512 == 0; at += 512) {
        uint32_t block = it->address + (uint32_t)(it->sent + at) / 512;
        for (size_t i = 0; block < 512 && it->is_home[block] && i < 512; i += 4)
            memcpy(room + at + i, &it->home[block], 4);
    }
    it->sent += (uint32_t)given;
}

bool spy_tells_early(const struct spy *it)
{
    switch (PLANTED) {
    case 1:
        return it->waits;
    case 7:
        return it->waits && it->call.kind == USBDISK_FLUSH;
    case 14:
        return it->waits && it->code == SELECT;
    case 16:
        return it->waits && it->has_ended;
    default:
        return false;
    }
}
