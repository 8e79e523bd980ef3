/* A maker that keeps no rule: the calls of the library in any order and with any numbers, on
 * handles that hold nothing, a disk, a store or the work on an image, over a device that refuses
 * now and then, or ends calls that nobody began. Each call answers a number of its own, one from 16
 * on changes nothing, no call leaves the device, and no memory is left. What a pointer must be is
 * the one rule that stays.
 *
 * hostile_maker [ROUNDS [SEED]] */
#include "draw.h"
#include "gadget.h"
#include "image.h"
#include <stdio.h>
#include <stdlib.h>
#include <string.h>

enum { BLOCKS = 90, SLOTS = 5, SECTORS = USBDISK_LOG_END(2, SLOTS) + BLOCKS };
enum { HANDLES = 3, MOST = USBDISK_LIMIT(2), MARK = 0xB7 };

/* A handle, and what was told of it. */
struct held {
    struct usbdisk handle;
    struct usbdisk_call call; /* under way, or none */
};

static struct held held[HANDLES];
static uint8_t device[SECTORS * 512], buffer[MOST * 512];
static uint64_t seed = 1;

static void must(bool good, const char *what)
{
    if (good)
        return;
    printf("hostile_maker: %s\n", what);
    exit(EXIT_FAILURE);
}

static uint32_t below(uint32_t most)
{
    return draw_below(&seed, most);
}

static void fill(uint8_t *bytes, size_t size)
{
    for (size_t i = 0; i < size; i++)
        bytes[i] = (uint8_t)below(256);
}

/* An answer is one that the header tells of the call: one of these, or an error from 16 on. Behind
 * an error the handle holds what it held. */
static void judge(const struct held *it, const struct usbdisk *before, uint32_t answer,
                  uint32_t most)
{
    must(answer <= most || (answer >= USBDISK_EMPTY && answer <= USBDISK_OTHER_KIND),
         "an answer that no header tells");
    must((answer == USBDISK_EMPTY) == !before->at || answer < USBDISK_EMPTY ||
             answer == USBDISK_STARTED,
         "a handle is taken for another one");
    must(answer < USBDISK_EMPTY || it->handle.at == before->at, "an error changes the handle");
}

/* ---- what starts */

/* One of the five starts. */
static uint32_t start_by(struct usbdisk *handle, const struct usbdisk_options *options,
                         const struct usbdisk_plan *plan)
{
    switch (below(8)) {
    case 0:
    case 1:
        return usbdisk_store_start(handle, options);
    case 2:
        return usbdisk_format(handle, plan);
    case 3:
        return usbdisk_lay_log(handle, plan);
    case 4:
        return usbdisk_migrate(handle, plan);
    default:
        return usbdisk_start(handle, options);
    }
}

static void start_any(struct held *it)
{
    struct usbdisk_options options = {
        .sectors = below(8) ? SECTORS : below(SECTORS),
        .identity = { "EXAMPLE ", "HOSTILE         ", "0001", "000000000001" },
        .packet = below(8) ? 64u << 3 * below(2) : below(1024),
        .kept = below(8) ? below(7) : UINT32_MAX - below(2),
    };
    const struct usbdisk_plan plan = { options.sectors, 1 + below(below(8) ? 2 : 9),
                                       1 + below(SLOTS + 1), BLOCKS + below(3),
                                       below(4) ? 0 : below(SECTORS) };
    struct usbdisk before = it->handle;
    options.identity.vendor[below(8)] = below(8) ? 'X' : 0;
    heap_fails = below(16) ? 0 : 1 + (int)below(30);
    uint32_t answer = start_by(&it->handle, &options, &plan);
    must((answer == USBDISK_STARTED) == (before.at != NULL), "a second start");
    must(!answer == (it->handle.at != before.at),
         "a start that holds nothing, or changes a handle");
    must(!answer || answer == USBDISK_NO_MEMORY || answer >= USBDISK_STARTED, "another answer");
    if (!answer)
        it->call.kind = USBDISK_NOTHING;
}

static void stop(struct held *it)
{
    struct usbdisk before = it->handle;
    judge(it, &before, usbdisk_stop(&it->handle), 0);
    must(!it->handle.at, "a stop that holds something");
    it->call.kind = USBDISK_NOTHING;
}

/* ---- the device */

static void next(struct held *it)
{
    struct usbdisk before = it->handle;
    struct usbdisk_call call = { MARK, MARK, MARK };
    size_t size = below(4) ? 512 * (size_t)below(MOST + 1) : below(sizeof buffer);
    uint32_t answer = usbdisk_next(&it->handle, &call, buffer, size);
    judge(it, &before, answer, 0);
    must(!before.at || (answer == USBDISK_BAD_LENGTH) == (!size || size % 512), "another length");
    must(!answer || (call.kind == MARK && call.sector == MARK && call.count == MARK),
         "an error tells a call");
    if (answer || call.kind == USBDISK_NOTHING)
        return;
    must(it->call.kind == USBDISK_NOTHING, "a second call while one is under way");
    must(call.kind <= USBDISK_READ && call.sector <= SECTORS && call.count <= SECTORS - call.sector,
         "a call that leaves the device");
    must(call.kind == USBDISK_FLUSH ? !call.count : call.count && call.count <= MOST,
         "a call of no sectors, or of too many");
    it->call = call;
    if (call.kind == USBDISK_WRITE)
        memcpy(device + 512 * call.sector, buffer, 512 * call.count);
}

static void done(struct held *it)
{
    struct usbdisk before = it->handle;
    size_t told = it->call.kind == USBDISK_READ ? 512 * (size_t)it->call.count : 0;
    size_t size = below(4) ? told : below(sizeof device - 512 * (size_t)it->call.sector);
    bool ok = below(40), is_under_way = it->call.kind != USBDISK_NOTHING;
    uint32_t answer = usbdisk_done(&it->handle, ok, device + 512 * it->call.sector, size);
    bool is_short = it->call.kind == USBDISK_READ && ok && size != told;
    judge(it, &before, answer, 0);
    must(!before.at || (answer == USBDISK_NOT_ASKED) == !is_under_way, "an end of no call");
    must(!is_under_way || (answer == USBDISK_BAD_LENGTH) == is_short, "bytes of another length");
    if (!answer)
        it->call = (struct usbdisk_call){ .kind = USBDISK_NOTHING };
}

/* A call as it should be. */
static void carry(struct held *it)
{
    size_t size = it->call.kind == USBDISK_READ ? 512 * (size_t)it->call.count : 0;
    if (it->call.kind != USBDISK_NOTHING && it->handle.at)
        must(!usbdisk_done(&it->handle, true, device + 512 * it->call.sector, size), "a good end");
    it->call = (struct usbdisk_call){ .kind = USBDISK_NOTHING };
    next(it);
}

/* ---- the bus, and a stack */

static size_t spell(uint8_t *bytes)
{
    static const uint8_t codes[] = { 0x00, 0x03, 0x12, 0x15, 0x1A, 0x25, 0x28, 0x2A, 0x35, 0x8A };
    uint32_t count = below(50), length = below(3) ? count * 512 : below(9999);
    memset(bytes, 0, 31);
    memcpy(bytes, "USBC", 4);
    memcpy(bytes + 8, &length, 4);
    bytes[12] = below(2) ? 0x80 : 0;
    bytes[15] = codes[below(sizeof codes)];
    bytes[14] = bytes[15] < 0x80 ? 10 : 16;
    bytes[16] = below(4) ? 0 : 8;
    bytes[20] = (uint8_t)below(BLOCKS + 9);
    bytes[23] = (uint8_t)count;
    if (!below(20))
        fill(bytes, 31);
    return 31;
}

static void out(struct held *it)
{
    struct usbdisk before = it->handle;
    size_t size = below(3) ? spell(buffer) : 512 * (size_t)below(50), taken = MARK;
    uint32_t answer = usbdisk_out(&it->handle, buffer, below(9) ? size : size / 2, &taken);
    judge(it, &before, answer, USBDISK_STALL);
    must(answer < USBDISK_EMPTY ? taken <= size : taken == MARK, "more is taken than there is");
}

static void in(struct held *it)
{
    struct usbdisk before = it->handle;
    size_t size = below(sizeof buffer), given = MARK;
    memset(buffer, MARK, sizeof buffer);
    uint32_t answer = usbdisk_in(&it->handle, buffer, size, &given);
    judge(it, &before, answer, USBDISK_STALL);
    must(answer < USBDISK_EMPTY ? given <= size : given == MARK, "more is given than has room");
    for (size_t i = answer ? 0 : given; i < sizeof buffer; i++)
        must(buffer[i] == MARK, "a byte behind the packets changes");
}

static void setup(struct held *it)
{
    struct usbdisk before = it->handle;
    uint8_t request[8], data[2];
    uint32_t size = MARK;
    for (int i = 0; i < 8; i++)
        request[i] = below(3) ? 0 : (uint8_t)below(256);
    if (below(2))
        memcpy(request, (uint8_t[]){ 0x21, 0xFF, 0, 0 }, 4);
    uint32_t answer = usbdisk_setup(&it->handle, request, data, &size);
    judge(it, &before, answer, USBDISK_STALL);
    must(answer != USBDISK_ACK || size <= 2, "more data than there is room for");
    must(answer < USBDISK_EMPTY || size == MARK, "an error tells a size");
}

static void ask_store(struct held *it)
{
    struct usbdisk before = it->handle;
    uint64_t block = below(9) ? below(BLOCKS + 4) : UINT64_MAX - below(4), blocks = MARK;
    size_t size = below(4) ? 512 * (size_t)below(60) : below(sizeof buffer);
    uint32_t limit = MARK, answer;
    memset(buffer, MARK, sizeof buffer);
    switch (below(4)) {
    case 0:
        answer = usbdisk_store_sizes(&it->handle, &blocks, &limit);
        must(!answer == (blocks != MARK), "sizes of no store");
        break;
    case 1:
        answer = usbdisk_store_read(&it->handle, block, buffer, size);
        must(!answer || buffer[0] == MARK || answer == USBDISK_READ_REFUSED, "bytes of no read");
        break;
    case 2:
        answer = usbdisk_store_write(&it->handle, block, buffer, size);
        break;
    default:
        answer = usbdisk_store_sync(&it->handle);
    }
    judge(it, &before, answer, USBDISK_BUSY);
}

static void look_on(struct held *it)
{
    struct usbdisk before = it->handle;
    uint32_t fault = MARK, state = usbdisk_state(&it->handle, &fault);
    judge(it, &before, state, USBDISK_FAILED);
    must(state == USBDISK_EMPTY ? fault == MARK : (state == USBDISK_FAILED) == (fault != 0),
         "a fault of what did not fail");
    judge(it, &before, usbdisk_idle(&it->handle), 1);
    judge(it, &before, usbdisk_ahead(&it->handle, below(SECTORS + 9), below(MOST + 9)), 1);
}

static void play_any(struct held *it)
{
    static void (*const calls[])(struct held *) = { start_any, next,      done,   carry, carry,
                                                    carry,     out,       out,    in,    in,
                                                    setup,     ask_store, look_on };
    if (below(300) == 0)
        stop(it);
    else
        calls[below(sizeof calls / sizeof *calls)](it);
    heap_fails = heap_fails && below(9) ? heap_fails : 0;
}

int main(int count, char **words)
{
    long rounds = count > 1 ? atol(words[1]) : 60;
    seed = count > 2 ? strtoull(words[2], NULL, 10) * 0x9E3779B97F4A7C15u | 1 : seed;
    for (long round = 0; round < rounds; round++) {
        if (format_memory(device, sizeof device, 1 + round % 2, BLOCKS, SLOTS))
            return EXIT_FAILURE;
        for (int i = 0; i < 4000; i++)
            play_any(&held[below(HANDLES)]);
        heap_fails = 0;
        for (int i = 0; i < HANDLES; i++)
            stop(&held[i]);
        must(!heap_blocks, "memory is left");
    }
    printf("%ld rounds of a maker that keeps no rule: each call answers its number\n", rounds);
    return 0;
}
