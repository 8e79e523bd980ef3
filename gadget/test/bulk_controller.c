/* The controller in memory, in place of functionfs_queue.c. The system refuses a transfer now and
 * then, and where a transfer is taken back the controller keeps a packet of it until it is flushed.
 */
#include "bulk_host.h"
#include <errno.h>
#include <stdlib.h>
#include <string.h>

bool halted[2];
struct kept kept;
uint64_t refusals, flushes;

bool engine_open(struct engine *engine)
{
    return engine != NULL;
}
void engine_close(struct engine *engine)
{
    (void)engine;
}
void engine_collect(struct engine *engine)
{
    (void)engine;
}

void queue_pop(struct queue *queue)
{
    queue->first = (queue->first + 1) % DEPTH;
    queue->count--;
    queue->handed -= queue->handed > 0;
}

bool queue_open(struct queue *queue, const char *path, bool sends)
{
    (void)path;
    queue->sends = sends;
    for (int i = 0; i < DEPTH; i++)
        queue->ring[i].bytes = malloc(CHUNK);
    return true;
}

void queue_close(struct queue *queue)
{
    for (int i = 0; i < DEPTH; i++)
        free(queue->ring[i].bytes);
}

struct transfer *queue_free(struct queue *queue)
{
    return queue->count < DEPTH ? &queue->ring[(queue->first + queue->count) % DEPTH] : NULL;
}

void queue_submit(struct engine *engine, struct queue *queue, size_t size)
{
    struct transfer *transfer = queue_free(queue);
    (void)engine;
    check(transfer && size <= CHUNK && (queue->sends || (size && size % disk.packet == 0)),
          "a transfer of a wrong size");
    *transfer = (struct transfer){ .bytes = transfer->bytes, .size = size };
    queue->count++;
}

/* Some of them, or none, where the system has no memory; and one that it refuses by its result. */
int queue_send(struct engine *engine, struct queue *queue)
{
    unsigned before = queue->handed;
    (void)engine;
    if (queue->count > before && below(16) == 0) {
        refusals++;
        return below(2) ? EAGAIN : ENOMEM;
    }
    queue->handed = queue->count > before + 1 && below(16) == 0 ? before + 1 : queue->count;
    if (queue->handed > before && below(16) == 0) {
        struct transfer *refused = &queue->ring[(queue->first + before) % DEPTH];
        refused->result = below(2) ? -ENOMEM : -EAGAIN;
        refused->is_done = true;
        refusals++;
    }
    return queue->handed < queue->count ? EAGAIN : 0;
}

/* The number of the first one that was refused. */
static unsigned refused_at(const struct queue *queue)
{
    unsigned i = 0;
    while (i < queue->handed && queue->ring[(queue->first + i) % DEPTH].result >= 0)
        i++;
    return i;
}

int queue_refused(const struct queue *queue)
{
    unsigned at = refused_at(queue);
    return at < queue->handed ? (int)-queue->ring[(queue->first + at) % DEPTH].result : 0;
}

bool queue_ready_again(struct engine *engine, struct queue *queue)
{
    bool has_moved = false;
    unsigned first = refused_at(queue);
    (void)engine;
    for (unsigned i = first; i < queue->handed; i++) {
        struct transfer *transfer = &queue->ring[(queue->first + i) % DEPTH];
        has_moved |= transfer->result > 0;
        transfer->result = 0;
        transfer->is_done = false;
    }
    queue->handed = first;
    return !has_moved;
}

struct transfer *queue_done(struct queue *queue)
{
    struct transfer *oldest = &queue->ring[queue->first];
    return queue->count && oldest->is_done ? oldest : NULL;
}

/* What the controller has taken out of a transfer that is taken back goes to the host all the same,
 * where it is not flushed. */
void queue_cancel(struct engine *engine, struct queue *queue)
{
    struct transfer *first =
        queue_done(queue) || !queue->handed ? NULL : &queue->ring[queue->first];
    (void)engine;
    if (queue->sends && first && first->size > (size_t)first->result) {
        size_t left = first->size - (size_t)first->result;
        kept.size = (long)(left < disk.packet ? left : disk.packet);
        memcpy(kept.bytes, first->bytes + first->result, (size_t)kept.size);
        kept.is_there = true;
    }
    queue->count = queue->handed = 0;
}

void queue_flush(struct queue *queue)
{
    check(queue->count == 0, "a flush with transfers in flight");
    if (queue->sends)
        kept.is_there = false;
    flushes++;
}

int queue_halt(struct queue *queue)
{
    check(queue->count == 0, "a halt with transfers in flight");
    if (below(2))
        return EAGAIN;
    halted[queue->sends] = true;
    return 0;
}
