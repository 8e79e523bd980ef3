/* Transfers on the two bulk endpoints of FunctionFS. Those to the host are handed to the kernel's
 * asynchronous calls, all that are ready by one (io_submit), and what it tells of them is read in
 * memory. Those from the host a thread reads (functionfs_reader.h). */
#ifndef FUNCTIONFS_QUEUE_H
#define FUNCTIONFS_QUEUE_H

#include "functionfs_reader.h"
#include <errno.h>
#include <linux/aio_abi.h>
#include <stdbool.h>
#include <stddef.h>
#include <stdint.h>

/* DEPTH: the longest READ in transfers, its status, and one more.
 * CHUNK: the most bytes of a transfer. The kernel copies each into one block of its memory: 8 pages
 * are always to be had. */
enum { DEPTH = 6, CHUNK = 32768 };

struct transfer {
    struct iocb call;
    uint8_t *bytes;
    size_t size; /* how many bytes were asked for, or are sent */
    bool is_done;
    long result; /* bytes moved, or the negative number of an error */
};

/* The transfers of one endpoint, in order. */
struct queue {
    int file;
    bool sends;
    struct transfer ring[DEPTH];
    unsigned first, count;
    unsigned handed; /* how many of them, the oldest, the kernel has or had */
};

/* The kernel's side of both queues. `ready` can be read when one of DEPTH transfers to the host is
 * done, and when engine_wake was called. Nobody is woken for the others to the host: what follows
 * them comes from the host. */
struct engine {
    aio_context_t context;
    int ready;
    struct reader reader;
};

/* False: the system refused, errno tells why. */
bool engine_open(struct engine *engine);
void engine_close(struct engine *engine);

/* Makes `ready` readable; and no longer so. */
void engine_wake(struct engine *engine);
void engine_rest(struct engine *engine);

/* Notes which transfers to the host are done. Makes no call of the system. */
void engine_collect(struct engine *engine);

/* Opens an endpoint's file. Bulk-In sends. */
bool queue_open(struct queue *queue, const char *path, bool sends);

/* The next transfer whose bytes are free, or NULL. */
struct transfer *queue_free(struct queue *queue);

/* Makes that transfer ready, with `size` bytes. One from the host the thread begins to read. */
void queue_submit(struct engine *engine, struct queue *queue, size_t size);

/* Hands all transfers to the host that are ready to the kernel. Answers 0, or the error where it
 * did not take all. */
int queue_send(struct engine *engine, struct queue *queue);

/* What the system may grant when it is asked again. */
static inline bool may_pass(int refusal)
{
    return refusal == EAGAIN || refusal == ENOMEM || refusal == EINTR;
}

/* Why a transfer to the host was refused that may be granted yet, where one was; else 0. */
int queue_refused(const struct queue *queue);

/* Takes back those behind the first one that was refused, and makes it and them ready again. False:
 * one of them has moved bytes, which then stand in the place of others. */
bool queue_ready_again(struct engine *engine, struct queue *queue);

/* The oldest transfer where it is done, or NULL; the oldest that is not; and lets the oldest go. */
struct transfer *queue_done(struct queue *queue);
struct transfer *queue_open_transfer(struct queue *queue);
void queue_pop(struct queue *queue);

/* Takes all transfers back, the youngest first, and waits until the kernel has let them go. */
void queue_cancel(struct engine *engine, struct queue *queue);

/* Lets go of what the controller holds of the endpoint, where it holds packets of its own. No
 * transfer is in flight. */
void queue_flush(struct queue *queue);

/* Halts the endpoint in the controller. No transfer is in flight. Answers 0, or EAGAIN where the
 * controller is not ready, or another error. */
int queue_halt(struct queue *queue);

/* Gives the memory and the file back. The kernel has let all transfers go. */
void queue_close(struct queue *queue);

#endif
