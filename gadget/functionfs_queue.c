/* Transfers on the two bulk endpoints of FunctionFS. */
#include "functionfs_queue.h"
#include <fcntl.h>
#include <linux/usb/functionfs.h>
#include <stdlib.h>
#include <string.h>
#include <sys/eventfd.h>
#include <sys/ioctl.h>
#include <sys/syscall.h>
#include <unistd.h>

enum { RING = 0xA10A10A1 };

/* The ring of what is done, as the kernel lays it at the address that is the context. */
struct done_ring {
    unsigned id, places;
    _Atomic unsigned head, tail;
    unsigned magic, compatible, incompatible, header;
    struct io_event events[];
};

bool engine_open(struct engine *engine)
{
    engine->context = 0;
    reader_open(&engine->reader);
    engine->ready = eventfd(0, EFD_CLOEXEC | EFD_NONBLOCK);
    return engine->ready >= 0 && syscall(SYS_io_setup, 2 * DEPTH, &engine->context) == 0;
}

void engine_wake(struct engine *engine)
{
    uint64_t once = 1;
    if (write(engine->ready, &once, sizeof once) < 0)
        return; /* it can be read as it is */
}

void engine_rest(struct engine *engine)
{
    uint64_t times;
    if (read(engine->ready, &times, sizeof times) < 0)
        return; /* it could not be read as it was */
}

static void note_done(const struct io_event *event)
{
    struct transfer *transfer = (struct transfer *)(uintptr_t)event->data;
    transfer->result = (long)event->res;
    transfer->is_done = true;
}

/* Asks the kernel, for at least `least` transfers. */
static void ask_kernel(struct engine *engine, unsigned least)
{
    struct io_event done[DEPTH];
    long count;
    do
        count = syscall(SYS_io_getevents, engine->context, (long)least, (long)DEPTH, done,
                        least ? NULL : &(struct timespec){ 0, 0 });
    while (count < 0 && errno == EINTR);
    for (long i = 0; i < count; i++)
        note_done(&done[i]);
}

void engine_collect(struct engine *engine)
{
    struct done_ring *ring = (struct done_ring *)(uintptr_t)engine->context;
    if (!ring)
        return;
    if (ring->magic != RING || ring->incompatible) {
        ask_kernel(engine, 0);
        return;
    }
    unsigned head = atomic_load_explicit(&ring->head, memory_order_relaxed);
    while (head != atomic_load_explicit(&ring->tail, memory_order_acquire)) {
        note_done(&ring->events[head]);
        head = (head + 1) % ring->places;
        atomic_store_explicit(&ring->head, head, memory_order_release);
    }
}

bool queue_open(struct queue *queue, const char *path, bool sends)
{
    memset(queue, 0, sizeof *queue);
    queue->sends = sends;
    queue->file = open(path, O_RDWR | O_NONBLOCK | O_CLOEXEC);
    for (int i = 0; i < DEPTH; i++)
        if (!(queue->ring[i].bytes = malloc(CHUNK)))
            return false;
    return queue->file >= 0;
}

/* The one with this number, counted from the oldest. */
static struct transfer *transfer_at(struct queue *queue, unsigned number)
{
    return &queue->ring[(queue->first + number) % DEPTH];
}

struct transfer *queue_free(struct queue *queue)
{
    return queue->count < DEPTH ? transfer_at(queue, queue->count) : NULL;
}

void queue_submit(struct engine *engine, struct queue *queue, size_t size)
{
    struct transfer *transfer = transfer_at(queue, queue->count++);
    transfer->size = size;
    transfer->is_done = false;
    if (!queue->sends)
        reader_wake(&engine->reader);
}

/* What the kernel is told of a transfer to the host. Where there is no room for another one it
 * wakes. */
static struct iocb *call_of(const struct engine *engine, struct queue *queue, unsigned number)
{
    struct transfer *transfer = transfer_at(queue, number);
    transfer->call = (struct iocb){
        .aio_data = (uintptr_t)transfer,
        .aio_lio_opcode = IOCB_CMD_PWRITE,
        .aio_fildes = (uint32_t)queue->file,
        .aio_buf = (uintptr_t)transfer->bytes,
        .aio_nbytes = transfer->size,
        .aio_flags = number + 1 == DEPTH ? IOCB_FLAG_RESFD : 0,
        .aio_resfd = (uint32_t)engine->ready,
    };
    return &transfer->call;
}

int queue_send(struct engine *engine, struct queue *queue)
{
    struct iocb *calls[DEPTH];
    unsigned ready = 0;
    for (unsigned i = queue->handed; i < queue->count; i++)
        calls[ready++] = call_of(engine, queue, i);
    if (!ready)
        return 0;
    long taken = syscall(SYS_io_submit, engine->context, (long)ready, calls);
    if (taken < 0)
        return errno;
    queue->handed += (unsigned)taken;
    return taken < (long)ready ? EAGAIN : 0;
}

struct transfer *queue_open_transfer(struct queue *queue)
{
    for (unsigned i = 0; i < queue->count; i++)
        if (!transfer_at(queue, i)->is_done)
            return transfer_at(queue, i);
    return NULL;
}

struct transfer *queue_done(struct queue *queue)
{
    return queue->count && transfer_at(queue, 0)->is_done ? transfer_at(queue, 0) : NULL;
}

void queue_pop(struct queue *queue)
{
    queue->first = (queue->first + 1) % DEPTH;
    queue->count--;
    queue->handed -= queue->handed > 0;
}

/* Takes back what the kernel has from this number on, the youngest first. */
static void take_back(struct engine *engine, struct queue *queue, unsigned first)
{
    struct io_event unused;
    engine_collect(engine);
    for (unsigned i = queue->handed; i-- > first;)
        if (!transfer_at(queue, i)->is_done)
            syscall(SYS_io_cancel, engine->context, &transfer_at(queue, i)->call, &unused);
    for (unsigned i = first; i < queue->handed; i++)
        while (!transfer_at(queue, i)->is_done)
            ask_kernel(engine, 1);
}

/* The number of the first one that was refused; where none was, how many the kernel has. */
static unsigned refused_at(const struct queue *queue)
{
    unsigned i = 0;
    while (i < queue->handed) {
        const struct transfer *transfer = &queue->ring[(queue->first + i) % DEPTH];
        if (transfer->is_done && transfer->result < 0 && may_pass((int)-transfer->result))
            break;
        i++;
    }
    return i;
}

int queue_refused(const struct queue *queue)
{
    unsigned at = refused_at(queue);
    return at < queue->handed ? (int)-queue->ring[(queue->first + at) % DEPTH].result : 0;
}

bool queue_ready_again(struct engine *engine, struct queue *queue)
{
    bool has_moved = false;
    unsigned first = refused_at(queue);
    take_back(engine, queue, first);
    for (unsigned i = first; i < queue->handed; i++) {
        has_moved |= transfer_at(queue, i)->result > 0;
        transfer_at(queue, i)->is_done = false;
    }
    queue->handed = first;
    return !has_moved;
}

void queue_cancel(struct engine *engine, struct queue *queue)
{
    if (queue->sends)
        take_back(engine, queue, 0);
    queue->count = queue->handed = 0; /* so the thread begins no other read */
    if (!queue->sends)
        reader_take_back(&engine->reader);
}

void queue_flush(struct queue *queue)
{
    ioctl(queue->file, FUNCTIONFS_FIFO_FLUSH); /* not every controller has one, or needs it */
}

/* FunctionFS halts an endpoint that is used against its direction, and answers EBADMSG. */
int queue_halt(struct queue *queue)
{
    uint8_t byte = 0;
    ssize_t used = queue->sends ? read(queue->file, &byte, 1) : write(queue->file, &byte, 1);
    if (used >= 0)
        return EINVAL;
    return errno == EBADMSG ? 0 : errno;
}

void queue_close(struct queue *queue)
{
    for (int i = 0; i < DEPTH; i++)
        free(queue->ring[i].bytes);
    if (queue->file > 0)
        close(queue->file);
    memset(queue, 0, sizeof *queue);
}

void engine_close(struct engine *engine)
{
    if (engine->context)
        syscall(SYS_io_destroy, engine->context);
    if (engine->ready > 0)
        close(engine->ready);
    memset(engine, 0, sizeof *engine);
}
