/* A thread that reads what the host sends, and then plays it: while it reads it holds no lock, else
 * it holds the one lock of the gadget, as does whoever else touches the disk or a queue.
 *
 * The kernel's asynchronous reads are not taken. FunctionFS ends each of them by a worker that
 * borrows the program's memory, and where the program is killed at that moment the worker has to
 * take down the memory, and with it the transfers that it alone could end: it waits for itself, and
 * the controller is stuck until the next boot. A read in a thread is ended by the kill. */
#ifndef FUNCTIONFS_READER_H
#define FUNCTIONFS_READER_H

#include <pthread.h>
#include <stdatomic.h>
#include <stdbool.h>

struct queue;

struct reader {
    pthread_t thread;
    pthread_mutex_t lock;
    pthread_cond_t change;
    struct queue *queue;
    void (*play)(void *player);
    void *player;
    atomic_uint arrivals; /* reads that have come back: whoever plays for long looks at it, and lets
                             the thread play */
    bool is_begun, is_ending, is_reading, is_taken_back;
    int refusal; /* why the system refused the last read, or 0 */
};

void reader_open(struct reader *reader);

/* Begins to read what is asked for in the queue, and calls `play`, with the lock, whenever a
 * transfer is done. The lock is held. False: errno tells why. */
bool reader_begin(struct reader *reader, struct queue *queue, void (*play)(void *player),
                  void *player);

/* Ends the thread. The lock is not held. */
void reader_end(struct reader *reader);

void reader_lock(struct reader *reader);
void reader_unlock(struct reader *reader);

/* A transfer is asked for. The lock is held. */
void reader_wake(struct reader *reader);

/* Takes back the read on its way, and waits until the kernel has let it go. The lock is held, and
 * let go meanwhile. */
void reader_take_back(struct reader *reader);

#endif
