/* The thread that reads what the host sends. */
#include "functionfs_reader.h"
#include "functionfs_queue.h"
#include "program.h"
#include <errno.h>
#include <signal.h>
#include <string.h>
#include <time.h>
#include <unistd.h>

/* NUDGE: the signal that ends a read. PAUSE: nanoseconds before a refused read is tried again, and
 * between two nudges, since one that comes before the read begins is lost. */
#define NUDGE SIGRTMIN
enum { PAUSE = 1000000 };

static void on_nudge(int number)
{
    (void)number;
}

void reader_open(struct reader *reader)
{
    pthread_condattr_t words;
    pthread_condattr_init(&words);
    pthread_condattr_setclock(&words, CLOCK_MONOTONIC);
    pthread_mutex_init(&reader->lock, NULL);
    pthread_cond_init(&reader->change, &words);
    pthread_condattr_destroy(&words);
}

void reader_lock(struct reader *reader)
{
    pthread_mutex_lock(&reader->lock);
}

void reader_unlock(struct reader *reader)
{
    pthread_mutex_unlock(&reader->lock);
}

/* Waits a little, or until something changes. The lock is held, and let go meanwhile. */
static void pause_a_little(struct reader *reader)
{
    struct timespec until;
    clock_gettime(CLOCK_MONOTONIC, &until);
    until.tv_nsec += PAUSE;
    if (until.tv_nsec >= 1000000000) {
        until.tv_sec++;
        until.tv_nsec -= 1000000000;
    }
    pthread_cond_timedwait(&reader->change, &reader->lock, &until);
}

/* A read that the system refused is tried again, which is said once for each time that it begins
 * to. */
static void try_again(struct reader *reader, int refusal)
{
    if (refusal != EINTR && reader->refusal != refusal)
        say_of_host("a read of what the host sends was refused and is tried again: %s",
                    strerror(refusal));
    reader->refusal = refusal;
    pause_a_little(reader);
}

/* Reads one transfer, and lets the lock go meanwhile. False: nothing came of it. */
static bool read_transfer(struct reader *reader, struct transfer *transfer)
{
    int file = reader->queue->file;
    reader->is_reading = true;
    reader->is_taken_back = false;
    reader_unlock(reader);
    ssize_t result = read(file, transfer->bytes, transfer->size);
    int refusal = result < 0 ? errno : 0;
    atomic_fetch_add(&reader->arrivals, 1);
    reader_lock(reader);
    reader->is_reading = false;
    if (reader->is_taken_back) {
        pthread_cond_broadcast(&reader->change);
        return false;
    }
    if (refusal == EINTR || refusal == EAGAIN || refusal == ENOMEM) {
        try_again(reader, refusal);
        return false;
    }
    reader->refusal = 0;
    transfer->result = refusal ? -refusal : result;
    transfer->is_done = true;
    return true;
}

static void *read_on(void *of)
{
    struct reader *reader = of;
    reader_lock(reader);
    while (!reader->is_ending) {
        struct transfer *transfer = queue_open_transfer(reader->queue);
        if (!transfer)
            pthread_cond_wait(&reader->change, &reader->lock);
        else if (read_transfer(reader, transfer))
            reader->play(reader->player);
    }
    reader_unlock(reader);
    return NULL;
}

/* The thread lets in no signal but the nudge: all others are for the one that waits for events. */
bool reader_begin(struct reader *reader, struct queue *queue, void (*play)(void *player),
                  void *player)
{
    struct sigaction action;
    sigset_t others, before;
    memset(&action, 0, sizeof action);
    action.sa_handler = on_nudge;
    sigfillset(&others);
    sigdelset(&others, NUDGE);
    reader->queue = queue;
    reader->play = play;
    reader->player = player;
    if (sigaction(NUDGE, &action, NULL) || pthread_sigmask(SIG_SETMASK, &others, &before))
        return false;
    errno = pthread_create(&reader->thread, NULL, read_on, reader);
    reader->is_begun = errno == 0;
    pthread_sigmask(SIG_SETMASK, &before, NULL);
    return reader->is_begun;
}

void reader_wake(struct reader *reader)
{
    pthread_cond_signal(&reader->change);
}

/* It never waits for itself: while it plays it does not read. */
void reader_take_back(struct reader *reader)
{
    while (reader->is_reading) {
        reader->is_taken_back = true;
        pthread_kill(reader->thread, NUDGE);
        pause_a_little(reader);
    }
}

void reader_end(struct reader *reader)
{
    if (!reader->is_begun)
        return;
    reader_lock(reader);
    reader->is_ending = true;
    reader_take_back(reader);
    pthread_cond_broadcast(&reader->change);
    reader_unlock(reader);
    pthread_join(reader->thread, NULL);
    reader->is_begun = false;
}
