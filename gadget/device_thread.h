/* A thread that carries out calls, one behind the other, while others go on: and one lock, under
 * which the next call is taken, its end is told, and all else is done to what the calls are of. */
#ifndef DEVICE_THREAD_H
#define DEVICE_THREAD_H

#include <pthread.h>
#include <stdbool.h>

/* What the thread does: takes the next call, with the lock, false: none is wanted; carries it out,
 * without the lock; and tells that it has ended, with the lock. */
struct device_work {
    bool (*take)(void *of);
    void (*carry_out)(void *of);
    void (*end)(void *of);
};

/* What may be waited for: the end of a call, or that no other one is wanted behind it. */
enum { A_CALL = 1, ALL_CALLS = 2 };

/* `ended` can be read when something has ended that was waited for. */
struct device_thread {
    pthread_t thread;
    pthread_mutex_t lock;
    pthread_cond_t begins, rests;
    const struct device_work *work;
    void *of;
    int ended;
    unsigned awaited; /* what is waited for */
    bool is_begun, is_ending, is_busy;
};

/* Before the first call, and behind the last one. False: errno tells why. */
bool device_thread_open(struct device_thread *thread);
void device_thread_close(struct device_thread *thread);

/* Begins the thread, and the first call where one is wanted. False: errno tells why. */
bool device_thread_begin(struct device_thread *thread, const struct device_work *work, void *of);

/* Ends it behind the call that is under way, where it has begun. The lock is not held. */
void device_thread_end(struct device_thread *thread);

/* The lock. When it is let go, and no call is under way, the next one begins where one is wanted.
 */
void device_thread_lock(struct device_thread *thread);
void device_thread_unlock(struct device_thread *thread);

/* `ended` is to tell A_CALL or ALL_CALLS, once. The lock is held. */
void device_thread_await(struct device_thread *thread, unsigned what);

/* Waits until no call is under way. The lock is not held, here and below. */
void device_thread_rest(struct device_thread *thread);

/* Lets `ended` be read no longer. */
void device_thread_noted(struct device_thread *thread);

#endif
