/* A thread that carries out calls, one behind the other. */
#include "device_thread.h"
#include <errno.h>
#include <signal.h>
#include <stdint.h>
#include <string.h>
#include <sys/eventfd.h>
#include <unistd.h>

bool device_thread_open(struct device_thread *thread)
{
    memset(thread, 0, sizeof *thread);
    pthread_mutex_init(&thread->lock, NULL);
    pthread_cond_init(&thread->begins, NULL);
    pthread_cond_init(&thread->rests, NULL);
    thread->ended = eventfd(0, EFD_CLOEXEC | EFD_NONBLOCK);
    return thread->ended >= 0;
}

void device_thread_close(struct device_thread *thread)
{
    if (thread->ended >= 0)
        close(thread->ended);
    thread->ended = -1;
    pthread_cond_destroy(&thread->rests);
    pthread_cond_destroy(&thread->begins);
    pthread_mutex_destroy(&thread->lock);
}

/* Waits for a call to carry out. False: the thread is to end. */
static bool wait_for_call(struct device_thread *thread)
{
    pthread_mutex_lock(&thread->lock);
    while (!thread->is_busy && !thread->is_ending)
        pthread_cond_wait(&thread->begins, &thread->lock);
    bool goes_on = !thread->is_ending;
    pthread_mutex_unlock(&thread->lock);
    return goes_on;
}

/* A call has ended. Who waits for that is told without the lock, which it wants first. */
static void end_call(struct device_thread *thread)
{
    uint64_t once = 1;
    pthread_mutex_lock(&thread->lock);
    thread->work->end(thread->of);
    thread->is_busy = thread->work->take(thread->of);
    bool rests = !thread->is_busy;
    unsigned told = thread->awaited & (rests ? A_CALL | ALL_CALLS : A_CALL);
    thread->awaited &= ~told;
    pthread_mutex_unlock(&thread->lock);
    if (rests)
        pthread_cond_broadcast(&thread->rests);
    if (told && write(thread->ended, &once, sizeof once) < 0)
        return; /* it can be read as it is */
}

static void *work(void *of)
{
    struct device_thread *thread = of;
    while (wait_for_call(thread)) {
        thread->work->carry_out(thread->of);
        end_call(thread);
    }
    return NULL;
}

/* The thread lets in no signal: they are for the one that waits for events. When the lock is let go
 * the first call begins. */
bool device_thread_begin(struct device_thread *thread, const struct device_work *work_of, void *of)
{
    sigset_t all, before;
    sigfillset(&all);
    thread->work = work_of;
    thread->of = of;
    thread->is_ending = thread->is_busy = false;
    if (pthread_sigmask(SIG_SETMASK, &all, &before))
        return false;
    errno = pthread_create(&thread->thread, NULL, work, thread);
    thread->is_begun = errno == 0;
    pthread_sigmask(SIG_SETMASK, &before, NULL);
    device_thread_lock(thread);
    device_thread_unlock(thread);
    return thread->is_begun;
}

void device_thread_end(struct device_thread *thread)
{
    if (!thread->is_begun)
        return;
    pthread_mutex_lock(&thread->lock);
    thread->is_ending = true;
    pthread_mutex_unlock(&thread->lock);
    pthread_cond_signal(&thread->begins);
    pthread_join(thread->thread, NULL);
    thread->is_begun = false;
}

void device_thread_lock(struct device_thread *thread)
{
    pthread_mutex_lock(&thread->lock);
}

/* The thread is woken without the lock, which it wants first. */
void device_thread_unlock(struct device_thread *thread)
{
    bool begins = thread->is_begun && !thread->is_busy && thread->work->take(thread->of);
    thread->is_busy = thread->is_busy || begins;
    pthread_mutex_unlock(&thread->lock);
    if (begins)
        pthread_cond_signal(&thread->begins);
}

void device_thread_await(struct device_thread *thread, unsigned what)
{
    thread->awaited |= what;
}

void device_thread_rest(struct device_thread *thread)
{
    pthread_mutex_lock(&thread->lock);
    while (thread->is_begun && thread->is_busy)
        pthread_cond_wait(&thread->rests, &thread->lock);
    pthread_mutex_unlock(&thread->lock);
}

void device_thread_noted(struct device_thread *thread)
{
    uint64_t times;
    if (read(thread->ended, &times, sizeof times) < 0)
        return; /* it could not be read as it was */
}
