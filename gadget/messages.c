/* Lines to standard error, which never hold the program up. */
#include "program.h"
#include <errno.h>
#include <fcntl.h>
#include <inttypes.h>
#include <pthread.h>
#include <stdarg.h>
#include <stdio.h>
#include <string.h>
#include <sys/socket.h>
#include <sys/stat.h>
#include <unistd.h>

/* OF_HOST: how many lines in a row tell what hosts do. PAUSE: milliseconds until one more may.
 * LINE: the longest line, which is less than what a pipe takes whole or not at all. */
enum { OF_HOST = 16, PAUSE = 60000, LINE = 1200 };

static struct {
    const char *name;
    int file;
    uint64_t dropped; /* lines that had no room, since the last one that had */
    bool says_all;
    uint64_t credit; /* how many lines may still tell what hosts do */
    uint64_t since;  /* when the last one was credited */
    uint64_t unsaid; /* how many did not, since the last that did */
} messages = { .name = "", .file = STDERR_FILENO, .credit = OF_HOST };

/* Lines come whole, of any thread. */
static pthread_mutex_t lock = PTHREAD_MUTEX_INITIALIZER;

/* A pipe or a terminal is opened once more, so that whoever else has it does not come to know of
 * O_NONBLOCK. */
void begin_messages(const char *name)
{
    struct stat what;
    messages.name = name;
    if (fstat(STDERR_FILENO, &what) || (!S_ISFIFO(what.st_mode) && !S_ISCHR(what.st_mode)))
        return;
    int file = open("/proc/self/fd/2", O_WRONLY | O_NONBLOCK | O_NOCTTY | O_CLOEXEC);
    if (file >= 0)
        messages.file = file;
}

/* Whether the line went out. The journal of systemd is a socket. */
static bool put_line(const char *text)
{
    char line[LINE];
    struct pollfd room = { messages.file, POLLOUT, 0 };
    int size = snprintf(line, sizeof line, "%s: %s\n", messages.name, text);
    size_t left = size < LINE ? (size_t)size : LINE - 1;
    line[left - 1] = '\n';
    ssize_t put = send(messages.file, line, left, MSG_DONTWAIT | MSG_NOSIGNAL);
    if (put < 0 && errno == ENOTSOCK && poll(&room, 1, 0) == 1)
        put = write(messages.file, line, left);
    return put == (ssize_t)left;
}

static void put_or_drop(const char *text)
{
    char told[64];
    snprintf(told, sizeof told, "%" PRIu64 " messages had no room, and are lost", messages.dropped);
    if (messages.dropped && put_line(told))
        messages.dropped = 0;
    if (messages.dropped || !put_line(text))
        messages.dropped++;
}

static void put_text(const char *format, va_list words)
{
    char text[LINE];
    vsnprintf(text, sizeof text, format, words);
    put_or_drop(text);
}

void say(const char *format, ...)
{
    va_list words;
    va_start(words, format);
    pthread_mutex_lock(&lock);
    put_text(format, words);
    pthread_mutex_unlock(&lock);
    va_end(words);
}

/* Whether one more line may tell what hosts do. */
static bool may_say(void)
{
    uint64_t time = now(), earned = (time - messages.since) / PAUSE;
    if (messages.says_all)
        return true;
    messages.since += earned * PAUSE;
    messages.credit = messages.credit + earned < OF_HOST ? messages.credit + earned : OF_HOST;
    if (messages.credit == 0)
        return false;
    messages.credit--;
    return true;
}

/* Tells first how many were left out. */
static void put_of_host(const char *format, va_list words)
{
    char text[128];
    snprintf(text, sizeof text,
             "%" PRIu64 " messages of what hosts did are left out (-v tells all)", messages.unsaid);
    if (messages.unsaid)
        put_or_drop(text);
    messages.unsaid = 0;
    put_text(format, words);
}

void say_of_host(const char *format, ...)
{
    va_list words;
    va_start(words, format);
    pthread_mutex_lock(&lock);
    if (may_say())
        put_of_host(format, words);
    else
        messages.unsaid++;
    pthread_mutex_unlock(&lock);
    va_end(words);
}

const char *program_name(void)
{
    return messages.name;
}

void say_all(void)
{
    messages.says_all = true;
}
