/* What both gadgets share as programs. */
#include "program.h"
#include <errno.h>
#include <fcntl.h>
#include <signal.h>
#include <stddef.h>
#include <stdlib.h>
#include <string.h>
#include <sys/socket.h>
#include <sys/un.h>
#include <time.h>
#include <unistd.h>

/* After so many waits in a row that let no signal in, since something was ready each time, signals
 * are looked for. */
enum { BUSY = 64 };

/* A signal's handler knows of no struct. */
static volatile sig_atomic_t asked_to_end, asked_to_count;
static sigset_t caught, while_waiting;
static unsigned busy;

static void on_signal(int number)
{
    if (number == SIGUSR1)
        asked_to_count = 1;
    else
        asked_to_end = 1;
}

static bool catch_signal(int number)
{
    struct sigaction action;
    memset(&action, 0, sizeof action);
    action.sa_handler = on_signal;
    sigaddset(&caught, number);
    return sigaction(number, &action, NULL) == 0;
}

static bool is_ignored(int number)
{
    struct sigaction action;
    return sigaction(number, NULL, &action) == 0 && action.sa_handler == SIG_IGN;
}

static bool catch_signals(void)
{
    static const int numbers[] = { SIGTERM, SIGINT, SIGQUIT, SIGUSR1 };
    sigemptyset(&caught);
    for (size_t i = 0; i < sizeof numbers / sizeof *numbers; i++)
        if (!catch_signal(numbers[i]))
            return false;
    if (!is_ignored(SIGHUP) && !catch_signal(SIGHUP))
        return false;
    if (sigprocmask(SIG_BLOCK, &caught, &while_waiting))
        return false;
    for (int number = 1; number <= SIGTERM; number++)
        if (sigismember(&caught, number) == 1)
            sigdelset(&while_waiting, number);
    return true;
}

static bool open_streams(void)
{
    for (int stream = 0; stream <= 2; stream++)
        if (fcntl(stream, F_GETFD) < 0 && open("/dev/null", O_RDWR) != stream)
            return false;
    return true;
}

bool program_begin(const char *name)
{
    if (!open_streams())
        return false;
    begin_messages(name);
    return signal(SIGPIPE, SIG_IGN) != SIG_ERR && catch_signals();
}

uint64_t now(void)
{
    struct timespec time;
    clock_gettime(CLOCK_MONOTONIC, &time);
    return (uint64_t)time.tv_sec * 1000 + (uint64_t)time.tv_nsec / 1000000;
}

int wait_for(struct pollfd *files, unsigned count, int milliseconds)
{
    struct timespec most = { milliseconds / 1000, milliseconds % 1000 * 1000000L };
    int ready = ppoll(files, count, milliseconds < 0 ? NULL : &most, &while_waiting);
    busy = ready > 0 ? busy + 1 : 0;
    if (ready > 0)
        return ready;
    for (unsigned i = 0; i < count; i++)
        files[i].revents = 0;
    return 0;
}

/* A signal that waits counts too: where something is always ready, wait_for lets none in. */
static void look_for_signals(void)
{
    static const struct timespec no_time;
    int number;
    if (busy < BUSY)
        return;
    busy = 0;
    while ((number = sigtimedwait(&caught, NULL, &no_time)) > 0)
        on_signal(number);
}

bool is_asked_to_end(void)
{
    look_for_signals();
    return asked_to_end;
}

bool is_asked_to_count(void)
{
    bool is_asked = asked_to_count;
    asked_to_count = 0;
    return is_asked;
}

/* A name that begins with @ is one of the abstract kind. */
void notify_manager(const char *state)
{
    struct sockaddr_un manager = { .sun_family = AF_UNIX };
    const char *name = getenv("NOTIFY_SOCKET");
    size_t length = name ? strlen(name) : 0;
    if (length == 0 || length >= sizeof manager.sun_path)
        return;
    memcpy(manager.sun_path, name, length);
    if (*name == '@')
        manager.sun_path[0] = 0;
    int file = socket(AF_UNIX, SOCK_DGRAM | SOCK_CLOEXEC, 0);
    if (file < 0)
        return;
    length += offsetof(struct sockaddr_un, sun_path);
    if (sendto(file, state, strlen(state), MSG_NOSIGNAL, (struct sockaddr *)&manager,
               (socklen_t)length) < 0)
        say("the service manager at %s was not told %s: %s", name, state, strerror(errno));
    close(file);
}

bool read_number(const char *text, uint64_t least, uint64_t most, uint64_t *number)
{
    char *end;
    errno = 0;
    if (*text < '0' || *text > '9')
        return false;
    *number = strtoull(text, &end, 10);
    return !errno && !*end && *number >= least && *number <= most;
}
