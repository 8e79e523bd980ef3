/* What both gadgets share as programs: standard streams, messages, signals, and the service
 * manager. */
#ifndef PROGRAM_H
#define PROGRAM_H

#include <poll.h>
#include <stdbool.h>
#include <stdint.h>

/* Opens the null device in place of standard streams that are closed, so that no image takes their
 * number, ignores SIGPIPE, and lets SIGTERM, SIGINT, SIGQUIT, SIGHUP and SIGUSR1 come in wait_for
 * alone. A SIGHUP that is ignored stays so, as `nohup` has it. `name` is put before each message.
 * False: a call of the system failed. */
bool program_begin(const char *name);

/* The name that program_begin was handed. */
const char *program_name(void);

/* A line to standard error. It never waits: where there is no room it is dropped, and the next line
 * that has room tells how many were. */
void say(const char *format, ...) __attribute__((format(printf, 1, 2)));

/* The same, of what hosts can do as often as they like: 16 lines in a row and one a minute from
 * then on, which tells how many were left out. After say_all all of them. */
void say_of_host(const char *format, ...) __attribute__((format(printf, 1, 2)));

/* Says from now on all that hosts do, as -v asks. */
void say_all(void);

/* Milliseconds of a clock that nobody sets. */
uint64_t now(void);

/* Waits as poll does, at most `milliseconds` (-1: for ever). A signal ends it. Answers how many are
 * ready. */
int wait_for(struct pollfd *files, unsigned count, int milliseconds);

/* Whether SIGTERM, SIGINT, SIGQUIT or SIGHUP came. */
bool is_asked_to_end(void);

/* Whether SIGUSR1, which asks for the counters, came since the last call. */
bool is_asked_to_count(void);

/* Tells the service manager of systemd a state as sd_notify has it, such as READY=1; where none is,
 * nothing. */
void notify_manager(const char *state);

/* A decimal number from `least` to `most` and nothing else; else false. */
bool read_number(const char *text, uint64_t least, uint64_t most, uint64_t *number);

/* messages.c: program_begin calls it. */
void begin_messages(const char *name);

#endif
