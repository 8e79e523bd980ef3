/* What a host knows of a command that is pending: its bytes were taken, and the device works for
 * it. A class reset drops it, and a WRITE or a FLUSH that the device refuses may end it. */
#include "behind.h"

/* The write cache before the last command, whether a host has to ask for it, and whether it then
 * takes whatever it is told; and the WRITE that a reset may have dropped. */
static struct {
    bool was_cached, asks, is_unknown;
    struct command again;
} last;

bool is_taken(const struct host *host)
{
    return host->stage == DATA_IN || host->stage == STATUS;
}

bool may_be_pending(const struct host *host)
{
    const struct command *command = &host->command;
    return is_taken(host) && (reads(command) || writes(command) || host->promises);
}

void note_reset(const struct host *host)
{
    if (host->stage != STATUS)
        return;
    if (writes(&host->command))
        last.again = host->command;
    if (host->command.code == 0x15)
        last.asks = last.is_unknown = true;
}

void note_taken(const struct host *host, bool is_cached)
{
    last.was_cached = is_cached;
    if (writes(&host->command))
        last.again.code = 0;
}

void forget_last(void)
{
    last.asks = last.is_unknown = false;
    last.again.code = 0;
}

bool is_unsure(void)
{
    return last.again.code != 0;
}

bool is_asked(bool has_sense, struct command *command)
{
    *command = (struct command){ .code = has_sense ? 0x03 : 0x1A };
    if (!has_sense && last.again.code)
        *command = last.again;
    return has_sense || last.asks || last.again.code;
}

bool judge_cache(const struct host *host, bool *is_cached)
{
    bool is_told = host->data[6] & 4, is_same = is_told == *is_cached || last.is_unknown;
    last.asks = last.is_unknown = false;
    *is_cached = is_told;
    return is_same || fails("a MODE SELECT that failed has changed the write cache");
}

void note_failure(const struct host *host, bool *is_cached)
{
    if (host->command.code != 0x15)
        return;
    *is_cached = last.was_cached;
    last.asks = true;
}
