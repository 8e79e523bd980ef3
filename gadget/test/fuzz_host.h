/* The host of fuzz.c: what it sends, what it waits for, and how it judges the answers. */
#ifndef FUZZ_HOST_H
#define FUZZ_HOST_H

#include "../usbip.h"

/* Where decisions come from: bytes, or a row of numbers of this seed. */
struct source {
    const uint8_t *bytes;
    size_t left;
    bool is_bounded;
    uint64_t seed;
};

uint32_t below(struct source *source, uint32_t most);
bool is_out(const struct source *source);

/* Ends the program with this text, where it does not hold. */
void judge(bool holds, const char *what);

extern struct judged {
    unsigned long answers, refused;
} judged;

/* A transfer, or an unlinking, that is not answered yet. */
struct asked {
    uint32_t command, number, endpoint, length, flags, victim;
    bool in;
};

enum { ASKED_MOST = WAITING_MOST + 8 };

struct host {
    int socket;
    bool is_attached, is_slow;
    uint32_t number, tag;
    struct asked asked[ASKED_MOST]; /* the oldest first */
    size_t count, bytes;
    uint8_t answer[HEAD + TRANSFER_MOST];
    size_t have;
};

void host_forget(struct host *host);

/* The next message, with its bytes. Answers how long it is. */
size_t host_message(struct source *source, struct host *host, uint8_t *bytes);

/* One that is wrong. What is not answered has to wait for the host, and not for the device. */
size_t host_wrong_message(struct source *source, struct host *host, uint8_t *bytes);

/* A right message is sent: its answer is waited for. */
void host_sent(struct host *host, const uint8_t *head);

/* Reads and judges the answers that are there. False: the server has ended the connection. */
bool host_read(struct host *host);

/* A READ (28h) or a forced WRITE (2Ah) of blocks from 0 on, without USB/IP. */
bool transact(struct disk *disk, uint8_t operation, uint8_t *blocks, uint32_t count);

#endif
