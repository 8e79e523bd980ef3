/* Clients of usbdisk-usbip that keep no rule: hostile PORT MESSAGES [SEED]. Messages are malformed,
 * short, huge, or right ones at the wrong moment. WRITEs are to blocks from 1000 on. Ends with 0
 * where the server took them all and still listens. */
#define _GNU_SOURCE
#include <arpa/inet.h>
#include <netinet/tcp.h>
#include <stdbool.h>
#include <stdint.h>
#include <stdio.h>
#include <stdlib.h>
#include <string.h>
#include <sys/socket.h>
#include <unistd.h>

enum { HEAD = 48, MOST = 8192, DEVICE = 0x00010002 };

struct stranger {
    int socket;
    bool is_attached;
    uint64_t seed;
    uint32_t number;
    uint16_t port;
    unsigned long messages, requests, attachments;
};

static uint32_t below(struct stranger *it, uint32_t most)
{
    it->seed ^= it->seed << 13;
    it->seed ^= it->seed >> 7;
    it->seed ^= it->seed << 17;
    return (uint32_t)(it->seed >> 32) % most;
}

static void fill(struct stranger *it, uint8_t *bytes, size_t size)
{
    for (size_t i = 0; i < size; i++)
        bytes[i] = (uint8_t)below(it, 256);
}

static void put(uint8_t *at, uint32_t number)
{
    number = htonl(number);
    memcpy(at, &number, 4);
}

static void leave(struct stranger *it)
{
    if (it->socket >= 0)
        close(it->socket);
    it->socket = -1;
    it->is_attached = false;
}

static void come(struct stranger *it)
{
    struct sockaddr_in name = { .sin_family = AF_INET, .sin_port = htons(it->port) };
    struct timeval most = { 20, 0 };
    int one = 1;
    leave(it);
    name.sin_addr.s_addr = htonl(INADDR_LOOPBACK);
    it->socket = socket(AF_INET, SOCK_STREAM, 0);
    setsockopt(it->socket, SOL_SOCKET, SO_RCVTIMEO, &most, sizeof most);
    setsockopt(it->socket, SOL_SOCKET, SO_SNDTIMEO, &most, sizeof most);
    setsockopt(it->socket, IPPROTO_TCP, TCP_NODELAY, &one, sizeof one);
    if (it->socket >= 0 && connect(it->socket, (struct sockaddr *)&name, sizeof name) == 0)
        return;
    perror("hostile: the server does not listen");
    exit(EXIT_FAILURE);
}

/* Sends what is to be sent. A connection that the server ended is left. */
static void hand_over(struct stranger *it, const uint8_t *bytes, size_t size)
{
    while (size) {
        ssize_t sent = send(it->socket, bytes, size, MSG_NOSIGNAL);
        if (sent <= 0) {
            leave(it);
            return;
        }
        bytes += sent;
        size -= (size_t)sent;
    }
}

/* Lets go of what was answered. */
static void drain(struct stranger *it)
{
    uint8_t answers[1 << 16];
    ssize_t got = it->socket < 0 ? -1 : 1;
    while (got > 0)
        got = recv(it->socket, answers, sizeof answers, MSG_DONTWAIT);
    if (got == 0)
        leave(it);
}

static void import(struct stranger *it)
{
    uint8_t request[40] = { 0x01, 0x11, 0x80, 0x03, 0, 0, 0, 0, '1', '-', '1' }, reply[320];
    come(it);
    hand_over(it, request, sizeof request);
    if (it->socket < 0)
        return;
    it->is_attached = recv(it->socket, reply, 8, MSG_WAITALL) == 8 && reply[7] == 0 &&
                      recv(it->socket, reply, 312, MSG_WAITALL) == 312;
    it->attachments += it->is_attached;
    if (!it->is_attached)
        leave(it);
}

/* A request of a client that is not attached: nonsense, or a right one that is cut off or at which
 * nobody looks. */
static void request(struct stranger *it)
{
    uint8_t bytes[256];
    size_t size = below(it, sizeof bytes + 1);
    come(it);
    fill(it, bytes, sizeof bytes);
    if (below(it, 4)) {
        put(bytes, 0x01118003 + 2 * below(it, 2));
        memcpy(bytes + 8, "1-1", 4);
    }
    if (below(it, 8) == 0)
        size = 40;
    hand_over(it, bytes, size);
    it->requests++;
    if (below(it, 2))
        leave(it);
}

static void put_head(struct stranger *it, uint8_t *head, uint32_t command, bool in,
                     uint32_t endpoint, uint32_t length)
{
    memset(head, 0, HEAD);
    put(head, command);
    put(head + 4, ++it->number);
    put(head + 8, DEVICE);
    put(head + 12, in);
    put(head + 16, endpoint);
    put(head + 24, length);
}

/* A wrapper, right or nearly so, with any command. */
static size_t put_wrapper(struct stranger *it, uint8_t *bytes)
{
    static const uint8_t commands[] = { 0x00, 0x03, 0x12, 0x1A, 0x1E, 0x25, 0x28,
                                        0x2A, 0x35, 0x5A, 0x88, 0x8A, 0x91, 0x9E };
    fill(it, bytes, 31);
    memcpy(bytes, "USBC", 4);
    put(bytes + 8, htonl(below(it, 4) * 512));
    bytes[13] = 0;
    bytes[14] = (uint8_t)(1 + below(it, 16));
    bytes[15] = commands[below(it, sizeof commands)];
    memset(bytes + 17, 0, 12);
    put(bytes + (bytes[15] >= 0x88 ? 21 : 17), 1000 + below(it, 1100));
    bytes[bytes[15] >= 0x88 ? 28 : 23] = (uint8_t)below(it, 5);
    return 31;
}

/* A right transfer. */
static size_t put_transfer(struct stranger *it, uint8_t *bytes)
{
    uint32_t length;
    switch (below(it, 5)) {
    case 0:
        put_head(it, bytes, 1, true, 1, below(it, 4) ? below(it, 2000) : below(it, 1 << 20));
        return HEAD;
    case 1:
        length = below(it, 4) ? 512 * below(it, 4) : below(it, 2000);
        put_head(it, bytes, 1, false, 2, length);
        fill(it, bytes + HEAD, length);
        return HEAD + length;
    case 2:
        put_head(it, bytes, 1, below(it, 2), 0, 0);
        fill(it, bytes + 40, 8);
        put(bytes + 24, bytes[12 + 3] ? below(it, 1 << 17) : 0);
        return HEAD;
    case 3:
        put_head(it, bytes, 2, false, 0, 0);
        put(bytes + 20, it->number - below(it, 8));
        return HEAD;
    default:
        length = (uint32_t)put_wrapper(it, bytes + HEAD);
        put_head(it, bytes, 1, false, 2, length);
        return HEAD + length;
    }
}

/* Requests that clear what halts the disk, so that others get further. */
static size_t put_recovery(struct stranger *it, uint8_t *bytes)
{
    static const uint8_t setups[4][8] = {
        { 0x21, 0xFF }, { 2, 1, 0, 0, 0x81 }, { 2, 1, 0, 0, 2 }, { 0, 9, 1 }
    };
    for (int i = 0; i < 4; i++) {
        put_head(it, bytes + i * HEAD, 1, false, 0, 0);
        memcpy(bytes + i * HEAD + 40, setups[i], 8);
    }
    return 4 * HEAD;
}

/* A message of an attached client: right ones, and such with a field that is not. */
static void message(struct stranger *it)
{
    uint8_t bytes[MOST];
    uint32_t kind = below(it, 40);
    size_t size = kind < 8 ? put_recovery(it, bytes) : put_transfer(it, bytes);
    if (kind >= 36)
        put(bytes + 4 * below(it, 10),
            below(it, 2) ? below(it, 1u << 31) * 2 : 1u << below(it, 32));
    if (kind == 35)
        size = below(it, (uint32_t)size);
    if (kind == 34)
        fill(it, bytes, HEAD);
    hand_over(it, bytes, size);
    it->messages += it->socket >= 0;
    drain(it);
    if (kind == 33 || kind == 35)
        leave(it);
}

int main(int count, char **words)
{
    struct stranger it = { .socket = -1, .seed = 88172645463325252u };
    if (count < 3)
        return 2;
    it.port = (uint16_t)atoi(words[1]);
    unsigned long most = strtoul(words[2], NULL, 10);
    it.seed += count > 3 ? strtoul(words[3], NULL, 10) * 0x9E3779B97F4A7C15u : 0;
    while (it.messages < most) {
        if (it.is_attached && it.socket >= 0)
            message(&it);
        else if (below(&it, 4) == 0)
            request(&it);
        else
            import(&it);
    }
    come(&it);
    leave(&it);
    printf("%lu messages of %lu attached hosts, %lu other requests\n", it.messages, it.attachments,
           it.requests);
    return EXIT_SUCCESS;
}
