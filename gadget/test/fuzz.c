/* What strangers send to usbdisk-usbip, in one process with its server, clients, device and
 * messages:
 *
 *     fuzz IMAGE MESSAGES [SEED]
 *
 * Hosts speak USB/IP over sockets of this machine: right messages in any order, such with one field
 * that is wrong, some that are cut off, and hosts that read late. Each answer is judged: it belongs
 * to a transfer that was sent and is not answered yet, in the order of its endpoint, with a status
 * and a length that the transfer allows. A wrong message ends its connection, and no right one
 * does. The server's counts of what waits are those of the host. WRITEs go to blocks from 1000 on;
 * at the end the blocks before them are as they were.
 *
 * With -DLIBFUZZER the words come from libFuzzer, and the image from $FUZZ_IMAGE. */
#include "../program.h"
#include "../usbip.h"
#include "fuzz_host.h"
#include <errno.h>
#include <stdio.h>
#include <stdlib.h>
#include <string.h>
#include <sys/socket.h>
#include <sys/un.h>
#include <unistd.h>

enum { KNOWN = 8, STRANGERS = 20 };

static struct server server;
static struct sockaddr_un address;
static socklen_t address_size = sizeof address;
static uint8_t known[KNOWN * 512];

static struct client *attached_client(void)
{
    struct client *found = NULL;
    for (int i = 0; i < CLIENTS; i++)
        if (server.clients[i].socket >= 0 && server.clients[i].is_attached) {
            judge(!found, "two clients are attached");
            found = &server.clients[i];
        }
    judge(server.is_attached == (found != NULL), "the server knows of the attached client");
    return found;
}

static void count_asking(void)
{
    int asking = 0;
    for (int i = 0; i < CLIENTS; i++)
        asking += server.clients[i].socket >= 0 && !server.clients[i].is_attached;
    judge(asking < CLIENTS, "a place is kept for the one that attaches");
}

static size_t length_of(const struct transfer *at, size_t *bytes)
{
    size_t count = 0;
    for (; at; at = at->next) {
        *bytes += at->size;
        count++;
    }
    return count;
}

/* What the client's lists hold is what it has counted. */
static void judge_lists(const struct client *client)
{
    size_t bytes = 0,
           count = length_of(client->coming, &bytes) + length_of(client->answered, &bytes);
    for (int endpoint = CONTROL; endpoint <= BULK_OUT; endpoint++)
        count += length_of(client->waiting[endpoint], &bytes);
    judge(count == client->count && bytes == client->bytes,
          "the client's counts are those of its lists");
    judge(count <= WAITING_MOST + 1 && bytes <= WAITING_BYTES_MOST, "what waits is bounded");
}

static void turn(void)
{
    server_turn(&server, false);
    struct client *client = attached_client();
    if (client)
        judge_lists(client);
    count_asking();
}

/* Gives bytes to the server, which takes turns meanwhile. False: it has ended the connection. */
static bool hand_over(struct host *host, const uint8_t *bytes, size_t size)
{
    while (size) {
        ssize_t sent = send(host->socket, bytes, size, MSG_DONTWAIT | MSG_NOSIGNAL);
        if (sent < 0 && errno != EAGAIN)
            return false;
        bytes += sent > 0 ? sent : 0;
        size -= sent > 0 ? (size_t)sent : 0;
        turn();
        if (sent < 0 && !host_read(host))
            return false;
    }
    return true;
}

/* Reads all answers, until none is left. False: the server has ended the connection. */
static bool settle(struct host *host)
{
    struct client *client;
    bool goes_on = host_read(host);
    while (goes_on && (client = attached_client()) && client->answered) {
        turn();
        goes_on = host_read(host);
    }
    return goes_on;
}

/* How many calls the device was asked for, where it rests. */
static uint64_t calls_when_at_rest(void)
{
    disk_rest(&server.disk);
    const struct counters *counters = &server.disk.counters;
    return counters->reads + counters->writes + counters->flushes;
}

/* The device rests, and all answers are read: what is not answered waits for the host. */
static void rest(struct host *host)
{
    struct client *client = attached_client();
    const char *cause;
    bool goes_on = true;
    uint64_t before;
    do {
        before = calls_when_at_rest();
        goes_on = goes_on && serve_waiting(client, &server.device, &cause) == GOES_ON;
    } while (calls_when_at_rest() != before);
    judge(goes_on && settle(host), "a host that waits is not let go");
}

static int come(void)
{
    int file = socket(AF_UNIX, SOCK_STREAM | SOCK_CLOEXEC, 0);
    judge(file >= 0 && connect(file, (struct sockaddr *)&address, address_size) == 0,
          "the server listens");
    return file;
}

static void leave(struct host *host)
{
    if (host->socket >= 0) {
        close(host->socket);
        turn();
    }
    judge(!host->is_attached || !attached_client(), "a host that went is let go");
    host_forget(host);
}

/* Judges what comes for a request. Answers the status of an import; or -1. */
static int judge_request(int file, const uint8_t *bytes, size_t size, bool was_attached)
{
    uint8_t reply[512];
    ssize_t got = recv(file, reply, sizeof reply, MSG_DONTWAIT);
    bool is_ours = bytes[0] == 1 && bytes[1] == 0x11 && bytes[2] == 0x80;
    bool is_import = is_ours && bytes[3] == 3 && size == 40;
    int status = was_attached ? DEVICE_BUSY : 0;
    if (is_ours && bytes[3] == 5)
        judge(got == REPLY_MOST && reply[3] == 5 && reply[11] == 1, "a list is answered");
    else if (!is_import)
        judge(got <= 0, "what is no request is not answered");
    if (!is_import)
        return -1;
    if (memcmp(bytes + 8, "1-1", 4))
        status = NO_DEVICE;
    judge(got == (status ? 8 : 8 + DEVICE) && reply[7] == status, "an import is answered");
    return status;
}

/* Asks as one that is not attached. Answers the connection of an import, or -1. */
static int request(struct source *source, unsigned code, bool is_right)
{
    uint8_t bytes[40] = {
        0x01, 0x11, (uint8_t)(code >> 8), (uint8_t)code, 0, 0, 0, 0, '1', '-', '1'
    };
    bool was_attached = server.is_attached;
    int file = come();
    size_t size = code == ASKS_LIST ? 8 : 40;
    size_t wrong = below(source, 2) ? below(source, 4) : 8 + below(source, 4);
    if (!is_right)
        bytes[wrong] ^= (uint8_t)(1 + below(source, 255));
    judge(send(file, bytes, size, MSG_NOSIGNAL) == (ssize_t)size, "a request is taken");
    turn();
    turn();
    if (judge_request(file, bytes, size, was_attached) == 0)
        return file;
    close(file);
    turn();
    return -1;
}

static void attach(struct source *source, struct host *host)
{
    int small = 4096;
    host_forget(host);
    host->socket = request(source, ASKS_IMPORT, true);
    judge(host->socket >= 0, "the device is free");
    host->is_attached = true;
    host->is_slow = below(source, 4) == 0;
    if (host->is_slow)
        setsockopt(host->socket, SOL_SOCKET, SO_RCVBUF, &small, sizeof small);
}

/* Strangers who say nothing, or a part of a request, and stay. */
static void crowd(struct source *source)
{
    static int strangers[STRANGERS];
    static bool is_there;
    int i = (int)below(source, STRANGERS);
    const uint8_t half[] = { 0x01, 0x11, 0x80, 0x03, 0 };
    for (int k = 0; !is_there && k < STRANGERS; k++)
        strangers[k] = -1;
    is_there = true;
    if (strangers[i] >= 0)
        close(strangers[i]);
    strangers[i] = come();
    send(strangers[i], half, below(source, sizeof half + 1), MSG_NOSIGNAL);
    turn();
}

/* What the attached host sends next. */
static size_t make_message(struct source *source, struct host *host, uint8_t *bytes, bool is_right)
{
    if (is_right)
        return host_message(source, host, bytes);
    rest(host);
    return host_wrong_message(source, host, bytes);
}

/* One message of the attached host, and what it does to its connection. */
static void play_message(struct source *source, struct host *host)
{
    static uint8_t bytes[HEAD + TRANSFER_MOST];
    bool is_right = below(source, 50) > 0;
    size_t size = make_message(source, host, bytes, is_right);
    if (below(source, 64) == 0) {
        hand_over(host, bytes, below(source, (uint32_t)size));
        leave(host);
        return;
    }
    bool goes_on = hand_over(host, bytes, size);
    if (is_right)
        host_sent(host, bytes);
    if (goes_on && (!host->is_slow || below(source, 8) == 0 || !is_right))
        goes_on = settle(host);
    if (!goes_on || !is_right) {
        judge(!is_right, "a right message ends no connection");
        judge(!goes_on, "a wrong message ends its connection");
        judged.refused++;
        leave(host);
        return;
    }
    struct client *client = attached_client();
    judge(client, "the client stays");
    if (!host->is_slow)
        judge(client->count == host->count && client->bytes == host->bytes,
              "as much waits at the server as is not answered");
}

/* Plays until the source or the number of messages is out. */
static unsigned long play(struct source *source, unsigned long most)
{
    static struct host host = { .socket = -1 };
    unsigned long messages = 0;
    while (messages < most && !is_out(source)) {
        uint32_t kind = below(source, 64);
        if (kind == 0)
            request(source, below(source, 2) ? ASKS_LIST : ASKS_IMPORT,
                    host.socket >= 0 && below(source, 2));
        else if (kind == 1)
            crowd(source);
        else if (kind == 2)
            server.has_steps = disk_tick(&server.disk) == 1;
        else if (kind == 3 && host.socket >= 0)
            leave(&host);
        if (host.socket < 0)
            attach(source, &host);
        play_message(source, &host);
        messages++;
    }
    leave(&host);
    return messages;
}

/* A disk over this image, with known bytes in its first blocks, and a server that listens. */
static void begin(const char *image)
{
    static char name[] = "fuzz";
    judge(program_begin(name), "the program begins");
    server_begin(&server);
    judge(disk_open(&server.disk, image) && disk_start(&server.disk, 512), "the disk starts");
    server.device.vendor = "a maker";
    server.device.product = "a disk";
    server.listener = socket(AF_UNIX, SOCK_STREAM | SOCK_CLOEXEC | SOCK_NONBLOCK, 0);
    address.sun_family = AF_UNIX;
    bool is_bound =
        bind(server.listener, (struct sockaddr *)&address, sizeof address.sun_family) == 0;
    judge(is_bound && listen(server.listener, 64) == 0, "the server listens");
    judge(getsockname(server.listener, (struct sockaddr *)&address, &address_size) == 0,
          "it has a name");
    for (size_t i = 0; i < sizeof known; i++)
        known[i] = (uint8_t)(i * 7 + i / 512);
    judge(transact(&server.disk, 0x2A, known, KNOWN), "known blocks are written");
}

#ifdef LIBFUZZER
int LLVMFuzzerTestOneInput(const uint8_t *bytes, size_t size)
{
    static bool has_begun;
    struct source source = { .bytes = bytes, .left = size, .is_bounded = true };
    if (!has_begun)
        begin(getenv("FUZZ_IMAGE") ? getenv("FUZZ_IMAGE") : "fuzz.img");
    has_begun = true;
    play(&source, 1000);
    return 0;
}
#else
/* The server ends, and the blocks before those of strangers are as they were. */
static void end(void)
{
    uint8_t found[sizeof known];
    disk_bus_reset(&server.disk);
    judge(transact(&server.disk, 0x28, found, KNOWN), "known blocks are read");
    judge(!memcmp(found, known, sizeof known), "known blocks are as they were");
    judge(server_end(&server), "all is brought home");
    disk_close(&server.disk);
}

int main(int count, char **words)
{
    struct source source = { .seed = 0x9E3779B97F4A7C15u };
    if (count < 3)
        return STATUS_USAGE;
    source.seed ^= count > 3 ? strtoul(words[3], NULL, 10) << 20 : 0;
    begin(words[1]);
    unsigned long messages = play(&source, strtoul(words[2], NULL, 10));
    end();
    printf("%lu messages in one process, %lu answers judged, %lu wrong messages refused\n",
           messages, judged.answers, judged.refused);
    return EXIT_SUCCESS;
}
#endif
