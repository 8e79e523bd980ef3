/* The clients of usbdisk-usbip: those who ask, and the one that has the device attached. */
#include "program.h"
#include "usbip.h"
#include <errno.h>
#include <netinet/in.h>
#include <netinet/tcp.h>
#include <string.h>
#include <sys/socket.h>
#include <unistd.h>

/* IDLE: how long nothing happens before a step in the background, in milliseconds. TICK: how long
 * nobody looks at the clock. ASKING: how many may ask at a time, so that the attached one always
 * has its place. ACCEPTED: how many are let in in a turn. PAUSE: milliseconds without new ones,
 * where no descriptor is left. BUFFER: bytes that the system keeps for each way. */
enum {
    IDLE = 20,
    TICK = 1000,
    ASKING = CLIENTS - 1,
    ACCEPTED = 4,
    PAUSE = 200,
    BUFFER = 256 * 1024
};

/* SILENCE: how many milliseconds bytes may stay unacknowledged. It bounds what the tries to keep
 * alive do, which begin where nothing is unacknowledged. */
enum { SILENCE = 60000 };

/* What is sent goes out at once, and the longest transfer at a time. A peer that is silently gone
 * is found within a minute. */
static void set_up(int socket)
{
    static const struct {
        int level, name, value;
    } options[] = {
        { IPPROTO_TCP, TCP_NODELAY, 1 },    { IPPROTO_TCP, TCP_USER_TIMEOUT, SILENCE },
        { SOL_SOCKET, SO_KEEPALIVE, 1 },    { IPPROTO_TCP, TCP_KEEPIDLE, 30 },
        { IPPROTO_TCP, TCP_KEEPINTVL, 10 }, { IPPROTO_TCP, TCP_KEEPCNT, 3 },
        { SOL_SOCKET, SO_SNDBUF, BUFFER },  { SOL_SOCKET, SO_RCVBUF, BUFFER },
    };
    for (size_t i = 0; i < sizeof options / sizeof *options; i++)
        setsockopt(socket, options[i].level, options[i].name, &options[i].value,
                   sizeof options[i].value);
}

/* A client goes. That of the attached one is an unplugging: its transfer in progress ends, and the
 * bus is reset. */
static void part(struct server *server, struct client *client, const char *cause)
{
    if (client->is_attached) {
        disk_bus_reset(&server->disk);
        server->is_attached = false;
        say_of_host("detached: %s", cause);
    }
    end_client(client);
}

static bool is_asking(const struct client *client)
{
    return client->socket >= 0 && !client->is_attached;
}

/* Who asks and came first, or NULL; and how many ask. */
static struct client *oldest_asking(struct server *server, int *count)
{
    struct client *oldest = NULL;
    *count = 0;
    for (struct client *at = server->clients; at < server->clients + CLIENTS; at++) {
        if (!is_asking(at))
            continue;
        ++*count;
        if (!oldest || at->deadline < oldest->deadline)
            oldest = at;
    }
    return oldest;
}

/* A place for one more. Where all are taken, the one who has asked for longest goes. */
static struct client *make_place(struct server *server)
{
    int asking;
    struct client *oldest = oldest_asking(server, &asking), *place = server->clients;
    if (asking >= ASKING)
        part(server, oldest, "");
    while (place->socket >= 0)
        place++;
    return place;
}

/* The system let nobody in. Where no descriptor is left, the one who has asked for longest goes;
 * where nobody asks, those who come wait outside for a while, since the listener stays ready. */
static void make_room(struct server *server)
{
    int asking, cause = errno;
    struct client *oldest = oldest_asking(server, &asking);
    if (cause != EMFILE && cause != ENFILE && cause != ENOBUFS && cause != ENOMEM)
        return;
    say_of_host("a client is not let in: %s", strerror(cause));
    if (oldest)
        part(server, oldest, "");
    else
        server->listens_from = now() + PAUSE;
}

static uint32_t import_status(const struct server *server, const uint8_t *bus)
{
    if (!names_device(bus))
        return NO_DEVICE;
    return server->is_attached ? DEVICE_BUSY : 0;
}

/* An import that came whole is answered. */
static enum outcome import(struct server *server, struct client *client, const uint8_t *bus)
{
    uint8_t reply[REPLY_MOST];
    uint32_t status = import_status(server, bus);
    if (!send_at_once(client, reply, put_import_reply(reply, status, server->disk.packet)) ||
        status)
        return ENDS;
    server->device.configuration = 0;
    client->is_attached = server->is_attached = true;
    client->have = 0;
    say_of_host("attached");
    return GOES_ON;
}

/* A client that is not attached makes its one request. */
static enum outcome serve_request(struct server *server, struct client *client)
{
    enum outcome outcome;
    uint8_t reply[REPLY_MOST];
    if (!receive(client, client->head, REQUEST, &client->have, &outcome))
        return outcome;
    if (!is_version(client->head))
        return ENDS;
    if (request_code(client->head) == ASKS_LIST)
        send_at_once(client, reply, put_list_reply(reply, server->disk.packet));
    if (request_code(client->head) != ASKS_IMPORT)
        return ENDS;
    if (!receive(client, client->head, REQUEST + BUS_ID, &client->have, &outcome))
        return outcome;
    return import(server, client, client->head + REQUEST);
}

/* Serves a client that sent something, or takes more of its answers. */
static void serve_client(struct server *server, struct client *client)
{
    const char *cause = NULL;
    enum outcome outcome = client->is_attached ? serve_attached(client, &server->device, &cause)
                                               : serve_request(server, client);
    if (outcome == ENDS)
        part(server, client, cause);
}

/* The device has done something: what waited for it is played again. */
static void serve_behind_device(struct server *server)
{
    const char *cause = NULL;
    disk_note_end(&server->disk);
    for (struct client *at = server->clients; at < server->clients + CLIENTS; at++)
        if (at->socket >= 0 && at->is_attached &&
            serve_waiting(at, &server->device, &cause) == ENDS)
            part(server, at, cause);
}

/* Clients have come. Each makes its request at once, where that is there already: so one that comes
 * again and again pushes nobody out who asks. */
static void greet(struct server *server)
{
    for (int i = 0; i < ACCEPTED; i++) {
        int socket = accept4(server->listener, NULL, NULL, SOCK_CLOEXEC | SOCK_NONBLOCK);
        if (socket < 0) {
            make_room(server);
            return;
        }
        struct client *client = make_place(server);
        set_up(socket);
        *client = (struct client){ .socket = socket, .deadline = now() + REQUEST_WAIT };
        serve_client(server, client);
    }
}

/* What is waited for: the device first, what each client sends, or that it takes its answers, and
 * those who come. The files stand without gaps, since the system takes no more of them than it
 * gives descriptors. */
enum { DISK = 0, OTHERS = 1 };
struct watch {
    struct pollfd files[OTHERS + CLIENTS + 1];
    struct client *of[OTHERS + CLIENTS + 1]; /* NULL: the listener */
    unsigned count;
    bool is_bounded; /* a client has a time to keep */
};

static void add(struct watch *watch, int file, short events, struct client *client)
{
    watch->files[watch->count] = (struct pollfd){ file, events, 0 };
    watch->of[watch->count++] = client;
}

static bool has_deadline(const struct client *client)
{
    return is_asking(client) || client->answered;
}

/* How many milliseconds to wait at most; -1: for ever. Where steps are left the next one is made at
 * once, as soon as the device is at no call. */
static int longest_wait(struct server *server, bool is_open, bool is_bounded)
{
    int most = is_open ? TICK : PAUSE;
    if (!server->has_steps)
        return is_open && !is_bounded ? -1 : most;
    if (!server->is_idle)
        return IDLE;
    return disk_is_busy(&server->disk) ? most : 0;
}

static int wait_for_clients(struct server *server, struct watch *watch, bool waits)
{
    *watch = (struct watch){ 0 };
    add(watch, disk_ended(&server->disk), POLLIN, NULL);
    for (struct client *at = server->clients; at < server->clients + CLIENTS; at++) {
        if (at->socket >= 0)
            add(watch, at->socket, at->answered ? POLLOUT : POLLIN, at);
        watch->is_bounded = watch->is_bounded || has_deadline(at);
    }
    bool is_open = server->listens_from <= now();
    if (is_open)
        add(watch, server->listener, POLLIN, NULL);
    int most = waits ? longest_wait(server, is_open, watch->is_bounded) : 0;
    return wait_for(watch->files, watch->count, most);
}

static void serve_clients(struct server *server, const struct watch *watch)
{
    for (unsigned i = OTHERS; i < watch->count; i++)
        if (watch->files[i].revents && watch->of[i])
            serve_client(server, watch->of[i]);
    for (struct client *at = server->clients; watch->is_bounded && at < server->clients + CLIENTS;
         at++)
        if (has_deadline(at) && now() > at->deadline)
            part(server, at, "it takes no answers");
    for (unsigned i = OTHERS; i < watch->count; i++)
        if (watch->files[i].revents && !watch->of[i])
            greet(server);
}

void server_begin(struct server *server)
{
    memset(server, 0, sizeof *server);
    for (int i = 0; i < CLIENTS; i++)
        server->clients[i].socket = -1;
    server->listener = -1;
    server->device.disk = &server->disk;
    server->has_steps = true;
}

/* The end of a call is no sign of life of a host, and steps wait behind it as they did. */
void server_turn(struct server *server, bool waits)
{
    struct watch watch;
    int ready = wait_for_clients(server, &watch, waits);
    bool has_ended = watch.files[DISK].revents != 0, something = ready > has_ended;
    if (has_ended)
        serve_behind_device(server);
    serve_clients(server, &watch);
    if (something)
        server->has_steps = true;
    if (!something && (!has_ended || server->is_idle) && server->has_steps)
        server->is_idle = server->has_steps = disk_tick(&server->disk);
    else
        server->is_idle = false;
}

bool server_end(struct server *server)
{
    for (int i = 0; i < CLIENTS; i++)
        if (server->clients[i].socket >= 0)
            part(server, &server->clients[i], "the server ends");
    close(server->listener);
    return disk_settle(&server->disk);
}
