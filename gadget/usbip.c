/* usbdisk-usbip: an image file or a block device as a USB disk for hosts that attach it over
 * USB/IP. */
#include "options.h"
#include "program.h"
#include "usbip.h"
#include <inttypes.h>
#include <string.h>
#include <unistd.h>

enum { PORT = 3240 };

static const char usage[] =
    "usbdisk-usbip IMAGE [--port N] [--packet 64|512] [--listen ADDRESS] [OPTION ..]\n"
    "\n"
    "Serves an image file or a block device as a USB disk over USB/IP, on 127.0.0.1 port 3240 "
    "where nothing else is said.\n"
    "On the host: modprobe vhci-hcd; usbip attach -r 127.0.0.1 -b 1-1.\n"
    "\n"
    "  --port N          the TCP port; 0 takes any that is free\n"
    "  --packet 64|512   full speed, or high speed, which it is where nothing else is said\n"
    "  --listen ADDRESS  another address of this machine. USB/IP knows no access control: who "
    "reaches it has the disk\n";

/* The words of the command line. */
struct words {
    struct options options;
    const char *address;
    uint64_t port, packet;
};

static bool take_word(void *to, const char *word, const char *value)
{
    struct words *all = to;
    if (!strcmp(word, "--port"))
        return read_number(value, 0, 65535, &all->port);
    if (!strcmp(word, "--packet"))
        return read_number(value, 64, 512, &all->packet) &&
               (all->packet == 64 || all->packet == 512);
    if (strcmp(word, "--listen"))
        return take_option(&all->options, word, value);
    all->address = value;
    return true;
}

static bool open_listener(struct server *server, const struct words *words)
{
    unsigned port;
    server->listener = listen_on(words->address, words->port, &port);
    if (server->listener < 0)
        return false;
    say("%s: format %" PRIu32 ", %" PRIu64
        " blocks, at %s speed on %s port %u, bus id 1-1, serial number %s",
        words->options.image, server->disk.format, server->disk.blocks,
        words->packet == 512 ? "high" : "full", words->address, port, server->disk.serial);
    notify_manager("READY=1");
    return true;
}

/* Serves until a signal asks to end, or until the device has refused a call, where the disk is then
 * to be unplugged. Answers the exit status. */
static int serve(struct server *server)
{
    while (!is_asked_to_end() && !(server->unplugs && disk_has_faulted(&server->disk))) {
        server_turn(server, true);
        if (is_asked_to_count())
            disk_count(&server->disk);
    }
    notify_manager("STOPPING=1");
    return server_end(server) ? 0 : server->disk.status;
}

/* Opens, serves and ends. Answers the exit status. */
static int run(struct server *server, const struct words *words)
{
    const struct names *names = &words->options.names;
    int status = STATUS_FILE;
    server_begin(server);
    server->unplugs = words->options.unplugs;
    server->device.vendor = names->vendor ? names->vendor : "Gevnodiz";
    server->device.product = names->product ? names->product : "Power Safe Disk";
    if (!disk_open(&server->disk, words->options.image))
        return server->disk.status;
    disk_name(&server->disk, names);
    if (!disk_start(&server->disk, (uint32_t)words->packet))
        status = server->disk.status;
    else if (open_listener(server, words))
        status = serve(server);
    disk_close(&server->disk);
    return status;
}

int main(int count, char **words)
{
    static struct server server;
    static const struct option known[] = { { "port", required_argument, NULL, 0 },
                                           { "packet", required_argument, NULL, 0 },
                                           { "listen", required_argument, NULL, 0 },
                                           OPTIONS_KNOWN,
                                           { NULL, 0, NULL, 0 } };
    static const struct command command = { usage, options_usage, "-:v", known, take_word };
    struct words all = { .address = "127.0.0.1", .port = PORT, .packet = 512 };
    (void)count;
    if (!program_begin("usbdisk-usbip"))
        return STATUS_FILE;
    int ended = read_command(&command, words, &all, &all.options.image);
    return ended == GO_ON ? run(&server, &all) : ended;
}
