/* The parts of usbdisk-usbip: messages (usbip_messages.c), the device as its host sees it
 * (usbip_device.c), one client (usbip_client.c), all of them (usbip_server.c), where it listens
 * (usbip_address.c), and the program (usbip.c). */
#ifndef USBIP_H
#define USBIP_H

#include "disk.h"

/* The bounds on what a client may ask for: bytes of a transfer, and transfers that wait, with their
 * bytes. */
enum { TRANSFER_MOST = 1 << 20, WAITING_MOST = 256, WAITING_BYTES_MOST = 16 << 20 };

/* How long the messages are. */
enum {
    HEAD = 48,
    REQUEST = 8,
    BUS_ID = 32,
    DEVICE = 312,
    INTERFACE = 4,
    REPLY_MOST = REQUEST + 4 + DEVICE + INTERFACE
};

/* Commands of an attached client, and requests of one that is not. */
enum { SUBMIT = 1, UNLINK = 2, ASKS_LIST = 0x8005, ASKS_IMPORT = 0x8003 };

/* The status of a transfer, as Linux numbers them, and that of an import that is refused. */
enum {
    GOOD = 0,
    STALLED = -32,
    OVERFLOWED = -75,
    UNLINKED = -104,
    CUT_SHORT = -121,
    DEVICE_BUSY = 2,
    NO_DEVICE = 4
};

/* The endpoints of the one interface. */
enum { CONTROL = 0, BULK_IN = 1, BULK_OUT = 2 };

/* A command of an attached client. */
struct message {
    uint32_t command, number, device, endpoint;
    bool in;
    uint32_t flags, length, packets; /* of SUBMIT */
    uint32_t victim;                 /* of UNLINK: the number of the transfer */
    uint8_t setup[8];
};

/* usbip_messages.c */
struct message read_message(const uint8_t head[HEAD]);
void put_submit_reply(uint8_t head[HEAD], uint32_t number, int32_t status, uint32_t length);
void put_unlink_reply(uint8_t head[HEAD], uint32_t number, int32_t status);
bool is_version(const uint8_t request[REQUEST]);
unsigned request_code(const uint8_t request[REQUEST]);
bool names_device(const uint8_t bus[BUS_ID]);
size_t put_list_reply(uint8_t reply[REPLY_MOST], uint32_t packet);
size_t put_import_reply(uint8_t reply[REPLY_MOST], uint32_t status, uint32_t packet);
uint32_t device_number(void);

/* usbip_device.c: plays a control request. Answers how many bytes go to the host, or STALLED. */
enum { CONTROL_MOST = 64 };
struct usb_device {
    struct disk *disk;
    const char *vendor, *product; /* as texts of USB */
    uint8_t configuration;
};
int play_control(struct usb_device *device, const uint8_t setup[8], bool in,
                 uint8_t data[CONTROL_MOST]);

/* A transfer that came. In front of its bytes there is room for its answer's head, so that both go
 * out at once. */
struct transfer {
    struct transfer *next;
    uint32_t number, endpoint, flags, size, done;
    bool in;
    uint8_t setup[8];
    size_t length, sent; /* of the answer, once there is one */
    uint8_t answer[];
};

/* How many milliseconds a client may take for its request, and an attached one before it takes some
 * more of its answers. */
enum { REQUEST_WAIT = 5000, SEND_WAIT = 10000 };

/* A client: first one that makes a request, later perhaps the one that has the device attached.
 * While answers wait to be sent no more of its messages are taken. */
struct client {
    int socket; /* -1: none */
    bool is_attached;
    uint64_t deadline; /* of the request, or for more of the answers, in milliseconds */
    uint8_t head[HEAD];
    size_t have; /* how much of the head came */
    struct transfer *coming;
    size_t came;                 /* how many bytes of it */
    struct transfer *waiting[3]; /* of each endpoint, the oldest first */
    struct transfer *answered;   /* those whose answers wait to be sent, the oldest first */
    size_t count, bytes;         /* of all these, and of the one that comes */
    uint64_t sent;               /* bytes from Bulk-In since the last status */
};

/* What became of a client: it goes on, or it is to be ended for the cause that stands in `cause`.
 */
enum outcome { GOES_ON, ENDS };

/* usbip_client.c: serves what an attached client sends; and what waits of it, behind the device. */
enum outcome serve_attached(struct client *client, struct usb_device *device, const char **cause);
enum outcome serve_waiting(struct client *client, struct usb_device *device, const char **cause);
bool receive(struct client *client, uint8_t *to, size_t size, size_t *have, enum outcome *outcome);
bool send_at_once(struct client *client, const uint8_t *bytes, size_t size);
void end_client(struct client *client);

/* How many clients there are at a time: the attached one, and others. */
enum { CLIENTS = 16 };

struct server {
    struct disk disk;
    struct usb_device device;
    int listener;
    uint64_t listens_from; /* until then no client is let in */
    struct client clients[CLIENTS];
    bool is_attached, has_steps, is_idle, unplugs;
};

/* usbip_server.c: a turn waits for clients, where it may, and serves them, or makes a step in the
 * background. The end lets the clients go, and brings home what is left; false: the disk has
 * faulted. */
void server_begin(struct server *server);
void server_turn(struct server *server, bool waits);
bool server_end(struct server *server);

/* usbip_address.c: listens on an address in digits, of IPv4 or IPv6. Answers the socket, and the
 * port that the system took; -1: said why. */
int listen_on(const char *address, uint64_t port, unsigned *taken);

#endif
