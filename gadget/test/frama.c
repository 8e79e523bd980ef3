/* For Frama-C's EVA (checks/frama): what strangers' bytes reach in usbdisk-usbip, called with any
 * bytes at all. The disk is stood for by any that its header allows. */
#include "../usbip_client.c"
#include "__fc_builtin.h"

static void any(uint8_t *bytes, unsigned long size)
{
    Frama_C_make_unknown((char *)bytes, size);
}

ssize_t recv(int file, void *bytes, size_t size, int flags)
{
    (void)file;
    (void)flags;
    unsigned got = Frama_C_unsigned_int_interval(0, (unsigned)size);
    any(bytes, got);
    errno = Frama_C_interval(0, EAGAIN);
    return Frama_C_interval(0, 1) ? -1 : (ssize_t)got;
}

uint32_t disk_setup(struct disk *disk, const uint8_t setup[8], uint8_t data[2], uint32_t *size)
{
    (void)disk;
    (void)setup;
    *size = (uint32_t)Frama_C_interval(0, 2);
    any(data, 2);
    return (uint32_t)Frama_C_interval(USBDISK_ACK, USBDISK_STALL);
}

void disk_clear_halt(struct disk *disk, uint8_t endpoint)
{
    (void)disk;
    (void)endpoint;
}

void disk_bus_reset(struct disk *disk)
{
    (void)disk;
}

/* The messages of one who asks, and of one that is attached. */
static void play_messages(void)
{
    uint8_t request[REQUEST + BUS_ID], reply[REPLY_MOST], head[HEAD];
    uint32_t packet = Frama_C_interval(0, 1) ? 64 : 512, status = (uint32_t)Frama_C_interval(0, 4);
    any(request, sizeof request);
    any(head, sizeof head);
    if (!is_version(request) || !names_device(request + REQUEST))
        status = request_code(request);
    put_list_reply(reply, packet);
    put_import_reply(reply, status, packet);
    struct message message = read_message(head);
    put_submit_reply(head, message.number, (int32_t)message.victim, message.length);
    put_unlink_reply(head, message.number, (int32_t)device_number());
}

/* Any control request, of a disk with any number and names as long as an option may be. */
static void play_requests(void)
{
    static struct disk disk;
    char vendor[9], product[17];
    uint8_t setup[8], data[CONTROL_MOST];
    any((uint8_t *)vendor, 8);
    any((uint8_t *)product, 16);
    any((uint8_t *)disk.serial, 12);
    vendor[8] = product[16] = disk.serial[12] = 0;
    disk.packet = Frama_C_interval(0, 1) ? 64 : 512;
    struct usb_device device = { .disk = &disk, .vendor = vendor, .product = product };
    while (Frama_C_interval(0, 1)) {
        any(setup, sizeof setup);
        int size = play_control(&device, setup, Frama_C_interval(0, 1), data);
        /*@ assert fits: size == STALLED || 0 <= size <= CONTROL_MOST; */
    }
}

/* A head that comes in parts, behind which what is asked for is judged: any message, of a client
 * with some transfers that wait. */
static void play_head(void)
{
    static struct transfer one, two, out;
    struct client client = { .socket = 3, .is_attached = true };
    enum outcome outcome;
    any(client.head, HEAD);
    while (!receive(&client, client.head, HEAD, &client.have, &outcome))
        if (outcome == ENDS)
            return;
    one.number = (uint32_t)Frama_C_interval(0, 3);
    two.number = (uint32_t)Frama_C_interval(0, 3);
    one.next = Frama_C_interval(0, 1) ? &two : NULL;
    client.waiting[BULK_IN] = Frama_C_interval(0, 1) ? &one : NULL;
    client.waiting[BULK_OUT] = Frama_C_interval(0, 1) ? &out : NULL;
    client.count = Frama_C_unsigned_int_interval(0, WAITING_MOST);
    client.bytes = Frama_C_unsigned_int_interval(0, WAITING_BYTES_MOST);
    struct message message = read_message(client.head);
    find(&client, message.victim);
    if (fault_of(&client, &message))
        return;
    /*@ assert bounded: message.length <= TRANSFER_MOST; */
    /*@ assert known: message.endpoint <= BULK_OUT; */
}

int main(void)
{
    play_messages();
    play_head();
    play_requests();
    return 0;
}
