/* A device in a thread of its own, and a host, both by a model: a call takes as long as its costs
 * tell, and a packet as long as a link of 35 MB/s takes for it. */
#include "drive.h"
#include <string.h>

enum { PACKET_TIME = 14629, AGAIN = 1000, QUIET = 1000000 };

static uint64_t now; /* nanoseconds; of the program's thread alone */

/* ---- the device */

static void carry_out(struct device *device, const struct usbdisk_call *call, uint8_t *buffer)
{
    uint8_t *place = device->bytes + 512 * call->sector;
    size_t size = 512 * (size_t)call->count;
    if (call->kind == USBDISK_READ)
        memcpy(buffer, place, size);
    else if (call->kind == USBDISK_WRITE)
        memcpy(place, buffer, size);
}

static void *work(void *it)
{
    struct device *device = it;
    pthread_mutex_lock(&device->lock);
    for (;;) {
        while (device->call.kind == USBDISK_NOTHING && !device->is_over)
            pthread_cond_wait(&device->changed, &device->lock);
        if (device->is_over)
            break;
        struct usbdisk_call call = device->call;
        uint8_t *buffer = device->buffer;
        pthread_mutex_unlock(&device->lock);
        carry_out(device, &call, buffer);
        pthread_mutex_lock(&device->lock);
        device->call.kind = USBDISK_NOTHING;
        pthread_cond_signal(&device->changed);
    }
    pthread_mutex_unlock(&device->lock);
    return NULL;
}

bool device_open(struct device *device, const struct costs *costs, uint8_t *bytes)
{
    *device = (struct device){ .costs = costs, .bytes = bytes };
    return !pthread_mutex_init(&device->lock, NULL) && !pthread_cond_init(&device->changed, NULL) &&
           !pthread_create(&device->thread, NULL, work, device);
}

void device_close(struct device *device)
{
    pthread_mutex_lock(&device->lock);
    device->is_over = true;
    pthread_cond_signal(&device->changed);
    pthread_mutex_unlock(&device->lock);
    pthread_join(device->thread, NULL);
    pthread_cond_destroy(&device->changed);
    pthread_mutex_destroy(&device->lock);
}

void device_begin(struct device *device, const struct usbdisk_call *call, uint8_t *buffer)
{
    const struct costs *costs = device->costs;
    bool is_flush = call->kind == USBDISK_FLUSH;
    device->end = now + costs->command + (is_flush ? costs->flush : call->count * costs->sector);
    pthread_mutex_lock(&device->lock);
    device->call = *call;
    device->buffer = buffer;
    pthread_cond_signal(&device->changed);
    pthread_mutex_unlock(&device->lock);
}

void device_wait(struct device *device)
{
    if (now < device->end)
        now = device->end;
    pthread_mutex_lock(&device->lock);
    while (device->call.kind != USBDISK_NOTHING)
        pthread_cond_wait(&device->changed, &device->lock);
    pthread_mutex_unlock(&device->lock);
}

bool device_has_ended(struct device *device)
{
    if (now < device->end)
        return false;
    device_wait(device);
    return true;
}

void wait_for_either(const struct device *device, const struct host *host)
{
    bool device_is_next = device->end > now && device->end < host->due;
    now = device_is_next ? device->end : host->due;
}

/* ---- the host */

void host_open(struct host *host, uint32_t writes, uint32_t blocks)
{
    *host = (struct host){ .writes = writes, .blocks = blocks, .due = now, .begun = now };
}

bool host_is_done(const struct host *host)
{
    return host->written == host->writes;
}

bool host_is_ready(const struct host *host)
{
    return now >= host->due;
}

bool host_rests(const struct host *host)
{
    return host->due > now + QUIET;
}

/* The wrapper of a WRITE (10) of a transfer to this block. */
static uint32_t put_wrapper(uint32_t address, uint8_t packet[PACKET])
{
    static const uint8_t front[15] = { 'U',
                                       'S',
                                       'B',
                                       'C',
                                       1,
                                       [8] = TRANSFER * 512 & 255,
                                       TRANSFER * 512 >> 8 & 255,
                                       TRANSFER * 512 >> 16,
                                       [14] = 10 };
    const uint8_t command[16] = { 0x2A,
                                  0,
                                  (uint8_t)(address >> 24),
                                  (uint8_t)(address >> 16),
                                  (uint8_t)(address >> 8),
                                  (uint8_t)address,
                                  [8] = TRANSFER };
    memcpy(packet, front, sizeof front);
    memcpy(packet + sizeof front, command, sizeof command);
    return sizeof front + sizeof command;
}

uint32_t host_packet(const struct host *host, uint8_t packet[PACKET])
{
    uint32_t address = host->written * TRANSFER % (host->blocks - host->blocks % TRANSFER);
    if (host->sent > TRANSFER)
        return 0;
    if (!host->sent)
        return put_wrapper(address, packet);
    memset(packet, (int)(host->written + host->sent), PACKET);
    return PACKET;
}

/* A status ends a WRITE. The first one is not good, as it tells that the power was off: it comes
 * again. */
void host_hears(struct host *host, uint32_t code, const uint8_t *packet, uint32_t size)
{
    bool is_status = host->sent > TRANSFER;
    host->due = now + (code == USBDISK_NAK ? AGAIN : PACKET_TIME);
    if (code != USBDISK_ACK)
        return;
    host->sent = is_status ? 0 : host->sent + 1;
    host->written += is_status && size == 13 && !packet[12];
}

double host_speed(const struct host *host)
{
    return 1e3 * host->written * TRANSFER * 512 / (double)(now - host->begun);
}
