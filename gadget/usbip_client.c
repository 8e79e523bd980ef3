/* An attached client: its messages, and its transfers, of which those wait for which the disk has
 * nothing now. */
#include "program.h"
#include "usbip.h"
#include <errno.h>
#include <stdlib.h>
#include <string.h>
#include <sys/socket.h>
#include <unistd.h>

/* How many messages a client may send before the others' turn; and bytes of a status. */
enum { ONE_TURN = 64, STATUS = 13 };

/* Flags of a transfer: fewer bytes than asked for are an error. */
enum { SHORT_IS_WRONG = 1 };

/* Receives up to `size` bytes in all. True: they are all there. False: not yet, or the client is to
 * be ended. */
bool receive(struct client *client, uint8_t *to, size_t size, size_t *have, enum outcome *outcome)
{
    *outcome = GOES_ON;
    while (*have < size) {
        ssize_t got = recv(client->socket, to + *have, size - *have, MSG_DONTWAIT);
        if (got > 0) {
            *have += (size_t)got;
            continue;
        }
        if (got == 0 || (errno != EAGAIN && errno != EWOULDBLOCK && errno != EINTR))
            *outcome = ENDS;
        return false;
    }
    return true;
}

/* A short answer, of a client that has none waiting. Where the system does not take it whole the
 * client is gone. */
bool send_at_once(struct client *client, const uint8_t *bytes, size_t size)
{
    return send(client->socket, bytes, size, MSG_DONTWAIT | MSG_NOSIGNAL) == (ssize_t)size;
}

static uint8_t *bytes_of(struct transfer *transfer)
{
    return transfer->answer + HEAD;
}

static void forget(struct client *client, struct transfer *transfer)
{
    client->count--;
    client->bytes -= transfer->size;
    free(transfer);
}

static void forget_all(struct transfer *at)
{
    while (at) {
        struct transfer *next = at->next;
        free(at);
        at = next;
    }
}

void end_client(struct client *client)
{
    for (int endpoint = CONTROL; endpoint <= BULK_OUT; endpoint++)
        forget_all(client->waiting[endpoint]);
    forget_all(client->answered);
    free(client->coming);
    close(client->socket);
    memset(client, 0, sizeof *client);
    client->socket = -1;
}

/* Sends the answers that wait, as far as the client takes them now. */
static enum outcome send_answers(struct client *client)
{
    while (client->answered) {
        struct transfer *first = client->answered;
        ssize_t sent = send(client->socket, first->answer + first->sent,
                            first->length - first->sent, MSG_DONTWAIT | MSG_NOSIGNAL);
        if (sent < 0)
            return errno == EAGAIN || errno == EWOULDBLOCK || errno == EINTR ? GOES_ON : ENDS;
        first->sent += (size_t)sent;
        client->deadline = now() + SEND_WAIT;
        if (first->sent < first->length)
            continue;
        client->answered = first->next;
        forget(client, first);
    }
    return GOES_ON;
}

/* Puts a transfer's answer, whose head is there, behind those that wait, and sends what can be
 * sent. */
static enum outcome send_answer(struct client *client, struct transfer *transfer, size_t bytes)
{
    struct transfer **last = &client->answered;
    if (!client->answered)
        client->deadline = now() + SEND_WAIT;
    while (*last)
        last = &(*last)->next;
    *last = transfer;
    transfer->next = NULL;
    transfer->length = HEAD + bytes;
    return send_answers(client);
}

/* Answers a transfer, with the bytes that came in. */
static enum outcome answer(struct client *client, struct transfer *transfer, int32_t status)
{
    size_t bytes = transfer->in ? transfer->done : 0;
    bool is_short = transfer->in && transfer->done < transfer->size;
    if (status == GOOD && is_short && transfer->flags & SHORT_IS_WRONG)
        status = CUT_SHORT;
    put_submit_reply(transfer->answer, transfer->number, status, transfer->done);
    return send_answer(client, transfer, bytes);
}

static enum outcome answer_control(struct client *client, struct usb_device *device,
                                   struct transfer *transfer)
{
    uint8_t data[CONTROL_MOST];
    int size = play_control(device, transfer->setup, transfer->in, data);
    uint32_t asked = (uint32_t)transfer->setup[7] << 8 | transfer->setup[6];
    if (size < 0)
        return answer(client, transfer, STALLED);
    if (asked > transfer->size)
        asked = transfer->size;
    transfer->done = (uint32_t)size < asked ? (uint32_t)size : asked;
    memcpy(bytes_of(transfer), data, transfer->done);
    return answer(client, transfer, GOOD);
}

/* The status of a transfer of which the disk says this. */
static int32_t status_of(uint32_t code)
{
    if (code == USBDISK_IO_OVERFLOW)
        return OVERFLOWED;
    return code == USBDISK_ACK ? GOOD : STALLED;
}

/* So many bytes are on their way from Bulk-In. Behind a status the next READ may be read ahead. */
static void note_sent(struct client *client, struct usb_device *device, size_t size)
{
    client->sent += size;
    if (size != STATUS)
        return;
    disk_look_ahead(device->disk, client->sent - STATUS);
    client->sent = 0;
}

/* Plays the oldest transfer that waits for this endpoint, as far as it goes, and tells whether it
 * went. */
static enum outcome play_first(struct client *client, struct usb_device *device, int endpoint,
                               bool *moved)
{
    struct transfer *first = client->waiting[endpoint];
    size_t bytes = 0;
    if (!first)
        return GOES_ON;
    uint8_t *at = bytes_of(first) + first->done;
    size_t left = first->size - first->done;
    uint32_t code = endpoint == BULK_IN ? disk_in(device->disk, at, left, &bytes)
                                        : disk_out(device->disk, at, left, &bytes);
    first->done += (uint32_t)bytes;
    *moved = *moved || bytes || code != USBDISK_NAK;
    if (code == USBDISK_NAK)
        return GOES_ON;
    client->waiting[endpoint] = first->next;
    size_t sent = endpoint == BULK_IN ? first->done : 0;
    enum outcome outcome = answer(client, first, status_of(code));
    note_sent(client, device, sent);
    return outcome;
}

/* Plays what waits, until the disk has nothing more for it. */
static enum outcome play_waiting(struct client *client, struct usb_device *device)
{
    enum outcome outcome = GOES_ON;
    for (bool moved = true; moved && outcome == GOES_ON;) {
        moved = false;
        outcome = play_first(client, device, BULK_OUT, &moved);
        if (outcome == GOES_ON)
            outcome = play_first(client, device, BULK_IN, &moved);
    }
    return outcome;
}

/* A transfer is whole: its bytes came, if it has any. */
static enum outcome take_transfer(struct client *client, struct usb_device *device,
                                  struct transfer *transfer)
{
    if (transfer->endpoint == CONTROL) {
        enum outcome outcome = answer_control(client, device, transfer);
        return outcome == GOES_ON ? play_waiting(client, device) : outcome;
    }
    struct transfer **last = &client->waiting[transfer->endpoint];
    while (*last)
        last = &(*last)->next;
    *last = transfer;
    return play_waiting(client, device);
}

/* Whether a transfer of this number waits; the place that points to it. */
static struct transfer **find(struct client *client, uint32_t number)
{
    for (int endpoint = BULK_IN; endpoint <= BULK_OUT; endpoint++)
        for (struct transfer **at = &client->waiting[endpoint]; *at; at = &(*at)->next)
            if ((*at)->number == number)
                return at;
    return NULL;
}

/* What is wrong with a transfer that is submitted, or nothing. */
static const char *fault_of(struct client *client, const struct message *message)
{
    if (message->endpoint > BULK_OUT || (message->endpoint == BULK_IN && !message->in) ||
        (message->endpoint == BULK_OUT && message->in))
        return "a transfer of no endpoint of the device";
    if (message->length > TRANSFER_MOST)
        return "a transfer that is too long";
    if (message->packets != 0 && message->packets != UINT32_MAX)
        return "an isochronous transfer";
    if (client->count == WAITING_MOST || client->bytes + message->length > WAITING_BYTES_MOST)
        return "too many transfers that wait";
    return find(client, message->number) ? "a number that another transfer has" : NULL;
}

/* A transfer of this client, with room for as many bytes as its message tells; NULL: no memory, as
 * is said in `cause`. */
static struct transfer *new_transfer(struct client *client, const struct message *message,
                                     const char **cause)
{
    struct transfer *transfer = malloc(sizeof *transfer + HEAD + message->length);
    if (!transfer) {
        *cause = "no memory for a transfer";
        return NULL;
    }
    *transfer = (struct transfer){ .number = message->number,
                                   .endpoint = message->endpoint,
                                   .flags = message->flags,
                                   .size = message->length,
                                   .in = message->in };
    memcpy(transfer->setup, message->setup, sizeof transfer->setup);
    client->count++;
    client->bytes += transfer->size;
    return transfer;
}

static enum outcome submit(struct client *client, struct usb_device *device,
                           const struct message *message, const char **cause)
{
    *cause = fault_of(client, message);
    struct transfer *transfer = *cause ? NULL : new_transfer(client, message, cause);
    if (!transfer)
        return ENDS;
    if (transfer->in || transfer->size == 0)
        return take_transfer(client, device, transfer);
    client->coming = transfer;
    client->came = 0;
    return GOES_ON;
}

/* Takes a transfer back that waits. One that was answered already is none. */
static enum outcome unlink_transfer(struct client *client, const struct message *message,
                                    const char **cause)
{
    struct transfer **at = find(client, message->victim);
    struct transfer *reply =
        new_transfer(client, &(struct message){ .number = message->number }, cause);
    if (!reply)
        return ENDS;
    put_unlink_reply(reply->answer, message->number, at ? UNLINKED : GOOD);
    if (at) {
        struct transfer *victim = *at;
        *at = victim->next;
        forget(client, victim);
    }
    return send_answer(client, reply, 0);
}

static enum outcome take_message(struct client *client, struct usb_device *device,
                                 const char **cause)
{
    struct message message = read_message(client->head);
    client->have = 0;
    if (message.device != device_number())
        *cause = "a command for another device";
    else if (message.command == SUBMIT)
        return submit(client, device, &message, cause);
    else if (message.command == UNLINK)
        return unlink_transfer(client, &message, cause);
    else
        *cause = "a command that is none";
    return ENDS;
}

/* Receives the rest of a message, or of the bytes behind it, and plays it when it is whole. */
static enum outcome serve_message(struct client *client, struct usb_device *device,
                                  const char **cause, bool *whole)
{
    enum outcome outcome;
    struct transfer *coming = client->coming;
    *whole = coming ? receive(client, bytes_of(coming), coming->size, &client->came, &outcome)
                    : receive(client, client->head, HEAD, &client->have, &outcome);
    if (!*whole)
        return outcome;
    client->coming = NULL;
    return coming ? take_transfer(client, device, coming) : take_message(client, device, cause);
}

enum outcome serve_attached(struct client *client, struct usb_device *device, const char **cause)
{
    enum outcome outcome = send_answers(client);
    bool whole = true;
    *cause = "the host went";
    for (int turn = 0; whole && !client->answered && outcome == GOES_ON && turn < ONE_TURN; turn++)
        outcome = serve_message(client, device, cause, &whole);
    if (outcome == ENDS && !*cause)
        *cause = "the host went";
    return outcome;
}

enum outcome serve_waiting(struct client *client, struct usb_device *device, const char **cause)
{
    *cause = "the host went";
    return play_waiting(client, device);
}
