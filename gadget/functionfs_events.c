/* What FunctionFS tells by ep0: events, and the host's requests to the interface. */
#include "functionfs.h"
#include "functionfs_ends.h"
#include "program.h"
#include <errno.h>
#include <linux/usb/functionfs.h>
#include <string.h>
#include <time.h>
#include <unistd.h>

/* TRIES: how often an answer is handed over before the request is stalled. PAUSE: nanoseconds
 * between two of them. */
enum { EVENTS = 4, TRIES = 10, PAUSE = 1000000 };

static void lock(struct gadget *gadget)
{
    reader_lock(&gadget->bulk.engine.reader);
}

static void unlock(struct gadget *gadget)
{
    reader_unlock(&gadget->bulk.engine.reader);
}

/* The host has set the configuration, which follows a reset of the bus. At another speed packets
 * have another size: the disk starts again, when all is at home. */
static void enable(struct gadget *gadget)
{
    uint32_t packet = packet_of(gadget->bulk.in.file);
    bulk_reset(&gadget->bulk);
    if (packet && packet != gadget->disk.packet) {
        if (!disk_settle(&gadget->disk) || !disk_start(&gadget->disk, packet)) {
            gadget->is_ended = true;
            return;
        }
        say("packets of %u bytes", packet);
    }
    gadget->bulk.is_enabled = packet != 0;
    gadget->has_steps = true;
}

static void disable(struct gadget *gadget)
{
    gadget->bulk.is_enabled = false;
    bulk_reset(&gadget->bulk);
}

/* The gadget is no longer bound. Whoever has bound it may bind it again; where that was this
 * program, somebody else has taken its controller, or it is gone. */
static void unbind(struct gadget *gadget)
{
    disable(gadget);
    say("%s: its controller was taken away, and the disk is unplugged", gadget->options.image);
    gadget->is_ended = gadget->is_taken = gadget->binds;
}

/* The disk's answer to a request. */
struct answer {
    uint8_t data[2];
    uint32_t size;
    bool sends, is_good;
};

static struct answer ask_disk(struct gadget *gadget, const uint8_t setup[8])
{
    struct answer answer = { .sends = setup[0] & 0x80 };
    lock(gadget);
    answer.is_good = disk_setup(&gadget->disk, setup, answer.data, &answer.size) == USBDISK_ACK;
    if (answer.is_good && setup[0] == 0x21 && setup[1] == 0xFF)
        bulk_reset(&gadget->bulk);
    unlock(gadget);
    return answer;
}

/* FunctionFS stalls a request where the answer goes the wrong way, and says EL2HLT. Answers 0, or
 * the error. */
static int hand_over(int control, struct answer *answer)
{
    ssize_t moved;
    if (answer->sends == answer->is_good)
        moved = write(control, answer->data, answer->size);
    else
        moved = read(control, answer->data, 0);
    return moved >= 0 || (!answer->is_good && errno == EL2HLT) ? 0 : errno;
}

/* Whether FunctionFS may take it when it is asked again: the controller was not ready, or an event
 * came in between. */
static bool may_be_taken(int refusal)
{
    return may_pass(refusal) || refusal == EBUSY || refusal == EIDRM;
}

/* A request to the interface. An answer that is not taken is handed over again, and in the end the
 * request is stalled, so that its host does not wait. Where FunctionFS has dropped the request
 * itself (ESRCH) it has left no way to answer. */
static void answer_request(struct gadget *gadget, const uint8_t setup[8])
{
    struct answer answer = ask_disk(gadget, setup);
    int refusal = hand_over(gadget->control, &answer), first = refusal;
    for (int tries = 1; may_be_taken(refusal) && tries < TRIES; tries++) {
        nanosleep(&(struct timespec){ 0, PAUSE }, NULL);
        refusal = hand_over(gadget->control, &answer);
    }
    if (may_be_taken(refusal)) {
        answer.is_good = false;
        refusal = hand_over(gadget->control, &answer);
    }
    if (!first || first == ESHUTDOWN || first == EL2HLT)
        return;
    lock(gadget);
    say_of_host("the answer to a control request was refused (%s), and then %s", strerror(first),
                refusal ? strerror(refusal) : "taken");
    unlock(gadget);
}

static void play_event(struct gadget *gadget, const struct usb_functionfs_event *event)
{
    uint8_t setup[8];
    if (event->type == FUNCTIONFS_SETUP) {
        memcpy(setup, &event->u.setup, sizeof setup);
        answer_request(gadget, setup);
        return;
    }
    lock(gadget);
    if (event->type == FUNCTIONFS_ENABLE)
        enable(gadget);
    else if (event->type == FUNCTIONFS_DISABLE)
        disable(gadget);
    else if (event->type == FUNCTIONFS_UNBIND)
        unbind(gadget);
    unlock(gadget);
}

/* EL2HLT: a request that was not answered is stalled now. ESRCH: it cannot be. */
static bool is_end(int refusal)
{
    return !may_be_taken(refusal) && refusal != EL2HLT && refusal != ESRCH && refusal != ESHUTDOWN;
}

void play_events(struct gadget *gadget)
{
    struct usb_functionfs_event events[EVENTS];
    ssize_t size = read(gadget->control, events, sizeof events);
    if (size < 0 && is_end(errno)) {
        lock(gadget);
        say("FunctionFS ended: %s", strerror(errno));
        gadget->is_ended = true;
        unlock(gadget);
    }
    for (ssize_t i = 0; i < size / (ssize_t)sizeof *events; i++)
        play_event(gadget, &events[i]);
}
