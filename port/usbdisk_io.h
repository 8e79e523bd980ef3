/* A USB disk over a device of yours: you write three functions, and hand over whole transfers.
 *
 *     static const struct usbdisk_io_device flash = { NULL, SECTORS, read, write, flush, 0 };
 *     struct usbdisk_io *io;
 *     code = usbdisk_io_start(&io, &flash, &who, 512);       once the bus tells its speed
 *     code = usbdisk_io_out(io, bytes, size, &taken);        bytes came to Bulk-Out
 *     code = usbdisk_io_in(io, bytes, size, &got);           the host waits at Bulk-In
 *     code = usbdisk_io_setup(io, setup, data, &size);       a request came for the interface
 *     usbdisk_io_idle(io);                                   nothing came for a while
 *     usbdisk_io_stop(io);
 *
 * Whatever a call writes is on the device when the call is back, in the order that keeps the
 * promises; so what it answers may go to the host at once. A device that refuses a write or a
 * flush is not asked for another one: the disk is told, fails what it cannot promise, and serves no
 * block until the next start.
 *
 * A device that works while packets come, by DMA or in a thread of its own, has a section further
 * down: usbdisk_io_begin takes the place of usbdisk_io_start.
 *
 * Link usbdisk_io.c, usbdisk_carry.c and usbdisk_make.c with the library, and usbdisk_heap.c or
 * memory functions of your own (usbdisk.h, rattle_alloc). Of usbdisk.h this file needs the answers
 * ACK, NAK and STALL, the numbers of what is wrong, and the identity.
 *
 * Where your controller's events come out of one queue, usbdisk_io_play takes each of them, and
 * examples/c/client.c is a whole program over it.
 *
 * What usbdisk.h says of threads holds here too: one thread at a time, and no call from an
 * interrupt that can interrupt another one. A call waits for your functions, and for nothing else.
 */
#ifndef USBDISK_IO_H
#define USBDISK_IO_H

#include "usbdisk.h"

#ifdef __cplusplus
extern "C" {
#endif

/* How many sectors one call of your functions has at most: 120 KiB. */
enum { USBDISK_IO_MOST = USBDISK_LIMIT(2) };

/* The device: so many sectors of 512 bytes, and three functions, each of which is handed the
 * context. They answer false where the device refuses. What they must promise docs/MAKERS.md tells.
 * Of a disk or blocks on it `kept` is that of struct usbdisk_options: how many records of the log
 * lie in memory; 0, as where nothing is said, for four.
 *
 * read, write: `count` sectors, 1 to USBDISK_IO_MOST, from `first` on, with their bytes one behind
 * the other. `bytes` is aligned to 16. A write may be lost until the next flush.
 * flush: all that was written before is durable when it is back. */
struct usbdisk_io_device {
    void *context;
    uint64_t sectors;
    bool (*read)(void *context, uint64_t first, uint8_t *bytes, size_t count);
    bool (*write)(void *context, uint64_t first, const uint8_t *bytes, size_t count);
    bool (*flush)(void *context);
    uint32_t kept;
};

/* A disk that was started. */
struct usbdisk_io;

/* What usbdisk_io_in answers beside ACK, NAK and STALL: a packet is longer than the rest of the
 * room, and is lost. Never so where the room is a multiple of the packet. */
enum { USBDISK_IO_OVERFLOW = 64 };

/* What this number means, of a start, a transfer or an image; for people, in lower case. */
const char *usbdisk_text(uint32_t code);

/* Starts a disk on what the device holds, recovers it, and has the device carry that out. The
 * device stays yours, and has to stay where it is; the identity is copied. packet: 64 at full
 * speed, 512 at high speed.
 *
 * Takes as much memory as usbdisk_memory tells, the buffer of one call of the device (24,576 bytes
 * in format 1, 122,880 in format 2) and less than 256 bytes.
 *
 * Answers 0, and `*io` is the disk; or why there is none, and `*io` stays: NO_MEMORY; READ_REFUSED,
 * WRITE_REFUSED or FLUSH_REFUSED of the device; BAD_SUPER, BAD_VERSION, BAD_SIZE, BAD_HEAD or
 * STAMPS_USED_UP of what it holds; BAD_IDENTITY or BAD_PACKET_SIZE. */
uint32_t usbdisk_io_start(struct usbdisk_io **io, const struct usbdisk_io_device *device,
                          const struct usbdisk_identity *identity, uint32_t packet);

/* Bytes came to Bulk-Out, a transfer or a part of one: hands them to the disk packet by packet, and
 * tells how many were taken. 0 bytes are one empty packet. In front of the last byte of a transfer
 * let a part end where a packet does.
 *
 * Answers ACK: all. NAK: a start is under way, or the host has not taken the status before; call
 * again with the rest, once usbdisk_io_in has handed out bytes or a request has come. STALL: the
 * endpoint is halted. */
uint32_t usbdisk_io_out(struct usbdisk_io *io, const uint8_t *bytes, size_t size, size_t *taken);

/* The host waits at Bulk-In for `size` bytes: collects packets, and tells how many bytes there are.
 * It makes no call of the device.
 *
 * Answers ACK: the room is full, or a packet that is shorter than the others, or empty, ended the
 * transfer. NAK: no more is there now; call again with the rest of the room, once Bulk-Out has
 * taken something. STALL: the endpoint is halted behind these bytes. USBDISK_IO_OVERFLOW. */
uint32_t usbdisk_io_in(struct usbdisk_io *io, uint8_t *bytes, size_t size, size_t *got);

/* A request came for the mass storage interface or one of its endpoints, with the numbers that
 * docs/MAKERS.md tells. Answers ACK with the `*size` bytes, 0 to 2, that go to the host; or STALL.
 * It makes no call of the device. */
uint32_t usbdisk_io_setup(struct usbdisk_io *io, const uint8_t setup[8], uint8_t data[2],
                          uint32_t *size);

/* The host, or a controller that does it for the host, clears the halt of Bulk-In (81h) or Bulk-Out
 * (02h). */
void usbdisk_io_clear_halt(struct usbdisk_io *io, uint8_t endpoint);

/* A bus reset. What was accepted stays accepted; let go of packets that are on their way. */
void usbdisk_io_reset(struct usbdisk_io *io);

/* Nothing came for a while: brings home some of what was written, up to 32 steps of it. Answers
 * true while more is left. False: all is durable and at home, or the disk has faulted. */
bool usbdisk_io_idle(struct usbdisk_io *io);

/* The data of a READ is on its way to the host, `size` bytes, and nothing else is to be done: where
 * READs follow each other, reads ahead what the next one will ask for. It may be left out, and what
 * is guessed wrong costs one read of the device. */
void usbdisk_io_look_ahead(struct usbdisk_io *io, uint64_t size);

/* What the bus brought. `bytes` are, of OUT, those that came; of IN, room for as many as the host
 * waits for; of SETUP, the setup packet and then, from the ninth on, room for the 2 that go to the
 * host. RESET and IDLE have none. */
enum { USBDISK_IO_OUT, USBDISK_IO_IN, USBDISK_IO_SETUP, USBDISK_IO_RESET, USBDISK_IO_IDLE };

struct usbdisk_io_event {
    uint32_t kind;
    uint8_t *bytes;
    size_t size;
    size_t moved; /* 0 at first; then how many of them were taken, or go to the host */
};

/* Plays an event by the call of its kind, with that call's answer; of RESET ACK, of IDLE ACK while
 * more is left, and NAK where not. An OUT or an IN that was answered NAK goes on behind what it has
 * moved when it is handed in again. */
uint32_t usbdisk_io_play(struct usbdisk_io *io, struct usbdisk_io_event *event);

/* Whether the device has refused a write or a flush, or what else keeps the disk from serving
 * blocks until the next start. */
bool usbdisk_io_has_faulted(const struct usbdisk_io *io);

/* Stops the disk, and frees its memory. It writes nothing: what was neither promised nor brought
 * home is lost as by a cut, so call usbdisk_io_idle until it answers false before. No call of the
 * device is under way. Of NULL: nothing. */
void usbdisk_io_stop(struct usbdisk_io *io);

/* A device that works beside these calls: who carries out its calls and who moves packets are two
 * threads, or one that is told when the device has ended.
 *
 *     code = usbdisk_io_begin(&io, &flash, &who, 512);
 *
 *     who moves packets                             who carries out calls of the device
 *
 *     lock                                          lock
 *     usbdisk_io_out, _in, _setup, _idle            while (usbdisk_io_next(io)) {
 *     unlock                                            unlock
 *                                                       ok = usbdisk_io_carry_out(io);
 *                                                       lock
 *                                                       usbdisk_io_done(io, ok);
 *                                                   }
 *                                                   unlock, and wait until something is wanted
 *
 * All calls come from one thread at a time, as by a lock of yours; usbdisk_io_carry_out alone is
 * made beside the others. None of these makes a call of the device itself. Behind each that moves
 * packets the device may have something to do: ask usbdisk_io_next where it is at no call. What has
 * to wait for the device is answered NAK: hand the rest in again behind each usbdisk_io_done, when
 * the host has taken a status, or when it has sent something. What usbdisk_io_idle and
 * usbdisk_io_look_ahead wish for is done once the device has nothing else to do; usbdisk_io_idle is
 * for when it is at no call.
 *
 * usbdisk_io_begin starts a disk, as usbdisk_io_start, but that the device flushes and reads sector
 * 0 alone here: all else is told by usbdisk_io_next, and usbdisk_io_state tells what came of it.
 * Until it serves, packets are answered NAK. Answers 0; NO_MEMORY; READ_REFUSED or FLUSH_REFUSED;
 * what is wrong with sector 0; BAD_IDENTITY or BAD_PACKET_SIZE. */
uint32_t usbdisk_io_begin(struct usbdisk_io **io, const struct usbdisk_io_device *device,
                          const struct usbdisk_identity *identity, uint32_t packet);

/* The next call of the device, which is under way from then on; or NULL, where one is under way
 * already, or none is wanted. */
const struct usbdisk_call *usbdisk_io_next(struct usbdisk_io *io);

/* Whether what is under way is a read that no host has asked for yet. */
bool usbdisk_io_reads_ahead(const struct usbdisk_io *io);

/* Carries out the call that is under way by the device's functions. It may be made while other
 * calls of the disk are. False: the device refused. */
bool usbdisk_io_carry_out(const struct usbdisk_io *io);

/* The call that is under way has ended, and whether the device carried it out. Behind a write or a
 * flush that was refused the device is asked for nothing more. */
void usbdisk_io_done(struct usbdisk_io *io, bool ok);

/* As usbdisk_state. */
uint32_t usbdisk_io_state(struct usbdisk_io *io, uint32_t *fault);

/* Makes an image on the device, with so many log slots and blocks; 0 blocks: as many as there is
 * room for. usbdisk_io_format makes all blocks zeros; usbdisk_io_lay_log takes as blocks what the
 * device holds behind the log, and writes the log alone. A cut leaves what was there before, no
 * image, or the new one, whole. They take what the calls of this name in usbdisk.h take, and the
 * buffer of a start.
 *
 * Answers 0; BAD_SIZES; NO_MEMORY; or READ_REFUSED, WRITE_REFUSED or FLUSH_REFUSED of the device.
 */
uint32_t usbdisk_io_format(const struct usbdisk_io_device *device, uint32_t format, uint64_t slots,
                           uint64_t blocks);
uint32_t usbdisk_io_lay_log(const struct usbdisk_io_device *device, uint32_t format, uint64_t slots,
                            uint64_t blocks);

/* The same by a plan, of which `sectors` are the device's and are not read: so `home` may be the
 * first sector of a page of it. `keeps` false makes all blocks zeros, true lays the log alone. */
uint32_t usbdisk_io_make(const struct usbdisk_io_device *device, const struct usbdisk_plan *plan,
                         bool keeps);

/* As usbdisk_io_format, where the device is blank: each byte of sector 0 is 00h, or each is FFh.
 * What lies behind it is not looked at. A format that was cut off leaves no image and such a
 * sector, or what was there before. Any other device stays as it is, for a start to tell what is on
 * it. Answers as usbdisk_io_format, and 0 where the device is not blank. */
uint32_t usbdisk_io_format_blank(const struct usbdisk_io_device *device, uint32_t format,
                                 uint64_t slots, uint64_t blocks);

/* Turns an image of format 1 into one of format 2 with the same blocks; one of format 2 is
 * recovered. After a cut, call it again. Answers as a start does, or LOG_TOO_SMALL. */
uint32_t usbdisk_io_migrate(const struct usbdisk_io_device *device);

#ifdef __cplusplus
}
#endif
#endif
