/* What stands for a controller in client.c: a host that plays by itself, and tells what it hears.
 */
#ifndef BUS_H
#define BUS_H

#include "usbdisk_io.h"

/* The next event of the bus. False: the host is gone. */
bool bus_next(struct usbdisk_io_event *event);

/* What the endpoint is to answer, with the bytes that go to the host. A transfer that was answered
 * NAK comes again, as it is then, once something else has come; an IDLE while more is left. */
void bus_answer(const struct usbdisk_io_event *event, uint32_t code);

#endif
