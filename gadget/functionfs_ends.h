/* The gadget's ends in the kernel: the descriptors of its FunctionFS function, and the device
 * controller that it is bound to. */
#ifndef FUNCTIONFS_ENDS_H
#define FUNCTIONFS_ENDS_H

#include <stdbool.h>
#include <stdint.h>

/* Opens ep0 in the folder of FunctionFS, and writes the descriptors and strings. Answers the file,
 * or -1 and errno. */
int open_control(const char *folder);

/* Binds the gadget of this configfs folder to a device controller: the one named, or else the
 * first one that has no gadget. False: errno. */
bool bind_controller(const char *gadget, const char *controller);

/* Lets the controller go: the host sees that the disk is unplugged. */
void unbind_controller(const char *gadget);

/* How many bytes a packet of an endpoint has at the speed of the bus: 64 or 512; 0 where it is not
 * known now. */
uint32_t packet_of(int endpoint);

#endif
