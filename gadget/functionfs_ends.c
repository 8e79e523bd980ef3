/* The gadget's ends in the kernel. */
#include "functionfs_ends.h"
#include <dirent.h>
#include <endian.h>
#include <errno.h>
#include <fcntl.h>
#include <linux/usb/ch9.h>
#include <linux/usb/functionfs.h>
#include <stdio.h>
#include <string.h>
#include <sys/ioctl.h>
#include <unistd.h>

#define NAME "Power Safe Disk"

/* Mass storage, SCSI, bulk-only; Bulk-In 81h and Bulk-Out 02h, which the controller may number
 * otherwise. */
struct disk_interface {
    struct usb_interface_descriptor interface;
    struct usb_endpoint_descriptor_no_audio in, out;
} __attribute__((packed));

struct descriptors {
    struct usb_functionfs_descs_head_v2 head;
    __le32 full_speed_count, high_speed_count;
    struct disk_interface full_speed, high_speed;
} __attribute__((packed));

struct strings {
    struct usb_functionfs_strings_head head;
    __le16 language;
    char name[sizeof NAME];
} __attribute__((packed));

static struct usb_endpoint_descriptor_no_audio endpoint(uint8_t address, uint16_t packet)
{
    return (struct usb_endpoint_descriptor_no_audio){
        .bLength = USB_DT_ENDPOINT_SIZE,
        .bDescriptorType = USB_DT_ENDPOINT,
        .bEndpointAddress = address,
        .bmAttributes = USB_ENDPOINT_XFER_BULK,
        .wMaxPacketSize = htole16(packet),
    };
}

static struct disk_interface interface_of(uint16_t packet)
{
    return (struct disk_interface){
        .interface = {
            .bLength = USB_DT_INTERFACE_SIZE,
            .bDescriptorType = USB_DT_INTERFACE,
            .bNumEndpoints = 2,
            .bInterfaceClass = USB_CLASS_MASS_STORAGE,
            .bInterfaceSubClass = 0x06,
            .bInterfaceProtocol = 0x50,
            .iInterface = 1,
        },
        .in = endpoint(0x81, packet),
        .out = endpoint(0x02, packet),
    };
}

static bool write_all(int file, const void *bytes, size_t size)
{
    return write(file, bytes, size) == (ssize_t)size;
}

int open_control(const char *folder)
{
    const struct descriptors descriptors = {
        .head = { .magic = htole32(FUNCTIONFS_DESCRIPTORS_MAGIC_V2),
                  .flags = htole32(FUNCTIONFS_HAS_FS_DESC | FUNCTIONFS_HAS_HS_DESC),
                  .length = htole32(sizeof descriptors) },
        .full_speed_count = htole32(3),
        .high_speed_count = htole32(3),
        .full_speed = interface_of(64),
        .high_speed = interface_of(512),
    };
    const struct strings strings = {
        .head = { .magic = htole32(FUNCTIONFS_STRINGS_MAGIC),
                  .length = htole32(sizeof strings),
                  .str_count = htole32(1),
                  .lang_count = htole32(1) },
        .language = htole16(0x0409),
        .name = NAME,
    };
    char path[4096];
    snprintf(path, sizeof path, "%s/ep0", folder);
    int control = open(path, O_RDWR | O_NONBLOCK | O_CLOEXEC);
    if (control < 0)
        return -1;
    if (write_all(control, &descriptors, sizeof descriptors) &&
        write_all(control, &strings, sizeof strings))
        return control;
    int cause = errno;
    close(control);
    errno = cause;
    return -1;
}

static bool write_controller(const char *gadget, const char *name)
{
    char path[4096];
    snprintf(path, sizeof path, "%s/UDC", gadget);
    int file = open(path, O_WRONLY | O_CLOEXEC);
    if (file < 0)
        return false;
    bool is_written = write_all(file, name, strlen(name));
    int cause = errno;
    close(file);
    errno = cause;
    return is_written;
}

/* Whether another gadget is bound to it, as the system tells. */
static bool has_gadget(const char *controller)
{
    char path[4096], name[2];
    snprintf(path, sizeof path, "/sys/class/udc/%s/function", controller);
    int file = open(path, O_RDONLY | O_CLOEXEC);
    bool has_one = file >= 0 && read(file, name, sizeof name) == sizeof name;
    if (file >= 0)
        close(file);
    return has_one;
}

/* The first controller that is free. */
static bool bind_any(const char *gadget)
{
    DIR *folder = opendir("/sys/class/udc");
    struct dirent *entry;
    bool is_bound = false;
    int cause = ENODEV;
    while (folder && !is_bound && (entry = readdir(folder))) {
        if (entry->d_name[0] == '.')
            continue;
        errno = EBUSY;
        is_bound = !has_gadget(entry->d_name) && write_controller(gadget, entry->d_name);
        cause = errno;
    }
    if (folder)
        closedir(folder);
    errno = cause;
    return is_bound;
}

bool bind_controller(const char *gadget, const char *controller)
{
    return controller ? write_controller(gadget, controller) : bind_any(gadget);
}

void unbind_controller(const char *gadget)
{
    write_controller(gadget, "\n");
}

uint32_t packet_of(int file)
{
    struct usb_endpoint_descriptor found;
    if (ioctl(file, FUNCTIONFS_ENDPOINT_DESC, &found) < 0)
        return 0;
    return le16toh(found.wMaxPacketSize) == 64 ? 64 : 512;
}
