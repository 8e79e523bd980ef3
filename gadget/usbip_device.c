/* The device as its host sees it: descriptors, and the requests of the control endpoint. */
#include "usbip.h"
#include <string.h>

enum {
    DEVICE_TYPE = 1,
    CONFIGURATION_TYPE = 2,
    STRING_TYPE = 3,
    QUALIFIER_TYPE = 6,
    OTHER_SPEED_TYPE = 7
};
enum { DEVICE_SIZE = 18, CONFIGURATION_SIZE = 32, QUALIFIER_SIZE = 10 };

/* The requests, by bmRequestType and bRequest. */
enum {
    GET_STATUS_OF_DEVICE = 0x8000,
    GET_STATUS_OF_INTERFACE = 0x8100,
    SET_ADDRESS = 0x0005,
    GET_DESCRIPTOR = 0x8006,
    GET_CONFIGURATION = 0x8008,
    SET_CONFIGURATION = 0x0009,
    GET_INTERFACE = 0x810A,
    SET_INTERFACE = 0x010B,
    CLEAR_FEATURE_OF_ENDPOINT = 0x0201,
    GET_STATUS_OF_ENDPOINT = 0x8200,
    CLASS_RESET = 0x21FF,
    GET_MAX_LUN = 0xA1FE
};

/* A descriptor a line. */
/* clang-format off */
static int put_device(uint8_t *data)
{
    static const uint8_t device[DEVICE_SIZE] = {
        DEVICE_SIZE, DEVICE_TYPE, 0x00, 0x02, 0, 0, 0, 64, /* USB 2.0 */
        0x09, 0x12, 0x01, 0x00, 0x00, 0x01,                /* the numbers are for tests */
        1, 2, 3, 1,                                        /* strings, and configurations */
    };
    memcpy(data, device, sizeof device);
    return DEVICE_SIZE;
}

/* The configuration for packets of `packet` bytes, as itself or as the one at the other speed. */
static int put_configuration(uint8_t *data, uint8_t type, uint32_t packet)
{
    uint8_t low = (uint8_t)packet, high = (uint8_t)(packet >> 8);
    const uint8_t configuration[CONFIGURATION_SIZE] = {
        9, type, CONFIGURATION_SIZE, 0, 1, 1, 0, 0x80, 50, /* bus-powered, 100 mA */
        9, 4, 0, 0, 2, 0x08, 0x06, 0x50, 0,                /* mass storage, SCSI, Bulk-Only */
        7, 5, 0x81, 2, low, high, 0,                       /* Bulk-In */
        7, 5, 0x02, 2, low, high, 0,                       /* Bulk-Out */
    };
    memcpy(data, configuration, sizeof configuration);
    return CONFIGURATION_SIZE;
}
/* clang-format on */

static int put_qualifier(uint8_t *data)
{
    static const uint8_t qualifier[QUALIFIER_SIZE] = {
        QUALIFIER_SIZE, QUALIFIER_TYPE, 0x00, 0x02, 0, 0, 0, 64, 1, 0,
    };
    memcpy(data, qualifier, sizeof qualifier);
    return QUALIFIER_SIZE;
}

/* A string of the disk: 0 is the list of languages, which has English alone. */
static int put_string(const struct usb_device *device, uint8_t *data, uint8_t index)
{
    const char *const strings[] = { "\x09\x04", device->vendor, device->product,
                                    device->disk->serial };
    if (index >= sizeof strings / sizeof *strings)
        return STALLED;
    int size = 2;
    for (const char *at = strings[index]; *at; at++) {
        data[size++] = (uint8_t)*at;
        if (index)
            data[size++] = 0;
    }
    data[0] = (uint8_t)size;
    data[1] = STRING_TYPE;
    return size;
}

/* A disk of packets of 64 bytes is a device of full speed alone, which has no qualifier and no
 * other speed. */
static int put_descriptor(const struct usb_device *device, const uint8_t setup[8], uint8_t *data)
{
    uint32_t packet = device->disk->packet;
    uint8_t index = setup[2], type = setup[3];
    if (type == STRING_TYPE)
        return put_string(device, data, index);
    if (index != 0)
        return STALLED;
    if (type == DEVICE_TYPE)
        return put_device(data);
    if (type == CONFIGURATION_TYPE)
        return put_configuration(data, type, packet);
    if (type == QUALIFIER_TYPE && packet == 512)
        return put_qualifier(data);
    if (type == OTHER_SPEED_TYPE && packet == 512)
        return put_configuration(data, type, 64);
    return STALLED;
}

/* The host of USB/IP sends no bus reset, but chooses a configuration behind each: that is taken for
 * one. */
static int set_configuration(struct usb_device *device, const uint8_t setup[8])
{
    if (setup[2] > 1 || setup[3])
        return STALLED;
    device->configuration = setup[2];
    disk_bus_reset(device->disk);
    return 0;
}

static int set_interface(struct usb_device *device, const uint8_t setup[8])
{
    if (setup[2] || setup[3] || setup[4] || setup[5])
        return STALLED;
    disk_clear_halt(device->disk, 0x81);
    disk_clear_halt(device->disk, 0x02);
    return 0;
}

/* A request that the disk knows. The control endpoint itself is never halted. */
static int hand_on(struct usb_device *device, const uint8_t setup[8], uint8_t *data)
{
    uint32_t size = 0;
    bool is_control = setup[0] == 0x82 && (setup[4] & 0x0F) == 0;
    if (is_control) {
        memset(data, 0, 2);
        return 2;
    }
    if (disk_setup(device->disk, setup, data, &size) != USBDISK_ACK)
        return STALLED;
    return (int)size;
}

static int put_bytes(uint8_t *data, uint8_t first, int size)
{
    memset(data, 0, (size_t)size);
    data[0] = first;
    return size;
}

int play_control(struct usb_device *device, const uint8_t setup[8], bool in,
                 uint8_t data[CONTROL_MOST])
{
    if (in != (setup[0] >> 7 == 1))
        return STALLED;
    switch (setup[0] << 8 | setup[1]) {
    case GET_STATUS_OF_DEVICE:
    case GET_STATUS_OF_INTERFACE:
        return put_bytes(data, 0, 2);
    case GET_DESCRIPTOR:
        return put_descriptor(device, setup, data);
    case GET_CONFIGURATION:
        return put_bytes(data, device->configuration, 1);
    case GET_INTERFACE:
        return put_bytes(data, 0, 1);
    case SET_ADDRESS:
        return 0;
    case SET_CONFIGURATION:
        return set_configuration(device, setup);
    case SET_INTERFACE:
        return set_interface(device, setup);
    case CLEAR_FEATURE_OF_ENDPOINT:
    case GET_STATUS_OF_ENDPOINT:
    case CLASS_RESET:
    case GET_MAX_LUN:
        return hand_on(device, setup, data);
    default:
        return STALLED;
    }
}
