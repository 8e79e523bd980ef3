/* The messages of USB/IP 1.1.1, whose numbers are big-endian. */
#include "usbip.h"
#include <string.h>

enum {
    VERSION_CODE = 0x0111,
    SUBMIT_REPLY = 3,
    UNLINK_REPLY = 4,
    BUS = 1,
    NUMBER = 2,
    FULL_SPEED = 2,
    HIGH_SPEED = 3
};

static const char bus_id[] = "1-1";

static uint32_t number_at(const uint8_t *at)
{
    return (uint32_t)at[0] << 24 | (uint32_t)at[1] << 16 | (uint32_t)at[2] << 8 | at[3];
}

static void put_number(uint8_t *at, uint32_t number)
{
    for (int i = 0; i < 4; i++)
        at[i] = (uint8_t)(number >> (24 - 8 * i));
}

struct message read_message(const uint8_t head[HEAD])
{
    struct message message = {
        .command = number_at(head),
        .number = number_at(head + 4),
        .device = number_at(head + 8),
        .in = number_at(head + 12) == 1,
        .endpoint = number_at(head + 16),
        .flags = number_at(head + 20),
        .victim = number_at(head + 20),
        .length = number_at(head + 24),
        .packets = number_at(head + 32),
    };
    memcpy(message.setup, head + 40, sizeof message.setup);
    return message;
}

static void put_reply(uint8_t head[HEAD], uint32_t command, uint32_t number, int32_t status)
{
    memset(head, 0, HEAD);
    put_number(head, command);
    put_number(head + 4, number);
    put_number(head + 20, (uint32_t)status);
}

void put_submit_reply(uint8_t head[HEAD], uint32_t number, int32_t status, uint32_t length)
{
    put_reply(head, SUBMIT_REPLY, number, status);
    put_number(head + 24, length);
}

void put_unlink_reply(uint8_t head[HEAD], uint32_t number, int32_t status)
{
    put_reply(head, UNLINK_REPLY, number, status);
}

bool is_version(const uint8_t request[REQUEST])
{
    return number_at(request) >> 16 == VERSION_CODE;
}

unsigned request_code(const uint8_t request[REQUEST])
{
    return number_at(request) & 0xFFFF;
}

bool names_device(const uint8_t bus[BUS_ID])
{
    return memcmp(bus, bus_id, sizeof bus_id) == 0;
}

uint32_t device_number(void)
{
    return BUS << 16 | NUMBER;
}

/* A request's answer: the code without its highest bit. */
static void put_answer(uint8_t reply[REQUEST], unsigned code, uint32_t status)
{
    put_number(reply, (uint32_t)VERSION_CODE << 16 | (code & 0x7FFF));
    put_number(reply + 4, status);
}

/* The device: where it is, its speed, and the numbers of its descriptor. */
static void put_device(uint8_t device[DEVICE], uint32_t packet)
{
    static const uint8_t numbers[] = { 0x12, 0x09, 0x00, 0x01, 0x01, 0x00, 0, 0, 0, 1, 1, 1 };
    static const char path[] = "/sys/devices/usbdisk/1-1";
    memset(device, 0, DEVICE);
    memcpy(device, path, sizeof path);
    memcpy(device + 256, bus_id, sizeof bus_id);
    put_number(device + 288, BUS);
    put_number(device + 292, NUMBER);
    put_number(device + 296, packet == 512 ? HIGH_SPEED : FULL_SPEED);
    memcpy(device + 300, numbers, sizeof numbers);
}

size_t put_list_reply(uint8_t reply[REPLY_MOST], uint32_t packet)
{
    static const uint8_t interface[INTERFACE] = { 0x08, 0x06, 0x50, 0 };
    put_answer(reply, ASKS_LIST, 0);
    put_number(reply + REQUEST, 1);
    put_device(reply + REQUEST + 4, packet);
    memcpy(reply + REQUEST + 4 + DEVICE, interface, sizeof interface);
    return REPLY_MOST;
}

size_t put_import_reply(uint8_t reply[REPLY_MOST], uint32_t status, uint32_t packet)
{
    put_answer(reply, ASKS_IMPORT, status);
    if (status)
        return REQUEST;
    put_device(reply + REQUEST, packet);
    return REQUEST + DEVICE;
}
