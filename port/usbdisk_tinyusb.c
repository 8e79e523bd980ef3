/* The callbacks of TinyUSB's mass storage class: see usbdisk_tinyusb.h. */
#include "usbdisk_tinyusb.h"
#include "tusb.h"
#include <string.h>

#ifndef USBDISK_SHOWS_CACHE
#define USBDISK_SHOWS_CACHE 0
#endif

static struct usbdisk_blocks *disk;
static const struct usbdisk_identity *identity;

void usbdisk_tinyusb_serve(struct usbdisk_blocks *blocks, const struct usbdisk_identity *who)
{
    disk = blocks;
    identity = who;
}

/* Answers the stack: `good` where the call was, and else an error, of which the host is told the
 * sense. Without it a stack may say that there is no medium. */
static int32_t answered(uint8_t lun, uint32_t code, int32_t good)
{
    uint32_t sense = usbdisk_blocks_sense(code);
    if (code == 0)
        return good;
    tud_msc_set_sense(lun, (uint8_t)(sense >> 16), (uint8_t)(sense >> 8), (uint8_t)sense);
    return -1;
}

void tud_msc_inquiry_cb(uint8_t lun, uint8_t vendor[8], uint8_t product[16], uint8_t revision[4])
{
    (void)lun;
    memcpy(vendor, identity->vendor, 8);
    memcpy(product, identity->product, 16);
    memcpy(revision, identity->revision, 4);
}

/* Ready from the start on. After a refusal of the device each command says what is wrong. */
bool tud_msc_test_unit_ready_cb(uint8_t lun)
{
    (void)lun;
    return disk != NULL;
}

void tud_msc_capacity_cb(uint8_t lun, uint32_t *block_count, uint16_t *block_size)
{
    (void)lun;
    *block_count = disk ? (uint32_t)usbdisk_blocks_count(disk) : 0;
    *block_size = 512;
}

/* With a buffer of whole blocks the stack asks for whole blocks. */
static uint32_t misfit(uint32_t offset, uint32_t bufsize)
{
    if (!disk)
        return USBDISK_DEAD;
    return offset == 0 && bufsize % 512 == 0 ? 0 : USBDISK_BAD_LENGTH;
}

int32_t tud_msc_read10_cb(uint8_t lun, uint32_t lba, uint32_t offset, void *buffer,
                          uint32_t bufsize)
{
    uint32_t code = misfit(offset, bufsize);
    if (!code)
        code = usbdisk_blocks_read(disk, lba, buffer, bufsize / 512);
    return answered(lun, code, (int32_t)bufsize);
}

int32_t tud_msc_write10_cb(uint8_t lun, uint32_t lba, uint32_t offset, uint8_t *buffer,
                           uint32_t bufsize)
{
    uint32_t code = misfit(offset, bufsize);
    if (!code)
        code = usbdisk_blocks_write(disk, lba, buffer, bufsize / 512);
    if (!code && !USBDISK_SHOWS_CACHE)
        code = usbdisk_blocks_sync(disk);
    return answered(lun, code, (int32_t)bufsize);
}

/* START STOP UNIT: a host that lets the disk go has what it wrote. */
bool tud_msc_start_stop_cb(uint8_t lun, uint8_t power_condition, bool start, bool load_eject)
{
    (void)power_condition;
    (void)start;
    (void)load_eject;
    return answered(lun, disk ? usbdisk_blocks_sync(disk) : USBDISK_DEAD, 0) == 0;
}

int32_t tud_msc_scsi_cb(uint8_t lun, uint8_t const scsi_cmd[16], void *buffer, uint16_t bufsize)
{
    (void)buffer;
    (void)bufsize;
    switch (scsi_cmd[0]) {
    case 0x35: /* SYNCHRONIZE CACHE(10) */
    case 0x91: /* SYNCHRONIZE CACHE(16) */
        return answered(lun, disk ? usbdisk_blocks_sync(disk) : USBDISK_DEAD, 0);
    default: /* ILLEGAL REQUEST, invalid command operation code */
        tud_msc_set_sense(lun, 0x05, 0x20, 0x00);
        return -1;
    }
}
