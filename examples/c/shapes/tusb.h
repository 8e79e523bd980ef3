/* What port/usbdisk_tinyusb.c uses of TinyUSB, in the place of its tusb.h, so that the callbacks
 * can be compiled and played where its sources are not. It is what src/class/msc/msc_device.h of
 * TinyUSB 0.16 to 0.18 declares (github.com/hathach/tinyusb, licence MIT, Ha Thach), as far as it
 * is used, with comments of our own. Written down from its documentation: it was not compared with
 * those files by a program. In a firmware put the folder `src` of TinyUSB in front of this one. */
#ifndef TUSB_H
#define TUSB_H

#include <stdbool.h>
#include <stdint.h>

/* Who the disk is, padded with spaces, with no final 0; and whether it is ready. */
void tud_msc_inquiry_cb(uint8_t lun, uint8_t vendor_id[8], uint8_t product_id[16],
                        uint8_t product_rev[4]);
bool tud_msc_test_unit_ready_cb(uint8_t lun);

/* How many blocks there are, and of how many bytes each. */
void tud_msc_capacity_cb(uint8_t lun, uint32_t *block_count, uint16_t *block_size);

/* Reads or writes `bufsize` bytes from `offset` bytes behind the start of a block on. They answer
 * how many bytes were moved, or a negative number where they cannot be. A long READ or WRITE comes
 * in parts, each as long as the stack's buffer: with one of whole blocks the offset is 0. */
int32_t tud_msc_read10_cb(uint8_t lun, uint32_t lba, uint32_t offset, void *buffer,
                          uint32_t bufsize);
int32_t tud_msc_write10_cb(uint8_t lun, uint32_t lba, uint32_t offset, uint8_t *buffer,
                           uint32_t bufsize);

/* A command that the stack does not know, such as 35h, SYNCHRONIZE CACHE (10). A negative answer
 * refuses. */
int32_t tud_msc_scsi_cb(uint8_t lun, uint8_t const scsi_cmd[16], void *buffer, uint16_t bufsize);

/* START STOP UNIT; false refuses. */
bool tud_msc_start_stop_cb(uint8_t lun, uint8_t power_condition, bool start, bool load_eject);

/* Of the stack: the sense of the command that a callback is about to refuse. */
bool tud_msc_set_sense(uint8_t lun, uint8_t sense_key, uint8_t add_sense_code,
                       uint8_t add_sense_qualifier);

#endif
