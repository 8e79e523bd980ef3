/* The blocks of usbdisk_blocks.h as the disk of TinyUSB: the callbacks of its mass storage class,
 * for one logical unit. docs/MAKERS.md shows a firmware with it, step by step.
 *
 *     usbdisk_blocks_start(&blocks, &device, 8);      before the bus is there
 *     usbdisk_tinyusb_serve(blocks, &who);
 *     tusb_init();
 *     for (;;) {
 *         tud_task();
 *         usbdisk_blocks_idle(blocks);                while nothing comes
 *     }
 *
 * The callbacks are made by tud_task, so all calls of the blocks come from one thread. In
 * tusb_config.h let CFG_TUD_MSC_EP_BUFSIZE be a multiple of 512, of at most the `most` of the
 * start: each part of a WRITE, as long as that, is one write.
 *
 * TinyUSB shows its host no write cache, so that no host sends SYNCHRONIZE CACHE: each write is
 * made durable before it is answered. Where you show a cache (MODE SENSE, page 08h, WCE) build this
 * with -DUSBDISK_SHOWS_CACHE=1: then the host's SYNCHRONIZE CACHE does that. */
#ifndef USBDISK_TINYUSB_H
#define USBDISK_TINYUSB_H

#include "usbdisk_blocks.h"

#ifdef __cplusplus
extern "C" {
#endif

/* What the callbacks serve from here on. NULL: there is no disk, and a host is told that it is not
 * ready. The identity stays where it is. */
void usbdisk_tinyusb_serve(struct usbdisk_blocks *blocks, const struct usbdisk_identity *who);

#ifdef __cplusplus
}
#endif
#endif
