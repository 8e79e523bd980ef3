/* The words of usbdisk-make. */
#ifndef MAKE_WORDS_H
#define MAKE_WORDS_H

#include "usbdisk.h"

/* The limits of an image, and how many sectors the largest has. */
#define MOST_SLOTS 64
#define MOST_BLOCKS ((uint64_t)1 << 31)
#define MOST_SECTORS (MOST_BLOCKS + USBDISK_LOG_END(2, MOST_SLOTS))

struct make_words {
    const char *image;
    uint64_t size, blocks, slots, format, align;
    uint64_t home; /* where the blocks begin */
    const char *imports, *exports; /* a plain file or device, or NULL */
    bool shows, as_json, migrates, zeroes, replaces, makes;
    bool shapes; /* tells what image is made */
};

/* Reads the words of `main`. Answers GO_ON where they go together, or the exit status: said why. */
int read_make_words(struct make_words *options, char **words);

#endif
