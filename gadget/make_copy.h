/* The blocks of an image go to a plain file or device, and those of one into a new image. */
#ifndef MAKE_COPY_H
#define MAKE_COPY_H

#include "make_place.h"
#include "make_words.h"

/* Makes an image on `image` of all that `raw` holds. Power may go at any point: until the log is
 * laid there is no image. False: said why. */
bool import_blocks(const struct make_words *options, struct place *image, struct place *raw);

/* Writes the blocks that a start on `image` would serve to `raw`, which has as many then. Not a
 * byte of the image is changed. False: said why. */
bool export_blocks(const struct make_words *options, struct place *image, struct place *raw);

#endif
