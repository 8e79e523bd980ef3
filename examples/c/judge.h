/* What the parts of judge.c share: calls of the device under test, until the power goes. */
#ifndef JUDGE_H
#define JUDGE_H

#include "usbdisk.h"

extern uint64_t seed;
unsigned random_below(unsigned most);

extern long left;      /* calls of the device until the power goes */
extern bool goes_late; /* it goes at the next flush behind these */
extern bool is_gone;   /* it went */

/* Says what is wrong. Answers false, as all do that end a life. */
extern const char *wrong;
bool fails(const char *what);

/* The next call of the device, from its begin to its end. False: none is wanted, or the life ends.
 */
bool carry_one(struct usbdisk *disk);

/* All of them. False: the life ends. */
bool carry_all(struct usbdisk *disk);

#endif
