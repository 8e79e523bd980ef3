/* The words of the command line that both gadgets know. */
#ifndef OPTIONS_H
#define OPTIONS_H

#include "command.h"
#include "disk.h"

struct options {
    const char *image;
    bool unplugs; /* where the device has refused a write or a flush the disk is unplugged, and the
                     program ends */
    struct names names; /* what the disk is called; for disk_name */
};

/* The lines of the usage that tell of them. */
extern const char options_usage[];

/* They, for the table of a command. */
#define OPTIONS_KNOWN                                                                              \
    { "on-fault", required_argument, NULL, 0 }, { "serial", required_argument, NULL, 0 },          \
        { "vendor", required_argument, NULL, 0 }, { "product", required_argument, NULL, 0 },       \
    {                                                                                              \
        "revision", required_argument, NULL, 0                                                     \
    }

/* Takes one of them, or -v. False: its value does not fit. */
bool take_option(struct options *options, const char *word, const char *value);

#endif
