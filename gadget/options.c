/* The words of the command line that both gadgets know. */
#include "options.h"
#include "program.h"
#include <string.h>

const char options_usage[] =
    "  --on-fault serve|unplug  when the device has refused a write or a flush: go on, and refuse "
    "each command that needs\n"
    "                    it, as is done where nothing is said; or unplug the disk, and end with "
    "status 4\n"
    "  --serial DIGITS   the serial number, 12 hexadecimal digits; else made of this machine's "
    "identity and the path\n"
    "  --vendor TEXT     1 to 8 characters; else USBDISK\n"
    "  --product TEXT    1 to 16 characters; else POWER SAFE DISK\n"
    "  --revision TEXT   1 to 4 characters; else 0001\n"
    "  -v                tell all that hosts do\n"
    "SIGTERM, SIGINT, SIGQUIT and SIGHUP end it cleanly; at SIGUSR1 it tells its counters.\n";

/* Printable characters of ASCII. */
static bool is_text(const char *text, size_t most)
{
    for (const char *at = text; *at; at++)
        if (*at < ' ' || *at > '~')
            return false;
    return *text && strlen(text) <= most;
}

/* The standard of the transport wants digits, and capital ones. */
static bool is_serial(const char *text)
{
    return strlen(text) == sizeof((struct usbdisk_identity *)0)->serial &&
           strspn(text, "0123456789ABCDEF") == strlen(text);
}

bool take_option(struct options *options, const char *word, const char *value)
{
    if (!strcmp(word, "-v")) {
        say_all();
        return true;
    }
    const struct {
        const char *word, **place;
        bool fits;
    } names[] = {
        { "--serial", &options->names.serial, is_serial(value) },
        { "--vendor", &options->names.vendor, is_text(value, 8) },
        { "--product", &options->names.product, is_text(value, 16) },
        { "--revision", &options->names.revision, is_text(value, 4) },
    };
    for (size_t i = 0; i < sizeof names / sizeof *names; i++)
        if (!strcmp(word, names[i].word)) {
            *names[i].place = value;
            return names[i].fits;
        }
    options->unplugs = !strcmp(value, "unplug");
    return options->unplugs || !strcmp(value, "serve");
}
