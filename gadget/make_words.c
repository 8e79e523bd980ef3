/* The words of usbdisk-make, and which of them go together. */
#include "make_words.h"
#include "command.h"
#include "program.h"
#include <errno.h>
#include <stdlib.h>
#include <string.h>

static const char usage[] =
    "usbdisk-make IMAGE [--size SIZE | --blocks N] [--slots K] [--format 1|2] [--align SIZE] "
    "[--zero] [--replace]\n"
    "usbdisk-make IMAGE --show [--json]\n"
    "usbdisk-make IMAGE --migrate\n"
    "usbdisk-make IMAGE --import RAW [--slots K] [--format 1|2] [--align SIZE] [--replace]\n"
    "usbdisk-make IMAGE --export RAW [--replace]\n"
    "\n"
    "Makes the image of a USB disk on a file, a partition or a device, around the blocks that lie "
    "there, quickly.\n"
    "\n"
    "  --size SIZE    how much of it the image takes, as 4G, 512M or 7.5GiB; else all that is "
    "there. A new file needs it,\n"
    "                 or --blocks. K, M, G and T are powers of 1024, KB, MB, GB and TB of 1000\n"
    "  --blocks N     how many blocks of 512 bytes the host sees\n"
    "  --slots K      how many writes of a host, of 240 blocks at most, the log has room for: 1 to "
    "64, else 6\n"
    "  --format 1|2   else 2, which any host takes\n"
    "  --align SIZE   the blocks begin at a multiple of it, as of a page of the device: a power of "
    "two, as 4K or 64K;\n"
    "                 else directly behind the log\n"
    "  --zero         writes zeros to each block, in place of what lies there\n"
    "  --replace      also where an image, a file system or other data would be lost\n"
    "  --show         tells what image it is, and whether a disk starts on it; writes nothing\n"
    "  --json         as an object of JSON\n"
    "  --migrate      brings an image of format 1 with 5 slots or more to format 2; its blocks "
    "stay\n"
    "  --import RAW   makes an image of all that a plain file or device holds, which stays\n"
    "  --export RAW   makes a plain file of the blocks that a disk on the image would serve; the "
    "image stays\n"
    "  --help, --version\n";

/* The unit behind a number: 1 where there is none, 0 where it is none. */
static uint64_t unit_of(const char *text)
{
    static const char letters[] = "KMGT";
    const char *letter = *text ? strchr(letters, *text) : NULL;
    uint64_t unit = 1, base = letter && !strcmp(text + 1, "B") ? 1000 : 1024;
    if (!*text)
        return 1;
    if (!letter || (text[1] && strcmp(text + 1, "B") && strcmp(text + 1, "iB")))
        return 0;
    for (const char *at = letters; at <= letter; at++)
        unit *= base;
    return unit;
}

/* A number of bytes as people write it: 4G, 7.5GiB, 512M, 1048576. At least a sector, and no more
 * than an image may have. */
static bool read_size(const char *text, uint64_t *size)
{
    char *end;
    uint64_t part = 0, parts = 1;
    if (*text < '0' || *text > '9')
        return false;
    errno = 0;
    uint64_t whole = strtoull(text, &end, 10);
    end += *end == '.';
    for (; *end >= '0' && *end <= '9' && parts < 1000000; end++) {
        part = part * 10 + (uint64_t)(*end - '0');
        parts *= 10;
    }
    uint64_t unit = unit_of(end);
    if (errno || !unit || whole > MOST_SECTORS * 512 / unit)
        return false;
    *size = whole * unit + unit / parts * part + unit % parts * part / parts;
    return *size >= 512 && *size / 512 <= MOST_SECTORS;
}

/* Notes a word that has no value. False: it is none of these. */
static bool take_flag(struct make_words *options, const char *word)
{
    const struct {
        const char *word;
        bool *flag;
    } flags[] = {
        { "--show", &options->shows },       { "--json", &options->as_json },
        { "--migrate", &options->migrates }, { "--zero", &options->zeroes },
        { "--replace", &options->replaces },
    };
    for (size_t i = 0; i < sizeof flags / sizeof *flags; i++) {
        if (strcmp(word, flags[i].word))
            continue;
        *flags[i].flag = true;
        options->makes |= i >= 3;
        return true;
    }
    return false;
}

static bool take_path(struct make_words *options, const char *word, const char *path)
{
    *(word[2] == 'i' ? &options->imports : &options->exports) = path;
    return *path != 0;
}

static bool take_word(void *to, const char *word, const char *value)
{
    struct make_words *options = to;
    if (take_flag(options, word))
        return true;
    if (!strcmp(word, "--import") || !strcmp(word, "--export"))
        return take_path(options, word, value);
    options->makes = options->shapes = true;
    if (!strcmp(word, "--size"))
        return read_size(value, &options->size);
    if (!strcmp(word, "--blocks"))
        return read_number(value, 1, MOST_BLOCKS, &options->blocks);
    if (!strcmp(word, "--slots"))
        return read_number(value, 1, MOST_SLOTS, &options->slots);
    if (!strcmp(word, "--align"))
        return read_size(value, &options->align) && !(options->align & (options->align - 1));
    return read_number(value, 1, 2, &options->format);
}

/* Whether the words go together: GO_ON, or the exit status. */
static int judge_words(const struct make_words *options)
{
    const bool copies = options->imports || options->exports;
    if (copies && (options->shows || options->migrates || options->zeroes || options->size ||
                   options->blocks || (options->exports && (options->imports || options->shapes))))
        return refuse_word(options->imports ? "--import" : "--export",
                           "goes with --replace, and of an import --slots, --format and --align");
    if (options->shows && (options->migrates || options->makes))
        return refuse_word("--show", "goes with no other word");
    if (options->as_json && !options->shows)
        return refuse_word("--json", "goes with --show");
    if (options->migrates && options->makes)
        return refuse_word("--migrate", "goes with no other word");
    if (options->size && options->blocks)
        return refuse_word("--blocks", "does not go with --size");
    return GO_ON;
}

/* Notes where home begins. Answers GO_ON, or the exit status where it may not begin there. */
static int place_home(struct make_words *options)
{
    struct usbdisk_log log;
    if (usbdisk_log_of((uint32_t)options->format, options->slots, options->align / 512, &log))
        return refuse_word("--align", "no blocks begin there behind a log of so many slots: "
                                      "other --slots or --format 2 may do");
    options->home = log.home;
    return GO_ON;
}

int read_make_words(struct make_words *options, char **words)
{
    static const struct option known[] = {
        { "size", required_argument, NULL, 0 },
        { "blocks", required_argument, NULL, 0 },
        { "slots", required_argument, NULL, 0 },
        { "format", required_argument, NULL, 0 },
        { "align", required_argument, NULL, 0 },
        { "zero", no_argument, NULL, 0 },
        { "replace", no_argument, NULL, 0 },
        { "show", no_argument, NULL, 0 },
        { "migrate", no_argument, NULL, 0 },
        { "import", required_argument, NULL, 0 },
        { "export", required_argument, NULL, 0 },
        { "json", no_argument, NULL, 0 },
        { NULL, 0, NULL, 0 },
    };
    static const struct command command = { usage, NULL, "-:", known, take_word };
    *options = (struct make_words){ .slots = 6, .format = 2, .align = 512 };
    int ended = read_command(&command, words, options, &options->image);
    if (ended == GO_ON)
        ended = judge_words(options);
    return ended == GO_ON ? place_home(options) : ended;
}
