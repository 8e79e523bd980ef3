/* usbdisk-gadget: a disk behind the device controller of this machine, as a function of FunctionFS.
 * docs/GADGET.md tells how it is set up, and what the controller and FunctionFS swallow. */
#include "functionfs.h"
#include "functionfs_ends.h"
#include "program.h"
#include <errno.h>
#include <limits.h>
#include <stdio.h>
#include <stdlib.h>
#include <string.h>
#include <unistd.h>

/* After this many milliseconds without an event steps in the background are made. */
enum { IDLE = 20 };

/* What is waited for: an event, the kernel or the other thread, and the device. */
enum { EVENT, READY, DISK, FILES };

static const char usage[] =
    "usage: usbdisk-gadget IMAGE [--gadget FOLDER | --no-bind] [--functionfs FOLDER]\n"
    "                      [--udc NAME] [OPTION ..]\n"
    "       usbdisk-gadget --help | --version\n"
    "Serves an image file or a block device as a USB disk on this machine's controller. Run\n"
    "%s first.\n"
    "  --functionfs FOLDER      where FunctionFS is mounted: /run/usbdisk\n"
    "  --gadget FOLDER          the gadget in configfs: /sys/kernel/config/usb_gadget/usbdisk\n"
    "  --no-bind                somebody else binds the gadget to a controller, when the\n"
    "                           endpoints are there\n"
    "  --udc NAME               the controller, by /sys/class/udc; else the first one that is "
    "free\n";

/* The host can have the disk no longer. The lock is held. */
static bool is_over(struct gadget *gadget)
{
    return gadget->is_ended || (gadget->options.unplugs && disk_has_faulted(&gadget->disk));
}

/* What the host sent was read: plays it, in the thread that reads. The other one sleeps where no
 * steps are left, and is woken for what only it does. */
static void play_read(void *of)
{
    struct gadget *gadget = of;
    int most = bulk_play(&gadget->bulk, false);
    if (most >= 0 || !gadget->has_steps || is_over(gadget))
        engine_wake(&gadget->bulk.engine);
    gadget->has_steps = true;
}

/* Waits for one of these, and notes what is of the disk or the other thread. */
static int wait_for_files(struct gadget *gadget, struct pollfd files[FILES], int most)
{
    int ready = wait_for(files, FILES, most);
    if (ready > 0 && files[READY].revents)
        engine_rest(&gadget->bulk.engine);
    if (ready > 0 && files[DISK].revents)
        disk_note_end(&gadget->disk);
    return ready;
}

/* Steps in the background, until the host sends something, or an event comes. While the device is
 * at the last ones it is waited for. */
static void make_steps(struct gadget *gadget, struct pollfd files[FILES], unsigned arrivals)
{
    struct reader *reader = &gadget->bulk.engine.reader;
    bool is_idle = true;
    while (is_idle) {
        reader_lock(reader);
        gadget->has_steps = disk_tick(&gadget->disk);
        is_idle = gadget->has_steps && reader->arrivals == arrivals;
        int most = disk_is_busy(&gadget->disk) ? -1 : 0;
        reader_unlock(reader);
        int ready = is_idle ? wait_for_files(gadget, files, most) : 0;
        is_idle = is_idle && ready == (files[DISK].revents != 0) && !is_asked_to_end();
    }
}

/* Looks after the transfers, and waits for events. Where the host is idle, steps in the background
 * are made. Answers whether the disk goes on. */
static bool take_turn(struct gadget *gadget)
{
    struct reader *reader = &gadget->bulk.engine.reader;
    struct pollfd files[FILES] = { { gadget->control, POLLIN, 0 },
                                   { gadget->bulk.engine.ready, POLLIN, 0 },
                                   { disk_ended(&gadget->disk), POLLIN, 0 } };
    reader_lock(reader);
    int most = bulk_play(&gadget->bulk, true);
    bool may_step = gadget->has_steps && !bulk_is_busy(&gadget->bulk), goes_on = !is_over(gadget);
    int wait = gadget->has_steps && (most < 0 || most > IDLE) ? IDLE : most;
    unsigned arrivals = reader->arrivals;
    reader_unlock(reader);
    int ready = goes_on ? wait_for_files(gadget, files, wait) : 0;
    if (files[EVENT].revents)
        play_events(gadget);
    if (goes_on && may_step && ready == 0 && wait == IDLE)
        make_steps(gadget, files, arrivals);
    return goes_on;
}

/* Lets the host see the disk unplugged, and brings all home. Answers the exit status. */
static int end(struct gadget *gadget)
{
    notify_manager("STOPPING=1");
    if (gadget->binds)
        unbind_controller(gadget->folder);
    reader_end(&gadget->bulk.engine.reader);
    bulk_reset(&gadget->bulk);
    if (gadget->disk.packet == 0 || !disk_settle(&gadget->disk))
        return gadget->disk.status;
    if (is_asked_to_end())
        return 0;
    return gadget->is_taken ? STATUS_TAKEN : STATUS_FILE;
}

/* Serves until a signal asks to end. Answers the exit status. */
static int serve(struct gadget *gadget)
{
    struct reader *reader = &gadget->bulk.engine.reader;
    while (!is_asked_to_end() && take_turn(gadget)) {
        if (!is_asked_to_count())
            continue;
        reader_lock(reader);
        disk_count(&gadget->disk);
        reader_unlock(reader);
    }
    return end(gadget);
}

/* Sets up the function, and binds it. False: said why. */
static bool begin(struct gadget *gadget)
{
    gadget->control = open_control(gadget->functionfs);
    if (gadget->control < 0 || !bulk_open(&gadget->bulk, &gadget->disk, gadget->functionfs)) {
        say("%s: no endpoints: %s", gadget->functionfs, strerror(errno));
        return false;
    }
    if (!reader_begin(&gadget->bulk.engine.reader, &gadget->bulk.out, play_read, gadget)) {
        say("no second thread: %s", strerror(errno));
        return false;
    }
    if (gadget->binds && !bind_controller(gadget->folder, gadget->controller)) {
        say("%s: not bound to a controller: %s", gadget->folder, strerror(errno));
        return false;
    }
    say("%s: %llu blocks, serial number %s", gadget->options.image,
        (unsigned long long)gadget->disk.blocks, gadget->disk.serial);
    notify_manager("READY=1");
    return true;
}

static bool take_word(void *to, const char *word, const char *value)
{
    struct gadget *gadget = to;
    const struct {
        const char *word, **place;
    } places[] = {
        { "--functionfs", &gadget->functionfs },
        { "--gadget", &gadget->folder },
        { "--udc", &gadget->controller },
    };
    for (size_t i = 0; i < sizeof places / sizeof *places; i++)
        if (!strcmp(word, places[i].word)) {
            *places[i].place = value;
            return true;
        }
    if (strcmp(word, "--no-bind"))
        return take_option(&gadget->options, word, value);
    gadget->binds = false;
    return true;
}

/* Opens, serves and ends. Answers the exit status. */
static int run(struct gadget *gadget)
{
    int status = STATUS_FILE;
    if (!disk_open(&gadget->disk, gadget->options.image))
        return gadget->disk.status;
    disk_name(&gadget->disk, &gadget->options.names);
    if (!disk_start(&gadget->disk, 512))
        status = gadget->disk.status;
    else if (begin(gadget))
        status = serve(gadget);
    reader_end(&gadget->bulk.engine.reader);
    bulk_close(&gadget->bulk);
    if (gadget->control > 0)
        close(gadget->control);
    disk_close(&gadget->disk);
    return status;
}

/* The script that makes the gadget: beside this program as it is installed, as it lies in the
 * archive, or as it is built. */
static const char *find_up(void)
{
    static const char *const places[] = { "../lib/usbdisk/up", "../../gadget/up", "up" };
    static char found[PATH_MAX];
    char program[PATH_MAX], path[2 * PATH_MAX];
    ssize_t size = readlink("/proc/self/exe", program, sizeof program - 1);
    program[size < 0 ? 0 : size] = 0;
    char *name = strrchr(program, '/');
    for (size_t i = 0; name && i < sizeof places / sizeof *places; i++) {
        snprintf(path, sizeof path, "%.*s/%s", (int)(name - program), program, places[i]);
        if (!access(path, X_OK) && realpath(path, found))
            return found;
    }
    return "up";
}

int main(int count, char **words)
{
    static struct gadget gadget = {
        .functionfs = "/run/usbdisk",
        .folder = "/sys/kernel/config/usb_gadget/usbdisk",
        .binds = true,
    };
    static const struct option known[] = { { "functionfs", required_argument, NULL, 0 },
                                           { "gadget", required_argument, NULL, 0 },
                                           { "udc", required_argument, NULL, 0 },
                                           { "no-bind", no_argument, NULL, 0 },
                                           OPTIONS_KNOWN,
                                           { NULL, 0, NULL, 0 } };
    static char whole[2048];
    static const struct command command = { whole, options_usage, "-:v", known, take_word };
    (void)count;
    if (!program_begin("usbdisk-gadget"))
        return STATUS_FILE;
    snprintf(whole, sizeof whole, usage, find_up());
    int ended = read_command(&command, words, &gadget, &gadget.options.image);
    return ended == GO_ON ? run(&gadget) : ended;
}
