/* poke: what the scripts in the guest cannot do by themselves. */
/* clang-format off
 *
 *   poke reset DISK                a reset of the device by its host (SG_SCSI_RESET), as behind a time-out: the class reset
 *   poke write FOLDER FIRST        files of a known content, each synced, until one fails; a line for each synced one: its number
 *   poke check FOLDER              whether each file told on standard input is there whole
 *   poke pages DISK COUNT [told]   so many pages of 4 KiB from its begin on, each forced; with `told` a point for each
 *   poke clock                     microseconds
 *   poke listen SOCKET             as the service manager at $NOTIFY_SOCKET: prints the first state that it is told
 *   poke lose IMAGE JOURNAL HOW SEED   writes that were not flushed are lost: `all`, `some` or `none` of them are kept
 *
 * clang-format on */
#define _GNU_SOURCE
#include <fcntl.h>
#include <scsi/sg.h>
#include <stdbool.h>
#include <stdint.h>
#include <stdio.h>
#include <stdlib.h>
#include <string.h>
#include <sys/ioctl.h>
#include <sys/socket.h>
#include <sys/un.h>
#include <time.h>
#include <unistd.h>

enum { MOST = 256 * 1024, KEPT = 24, SECTOR = 512, PAGE = 4096 };

static uint8_t bytes[MOST], found[MOST];

static uint64_t next(uint64_t *seed)
{
    *seed ^= *seed << 13;
    *seed ^= *seed >> 7;
    *seed ^= *seed << 17;
    return *seed;
}

static int reset(const char *disk)
{
    int file = open(disk, O_RDONLY | O_NONBLOCK), kind = SG_SCSI_RESET_DEVICE;
    if (file >= 0 && ioctl(file, SG_SCSI_RESET, &kind) == 0)
        return 0;
    perror(disk);
    return 1;
}

static int write_pages(const char *disk, uint64_t count, bool is_told)
{
    static _Alignas(PAGE) uint8_t page[PAGE];
    int file = open(disk, O_WRONLY | O_DIRECT | O_DSYNC);
    for (uint64_t i = 0; file >= 0 && i < count; i++)
        if (pwrite(file, page, PAGE, (off_t)(i * PAGE)) != PAGE ||
            (is_told && write(STDOUT_FILENO, ".", 1) != 1)) {
            perror(disk);
            return 1;
        }
    return file < 0 || close(file);
}

/* The content of a file of this number; answers how long it is. */
static size_t make(uint64_t number)
{
    uint64_t seed = 88172645463325252u + number * 2654435761u;
    for (int i = 0; i < 4; i++)
        next(&seed);
    size_t size = 1 + next(&seed) % (next(&seed) % 4 ? 20000 : MOST);
    for (size_t i = 0; i < size; i++)
        bytes[i] = (uint8_t)(i % 8 ? bytes[i - 1] * 5 + 1 : (int)next(&seed));
    return size;
}

static void name_file(char *path, size_t room, const char *folder, uint64_t number)
{
    snprintf(path, room, "%s/f%llu", folder, (unsigned long long)number);
}

/* Each file is told when it is synced; the old ones go, which is told before. */
static int write_files(const char *folder, uint64_t number)
{
    char path[256];
    uint64_t first = number;
    for (;; number++) {
        size_t size = make(number);
        name_file(path, sizeof path, folder, number);
        int file = open(path, O_WRONLY | O_CREAT | O_TRUNC, 0644);
        if (file < 0 || write(file, bytes, size) != (ssize_t)size || fsync(file) || close(file))
            return 0;
        printf("%llu\n", (unsigned long long)number);
        fflush(stdout);
        if (number < first + KEPT)
            continue;
        printf("gone %llu\n", (unsigned long long)(number - KEPT));
        fflush(stdout);
        name_file(path, sizeof path, folder, number - KEPT);
        if (unlink(path))
            return 0;
    }
}

static bool is_whole(const char *folder, uint64_t number)
{
    char path[256];
    size_t size = make(number);
    name_file(path, sizeof path, folder, number);
    int file = open(path, O_RDONLY);
    if (file < 0)
        return false;
    ssize_t read_now = read(file, found, sizeof found);
    close(file);
    return read_now == (ssize_t)size && !memcmp(found, bytes, size);
}

static int check_files(const char *folder)
{
    static uint64_t told[100000];
    char line[64];
    size_t count = 0, wrong = 0;
    while (fgets(line, sizeof line, stdin) && count < sizeof told / sizeof *told) {
        uint64_t number = strtoull(line + (line[0] == 'g' ? 5 : 0), NULL, 10);
        if (line[0] != 'g')
            told[count++] = number;
        for (size_t i = 0; line[0] == 'g' && i < count; i++)
            if (told[i] == number)
                told[i] = told[--count];
    }
    for (size_t i = 0; i < count; i++)
        if (!is_whole(folder, told[i]) && ++wrong)
            printf("synced file %llu is not whole\n", (unsigned long long)told[i]);
    printf("%zu synced files, %zu of them not whole\n", count, wrong);
    return wrong != 0;
}

/* The journal of lossy.c has what stood at each place before a write. Back over it, the youngest
 * write first: each sector goes back by some of its writes. */
struct record {
    uint64_t place;
    uint8_t was[SECTOR];
};

static int lose(const char *image, const char *journal, const char *how, uint64_t seed)
{
    static bool stays[1 << 17];
    size_t count, lost = 0, room = 1 << 17;
    FILE *from = fopen(journal, "rb");
    int to = open(image, O_RDWR);
    struct record *records = malloc(room * sizeof *records);
    if (!from || to < 0 || !records)
        return 1;
    seed = seed * 2 + 88172645463325253u;
    count = fread(records, sizeof *records, room, from);
    if (count == room)
        return 1;
    for (size_t i = count; i-- > 0;) {
        uint64_t sector = records[i].place / SECTOR % (sizeof stays / sizeof *stays);
        stays[sector] |= !strcmp(how, "all") || (!strcmp(how, "some") && next(&seed) >> 40 & 1);
        if (stays[sector])
            continue;
        if (pwrite(to, records[i].was, SECTOR, (off_t)records[i].place) != SECTOR)
            return 1;
        lost++;
    }
    printf("%zu writes of sectors were not flushed, %zu lost\n", count, lost);
    return fclose(from) || close(to);
}

static int tell_time(void)
{
    struct timespec now;
    clock_gettime(CLOCK_MONOTONIC, &now);
    return printf("%lld\n", now.tv_sec * 1000000ll + now.tv_nsec / 1000) < 0;
}

static int listen_once(const char *path)
{
    struct sockaddr_un here = { .sun_family = AF_UNIX };
    char state[256];
    int socket_file = socket(AF_UNIX, SOCK_DGRAM, 0);
    snprintf(here.sun_path, sizeof here.sun_path, "%s", path);
    if (socket_file < 0 || bind(socket_file, (struct sockaddr *)&here, sizeof here))
        return 1;
    ssize_t size = recv(socket_file, state, sizeof state - 1, 0);
    state[size < 0 ? 0 : size] = 0;
    return size < 0 || puts(state) < 0 || fflush(stdout);
}

int main(int count, char **words)
{
    const char *what = count > 2 ? words[1] : "";
    if (count == 2 && !strcmp(words[1], "clock"))
        return tell_time();
    if (!strcmp(what, "reset"))
        return reset(words[2]);
    if (!strcmp(what, "listen"))
        return listen_once(words[2]);
    if (!strcmp(what, "pages") && (count == 4 || count == 5))
        return write_pages(words[2], strtoull(words[3], NULL, 10), count == 5);
    if (!strcmp(what, "write") && count == 4)
        return write_files(words[2], strtoull(words[3], NULL, 10));
    if (!strcmp(what, "check"))
        return check_files(words[2]);
    if (!strcmp(what, "lose") && count == 6)
        return lose(words[2], words[3], words[4], strtoull(words[5], NULL, 10));
    return 2;
}
