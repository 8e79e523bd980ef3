/* Plays something COUNT times on a disk over the library for C, for valgrind to count: what a maker
 * links costs a packet.
 *
 * packets FORMAT SLOTS read|write|forced COUNT: a transfer of the longest READ from home, of a
 * WRITE into the batch, or of a WRITE with FUA whose record and retiring the device is told, each
 * time. */
#include "host.h"
#include <stdlib.h>
#include <string.h>

int main(int count, char **words)
{
    if (count != 5)
        fail("packets FORMAT SLOTS read|write|forced COUNT");
    struct host host = { .format = (uint32_t)atoi(words[1]), .slots = (uint64_t)atoi(words[2]) };
    bool is_read = !strcmp(words[3], "read"), is_forced = !strcmp(words[3], "forced");
    start_disk(&host);
    for (int i = 0; i < atoi(words[4]); i++) {
        uint32_t place = is_read || is_forced ? (uint32_t)i % 8 : 0;
        const struct command command = { is_read ? READ_10 : WRITE_10, place * host.limit,
                                         host.limit, is_forced };
        play_command(&host, &command);
    }
    stop_disk(&host);
    return 0;
}
