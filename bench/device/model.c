#include "model.h"

/* The pages of a device, and the longest run of one command: 4 KiB, and 120 KiB. */
enum { PAGE = 8, LONGEST = 240 };

/* A run ends: its command, and the pages at its ends of which it writes a part. */
static void end_run(struct device *device)
{
    uint64_t first = device->run_first, behind = first + device->run_length;
    if (!device->run_length)
        return;
    device->commands[BY_RUNS]++;
    device->time[BY_RUNS] += device->costs.command;
    bool cuts_front = first % PAGE != 0, cuts_back = behind % PAGE != 0;
    bool is_one_page = first / PAGE == (behind - 1) / PAGE;
    device->partial_pages += is_one_page ? cuts_front || cuts_back : cuts_front + cuts_back;
    device->run_length = 0;
}

void device_write(struct device *device, uint64_t sector)
{
    if (device->run_length == LONGEST || sector != device->run_first + device->run_length)
        end_run(device);
    if (!device->run_length)
        device->run_first = sector;
    device->run_length++;
    device->sectors_written++;
    device->commands[BY_SECTORS]++;
    device->time[BY_SECTORS] += device->costs.command + device->costs.sector;
    device->time[BY_RUNS] += device->costs.sector;
}

void device_write_through(struct device *device, uint64_t first, uint64_t count)
{
    for (uint64_t i = 0; i < count; i++)
        device_write(device, first + i);
    end_run(device);
}

void device_flush(struct device *device)
{
    end_run(device);
    device->flushes++;
    for (int way = 0; way < WAYS; way++)
        device->time[way] += device->costs.flush;
}

void device_rest(struct device *device)
{
    end_run(device);
}
