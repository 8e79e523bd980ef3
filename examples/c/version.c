/* The least that links: the version of the library. checks/dist links it for each processor. */
#include "usbdisk.h"

int main(void)
{
    return usbdisk_version() != USBDISK_VERSION;
}
