/* Where usbdisk-usbip listens. */
#include "program.h"
#include "usbip.h"
#include <arpa/inet.h>
#include <errno.h>
#include <net/if.h>
#include <netinet/in.h>
#include <string.h>
#include <sys/socket.h>
#include <unistd.h>

/* An address of this machine, with its port. */
union address {
    struct sockaddr any;
    struct sockaddr_in four;
    struct sockaddr_in6 six;
};

/* The interface behind the % of an address, by name or number, or 0. */
static uint32_t read_scope(const char *text)
{
    uint64_t number;
    return read_number(text, 1, UINT32_MAX, &number) ? (uint32_t)number : if_nametoindex(text);
}

/* Of IPv4 or IPv6, in digits. (No name is looked up: what that needs is no part of a program that
 * is linked as a whole.) */
static bool read_address(union address *address, const char *text, uint64_t port)
{
    char digits[INET6_ADDRSTRLEN];
    size_t length = strcspn(text, "%");
    memset(address, 0, sizeof *address);
    address->four.sin_family = AF_INET;
    address->four.sin_port = htons((uint16_t)port);
    if (inet_pton(AF_INET, text, &address->four.sin_addr) == 1)
        return true;
    if (length >= sizeof digits)
        return false;
    memcpy(digits, text, length);
    digits[length] = 0;
    memset(address, 0, sizeof *address);
    address->six.sin6_family = AF_INET6;
    address->six.sin6_port = htons((uint16_t)port);
    address->six.sin6_scope_id = text[length] ? read_scope(text + length + 1) : 0;
    return inet_pton(AF_INET6, digits, &address->six.sin6_addr) == 1 &&
           (!text[length] || address->six.sin6_scope_id);
}

static bool is_loopback(const union address *address)
{
    if (address->any.sa_family == AF_INET)
        return ntohl(address->four.sin_addr.s_addr) >> 24 == 127;
    return IN6_IS_ADDR_LOOPBACK(&address->six.sin6_addr);
}

static int listen_at(const union address *address)
{
    int one = 1,
        listener = socket(address->any.sa_family, SOCK_STREAM | SOCK_CLOEXEC | SOCK_NONBLOCK, 0);
    if (listener < 0)
        return -1;
    setsockopt(listener, SOL_SOCKET, SO_REUSEADDR, &one, sizeof one);
    if (bind(listener, &address->any, sizeof *address) == 0 && listen(listener, SOMAXCONN) == 0)
        return listener;
    close(listener);
    return -1;
}

/* The port that the system took. */
static unsigned port_of(int listener)
{
    union address name;
    socklen_t size = sizeof name;
    if (getsockname(listener, &name.any, &size))
        return 0;
    return ntohs(name.any.sa_family == AF_INET ? name.four.sin_port : name.six.sin6_port);
}

int listen_on(const char *text, uint64_t port, unsigned *taken)
{
    union address address;
    if (!read_address(&address, text, port)) {
        say("%s: no address in digits", text);
        return -1;
    }
    if (!is_loopback(&address))
        say("warning: USB/IP knows no access control: who reaches %s has the disk", text);
    int listener = listen_at(&address);
    if (listener < 0)
        say("%s port %u: not to be listened on: %s", text, (unsigned)port, strerror(errno));
    else
        *taken = port_of(listener);
    return listener;
}
