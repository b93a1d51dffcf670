/* What peer_net.c needs of the system: a clock, random bytes, sockets that do not block, the addresses of the interfaces, and to wait
 * for datagrams, connections and standard input. First for POSIX, then the same for Windows. A socket is a number; -1 is none. */
#ifndef SOCKETS_H
#define SOCKETS_H

#include "peer.h"
#include <string.h>

struct sockaddr;

/* Is called for each address of an interface that is up. */
typedef void take_address(struct net *net, const struct sockaddr *address, bool is_loopback);

#ifndef _WIN32

#include <arpa/inet.h>
#include <errno.h>
#include <fcntl.h>
#include <ifaddrs.h>
#include <net/if.h>
#include <netdb.h>
#include <netinet/in.h>
#include <poll.h>
#include <sys/socket.h>
#include <time.h>
#include <unistd.h>

static uint64_t system_now(void)
{
    struct timespec t = {0};
    if (clock_gettime(CLOCK_MONOTONIC, &t) != 0) return 0;
    return (uint64_t)t.tv_sec * SECOND + (uint64_t)t.tv_nsec;
}

static bool system_random(void *bytes, size_t length)
{
    return getentropy(bytes, length) == 0;
}

static int system_error(void)
{
    return errno;
}

static const char *system_error_text(int error)
{
    return strerror(error);
}

/* Before any of the calls below. */
static bool sockets_begin(void)
{
    return true;
}

/* Keeps the error of the call before it. */
static void socket_close(intptr_t s)
{
    int why = errno;
    close((int)s);
    errno = why;
}

static intptr_t socket_open(int family, int type)
{
    int s = socket(family, type, 0);
    if (s < 0 || (fcntl(s, F_SETFD, FD_CLOEXEC) == 0 && fcntl(s, F_SETFL, O_NONBLOCK) == 0)) return s;
    socket_close(s);
    return -1;
}

/* Whether the last error only says that the socket is not ready: not connected yet, or its buffer is full or empty. */
static bool socket_waits(void)
{
    return errno == EAGAIN || errno == EWOULDBLOCK || errno == EINPROGRESS || errno == ENOTCONN || errno == EINTR;
}

#ifdef MSG_NOSIGNAL
enum { NO_SIGNAL = MSG_NOSIGNAL };
#else
enum { NO_SIGNAL = 0 };
#endif

static bool each_address(struct net *net, take_address *take)
{
    struct ifaddrs *list = NULL;
    if (getifaddrs(&list) != 0) return false;
    for (const struct ifaddrs *at = list; at; at = at->ifa_next)
        if (at->ifa_addr && (at->ifa_flags & IFF_UP) != 0) take(net, at->ifa_addr, (at->ifa_flags & IFF_LOOPBACK) != 0);
    freeifaddrs(list);
    return true;
}

/* Waits for these sockets, at most NET_ALL, and for standard input if `input` is true, at most so long. ready[i]: this socket may have
 * something to read, or room if `writes` is true of it; ready[count]: standard input has something to read. */
static bool system_wait(const intptr_t *sockets, const bool *writes, size_t count, bool input, int milliseconds, bool *ready)
{
    struct pollfd waits[NET_ALL + 1];
    memset(waits, 0, sizeof waits);
    for (size_t i = 0; i <= count; i++) {
        waits[i].fd = i < count ? (int)sockets[i] : input ? STDIN_FILENO : -1;
        waits[i].events = i < count && writes[i] ? POLLIN | POLLOUT : POLLIN;
    }
    int found = poll(waits, (nfds_t)count + 1, milliseconds);
    for (size_t i = 0; i <= count; i++) ready[i] = found > 0 && waits[i].revents != 0;
    return found >= 0 || errno == EINTR;
}

static ssize_t system_input(void *bytes, size_t size)
{
    ssize_t got = read(STDIN_FILENO, bytes, size);
    return got < 0 && errno != EINTR && errno != EAGAIN ? 0 : got;
}

#else

#include <winsock2.h>
#include <ws2tcpip.h>
#include <mswsock.h>
#include <iphlpapi.h>
#include <bcrypt.h>
#include <stdlib.h>

static uint64_t system_now(void)
{
    LARGE_INTEGER frequency, count;
    if (!QueryPerformanceFrequency(&frequency) || !QueryPerformanceCounter(&count)) return 0;
    uint64_t each = (uint64_t)frequency.QuadPart, all = (uint64_t)count.QuadPart;
    return all / each * SECOND + all % each * SECOND / each;
}

static bool system_random(void *bytes, size_t length)
{
    return BCryptGenRandom(NULL, (unsigned char *)bytes, (ULONG)length, BCRYPT_USE_SYSTEM_PREFERRED_RNG) == 0;
}

static int system_error(void)
{
    return WSAGetLastError();
}

static const char *system_error_text(int error)
{
    static char text[256];
    const DWORD flags = FORMAT_MESSAGE_FROM_SYSTEM | FORMAT_MESSAGE_IGNORE_INSERTS | FORMAT_MESSAGE_MAX_WIDTH_MASK;
    DWORD length = FormatMessageA(flags, NULL, (DWORD)error, 0, text, sizeof text - 1, NULL);
    while (length > 0 && strchr(" .", text[length - 1])) length--;
    text[length] = '\0';
    return length > 0 ? text : "an error without a text";
}

static HANDLE arrived; /* an event: a socket got something, or has room again */
enum { NO_SIGNAL = 0 };

static bool sockets_begin(void)
{
    WSADATA data;
    if (arrived) return true;
    int error = WSAStartup(MAKEWORD(2, 2), &data);
    if (error == 0) arrived = CreateEvent(NULL, TRUE, FALSE, NULL);
    else WSASetLastError(error);
    return arrived != NULL;
}

static void socket_close(intptr_t s)
{
    int why = WSAGetLastError();
    closesocket((SOCKET)s);
    WSASetLastError(why);
}

static intptr_t socket_open(int family, int type)
{
    BOOL reports = FALSE; /* that nobody received a datagram: it would make a later recvfrom fail */
    DWORD size;
    SOCKET s = socket(family, type, 0);
    if (s == INVALID_SOCKET) return -1;
    if (type == SOCK_DGRAM) WSAIoctl(s, SIO_UDP_CONNRESET, &reports, sizeof reports, NULL, 0, &size, NULL, NULL);
    if (WSAEventSelect(s, arrived, FD_READ | FD_WRITE | FD_CONNECT | FD_CLOSE) == 0) return (intptr_t)s; /* it blocks no longer */
    socket_close((intptr_t)s);
    return -1;
}

static bool socket_waits(void)
{
    int error = WSAGetLastError();
    return error == WSAEWOULDBLOCK || error == WSAEINPROGRESS || error == WSAENOTCONN || error == WSAEINTR;
}

static bool each_address(struct net *net, take_address *take)
{
    const ULONG flags = GAA_FLAG_SKIP_ANYCAST | GAA_FLAG_SKIP_MULTICAST | GAA_FLAG_SKIP_DNS_SERVER;
    ULONG size = 16384, error = ERROR_BUFFER_OVERFLOW;
    IP_ADAPTER_ADDRESSES *list = NULL;
    for (int i = 0; error == ERROR_BUFFER_OVERFLOW && i < 8; i++) { /* the list may grow in between */
        free(list);
        list = (IP_ADAPTER_ADDRESSES *)malloc(size);
        error = list ? GetAdaptersAddresses(AF_UNSPEC, flags, NULL, list, &size) : ERROR_NOT_ENOUGH_MEMORY;
    }
    for (const IP_ADAPTER_ADDRESSES *at = error == 0 ? list : NULL; at; at = at->Next)
        for (const IP_ADAPTER_UNICAST_ADDRESS *own = at->FirstUnicastAddress; own; own = own->Next)
            if (at->OperStatus == IfOperStatusUp) take(net, own->Address.lpSockaddr, at->IfType == IF_TYPE_SOFTWARE_LOOPBACK);
    free(list);
    WSASetLastError((int)error);
    return error == 0 || error == ERROR_NO_DATA;
}

/* Standard input is no socket, and reading it blocks: so a thread reads it, and waits until what it read was taken. */
static struct {
    HANDLE is_there, is_taken; /* events */
    char bytes[4096];
    DWORD length, taken; /* the length is 0 at the end of the input */
} input_read;

static DWORD WINAPI read_input(void *unused)
{
    (void)unused;
    do {
        DWORD length = 0;
        if (!ReadFile(GetStdHandle(STD_INPUT_HANDLE), input_read.bytes, sizeof input_read.bytes, &length, NULL)) length = 0;
        input_read.length = length, input_read.taken = 0;
        SetEvent(input_read.is_there);
        WaitForSingleObject(input_read.is_taken, INFINITE);
    } while (input_read.length > 0);
    return 0;
}

static bool input_begin(void)
{
    if (input_read.is_taken) return true;
    input_read.is_there = CreateEvent(NULL, TRUE, FALSE, NULL);
    input_read.is_taken = CreateEvent(NULL, FALSE, FALSE, NULL);
    HANDLE thread = CreateThread(NULL, 0, read_input, NULL, 0, NULL);
    return thread && CloseHandle(thread);
}

static bool system_wait(const intptr_t *sockets, const bool *writes, size_t count, bool input, int milliseconds, bool *ready)
{
    (void)sockets, (void)writes;
    bool has_input = input && input_begin();
    const HANDLE events[2] = {arrived, input_read.is_there};
    DWORD found = WaitForMultipleObjects(has_input ? 2 : 1, events, FALSE, (DWORD)milliseconds);
    bool some = WaitForSingleObject(arrived, 0) == WAIT_OBJECT_0;
    if (some) ResetEvent(arrived); /* a socket that is read, and has more, sets it again */
    for (size_t i = 0; i < count; i++) ready[i] = some;
    ready[count] = has_input && WaitForSingleObject(input_read.is_there, 0) == WAIT_OBJECT_0;
    return found != WAIT_FAILED;
}

static ssize_t system_input(void *bytes, size_t size)
{
    if (!input_begin() || WaitForSingleObject(input_read.is_there, INFINITE) != WAIT_OBJECT_0) return 0;
    size_t left = input_read.length - input_read.taken, length = size < left ? size : left;
    memcpy(bytes, input_read.bytes + input_read.taken, length);
    input_read.taken += (DWORD)length;
    if (length > 0 && length == left) {
        ResetEvent(input_read.is_there);
        SetEvent(input_read.is_taken);
    }
    return (ssize_t)length;
}

#endif
#endif
