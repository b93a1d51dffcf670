/* Writes what the peer sends and receives as a packet capture, which Wireshark opens: classic pcap, whose packets begin with
 * their IP header. */
#define _DEFAULT_SOURCE
#include "peer.h"
#include <string.h>
#include <sys/time.h>

enum { LINKTYPE_RAW = 101, LARGEST = 65535, UDP = 17, HOPS = 64, IPV4 = 20, IPV6 = 40, HEADER = 8 };

/* Writes numbers of the file, in the byte order of the machine: its first one shows which that is. */
static void put(struct pcap *pcap, const uint32_t *numbers, size_t count)
{
    fwrite(numbers, sizeof *numbers, count, pcap->file);
}

bool pcap_open(struct pcap *pcap, const char *path)
{
    static const uint16_t version[2] = {2, 4};
    uint32_t numbers[6] = {0xa1b2c3d4, 0, 0, 0, LARGEST, LINKTYPE_RAW};
    memcpy(&numbers[1], version, sizeof version);
    pcap->file = fopen(path, "wb");
    if (!pcap->file) return false;
    put(pcap, numbers, 6);
    return fflush(pcap->file) == 0;
}

/* ---- IP and UDP headers */

static void put16(uint8_t *to, size_t number)
{
    to[0] = (uint8_t)(number >> 8);
    to[1] = (uint8_t)number;
}

/* Adds bytes to an Internet checksum (RFC 1071), which `folded` completes. */
static uint32_t sum(uint32_t before, const uint8_t *bytes, size_t length)
{
    for (size_t i = 0; i < length; i++) before += i % 2 == 0 ? (uint32_t)bytes[i] << 8 : bytes[i];
    return before;
}

static uint16_t folded(uint32_t sum)
{
    while (sum > 0xffff) sum = (sum & 0xffff) + (sum >> 16);
    return (uint16_t)~sum;
}

/* Writes the IPv4 header (RFC 791) or the IPv6 header (RFC 8200) of a UDP packet of this length, and returns its size. */
static size_t put_ip(uint8_t *to, const is_ice_address *from, const is_ice_address *towards, size_t length)
{
    if (from->family == 4) {
        static const uint8_t begin[12] = {0x45, 0, 0, 0, 0, 0, 0x40, 0, HOPS, UDP, 0, 0};
        memcpy(to, begin, sizeof begin);
        put16(to + 2, IPV4 + length);
        memcpy(to + 12, from->bytes, 4);
        memcpy(to + 16, towards->bytes, 4);
        put16(to + 10, folded(sum(0, to, IPV4)));
        return IPV4;
    }
    memset(to, 0, 8);
    to[0] = 0x60;
    put16(to + 4, length);
    to[6] = UDP;
    to[7] = HOPS;
    memcpy(to + 8, from->bytes, 16);
    memcpy(to + 24, towards->bytes, 16);
    return IPV6;
}

/* Writes the UDP header (RFC 768), whose checksum covers the addresses, the protocol and the length too. */
static void put_udp(uint8_t *to, const is_ice_address *from, const is_ice_address *towards, const uint8_t *bytes, size_t length)
{
    size_t size = from->family == 4 ? 4 : 16;
    put16(to, from->port);
    put16(to + 2, towards->port);
    put16(to + 4, HEADER + length);
    put16(to + 6, 0);
    uint32_t total = sum(sum(UDP + HEADER + (uint32_t)length, from->bytes, size), towards->bytes, size);
    uint16_t checksum = folded(sum(sum(total, to, HEADER), bytes, length));
    put16(to + 6, checksum != 0 ? checksum : 0xffff);
}

void pcap_write(struct pcap *pcap, const is_ice_address *from, const is_ice_address *to, const void *bytes, size_t length)
{
    uint8_t headers[IPV6 + HEADER];
    struct timeval now = {0};
    if (!pcap->file || length > LARGEST - sizeof headers) return;
    size_t size = put_ip(headers, from, to, HEADER + length);
    put_udp(headers + size, from, to, (const uint8_t *)bytes, length);
    size += HEADER;

    gettimeofday(&now, NULL);
    uint32_t whole = (uint32_t)(size + length);
    const uint32_t numbers[4] = {(uint32_t)now.tv_sec, (uint32_t)now.tv_usec, whole, whole};
    put(pcap, numbers, 4);
    fwrite(headers, 1, size, pcap->file);
    fwrite(bytes, 1, length, pcap->file);
    fflush(pcap->file);
}

bool pcap_close(struct pcap *pcap)
{
    if (!pcap->file) return true;
    bool failed = ferror(pcap->file) != 0;
    if (fclose(pcap->file) != 0) failed = true;
    pcap->file = NULL;
    return !failed;
}
