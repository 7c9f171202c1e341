// Parts of frames and capture files, for the programs of this folder that write captures.
#ifndef FRAMES_H
#define FRAMES_H
#include <stdint.h>
#include <stdio.h>
#include <string.h>

// The bytes of headers, and the most of a payload.
enum { ETH = 14, IPV4 = 20, UDP = 8, VXLAN = 8, GRE = 8, OUTER = ETH + IPV4 + UDP + VXLAN, RECORD = 16, LONGEST = 1400 };

static void little(uint8_t *at, uint32_t n) {
    for (int i = 0; i < 4; i++) at[i] = (uint8_t)(n >> (8 * i));
}

static void big16(uint8_t *at, uint32_t n) {
    at[0] = (uint8_t)(n >> 8);
    at[1] = (uint8_t)n;
}

static uint32_t checksum(const uint8_t *header) {
    uint32_t sum = 0;
    for (int i = 0; i < IPV4; i += 2) sum += (uint32_t)(header[i] << 8 | header[i + 1]);
    while (sum >> 16) sum = (sum & 0xFFFF) + (sum >> 16);
    return ~sum & 0xFFFF;
}

// Fills in the header of IPv4 between two hosts, without its identification and checksum.
static void fill_ipv4(uint8_t *ip, uint32_t length, uint8_t protocol, const char *hosts) {
    memset(ip, 0, IPV4);
    ip[0] = 0x45;
    big16(ip + 2, length);
    ip[8] = 64;
    ip[9] = protocol;
    memcpy(ip + 12, hosts, 8);
}

// Makes what stands in front of an inner frame of this length, in VXLAN of network 100, or in front of the packet in
// it, in GRE with key 5. Answers how many bytes of the inner frame are left out.
static uint32_t make_outer(uint8_t *outer, uint32_t inner, int in_vxlan) {
    uint8_t *ip = outer + ETH, *after = ip + IPV4;
    memcpy(outer, "\x02\x00\x00\x00\x00\x04\x02\x00\x00\x00\x00\x03\x08\x00", ETH);
    if (in_vxlan) {
        fill_ipv4(ip, IPV4 + UDP + VXLAN + inner, 17, "\x0A\x01\x00\x01\x0A\x01\x00\x02");
        big16(after, 49152);
        big16(after + 2, 4789);
        big16(after + 4, UDP + VXLAN + inner);
        big16(after + 6, 0);
        memcpy(after + UDP, "\x08\x00\x00\x00\x00\x00\x64\x00", VXLAN);
    } else {
        fill_ipv4(ip, IPV4 + GRE + inner - ETH, 47, "\x0A\x01\x00\x01\x0A\x01\x00\x02");
        memcpy(after, "\x20\x00\x08\x00\x00\x00\x00\x05", GRE);
    }
    big16(ip + 10, checksum(ip));
    return in_vxlan ? 0 : ETH;
}

// Fills in the headers of Ethernet, IPv4 and UDP of one packet of a host to another, and its payload. Left to the
// caller are the identification, the TTL and the checksum of IPv4.
static void fill_packet(uint8_t *eth, uint32_t payload) {
    uint8_t *ip = eth + ETH, *udp = ip + IPV4;
    memcpy(eth, "\x02\x00\x00\x00\x00\x02\x02\x00\x00\x00\x00\x01\x08\x00", ETH);
    fill_ipv4(ip, IPV4 + UDP + payload, 17, "\x0A\x00\x00\x01\x0A\x00\x00\x02");
    big16(udp, 40000);
    big16(udp + 2, 9);
    big16(udp + 4, UDP + payload);
    for (uint32_t i = 0; i < payload; i++) udp[UDP + i] = (uint8_t)i;
}

enum wrapping { BARE, IN_VXLAN, IN_GRE };

// Writes a record whose frame of this length follows its header, as it is or wrapped.
static void write_record(FILE *file, uint8_t *record, uint32_t length, enum wrapping wrapping) {
    uint8_t outer[OUTER];
    uint32_t left_out = wrapping == BARE ? 0 : make_outer(outer, length, wrapping == IN_VXLAN);
    uint32_t front = wrapping == BARE ? 0 : wrapping == IN_VXLAN ? OUTER : ETH + IPV4 + GRE;
    little(record + 8, front + length - left_out);
    little(record + 12, front + length - left_out);
    fwrite(record, 1, RECORD, file);
    fwrite(outer, 1, front, file);
    fwrite(record + RECORD + left_out, 1, length - left_out, file);
}

// Writes the header of a file: libpcap 2.4, little-endian, Ethernet.
static void write_head(FILE *file, int nanoseconds) {
    uint8_t head[24] = {nanoseconds ? 0x4D : 0xD4, nanoseconds ? 0x3C : 0xC3, 0xB2, 0xA1, 2, 0, 4, 0};
    little(head + 16, 262144);
    little(head + 20, 1);
    fwrite(head, 1, sizeof head, file);
}

#endif
