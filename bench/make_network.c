// make_network FOLDER PACKETS [PAYLOAD]: writes eight captures of one network, p1.pcap to p8.pcap, and job.json.
//
// libpcap 2.4, little-endian; the odd captures keep microseconds, the even ones nanoseconds. Packets begin 100
// microseconds apart. Packet number p has the IPv4 identification p mod 65536, and passes 2 to 4 of the eight points,
// 1 to 20 microseconds apart; every thousandth comes back to its first point at the end. At each point its TTL is one
// less, and a copy is left there: bare, in VXLAN and in GRE in turn. PAYLOAD is the number of bytes after the UDP
// header (default 22). All copies of a packet lie before the next one begins, so each file is in the order of its
// times as it is written. Prints the number of records.
#include <stdint.h>
#include <stdio.h>
#include <stdlib.h>
#include <string.h>

#include "frames.h"

enum { POINTS = 8, STEP = 100000, LOOPS = 1000 };

// The next number of a fixed sequence (xorshift).
static uint64_t drawn(uint64_t *state) {
    *state ^= *state << 13;
    *state ^= *state >> 7;
    *state ^= *state << 17;
    return *state;
}

static FILE *open_in(const char *folder, const char *name) {
    char path[4096];
    snprintf(path, sizeof path, "%s/%s", folder, name);
    FILE *file = fopen(path, "wb");
    if (!file) {
        perror(path);
        exit(1);
    }
    return file;
}

static void close_written(FILE *file) {
    if (ferror(file) | fclose(file)) {
        perror("make_network");
        exit(1);
    }
}

static void write_job(const char *folder) {
    FILE *file = open_in(folder, "job.json");
    fputs("{\n  \"version\": 1,\n  \"captures\": [\n", file);
    for (int i = 1; i <= POINTS; i++)
        fprintf(file, "    {\"name\": \"p%d\", \"file\": \"p%d.pcap\"}%s\n", i, i, i < POINTS ? "," : "");
    fputs("  ],\n"
          "  \"vars\": [{\"name\": \"id\", \"take\": [\"ipv4[-1].id\"]}, {\"name\": \"ttl\", \"take\": [\"ipv4[-1].ttl\"]}],\n"
          "  \"key\": [\"id\"],\n  \"window\": 1000000,\n  \"skew\": 0,\n  \"profile\": true,\n"
          "  \"query\": {\"kind\": \"loop\", \"hop\": \"ttl\"}\n}\n", file);
    close_written(file);
}

// Writes a copy of a packet into the file of a point.
static void write_copy(FILE *file, int nanoseconds, uint64_t time, uint64_t packet, int passed, uint8_t *record,
                       uint32_t length, enum wrapping wrapping) {
    uint8_t *ip = record + RECORD + ETH;
    little(record, (uint32_t)(time / 1000000000));
    little(record + 4, (uint32_t)(time % 1000000000 / (nanoseconds ? 1 : 1000)));
    big16(ip + 4, (uint32_t)(packet & 0xFFFF));
    ip[8] = (uint8_t)(64 - passed);
    big16(ip + 10, 0);
    big16(ip + 10, checksum(ip));
    write_record(file, record, length, wrapping);
}

int main(int argc, char **argv) {
    if (argc < 3 || argc > 4) {
        fprintf(stderr, "usage: make_network FOLDER PACKETS [PAYLOAD]\n");
        return 1;
    }
    uint64_t packets = strtoull(argv[2], NULL, 10), state = 1, written = 0;
    uint32_t payload = argc > 3 ? (uint32_t)strtoul(argv[3], NULL, 10) : 22;
    if (payload > LONGEST) {
        fprintf(stderr, "make_network: at most %d bytes of payload\n", LONGEST);
        return 1;
    }
    FILE *files[POINTS];
    for (int i = 0; i < POINTS; i++) {
        char name[] = "p1.pcap";
        name[1] = (char)('1' + i);
        files[i] = open_in(argv[1], name);
        setvbuf(files[i], NULL, _IOFBF, 1 << 18);
        write_head(files[i], i % 2);
    }
    uint8_t record[RECORD + ETH + IPV4 + UDP + LONGEST] = {0};
    fill_packet(record + RECORD, payload);
    for (uint64_t packet = 0; packet < packets; packet++) {
        uint64_t way = drawn(&state), time = 1700000000000000000ull + packet * STEP;
        int first = (int)(way % POINTS), stride = (int)((way >> 8) % POINTS) | 1, passes = 2 + (int)(packet % 3);
        int comes_back = packet % LOOPS == LOOPS - 1;
        for (int passed = 0; passed < passes + comes_back; passed++) {
            int point = passed < passes ? (first + passed * stride) % POINTS : first;
            write_copy(files[point], point % 2, time, packet, passed, record, ETH + IPV4 + UDP + payload,
                       (enum wrapping)(written++ % 3));
            time += 1000 + drawn(&state) % 19000;
        }
    }
    for (int i = 0; i < POINTS; i++) close_written(files[i]);
    write_job(argv[1]);
    printf("%llu\n", (unsigned long long)written);
    return 0;
}
