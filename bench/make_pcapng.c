// make_pcapng FROM TO: writes the packets of a little-endian libpcap file as a pcapng file of one section.
//
// The section is little-endian and has one interface, with the link type and the unit of FROM; each record becomes an
// enhanced packet block without options. A record of n captured bytes takes 16 + n bytes in FROM, and 32 + n in TO, with
// n rounded up to a multiple of 4. Prints the number of packets.
#include <stdint.h>
#include <stdio.h>
#include <stdlib.h>
#include <string.h>

enum { HEAD = 24, RECORD = 16, LONGEST = 262144, PACKET = 28, TAIL = 4 };

static uint32_t word(const uint8_t *from) {
    return from[0] | (uint32_t)from[1] << 8 | (uint32_t)from[2] << 16 | (uint32_t)from[3] << 24;
}

static void put(uint8_t *to, uint32_t number) {
    for (int i = 0; i < 4; i++) to[i] = (uint8_t)(number >> 8 * i);
}

static FILE *opened(const char *name, const char *how) {
    FILE *file = fopen(name, how);
    if (!file) {
        perror(name);
        exit(1);
    }
    setvbuf(file, NULL, _IOFBF, 1 << 20);
    return file;
}

int main(int argc, char **argv) {
    if (argc != 3) {
        fprintf(stderr, "usage: make_pcapng FROM TO\n");
        return 1;
    }
    FILE *from = opened(argv[1], "rb"), *to = opened(argv[2], "wb");
    uint8_t head[HEAD];
    if (fread(head, HEAD, 1, from) != 1 || (word(head) != 0xA1B2C3D4 && word(head) != 0xA1B23C4D)) {
        fprintf(stderr, "make_pcapng: %s is no little-endian libpcap file\n", argv[1]);
        return 1;
    }
    uint64_t a_second = word(head) == 0xA1B23C4D ? 1000000000 : 1000000;

    const uint8_t section[28] = {0x0A, 0x0D, 0x0D, 0x0A, 28, 0, 0, 0, 0x4D, 0x3C, 0x2B, 0x1A, 1, 0, 0, 0,
                                 0xFF, 0xFF, 0xFF, 0xFF, 0xFF, 0xFF, 0xFF, 0xFF, 28, 0, 0, 0};
    // The option of code 9 is the resolution.
    uint8_t interface[32] = {1, 0, 0, 0, 32, 0, 0, 0, head[20], head[21], 0, 0, 0, 0, 4, 0, 9, 0, 1, 0};
    interface[20] = a_second == 1000000000 ? 9 : 6;
    put(interface + 28, 32);
    fwrite(section, sizeof section, 1, to);
    fwrite(interface, sizeof interface, 1, to);

    static uint8_t block[PACKET + LONGEST + TAIL];
    uint8_t record[RECORD];
    uint64_t packets = 0;
    while (fread(record, RECORD, 1, from) == 1) {
        uint32_t length = word(record + 8), padded = (length + 3) / 4 * 4;
        uint64_t time = word(record) * a_second + word(record + 4);
        if (length > LONGEST || (length > 0 && fread(block + PACKET, length, 1, from) != 1)) break;
        memset(block + PACKET + length, 0, padded - length);
        uint32_t total = PACKET + padded + TAIL;
        const uint32_t front[7] = {6, total, 0, (uint32_t)(time >> 32), (uint32_t)time, length, word(record + 12)};
        for (int i = 0; i < 7; i++) put(block + 4 * i, front[i]);
        put(block + PACKET + padded, total);
        fwrite(block, total, 1, to);
        packets++;
    }
    fclose(from);
    if (ferror(to) | fclose(to)) {
        perror(argv[2]);
        return 1;
    }
    printf("%llu\n", (unsigned long long)packets);
    return 0;
}
