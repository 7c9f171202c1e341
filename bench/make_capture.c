// make_capture FILE PACKETS [PAYLOAD] [COPIES] [tunnels]: writes a capture of UDP packets over IPv4 and Ethernet.
//
// libpcap 2.4, little-endian, microseconds. Packet number p has the IPv4 identification p mod 65536 and is
// captured COPIES times (default 1), 40 microseconds apart; packets begin 100 microseconds apart. PAYLOAD is
// the number of bytes after the UDP header (default 22, which makes frames of 64 bytes with the headers).
// With `tunnels`, records are in turn the frame in VXLAN and its IPv4 packet in GRE with a key, each over IPv4 and
// Ethernet of their own (114 and 92 bytes of frame for a payload of 22).
// The records stand in the order of their times, so the file grows as it is written and needs no memory.
#include <stdint.h>
#include <stdio.h>
#include <stdlib.h>
#include <string.h>

#include "frames.h"

enum { MOST_COPIES = 64, STEP = 100, APART = 40 };

// A packet copy by the time at which it is captured, in microseconds.
struct copy {
    uint64_t time;
    uint64_t packet;
    uint32_t copy;
};

// Which of the two is captured first; at one time, the packet that began first.
static int precedes(struct copy a, struct copy b) {
    return a.time != b.time ? a.time < b.time : a.packet < b.packet;
}

int main(int argc, char **argv) {
    int tunnels = argc == 6 && strcmp(argv[5], "tunnels") == 0;
    if (argc < 3 || argc > 6 || (argc == 6 && !tunnels)) {
        fprintf(stderr, "usage: make_capture FILE PACKETS [PAYLOAD] [COPIES] [tunnels]\n");
        return 1;
    }
    uint64_t packets = strtoull(argv[2], NULL, 10);
    uint32_t payload = argc > 3 ? (uint32_t)strtoul(argv[3], NULL, 10) : 22;
    uint32_t copies = argc > 4 ? (uint32_t)strtoul(argv[4], NULL, 10) : 1;
    if (payload > LONGEST || copies == 0 || copies > MOST_COPIES) {
        fprintf(stderr, "make_capture: at most %d bytes of payload and 1 to %d copies\n", LONGEST, MOST_COPIES);
        return 1;
    }
    FILE *file = fopen(argv[1], "wb");
    if (!file) {
        perror(argv[1]);
        return 1;
    }
    setvbuf(file, NULL, _IOFBF, 1 << 20);

    write_head(file, 0);

    uint32_t length = ETH + IPV4 + UDP + payload;
    uint8_t record[RECORD + ETH + IPV4 + UDP + LONGEST] = {0};
    uint8_t *eth = record + RECORD, *ip = eth + ETH;
    fill_packet(eth, payload);

    // The packets that have copies to come: the newest begins the next one; at most MOST_COPIES overlap.
    struct copy open[MOST_COPIES + 1];
    int waiting = 0;
    uint64_t begun = 0, written = 0;
    while (begun < packets || waiting > 0) {
        int least = -1;
        for (int i = 0; i < waiting; i++)
            if (least < 0 || precedes(open[i], open[least])) least = i;
        if (begun < packets && (least < 0 || begun * STEP < open[least].time)) {
            open[waiting] = (struct copy){begun * STEP, begun, 0};
            least = waiting++;
            begun++;
        }
        struct copy *now = &open[least];
        uint64_t micros = 1700000000000000ull + now->time;
        little(record, (uint32_t)(micros / 1000000));
        little(record + 4, (uint32_t)(micros % 1000000));
        big16(ip + 4, (uint32_t)(now->packet & 0xFFFF));
        ip[8] = (uint8_t)(64 - now->copy % 64);
        big16(ip + 10, 0);
        big16(ip + 10, checksum(ip));
        write_record(file, record, length, !tunnels ? BARE : written % 2 == 0 ? IN_VXLAN : IN_GRE);
        written++;
        now->copy++;
        now->time += APART;
        if (now->copy == copies) *now = open[--waiting];
    }
    if (ferror(file) | fclose(file)) {
        perror(argv[1]);
        return 1;
    }
    return 0;
}
