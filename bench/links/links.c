// Spells ten million Items with one key and two values in 75 bytes each, copies each into a ring of 4 KiB and out of it
// again, in one piece of at most 4,096 bytes, and reads it into a struct of the size of a Summary: what the two ends of
// a link do, without credits, without a digest and without their checks of what is there.
#include <stdio.h>

#include "../item.h"

enum { PLACES = 4096, CUT = 4096, BOX = 2056 };
typedef struct { size_t put, got; uint8_t bytes[PLACES]; } ring;

static size_t least(size_t a, size_t b) { return a < b ? a : b; }

// Copies at most CUT bytes into the ring, as far as it has room, and answers how many.
__attribute__((noinline)) static size_t push(ring *r, const uint8_t *from, size_t count) {
    size_t at = r->put % PLACES;
    count = least(least(count, CUT), PLACES - (r->put - r->got));
    size_t first = least(count, PLACES - at);
    memcpy(r->bytes + at, from, first);
    memcpy(r->bytes, from + first, count - first);
    r->put += count;
    return count;
}

// Copies at most CUT bytes out of the ring, as far as there is room for them, and answers how many.
__attribute__((noinline)) static size_t pop(ring *r, uint8_t *to, size_t room) {
    size_t at = r->got % PLACES;
    size_t count = least(least(room, CUT), r->put - r->got);
    size_t first = least(count, PLACES - at);
    memcpy(to, r->bytes + at, first);
    memcpy(to + first, r->bytes, count - first);
    r->got += count;
    return count;
}

static summary item(uint64_t number) {
    summary s;
    memset(&s, 0, sizeof s);
    s.time = number, s.capture = 3, s.number = number;
    s.key.len = 1, s.key.slots[0] = number % 1000;
    s.vals.len = 2, s.vals.slots[0] = number, s.vals.slots[1] = 64;
    return s;
}

int main(void) {
    enum { COUNT = 10000000 };
    static ring between;
    static summary read[16];
    static uint8_t out[1028], box[BOX];
    size_t came = 0;
    int same = 0;
    for (uint64_t number = 0; number < COUNT; number++) {
        summary s = item(number);
        size_t length = encode(&s, out);
        if (push(&between, out, length) != length || pop(&between, box, BOX) != length) return 1;
        decode(box, &read[number % 16]);
        came++;
    }
    for (uint64_t number = COUNT - 16; number < COUNT; number++) {
        summary s = item(number);
        same += memcmp(&s, &read[number % 16], sizeof s) == 0;
    }
    printf("%zu came, %d of 16 are as they were\n", came, same);
    return 0;
}
