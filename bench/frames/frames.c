// Writes the 75 bytes of an Item with one key and two values, and reads them into a struct of the size of a Summary, ten
// million times: what `encode` and `decode` do, without their checks of what is there.
#include <stdio.h>
#include <time.h>

#include "../item.h"

static summary item(uint64_t number) {
    summary s;
    memset(&s, 0, sizeof s);
    s.time = number, s.capture = 3, s.number = number;
    s.key.len = 1, s.key.slots[0] = number % 1000;
    s.vals.len = 2, s.vals.slots[0] = number, s.vals.slots[1] = 64;
    return s;
}

int main(void) {
    enum { COUNT = 10000000 };
    for (int round = 0; round < 3; round++) {
        uint8_t out[1028];
        static summary read[16];
        int same = 0;
        clock_t start = clock();
        for (uint64_t number = 0; number < COUNT; number++) {
            summary s = item(number);
            encode(&s, out);
            decode(out, &read[number % 16]);
        }
        long spent = (long)((clock() - start) * 1000000 / CLOCKS_PER_SEC);
        for (uint64_t number = COUNT - 16; number < COUNT; number++) {
            summary s = item(number);
            same += memcmp(&s, &read[number % 16], sizeof s) == 0;
        }
        printf("c      %d %ld us, %d of 16 are as they were\n", COUNT, spent, same);
    }
    return 0;
}
