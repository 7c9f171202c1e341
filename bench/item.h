// The spelling of an Item, its length word before it, and the reading of it into a struct of the size of a Summary, without
// a look at what is there: what the benches of frames and of links are measured beside.
#include <stdint.h>
#include <string.h>

typedef unsigned __int128 u128;
typedef struct { uint32_t len; u128 slots[16]; } nums;
typedef struct { uint64_t time, number; uint32_t capture; nums key, vals; } summary;

static uint8_t *put8(uint8_t *at, uint64_t n) {
    n = __builtin_bswap64(n);
    memcpy(at, &n, 8);
    return at + 8;
}

static uint8_t *put4(uint8_t *at, uint32_t n) {
    n = __builtin_bswap32(n);
    memcpy(at, &n, 4);
    return at + 4;
}

static const uint8_t *take8(const uint8_t *at, uint64_t *n) {
    memcpy(n, at, 8);
    *n = __builtin_bswap64(*n);
    return at + 8;
}

static const uint8_t *take4(const uint8_t *at, uint32_t *n) {
    memcpy(n, at, 4);
    *n = __builtin_bswap32(*n);
    return at + 4;
}

static uint8_t *put_nums(uint8_t *at, const nums *list) {
    *at++ = (uint8_t)list->len;
    for (uint32_t i = 0; i < list->len; i++) at = put8(put8(at, (uint64_t)(list->slots[i] >> 64)), (uint64_t)list->slots[i]);
    return at;
}

static const uint8_t *take_nums(const uint8_t *at, nums *list) {
    uint64_t high, low;
    memset(list, 0, sizeof *list);
    list->len = *at++;
    for (uint32_t i = 0; i < list->len && i < 16; i++) {
        at = take8(take8(at, &high), &low);
        list->slots[i] = (u128)high << 64 | low;
    }
    return at;
}

__attribute__((noinline)) static size_t encode(const summary *s, uint8_t *out) {
    uint8_t *at = out + 4;
    *at++ = 1;
    at = put8(put4(put8(at, s->time), s->capture), s->number);
    at = put_nums(put_nums(at, &s->key), &s->vals);
    put4(out, (uint32_t)(at - out - 4));
    return (size_t)(at - out);
}

__attribute__((noinline)) static void decode(const uint8_t *from, summary *s) {
    const uint8_t *at = take8(take4(take8(from + 5, &s->time), &s->capture), &s->number);
    take_nums(take_nums(at, &s->key), &s->vals);
}
