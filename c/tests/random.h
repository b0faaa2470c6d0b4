/* Numbers that are the same in every run. No expression draws two of them if C leaves open which comes first. */
#ifndef RANDOM_H
#define RANDOM_H

#include <stdbool.h>
#include <stdint.h>

static inline uint64_t random_word(void) {
    static uint64_t seed = 1;
    seed += 0x9E3779B97F4A7C15u;
    uint64_t z = seed;
    z = (z ^ z >> 30) * 0xBF58476D1CE4E5B9u;
    z = (z ^ z >> 27) * 0x94D049BB133111EBu;
    return z ^ z >> 31;
}

static inline uint32_t random_below(uint32_t limit) {
    return (uint32_t)(random_word() >> 32) % limit;
}

static inline bool one_in(uint32_t n) {
    return random_below(n) == 0;
}

static inline uint8_t random_byte(void) {
    return (uint8_t)random_below(256);
}

#endif
