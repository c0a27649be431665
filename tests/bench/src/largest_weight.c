// The largest weight of an exponent with coefficient 1 in C, by the steps of the proved weight and by the compiler's
// count of ones.
#include "elimination.h"

// The number of ones, by the steps of the proved library.
static uint16_t weight(uint16_t u) {
    uint16_t pairs = u - (u >> 1 & 0x5555);
    uint16_t nibbles = (pairs & 0x3333) + (pairs >> 2 & 0x3333);
    uint16_t sums = (nibbles & 0x00ff) + (nibbles >> 8);
    return (sums & 0x000f) + (sums >> 4);
}

// The number of ones, by the compiler's count.
static uint16_t count(uint16_t u) {
    return __builtin_popcount(u);
}

// The largest number of ones of an exponent with coefficient 1.
static inline uint32_t largest(const uint8_t *coefficients, uint16_t (*ones)(uint16_t)) {
    uint16_t most = 0;
    for (int u = 0; u < POINTS; u++) {
        uint16_t w = coefficients[u] == 1 ? ones(u) : 0;
        most = most < w ? w : most;
    }
    return most;
}

// The same by the steps of the proved weight.
uint32_t c_largest_weight(const uint8_t *coefficients) {
    return largest(coefficients, weight);
}

// The same by the compiler's count.
uint32_t c_largest_count(const uint8_t *coefficients) {
    return largest(coefficients, count);
}
