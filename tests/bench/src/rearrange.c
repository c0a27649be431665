// Rearrange of the proved library in C, by the same steps: the old points of all points by doubling, from the last tap to
// the first, and each mask gathered from them.
#include "elimination.h"
#include <string.h>

// The old point of each point of n taps: a point with one bit more in front has one bit more in its old point.
static void old_points(uint16_t *old, size_t n, const uint8_t *wiring) {
    old[0] = 0;
    for (size_t k = 0; k < n; k++) {
        size_t half = (size_t)1 << k;
        uint16_t bit = 1 << (n - wiring[n - 1 - k]);
        for (size_t r = 0; r < half; r++)
            old[half + r] = bit | old[r];
    }
}

// The byte at each point of n taps becomes that at its old point.
static void gather(uint8_t *mask, const uint16_t *old, size_t n) {
    uint8_t new[POINTS] = {0};
    for (size_t a = 0; a < (size_t)1 << n; a++)
        new[a] = mask[old[a]];
    memcpy(mask, new, sizeof new);
}

// Rearrange of a set and a table of n taps.
void c_rearrange(uint8_t *set, uint8_t *table, size_t n, const uint8_t *wiring) {
    uint16_t old[POINTS];
    old_points(old, n, wiring);
    gather(set, old, n);
    gather(table, old, n);
}
