/* The sponge of FIPS 202, 4, at rate 136, for the Python reference where it would take too long: nothing of the product is in it. */
#include <stddef.h>
#include <stdint.h>
#include <string.h>

#include "../bench/portable_keccak.h"

enum { RATE = 136 };

/* Lanes hold their bytes low byte first, as this machine does. */
void sponge(const uint8_t *fed, size_t fed_length, uint8_t *out, size_t out_length)
{
    uint64_t lanes[25] = {0}, block[RATE / 8];
    for (size_t at = 0; at < fed_length; at += RATE) {
        memcpy(block, fed + at, RATE);
        for (int i = 0; i < RATE / 8; i++)
            lanes[i] ^= block[i];
        portable_keccak_p(lanes);
    }
    for (size_t at = 0; at < out_length; at += RATE) {
        if (at > 0)
            portable_keccak_p(lanes);
        memcpy(out + at, lanes, out_length - at < RATE ? out_length - at : RATE);
    }
}
