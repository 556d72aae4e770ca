/* The sponge over portable_keccak.c and the encodings of SP 800-185, as one would write them by hand; in a header, so that the compiler may inline them. */
#ifndef PORTABLE_SPONGE_H
#define PORTABLE_SPONGE_H
#include <string.h>

#include "portable_keccak.h"
#include "work.h"

typedef struct {
    uint64_t lanes[25];
    size_t at; /* the next byte in the block */
} sponge;

static void absorb(sponge *s, const uint8_t *bytes, size_t length)
{
    while (length > 0) {
        if (s->at == 0 && length >= BLOCK) {
            uint64_t block[BLOCK / 8];
            memcpy(block, bytes, BLOCK);
            for (int i = 0; i < BLOCK / 8; i++)
                s->lanes[i] ^= block[i];
            bytes += BLOCK, length -= BLOCK;
            portable_keccak_p(s->lanes);
        } else {
            s->lanes[s->at / 8] ^= (uint64_t)*bytes << 8 * (s->at % 8);
            bytes++, length--;
            if (++s->at == BLOCK)
                portable_keccak_p(s->lanes), s->at = 0;
        }
    }
}

static void finish(sponge *s, uint8_t suffix)
{
    s->lanes[s->at / 8] ^= (uint64_t)suffix << 8 * (s->at % 8);
    s->lanes[BLOCK / 8 - 1] ^= (uint64_t)0x80 << 56;
    portable_keccak_p(s->lanes);
    s->at = 0;
}

static void squeeze(sponge *s, uint8_t *out, size_t length)
{
    while (length > 0) {
        if (s->at == BLOCK)
            portable_keccak_p(s->lanes), s->at = 0;
        size_t part = length < BLOCK - s->at ? length : BLOCK - s->at;
        memcpy(out, (uint8_t *)s->lanes + s->at, part);
        out += part, length -= part, s->at += part;
    }
}

static void encode_string(sponge *s, const uint8_t *bytes, size_t length)
{
    uint8_t bits[3] = {1, (uint8_t)(8 * length)};
    if (8 * length > 255)
        bits[0] = 2, bits[1] = (uint8_t)(length >> 5), bits[2] = (uint8_t)(8 * length);
    absorb(s, bits, bits[0] + 1u);
    absorb(s, bytes, length);
}

static void pad_block(sponge *s)
{
    if (s->at > 0)
        portable_keccak_p(s->lanes), s->at = 0;
}

static sponge named(const void *name, size_t name_length, const uint8_t *custom, size_t custom_length)
{
    sponge s = {{0}, 0};
    absorb(&s, (const uint8_t[]){1, BLOCK}, 2);
    encode_string(&s, name, name_length);
    encode_string(&s, custom, custom_length);
    pad_block(&s);
    return s;
}

static sponge keyed(const uint8_t *key, size_t key_length, const void *custom, size_t custom_length)
{
    sponge s = named("KMAC", 4, custom, custom_length);
    absorb(&s, (const uint8_t[]){1, BLOCK}, 2);
    encode_string(&s, key, key_length);
    pad_block(&s);
    return s;
}

static void end(sponge *s, const uint8_t *last, size_t last_length, uint8_t *out, size_t length)
{
    absorb(s, last, last_length);
    finish(s, 4);
    squeeze(s, out, length);
}

static void end_xof(sponge *s, uint8_t *out, size_t length) { end(s, (const uint8_t[]){0, 1}, 2, out, length); }
#endif
