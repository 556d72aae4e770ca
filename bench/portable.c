/* Portable C as a worker: the papers' functions over portable_keccak.c, as one would write them by hand, without refusals. */
#include "portable_sponge.h"
#include "work.h"

static void permutation(size_t runs)
{
    for (size_t i = 0; i < runs; i++)
        portable_keccak_p(work.lanes);
}

static void shake256(size_t size)
{
    sponge s = {{0}, 0};
    absorb(&s, work.text, size);
    finish(&s, 0x1F);
    squeeze(&s, work.out, OUT);
}

static void cshake256(size_t size)
{
    sponge s = named(work.name, NAME, work.custom, CUSTOM);
    absorb(&s, work.text, size);
    end(&s, NULL, 0, work.out, OUT);
}

static void kmac256(size_t size)
{
    sponge s = keyed(work.key, KEY, work.custom, CUSTOM);
    absorb(&s, work.text, size);
    end(&s, (const uint8_t[]){8 * OUT / 256, 8 * OUT % 256, 2}, 3, work.out, OUT);
}

static void session(size_t piece)
{
    sponge s = keyed(work.key, KEY, work.custom, CUSTOM);
    for (size_t at = 0; at < MOST; at += piece)
        absorb(&s, work.text + at, MOST - at < piece ? MOST - at : piece);
    end_xof(&s, work.out, OUT);
}

static void kmacxof256(size_t size)
{
    sponge s = keyed(work.key, KEY, work.custom, CUSTOM);
    absorb(&s, work.text, size);
    end_xof(&s, work.out, OUT);
}

static void output(size_t size)
{
    sponge s = keyed(work.key, KEY, work.custom, CUSTOM);
    absorb(&s, work.text, MESSAGE);
    end_xof(&s, work.out, size);
}

/* The key stream's sponge, its first bytes taken as the authentication key. */
static sponge crypt(uint8_t *auth_key)
{
    sponge s = keyed(work.key, KEY, work.iv, IV);
    end_xof(&s, auth_key, KEY);
    return s;
}

static void combine(sponge *s, const uint8_t *text, size_t size)
{
    squeeze(s, work.out, size);
    for (size_t i = 0; i < size; i++)
        work.out[i] ^= text[i];
}

static void tag_of(const uint8_t *auth_key, const uint8_t *sealed, size_t size, uint8_t *tag)
{
    sponge s = keyed(auth_key, KEY, work.iv, 0);
    absorb(&s, sealed, size);
    end_xof(&s, tag, TAG);
}

static void sealing(size_t size)
{
    uint8_t auth_key[KEY];
    sponge s = crypt(auth_key);
    combine(&s, work.text, size);
    tag_of(auth_key, work.out, size, work.tag);
}

static void opening(size_t size)
{
    uint8_t auth_key[KEY], tag[TAG];
    sponge s = crypt(auth_key);
    tag_of(auth_key, work.sealed, size, tag);
    work.answer = memcmp(tag, work.seal_tag, TAG) == 0 ? 0 : 8;
    if (work.answer == 0)
        combine(&s, work.sealed, size);
}

/* A draw piece by piece: each begins with the blocks before its message, and has these bytes after the additional input. */
static void draw(size_t size, sponge (*begun)(const uint8_t *key), const uint8_t *last, size_t last_length)
{
    uint8_t key[SEED_KEY];
    memcpy(key, work.drawing_key, SEED_KEY);
    for (size_t at = 0; at < size; at += PIECE) {
        sponge s = begun(key);
        absorb(&s, work.name, NAME);
        end(&s, last, last_length, key, SEED_KEY);
        squeeze(&s, work.out + at, size - at < PIECE ? size - at : PIECE);
    }
}

static sponge cshake_piece(const uint8_t *key) { return named("cSHAKE-DRNG generate", 20, key, SEED_KEY); }

static void drawing(size_t size) { draw(size, cshake_piece, (const uint8_t[]){NAME}, 1); }

static sponge kmac_piece(const uint8_t *key) { return keyed(key, SEED_KEY, "KMAC-DRNG generate", 18); }

static void kmac_drawing(size_t size) { draw(size, kmac_piece, (const uint8_t[]){NAME, 0, 1}, 3); }

const struct worker portable = {"portable C",
                                {permutation, shake256, cshake256, kmac256, kmacxof256, output, session, sealing, opening, drawing, kmac_drawing,
                                 portable_plan_read, portable_plan_lookup, portable_hall_read, portable_hall_lookup},
                                0, NULL};
