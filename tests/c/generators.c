/* The generators against their definitions by calls of cSHAKE256 and of KMACXOF256, their counts, and their refusals. */
#include "check.h"
#include "either_generator.h"

/* A generator, and what it is defined by: its call over a key and a message, for a seeding or for a piece of a draw, and the counts. */
typedef struct {
    either_generator of;
    hf_outcome (*seed_call)(const uint8_t *key, const uint8_t *message, size_t length, uint8_t *out, size_t out_length);
    hf_outcome (*piece_call)(const uint8_t *key, const uint8_t *message, size_t length, uint8_t *out, size_t out_length);
    size_t seed_runs, piece_runs;
} defined;

static hf_outcome cshake_seed_call(const uint8_t *key, const uint8_t *message, size_t length, uint8_t *out, size_t out_length) {
    return hf_cshake256(TEXT("cSHAKE-DRNG seed"), key, 64, message, length, out, out_length);
}

static hf_outcome cshake_piece_call(const uint8_t *key, const uint8_t *message, size_t length, uint8_t *out, size_t out_length) {
    return hf_cshake256(TEXT("cSHAKE-DRNG generate"), key, 64, message, length, out, out_length);
}

static hf_outcome kmac_seed_call(const uint8_t *key, const uint8_t *message, size_t length, uint8_t *out, size_t out_length) {
    return hf_kmacxof256(key, 64, TEXT("KMAC-DRNG seed"), message, length, out, out_length);
}

static hf_outcome kmac_piece_call(const uint8_t *key, const uint8_t *message, size_t length, uint8_t *out, size_t out_length) {
    return hf_kmacxof256(key, 64, TEXT("KMAC-DRNG generate"), message, length, out, out_length);
}

static bool same(hf_generator a, hf_generator b) { return memcmp(a.key, b.key, 64) == 0 && a.seeded == b.seeded; }

static hf_generator seeded(const defined *by) {
    uint8_t expected[64];
    hf_draw d = by->of.seed(by->of.fresh(), TEXT("seed"), TEXT("person"));
    EXPECT(by->seed_call(big, TEXT("seedperson\006"), expected, 64).runs == by->seed_runs);
    EXPECT(d.number == 0 && d.runs == by->seed_runs && d.generator.seeded == 1 && memcmp(d.generator.key, expected, 64) == 0);
    return d.generator;
}

static void fresh(const defined *by) {
    lent out;
    hf_generator g = by->of.fresh();
    EXPECT(g.seeded == 0 && memcmp(g.key, big, 64) == 0);
    hf_draw d = by->of.draw(g, big, 85, lend(&out, 10), 10);
    EXPECT(d.number == 1 && d.runs == 0 && same(d.generator, g) && untouched(&out));
}

static void draws(const defined *by, hf_generator g) {
    static const struct {
        size_t bytes, pieces;
    } rows[] = {{208, 1}, {209, 2}, {0, 0}, {1, 1}, {416, 2}, {417, 3}};
    for (size_t i = 0; i < sizeof rows / sizeof *rows; i++) {
        uint8_t expected[3 * 208];
        hf_generator after = g;
        for (size_t done = 0; done < rows[i].bytes; done += 208) {
            uint8_t piece[272];
            EXPECT(by->piece_call(after.key, TEXT("more\004"), piece, 272).runs == by->piece_runs);
            memcpy(after.key, piece, 64);
            memcpy(expected + done, piece + 64, 208);
        }
        lent out;
        hf_draw d = by->of.draw(g, TEXT("more"), lend(&out, rows[i].bytes), rows[i].bytes);
        EXPECT(d.number == 0 && d.runs == rows[i].pieces * by->piece_runs && filled_with(&out, expected) && same(d.generator, after));
    }
}

static void refusals(const defined *by, hf_generator g) {
    lent out;
    EXPECT(by->of.draw(g, big, 84, lend(&out, 10), 10).number == 0);
    hf_draw d = by->of.draw(g, big, 85, big + 100, TOO_MANY - 100);
    EXPECT(d.number == 3 && d.runs == 0 && same(d.generator, g));
    d = by->of.draw(g, NONE, big, TOO_MANY);
    EXPECT(d.number == 6 && d.runs == 0 && same(d.generator, g) && big[0] == 0 && big[MOST] == 0);
    d = by->of.seed(g, big, 65537, big, 85);
    EXPECT(d.number == 3 && d.runs == 0 && same(d.generator, g));
    d = by->of.seed(g, big, 65537, big, 84);
    EXPECT(d.number == 5 && d.runs == 0 && same(d.generator, g));
    d = by->of.seed(g, big, 65536, big, 84);
    EXPECT(d.number == 0 && !same(d.generator, g));
    d = by->of.seed(by->of.fresh(), NONE, NONE);
    EXPECT(d.number == 0 && d.generator.seeded == 1);
}

void check_generators(void) {
    const defined both[] = {{cshake_generator, cshake_seed_call, cshake_piece_call, 2, 3}, {kmac_generator, kmac_seed_call, kmac_piece_call, 3, 4}};
    hf_generator g[2];
    for (size_t i = 0; i < 2; i++) {
        fresh(&both[i]);
        g[i] = seeded(&both[i]);
        draws(&both[i], g[i]);
        refusals(&both[i], g[i]);
    }
    EXPECT(!same(g[0], g[1]));
}
