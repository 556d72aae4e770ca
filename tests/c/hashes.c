/* Counts and refusals of cSHAKE256, KMAC256 and KMACXOF256, on both sides of each limit. */
#include "check.h"

static hf_outcome kmacxof(size_t key, size_t custom, size_t message, lent *out, size_t length) {
    return hf_kmacxof256(big, key, big, custom, big, message, lend(out, length), length);
}

static void counts(void) {
    static const struct {
        size_t custom, message, out, runs;
    } rows[] = {{0, 0, 32, 3}, {0, 0, 0, 3}, {0, 0, 136, 3}, {0, 0, 137, 4}, {0, 133, 32, 3}, {0, 134, 32, 4}, {125, 0, 32, 3}, {126, 0, 32, 4}};
    for (size_t i = 0; i < sizeof rows / sizeof *rows; i++) {
        lent out;
        hf_outcome outcome = kmacxof(32, rows[i].custom, rows[i].message, &out, rows[i].out);
        EXPECT(outcome.number == 0 && outcome.runs == rows[i].runs);
    }
}

static void refusals(void) {
    lent out;
    hf_outcome o = kmacxof(4097, 4097, TOO_MANY, &out, 32);
    EXPECT(o.number == 2 && o.runs == 0 && untouched(&out));
    o = kmacxof(4096, 4097, TOO_MANY, &out, 32);
    EXPECT(o.number == 3 && o.runs == 0 && untouched(&out));
    o = kmacxof(4096, 4096, TOO_MANY, &out, 32);
    EXPECT(o.number == 5 && o.runs == 0 && untouched(&out));
    o = hf_kmac256(big, 32, NONE, NONE, lend(&out, 0), 0);
    EXPECT(o.number == 6 && o.runs == 0 && untouched(&out));
    o = hf_kmac256(big, 4097, NONE, NONE, lend(&out, 0), 0);
    EXPECT(o.number == 2 && o.runs == 0 && untouched(&out));
    o = hf_cshake256(big, 4097, NONE, NONE, lend(&out, 16), 16);
    EXPECT(o.number == 3 && o.runs == 0 && untouched(&out));
    o = hf_cshake256(TEXT("KMAC"), NONE, big, TOO_MANY, lend(&out, 16), 16);
    EXPECT(o.number == 4 && o.runs == 0 && untouched(&out));
    EXPECT(hf_cshake256(TEXT("kmac"), NONE, NONE, lend(&out, 16), 16).number == 0);
    EXPECT(hf_cshake256(TEXT("KMAC "), NONE, NONE, lend(&out, 16), 16).number == 0);
    EXPECT(hf_cshake256(TEXT("KMA"), NONE, NONE, lend(&out, 0), 0).number == 0 && untouched(&out));
    o = hf_cshake256(NONE, NONE, NONE, big, TOO_MANY);
    EXPECT(o.number == 6 && o.runs == 0);
    size_t i = 0;
    while (i < TOO_MANY && big[i] == 0) i++;
    EXPECT(i == TOO_MANY);
}

void check_hashes(void) {
    counts();
    refusals();
}
