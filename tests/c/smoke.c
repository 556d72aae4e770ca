/* The library as C links it, tried from C: known answers, pieces against one call, round trips, refusals, and canaries around every buffer that is written.
 * usage: smoke vectors/nist-samples.txt */
#include "check.h"

static int checked, failed;

uint8_t big[TOO_MANY];

void expect(bool fact, const char *text, const char *file, int line) {
    checked++;
    if (fact) return;
    failed++;
    printf("%s:%d: not so: %s\n", file, line, text);
}

enum { CANARY = 0xA5 };

uint8_t *lend(lent *buffer, size_t length) {
    memset(buffer->bytes, CANARY, sizeof buffer->bytes);
    buffer->length = length;
    return buffer->bytes + EDGE;
}

static bool canaries(const lent *buffer, size_t from, size_t to) {
    for (size_t i = from; i < to; i++)
        if (buffer->bytes[i] != CANARY) return false;
    return true;
}

bool untouched(const lent *buffer) { return canaries(buffer, 0, sizeof buffer->bytes); }

bool filled_with(const lent *buffer, const uint8_t *all) {
    return canaries(buffer, 0, EDGE) && canaries(buffer, EDGE + buffer->length, sizeof buffer->bytes) &&
           memcmp(buffer->bytes + EDGE, all, buffer->length) == 0;
}

static void report(const char *what) {
    static int before;
    printf("%-60s %4d checks\n", what, checked - before);
    before = checked;
}

int main(int count, char **words) {
    if (count != 2) {
        fprintf(stderr, "usage: smoke vectors/nist-samples.txt\n");
        return 2;
    }
    EXPECT(hf_version() == HF_VERSION);
    check_samples(words[1]);
    report("NIST's samples, in one call and in sessions");
    check_hashes();
    report("counts and refusals of the three functions");
    check_sessions();
    report("sessions");
    check_seals();
    report("sealing and opening");
    check_generators();
    report("the generators");
    check_plans();
    report("chute plans");
    check_migration();
    report("migration of chute plans");
    check_halls();
    check_hall_limits();
    report("hall plans");
    check_places();
    check_hall_places();
    report("places of malformed plans");
    check_stack();
    report("use of the stack");
    printf("%d checks, %d failed\n", checked, failed);
    return failed == 0 ? 0 : 1;
}
