/* The migration of chute plans: what the old rule reads, by which a number may stand in more groups than it needs, the places by that rule, and buffers of
 * every length. */
#include "check.h"

static const uint8_t good[] = {0x03, 0x07, 0xAC, 0x02, 0x00};
/* the same rows, with an empty group in each number that has room for one */
static const uint8_t padded[] = {0x83, 0x80, 0x00, 0x87, 0x00, 0xAC, 0x82, 0x00, 0x80, 0x80, 0x00};

static bool length_is(hf_length l, size_t length, size_t place, uint8_t number) { return l.length == length && l.place == place && l.number == number; }

static bool written_is(hf_written w, size_t place, uint8_t number) { return w.place == place && w.number == number; }

/* A plan that becomes this one, in a buffer of its length alone. The first is malformed by the present rule, unless it is the second. */
static void becomes(const uint8_t *old, size_t length, const uint8_t *plan, size_t plan_length) {
    lent out;
    bool same = length == plan_length && memcmp(old, plan, length) == 0;
    EXPECT(length_is(hf_plan_migrated_length(old, length), plan_length, 0, 0));
    for (size_t n = 0; n < plan_length + 3; n++) {
        hf_written w = hf_plan_migrate(old, length, lend(&out, n), n);
        EXPECT(n == plan_length ? written_is(w, 0, 0) && filled_with(&out, plan) : written_is(w, 0, 9) && untouched(&out));
    }
    EXPECT(hf_plan_read(old, length).number == (same ? 0 : 9) && hf_plan_read(plan, plan_length).number == 0);
}

static void migrated(const uint8_t *old, size_t length, const uint8_t *plan, size_t plan_length) {
    becomes(old, length, plan, plan_length);
    becomes(plan, plan_length, plan, plan_length);
}

/* A plan that is refused with this place and number, whatever is lent: nothing, a few bytes, and more than any plan takes. */
static void refused(const uint8_t *plan, size_t length, size_t place, uint8_t number) {
    lent out;
    EXPECT(length_is(hf_plan_migrated_length(plan, length), 0, place, number));
    for (size_t n = 0; n < 12; n++) EXPECT(written_is(hf_plan_migrate(plan, length, lend(&out, n), n), place, number) && untouched(&out));
    EXPECT(written_is(hf_plan_migrate(plan, length, lend(&out, ROOM), ROOM), place, number) && untouched(&out));
}

static void old_copies(void) {
    migrated(padded, sizeof padded, good, sizeof good);
    migrated(BYTES(0x80, 0), BYTES(0));
    migrated(BYTES(0x80, 0x80, 0), BYTES(0));
    migrated(BYTES(0x83, 0, 7, 0xAC, 2, 0), good, sizeof good);
    migrated(BYTES(1, 0x87, 0), BYTES(1, 7));
    migrated(BYTES(1, 0x87, 0x80, 0), BYTES(1, 7));
    migrated(BYTES(1, 0x80, 0), BYTES(1, 0));
    migrated(BYTES(1, 0x80, 0x80, 0), BYTES(1, 0));
    migrated(BYTES(1, 0x80, 0x81, 0), BYTES(1, 0x80, 1));
    migrated(BYTES(2, 0x87, 0, 0x80, 1), BYTES(2, 7, 0x80, 1));
    migrated(BYTES(2, 7, 0xFF, 0x80, 0), BYTES(2, 7, 0x7F));
    migrated(BYTES(2, 0xFF, 0xFF, 0x7F, 0x80, 0x80, 1), BYTES(2, 0xFF, 0xFF, 0x7F, 0x80, 0x80, 1));
}

/* The places are those of the table in docs/RULES.md, "Places", without the row for empty groups. */
static void malformed(void) {
    for (size_t length = 0; length < sizeof padded; length++) refused(padded, length, length, 9); /* cut */
    refused(BYTES(0x80, 0x80, 0x80, 0), 2, 9);                                                    /* a fourth group */
    refused(BYTES(1, 0x80, 0x80, 0x80, 0), 3, 9);
    refused(BYTES(2, 0x87, 0, 0x80, 0x80, 0x80), 5, 9);
    refused(BYTES(0x81, 0x20), 0, 9); /* 4,097 rows, in as many groups as that needs and in more */
    refused(BYTES(0x81, 0xA0, 0), 0, 9);
    refused(BYTES(0x81, 0xA0, 0, 0x80, 0x80, 0x80), 0, 9);
    refused(BYTES(0x81, 0xA0), 2, 9);
    refused(BYTES(0xFF, 0xFF, 0x7F), 0, 9);
    refused(BYTES(0, 0), 1, 9); /* a byte after the last row */
    refused(BYTES(0x80, 0, 0), 2, 9);
    refused(BYTES(1, 0x87, 0, 7), 3, 9);
    refused(big, 65536, 1, 9);
    refused(big, 65537, 0, 5);
    refused(big, TOO_MANY, 0, 5);
}

/* 4,096 rows of three bytes each, of which the migrated plan needs one. */
static void most_rows(void) {
    enum { ROWS = 4096, OLD = 3 + 3 * ROWS, NEW = 2 + ROWS };
    static uint8_t old[OLD + 1] = {0x80, 0xA0}, out[NEW + 2], expected[NEW + 2], before[NEW + 2];
    for (size_t i = 3; i < OLD; i += 3) old[i] = 0xFF, old[i + 1] = 0x80;
    memset(expected, 0x7F, sizeof expected);
    expected[0] = 0x80, expected[1] = 0x20;
    memset(before, 0xA5, sizeof before);
    memcpy(out, before, sizeof out);
    EXPECT(length_is(hf_plan_migrated_length(old, OLD), NEW, 0, 0));
    EXPECT(written_is(hf_plan_migrate(old, OLD, out, NEW - 1), 0, 9) && written_is(hf_plan_migrate(old, OLD, out, NEW + 1), 0, 9));
    EXPECT(memcmp(out, before, sizeof out) == 0);
    EXPECT(written_is(hf_plan_migrate(old, OLD, out, NEW), 0, 0) && memcmp(out, expected, NEW) == 0 && memcmp(out + NEW, before, 2) == 0);
    refused(old, OLD - 1, OLD - 1, 9);
    refused(old, OLD + 1, OLD, 9);
    EXPECT(hf_plan_read(old, OLD).place == 2 && hf_plan_read(out, NEW).rows == ROWS);
}

void check_migration(void) {
    old_copies();
    malformed();
    most_rows();
}
