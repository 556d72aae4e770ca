/* Plans: reading, looking up, two plans, writing and walking, with the plan 03 07 AC 02 00 and bad ones. */
#include "check.h"

static const uint8_t good[] = {0x03, 0x07, 0xAC, 0x02, 0x00};
static const uint8_t long_number[] = {0x01, 0x80, 0x80, 0x80, 0x00};
static const uint32_t rows[] = {7, 300, 0};

static void reading(void) {
    hf_rows r = hf_plan_read(good, sizeof good);
    EXPECT(r.number == 0 && r.rows == 3 && r.place == 0);
    r = hf_plan_read(TEXT("\0"));
    EXPECT(r.number == 0 && r.rows == 0);
    r = hf_plan_read(NONE);
    EXPECT(r.number == 9 && r.rows == 0 && r.place == 0);
    r = hf_plan_read(long_number, sizeof long_number);
    EXPECT(r.number == 9 && r.rows == 0 && r.place == 3);
    r = hf_plan_read(good, 4);
    EXPECT(r.number == 9 && r.rows == 0 && r.place == 4);
    r = hf_plan_read(BYTES(1, 0x87, 0));
    EXPECT(r.number == 9 && r.rows == 0 && r.place == 2);
    r = hf_plan_read(big, 65537);
    EXPECT(r.number == 5 && r.rows == 0 && r.place == 0);
    static const struct {
        uint64_t chute;
        uint32_t destination;
        uint8_t number;
    } asks[] = {{1, 7, 0}, {2, 300, 0}, {3, 0, 0}, {4, 0, 10}, {0, 0, 10}, {4096, 0, 10}, {UINT32_MAX, 0, 10},
               {(uint64_t)UINT32_MAX + 1, 0, 10}, {(uint64_t)UINT32_MAX + 2, 0, 10}, {UINT64_MAX, 0, 10}};
    for (size_t i = 0; i < sizeof asks / sizeof *asks; i++) {
        hf_destination d = hf_plan_destination(good, sizeof good, asks[i].chute);
        EXPECT(d.number == asks[i].number && d.destination == asks[i].destination && d.place == 0);
    }
    hf_destination d = hf_plan_destination(long_number, sizeof long_number, 9);
    EXPECT(d.number == 9 && d.destination == 0 && d.place == 3);
}

static bool row_is(hf_row r, size_t start, size_t length, uint8_t source, uint8_t number) {
    return r.start == start && r.length == length && r.source == source && r.number == number && r.malformed == HF_NEITHER && r.place == 0;
}

static bool malformed_is(hf_row r, uint8_t malformed, size_t place) {
    return r.start == 0 && r.length == 0 && r.source == HF_NEITHER && r.number == 9 && r.malformed == malformed && r.place == place;
}

static void two_plans(void) {
    static const uint8_t site[] = {0x01, 0x85, 0x01};
    EXPECT(row_is(hf_plan_row(site, sizeof site, good, sizeof good, 1), 1, 2, 1, 0));
    EXPECT(row_is(hf_plan_row(site, sizeof site, good, sizeof good, 2), 2, 2, 2, 0));
    EXPECT(row_is(hf_plan_row(site, sizeof site, good, sizeof good, 3), 4, 1, 2, 0));
    EXPECT(row_is(hf_plan_row(site, sizeof site, good, sizeof good, 4), 0, 0, 0, 10));
    EXPECT(row_is(hf_plan_row(site, sizeof site, good, sizeof good, 0), 0, 0, 0, 10));
    EXPECT(row_is(hf_plan_row(site, sizeof site, good, sizeof good, (uint64_t)UINT32_MAX + 2), 0, 0, 0, 10));
    EXPECT(malformed_is(hf_plan_row(site, sizeof site, long_number, sizeof long_number, 1), HF_HOUSE, 3));
    EXPECT(malformed_is(hf_plan_row(site, sizeof site, BYTES(1, 0x87, 0), 1), HF_HOUSE, 2));
    EXPECT(malformed_is(hf_plan_row(BYTES(1, 0x87, 0), good, sizeof good, 2), HF_SITE, 2));
    EXPECT(malformed_is(hf_plan_row(NONE, good, sizeof good, 1), HF_SITE, 0));
    EXPECT(row_is(hf_plan_row(NONE, big, 65537, 1), 0, 0, 0, 5));
}

/* Nothing is read, so the place is 0. */
static bool is_written(hf_written w, uint8_t number) { return w.number == number && w.place == 0; }

static void writing(void) {
    lent out;
    hf_length length = hf_plan_length(rows, 3);
    EXPECT(length.number == 0 && length.length == sizeof good && length.place == 0);
    EXPECT(is_written(hf_plan_write(rows, 3, lend(&out, sizeof good), sizeof good), 0) && filled_with(&out, good));
    EXPECT(is_written(hf_plan_write(rows, 3, lend(&out, 4), 4), 9) && untouched(&out));
    EXPECT(is_written(hf_plan_write(rows, 3, lend(&out, 6), 6), 9) && untouched(&out));
    static const uint32_t wide[] = {2097151}, wider[] = {2097152};
    static const uint8_t most[] = {0x01, 0xFF, 0xFF, 0x7F};
    EXPECT(is_written(hf_plan_write(wide, 1, lend(&out, 4), 4), 0) && filled_with(&out, most));
    EXPECT(is_written(hf_plan_write(wider, 1, lend(&out, 4), 4), 9) && untouched(&out));
    length = hf_plan_length(wider, 1);
    EXPECT(length.number == 9 && length.length == 0 && length.place == 0);
    static const uint32_t many[4097];
    EXPECT(hf_plan_length(many, 4096).length == 4098 && hf_plan_length(many, 4097).number == 9);
    EXPECT(is_written(hf_plan_write(many, 0, lend(&out, 1), 1), 0) && filled_with(&out, (const uint8_t *)""));
}

static void walking(void) {
    hf_cursor walk = hf_plan_start(good, sizeof good);
    EXPECT(walk.number == 0 && walk.at == 1 && walk.place == 0);
    for (size_t i = 0; i < 3; i++) {
        hf_walk row = hf_plan_step(good, sizeof good, walk);
        EXPECT(row.number == 0 && row.destination == rows[i] && row.place == 0);
        walk.at = row.next;
    }
    for (int again = 0; again < 2; again++) {
        hf_walk row = hf_plan_step(good, sizeof good, walk);
        EXPECT(row.number == 10 && row.destination == 0 && row.next == walk.at && row.place == 0);
    }
    walk = hf_plan_start(long_number, sizeof long_number);
    EXPECT(walk.number == HF_MALFORMED_PLAN && walk.at == 0 && walk.place == 3);
    EXPECT(hf_plan_start(big, 65537).number == 5);
    hf_walk row = hf_plan_step(good, sizeof good, (hf_cursor){.at = SIZE_MAX, .number = HF_DONE});
    EXPECT(row.number == 10 && row.next == SIZE_MAX);
}

void check_plans(void) {
    reading();
    two_plans();
    writing();
    walking();
}
