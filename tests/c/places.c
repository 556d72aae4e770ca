/* Where a chute plan is malformed: both sides of each row of the table in docs/RULES.md, "Places", two breaches in one plan, and two plans. */
#include "check.h"

static const uint8_t good[] = {0x03, 0x07, 0xAC, 0x02, 0x00};

static bool row_is(hf_row r, uint8_t malformed, size_t place, uint8_t number) {
    return r.start == 0 && r.length == 0 && r.source == HF_NEITHER && r.malformed == malformed && r.place == place && r.number == number;
}

/* A walk that is refused: every ask has the place, and leaves the walk where it stands. */
static void refused_walk(const uint8_t *plan, size_t length, size_t place, uint8_t number) {
    hf_cursor walk = hf_plan_start(plan, length);
    EXPECT(walk.number == number && walk.at == 0 && walk.place == place);
    for (int ask = 0; ask < 3; ask++) {
        hf_walk row = hf_plan_step(plan, length, walk);
        EXPECT(row.number == number && row.destination == 0 && row.next == 0 && row.place == place);
        walk.at = row.next;
    }
}

/* A plan that every function refuses with 9 and this place; of two plans it is the one that is named. */
static void malformed(const uint8_t *plan, size_t length, size_t place) {
    static const uint64_t chutes[] = {0, 1, 4, UINT64_MAX};
    hf_rows r = hf_plan_read(plan, length);
    EXPECT(r.number == 9 && r.rows == 0 && r.place == place);
    for (size_t i = 0; i < sizeof chutes / sizeof *chutes; i++) {
        hf_destination d = hf_plan_destination(plan, length, chutes[i]);
        EXPECT(d.number == 9 && d.destination == 0 && d.place == place);
        EXPECT(row_is(hf_plan_row(plan, length, good, sizeof good, chutes[i]), HF_SITE, place, 9));
        EXPECT(row_is(hf_plan_row(good, sizeof good, plan, length, chutes[i]), HF_HOUSE, place, 9));
        EXPECT(row_is(hf_plan_row(plan, length, good, 3, chutes[i]), HF_SITE, place, 9)); /* the other is malformed at 3 */
        EXPECT(row_is(hf_plan_row(good, 3, plan, length, chutes[i]), HF_SITE, 3, 9));
        EXPECT(row_is(hf_plan_row(plan, length, big, 65537, chutes[i]), HF_NEITHER, 0, 5)); /* the other is too long */
        EXPECT(row_is(hf_plan_row(big, 65537, plan, length, chutes[i]), HF_NEITHER, 0, 5));
    }
    refused_walk(plan, length, place, 9);
}

/* A plan with so many rows: whether its chute is there or not, the place is 0. */
static void well_formed(const uint8_t *plan, size_t length, uint32_t rows) {
    hf_rows r = hf_plan_read(plan, length);
    EXPECT(r.number == 0 && r.rows == rows && r.place == 0);
    for (uint64_t chute = rows; chute < (uint64_t)rows + 2; chute++) {
        uint8_t number = chute == 0 || chute > rows ? 10 : 0;
        hf_destination d = hf_plan_destination(plan, length, chute);
        hf_row both = hf_plan_row(plan, length, plan, length, chute);
        EXPECT(d.number == number && d.place == 0 && both.number == number && both.malformed == HF_NEITHER && both.place == 0);
    }
    hf_cursor walk = hf_plan_start(plan, length);
    EXPECT(walk.number == 0 && walk.at > 0 && walk.place == 0);
    for (uint32_t i = 0; i <= rows; i++) {
        hf_walk row = hf_plan_step(plan, length, walk);
        EXPECT(row.number == (i < rows ? 0 : 10) && row.place == 0);
        walk.at = row.next;
    }
}

static void numbers(void) {
    for (size_t length = 0; length < sizeof good; length++) malformed(good, length, length); /* cut: the first missing byte */
    well_formed(good, sizeof good, 3);
    malformed(BYTES(0x80), 1);
    malformed(BYTES(0x80, 0x80), 2);
    well_formed(BYTES(0), 0);
    malformed(BYTES(1, 0x80, 0x80), 3);
    malformed(BYTES(0x80, 0x80, 0x80), 2); /* a fourth group: the third byte */
    malformed(BYTES(0x80, 0x80, 0x80, 0), 2);
    malformed(BYTES(1, 0x80, 0x80, 0x80), 3);
    malformed(BYTES(1, 0x80, 0x80, 0x80, 0), 3);
    malformed(BYTES(3, 7, 0xAC, 2, 0xFF, 0xFF, 0xFF, 0), 6);
    well_formed(BYTES(1, 0x80, 0x80, 1), 1);
    well_formed(BYTES(3, 7, 0xAC, 2, 0xFF, 0xFF, 0x7F), 3);
}

/* A number in more groups than it needs: its last group, whatever its value breaks. */
static void padded_numbers(void) {
    malformed(BYTES(0x80, 0), 1);
    malformed(BYTES(0x80, 0x80, 0), 2);
    malformed(BYTES(0x83, 0, 7, 0xAC, 2, 0), 1);
    malformed(BYTES(0x83, 0x80, 0, 7, 0xAC, 2, 0), 2);
    malformed(BYTES(1, 0x80, 0), 2);
    malformed(BYTES(1, 0x87, 0), 2);
    malformed(BYTES(1, 0x87, 0x80, 0), 3);
    malformed(BYTES(1, 0x80, 0x80, 0), 3);
    malformed(BYTES(3, 7, 0xAC, 0x82, 0, 0), 4);
    malformed(BYTES(3, 7, 0xAC, 2, 0x80, 0), 5);
    well_formed(BYTES(1, 0), 1);
    well_formed(BYTES(1, 7), 1);
    well_formed(BYTES(1, 0x80, 1), 1);
    well_formed(BYTES(3, 0x80, 0x80, 1, 0x80, 1, 0), 3);
    malformed(BYTES(0x81, 0xA0, 0), 2); /* 4,097 rows, and a group too many: judged before how many they are */
    malformed(BYTES(1, 0x87, 0, 7), 2); /* and a byte after the last row */
    malformed(BYTES(0x80, 0, 0), 1);
}

static void rows_and_ends(void) {
    static uint8_t many[3 + 4097] = {0x80, 0x20};
    well_formed(many, 2 + 4096, 4096);
    malformed(many, 2 + 4095, 2 + 4095);
    malformed(many, 2 + 4097, 2 + 4096); /* a byte after the last row */
    many[0] = 0x81;
    malformed(many, 2 + 4097, 0); /* 4,097 rows, all of them there */
    malformed(many, 2, 0);
    malformed(BYTES(0x81, 0xA0, 1), 0);
    malformed(BYTES(0xFF, 0xFF, 0x7F), 0);
    malformed(BYTES(0, 0), 1);
    malformed(BYTES(3, 7, 0xAC, 2, 0, 0), 5);
    malformed(BYTES(1, 7, 0x80, 0x80, 0x80), 2);
    malformed(big, 65536, 1);
}

/* Two breaches in one plan: the first in reading order counts, and a number is judged once it is read. */
static void two_breaches(void) {
    malformed(BYTES(2, 0x80, 0x80, 0x80, 0x80), 3);             /* a number that goes on, then one that is cut */
    malformed(BYTES(2, 0x80, 0x80, 1, 0x80), 5);                /* cut alone */
    malformed(BYTES(2, 0x80, 0x80, 0, 0x80), 3);                /* an empty group, then a number that is cut */
    malformed(BYTES(2, 0x80, 0x80, 0x80, 0x80, 0), 3);          /* a number that goes on, then an empty group */
    malformed(BYTES(2, 0x80, 0x80, 0x80, 0xFF, 0xFF, 0xFF), 3); /* two that go on */
    malformed(BYTES(1, 0x80, 0x80, 0x80, 7, 7), 3);             /* one that goes on, then bytes after the last row */
    malformed(BYTES(0x81, 0x20, 0x80, 0x80, 0x80), 0);          /* too many rows, then a number that goes on */
    malformed(BYTES(0x81, 0xA0), 2);                            /* of 4,097 rows or more, but the number is cut */
    malformed(BYTES(0xFF, 0xFF, 0xFF, 0x7F), 2);                /* and here it goes on */
}

static void without_a_place(void) {
    static const uint32_t many[4097], wide[] = {2097152}, row[] = {7};
    lent out;
    refused_walk(big, 65537, 0, 5);
    EXPECT(hf_plan_read(big, 65537).place == 0 && hf_plan_destination(big, 65537, 1).place == 0);
    EXPECT(row_is(hf_plan_row(big, 65537, big, 65537, 1), HF_NEITHER, 0, 5));
    EXPECT(row_is(hf_plan_row(good, sizeof good, good, sizeof good, 4), HF_NEITHER, 0, 10));
    hf_length l = hf_plan_length(many, 4097);
    EXPECT(l.number == 9 && l.place == 0);
    l = hf_plan_length(wide, 1);
    EXPECT(l.number == 9 && l.place == 0);
    hf_written w = hf_plan_write(wide, 1, lend(&out, 4), 4);
    EXPECT(w.number == 9 && w.place == 0 && untouched(&out));
    for (size_t length = 0; length < 4; length++) {
        w = hf_plan_write(row, 1, lend(&out, length), length);
        EXPECT(w.number == (length == 2 ? 0 : 9) && w.place == 0 && (length == 2 || untouched(&out)));
    }
}

void check_places(void) {
    numbers();
    padded_numbers();
    rows_and_ends();
    two_breaches();
    without_a_place();
}
