/* Where a hall plan is malformed: both sides of each row of the table in docs/RULES.md, "Places", two breaches in one plan, and lists of the wrong length. */
#include "check.h"

static const uint8_t good[] = {0x02, 0x01, 0x02, 0x00, 0x07, 0x00, 0xAC, 0x02, 0x00, 0x00};

static bool refused(hf_halls h, size_t place) { return h.entries == 0 && h.outer == 0 && h.chutes == 0 && h.number == 9 && h.place == place; }

static uint32_t *lend_values(lent *buffer, size_t entries) { return (uint32_t *)(void *)lend(buffer, entries * sizeof(uint32_t)); }

/* A plan that every function refuses with 9 and this place, whatever is asked or lent. */
static void malformed(const uint8_t *plan, size_t length, size_t place) {
    static const uint64_t chutes[] = {0, 1, 4097, UINT64_MAX};
    lent kinds, values;
    EXPECT(refused(hf_hall_read(plan, length), place));
    for (size_t i = 0; i < sizeof chutes / sizeof *chutes; i++) {
        hf_destination d = hf_hall_destination(plan, length, chutes[i]);
        EXPECT(d.number == 9 && d.destination == 0 && d.place == place);
    }
    for (size_t n = 0; n < 9; n++) {
        EXPECT(refused(hf_hall_read_into(plan, length, lend(&kinds, n), n, lend_values(&values, 8 - n), 8 - n), place));
        EXPECT(untouched(&kinds) && untouched(&values));
    }
}

/* A plan with so many entries and chutes: with 0, with 10, and with 9 for lists of the wrong length the place is 0. */
static void well_formed(const uint8_t *plan, size_t length, size_t entries, uint32_t chutes) {
    static uint8_t kinds[4200];
    static uint32_t values[4200];
    hf_halls h = hf_hall_read(plan, length);
    EXPECT(h.number == 0 && h.entries == entries && h.chutes == chutes && h.place == 0);
    hf_destination d = hf_hall_destination(plan, length, chutes);
    EXPECT(d.number == (chutes == 0 ? 10 : 0) && d.place == 0);
    d = hf_hall_destination(plan, length, (uint64_t)chutes + 1);
    EXPECT(d.number == 10 && d.place == 0);
    h = hf_hall_read_into(plan, length, kinds, entries, values, entries);
    EXPECT(h.number == 0 && h.entries == entries && h.place == 0);
    EXPECT(refused(hf_hall_read_into(plan, length, kinds, entries + 1, values, entries), 0));
    EXPECT(refused(hf_hall_read_into(plan, length, kinds, entries, values, entries + 1), 0));
    if (entries > 0) EXPECT(refused(hf_hall_read_into(plan, length, kinds, entries - 1, values, entries - 1), 0));
}

static void numbers(void) {
    for (size_t length = 0; length < sizeof good; length++) malformed(good, length, length); /* cut: the first missing byte */
    well_formed(good, sizeof good, 4, 3);
    malformed(BYTES(0x80, 0x80), 2);
    malformed(BYTES(1, 0x80), 2);
    malformed(BYTES(1, 0, 0x80), 3);
    malformed(BYTES(0xFF, 0xFF, 0x7F), 3);
    malformed(BYTES(1, 1, 0xFF, 0xFF, 0x7F), 5);
    malformed(BYTES(0x81, 0x80, 0x80, 0, 0, 7), 2); /* a fourth group: the third byte */
    malformed(BYTES(1, 0x80, 0x80, 0x80, 0, 7), 3);
    malformed(BYTES(1, 0, 0x80, 0x80, 0x80, 0), 4);
    malformed(BYTES(1, 1, 0x80, 0x80, 0x80, 0), 4);
    well_formed(BYTES(1, 0, 0xFF, 0xFF, 0x7F), 1, 1);
}

/* A number in more groups than it needs, the outermost one, a kind, a destination or a hall's entries: its last group, whatever its value breaks. */
static void padded_numbers(void) {
    malformed(BYTES(0x80, 0), 1);
    malformed(BYTES(0x80, 0x80, 0), 2);
    malformed(BYTES(0x81, 0, 0, 7), 1);
    malformed(BYTES(1, 0x80, 0, 7), 2);
    malformed(BYTES(1, 0x81, 0, 0), 2);
    malformed(BYTES(1, 0x80, 0x80, 0, 7), 3);
    malformed(BYTES(1, 0, 0x80, 0), 3);
    malformed(BYTES(1, 0, 0x87, 0), 3);
    malformed(BYTES(1, 0, 0x87, 0x80, 0), 4);
    malformed(BYTES(1, 1, 0x80, 0), 3);
    malformed(BYTES(1, 1, 0x81, 0x80, 0, 0, 7), 4);
    well_formed(BYTES(1, 0, 0), 1, 1);
    well_formed(BYTES(1, 0, 0x80, 1), 1, 1);
    well_formed(BYTES(1, 0, 0x80, 0x80, 1), 1, 1);
    malformed(BYTES(1, 0x82, 0, 0), 2); /* a kind that is none, and a group too many: judged before what it is */
    malformed(BYTES(1, 0x82, 0x80, 0, 0), 3);
}

static void kinds_and_ends(void) {
    malformed(BYTES(0, 0), 1); /* after the last entry */
    malformed(BYTES(2, 1, 2, 0, 7, 0, 0xAC, 2, 0, 0, 0), 10);
    malformed(BYTES(1, 1, 1, 0, 7, 0, 5), 5);
    malformed(BYTES(1, 1, 0, 0x80, 0x80, 0x80), 3);
    malformed(big, 65536, 1);
    well_formed(BYTES(0), 0, 0);
    malformed(BYTES(1, 2, 0), 1); /* a kind's first byte, however many it has and whatever is in the others */
    malformed(BYTES(1, 0x82, 0x80, 1, 0), 1);
    malformed(BYTES(1, 0x80, 1, 0), 1);
    malformed(BYTES(1, 0x81, 0x80, 4, 0), 1);
    malformed(BYTES(2, 0, 7, 0xFF, 0xFF, 0x7F), 3);
    well_formed(BYTES(1, 1, 0), 1, 0);
    well_formed(BYTES(1, 0, 7), 1, 1);
}

/* The plan in `room` with these bytes in place of those from `at` on. */
static size_t ending(uint8_t *room, size_t at, const uint8_t *bytes, size_t length) {
    memcpy(room + at, bytes, length);
    return at + length;
}

static void levels(void) {
    uint8_t plan[32];
    memset(plan, 1, sizeof plan); /* in 15 bytes eight levels, each with an entry, of which the last is still to come */
    well_formed(plan, ending(plan, 15, BYTES(0, 7)), 8, 1);
    malformed(plan, ending(plan, 15, BYTES(1, 0)), 15);
    malformed(plan, ending(plan, 15, BYTES(1)), 15); /* judged before the hall's number of entries, which is missing, or goes on, or has an empty group */
    malformed(plan, ending(plan, 15, BYTES(1, 0x80, 0x80, 0x80)), 15);
    malformed(plan, ending(plan, 15, BYTES(1, 0x80, 0)), 15);
    malformed(plan, ending(plan, 15, BYTES(2)), 15);
    malformed(plan, ending(plan, 15, BYTES(0x81)), 16); /* not judged before the kind is read */
    malformed(plan, ending(plan, 15, BYTES(0x81, 0x80, 0x80)), 17);
    malformed(plan, ending(plan, 15, BYTES(0x81, 0, 0)), 16);
    malformed(plan, ending(plan, 15, BYTES(0x81, 0x80, 0, 0)), 17);
    plan[14] = 0; /* the eighth level is empty */
    well_formed(plan, 15, 7, 0);
}

static void chutes(void) {
    enum { FULL = 2 + 2 * 4096 };
    static uint8_t plan[FULL + 16] = {0x81, 0x20}; /* 4,097 entries, of which 4,096 are chutes, and the last is still to come */
    well_formed(plan, ending(plan, FULL, BYTES(1, 0)), 4097, 4096);
    malformed(plan, ending(plan, FULL, BYTES(0, 0)), FULL);
    malformed(plan, ending(plan, FULL, BYTES(0)), FULL); /* judged before the destination, which is missing, or goes on, or has an empty group */
    malformed(plan, ending(plan, FULL, BYTES(0, 0x80, 0x80, 0x80)), FULL);
    malformed(plan, ending(plan, FULL, BYTES(0, 0x80, 0)), FULL);
    malformed(plan, ending(plan, FULL, BYTES(2, 0)), FULL);
    malformed(plan, ending(plan, FULL, BYTES(0x80)), FULL + 1);
    malformed(plan, ending(plan, FULL, BYTES(0x80, 0, 0)), FULL + 1);
    malformed(plan, ending(plan, FULL, BYTES(0x80, 0x80, 0, 0)), FULL + 2);
    malformed(plan, ending(plan, FULL, BYTES(1, 1, 0, 0)), FULL + 2); /* in a hall */
    plan[0] = 0x80; /* 4,096 entries */
    well_formed(plan, FULL, 4096, 4096);
    malformed(plan, ending(plan, FULL, BYTES(0, 0)), FULL);
}

/* Two breaches in one plan: the first in reading order counts, and a number is judged once it is read. */
static void two_breaches(void) {
    malformed(BYTES(1, 2, 0x80), 1);                         /* another kind, then a number that is cut */
    malformed(BYTES(1, 0x82), 2);                            /* another kind, but it is cut itself */
    malformed(BYTES(1, 0x82, 0x80, 0x80), 3);                /* and here it goes on */
    malformed(BYTES(2, 0, 0x87, 0, 2, 0), 3);                /* an empty group, then another kind */
    malformed(BYTES(2, 2, 0, 0, 0x87, 0), 1);                /* the reverse */
    malformed(BYTES(3, 2, 0, 0, 0x80, 0x80, 0x80, 0), 1);    /* another kind, then a number that goes on */
    malformed(BYTES(3, 0, 0x80, 0x80, 0x80, 2, 0), 4);       /* the reverse */
    malformed(BYTES(2, 0, 7, 3, 0, 9), 3);                   /* another kind, then bytes after the last entry */
    malformed(BYTES(0xFF, 0xFF, 0x7F, 0, 7, 9, 0x80), 5);    /* another kind, then entries that are missing */
}

static void without_a_place(void) {
    static const uint8_t kinds[] = {HF_CHUTE};
    static const uint32_t values[] = {2097152}, zero[] = {0};
    lent out;
    hf_halls h = hf_hall_read(big, 65537);
    EXPECT(h.number == 5 && h.place == 0);
    h = hf_hall_read_into(big, 65537, lend(&out, 1), 1, (uint32_t *)HF_NOTHING, 0);
    EXPECT(h.number == 5 && h.place == 0 && untouched(&out));
    hf_destination d = hf_hall_destination(big, 65537, 1);
    EXPECT(d.number == 5 && d.place == 0);
    hf_length l = hf_hall_length(1, kinds, 1, values, 1);
    EXPECT(l.number == 9 && l.place == 0);
    l = hf_hall_length(1, kinds, 1, zero, 1);
    EXPECT(l.number == 0 && l.length == 3 && l.place == 0);
    for (size_t length = 0; length < 5; length++) {
        hf_written w = hf_hall_write(1, kinds, 1, zero, 1, lend(&out, length), length);
        EXPECT(w.number == (length == 3 ? 0 : 9) && w.place == 0);
    }
    hf_written w = hf_hall_write(1, kinds, 1, zero, 1, big, 65537);
    EXPECT(w.number == 5 && w.place == 0);
}

void check_hall_places(void) {
    numbers();
    padded_numbers();
    kinds_and_ends();
    levels();
    chutes();
    two_breaches();
    without_a_place();
}
