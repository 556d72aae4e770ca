/* Hall plans: reading, looking up, reading into lists, measuring and writing, with the plan 02 01 02 00 07 00 AC 02 00 00 and bad ones. */
#include "check.h"

static const uint8_t good[] = {0x02, 0x01, 0x02, 0x00, 0x07, 0x00, 0xAC, 0x02, 0x00, 0x00};
static const uint8_t kinds[] = {HF_HALL, HF_CHUTE, HF_CHUTE, HF_CHUTE};
static const uint32_t values[] = {2, 7, 300, 0};

/* Values and their number, as two arguments. */
#define VALUES(...) (const uint32_t[]){__VA_ARGS__}, sizeof(const uint32_t[]){__VA_ARGS__} / sizeof(uint32_t)
#define NO_VALUES (const uint32_t *)HF_NOTHING, 0

/* Answers whose place is 0 but where a malformed plan was read; tests/c/hall_places.c has the places of those. */
static bool halls_are(hf_halls h, size_t entries, uint32_t outer, uint32_t chutes, uint8_t number) {
    return h.entries == entries && h.outer == outer && h.chutes == chutes && h.number == number && (number == 9 || h.place == 0);
}

static bool found(hf_destination d, uint32_t destination, uint8_t number) {
    return d.destination == destination && d.number == number && (number == 9 || d.place == 0);
}

static bool measured(hf_length l, size_t length, uint8_t number) { return l.length == length && l.number == number && l.place == 0; }

static bool is_written(hf_written w, uint8_t number) { return w.number == number && w.place == 0; }

static uint32_t *lend_values(lent *buffer, size_t entries) { return (uint32_t *)(void *)lend(buffer, entries * sizeof(uint32_t)); }

/* A plan that is read as these lists, which are written as that plan. */
static void accepted(const uint8_t *plan, size_t length, uint32_t outer, const uint8_t *k, size_t entries, const uint32_t *v, size_t v_length) {
    lent read_kinds, read_values, out;
    uint32_t chutes = 0;
    for (size_t i = 0; i < entries; i++)
        if (k[i] == HF_CHUTE) EXPECT(found(hf_hall_destination(plan, length, ++chutes), v[i], 0));
    EXPECT(found(hf_hall_destination(plan, length, 0), 0, 10) && found(hf_hall_destination(plan, length, chutes + 1), 0, 10));
    EXPECT(halls_are(hf_hall_read(plan, length), entries, outer, chutes, 0));
    for (size_t n = 0; n <= entries + 1; n++) {
        hf_halls h = hf_hall_read_into(plan, length, lend(&read_kinds, n), n, lend_values(&read_values, v_length), v_length);
        EXPECT(n == entries ? halls_are(h, entries, outer, chutes, 0) && filled_with(&read_kinds, k) && filled_with(&read_values, (const uint8_t *)v)
                            : halls_are(h, 0, 0, 0, 9) && h.place == 0 && untouched(&read_kinds) && untouched(&read_values));
        h = hf_hall_read_into(plan, length, lend(&read_kinds, n), n, lend_values(&read_values, entries + 1), entries + 1);
        EXPECT(halls_are(h, 0, 0, 0, 9) && h.place == 0 && untouched(&read_kinds) && untouched(&read_values));
    }
    EXPECT(measured(hf_hall_length(outer, k, entries, v, v_length), length, 0));
    for (size_t n = 0; n <= length + 1; n++) {
        hf_written w = hf_hall_write(outer, k, entries, v, v_length, lend(&out, n), n);
        EXPECT(n == length ? is_written(w, 0) && filled_with(&out, plan) : is_written(w, 9) && untouched(&out));
    }
}

/* A plan that every function refuses with this number, whatever is asked or lent. */
static void refused(const uint8_t *plan, size_t length, uint8_t number) {
    static const uint64_t chutes[] = {0, 1, 2, UINT64_MAX};
    lent read_kinds, read_values;
    EXPECT(halls_are(hf_hall_read(plan, length), 0, 0, 0, number));
    for (size_t i = 0; i < sizeof chutes / sizeof *chutes; i++) EXPECT(found(hf_hall_destination(plan, length, chutes[i]), 0, number));
    for (size_t n = 0; n < 10; n++) {
        EXPECT(halls_are(hf_hall_read_into(plan, length, lend(&read_kinds, n), n, lend_values(&read_values, n), n), 0, 0, 0, number));
        EXPECT(untouched(&read_kinds) && untouched(&read_values));
    }
}

static void good_plans(void) {
    accepted(good, sizeof good, 2, kinds, 4, values, 4);
    accepted(BYTES(0), 0, NONE, NO_VALUES);
    accepted(BYTES(1, 1, 0), 1, BYTES(1), VALUES(0));
    accepted(BYTES(1, 1, 2, 1, 0, 1, 0), 1, BYTES(1, 1, 1), VALUES(2, 0, 0));
    accepted(BYTES(1, 1, 1, 0, 7), 1, BYTES(1, 0), VALUES(1, 7));
    accepted(BYTES(3, 1, 0, 0, 5, 1, 1, 0, 6), 3, BYTES(1, 0, 1, 0), VALUES(0, 5, 1, 6));
    accepted(BYTES(1, 0, 0xFF, 0xFF, 0x7F), 1, BYTES(0), VALUES(2097151));
    accepted(BYTES(2, 0, 0x80, 1, 0, 0x80, 0x80, 1), 2, BYTES(0, 0), VALUES(128, 16384));
    static const uint64_t none[] = {4, 5, 4096, 4097, UINT32_MAX, (uint64_t)UINT32_MAX + 1, (uint64_t)UINT32_MAX + 2, UINT64_MAX};
    for (size_t i = 0; i < sizeof none / sizeof *none; i++) EXPECT(found(hf_hall_destination(good, sizeof good, none[i]), 0, 10));
}

static void bad_plans(void) {
    refused(NONE, 9);
    for (size_t length = 0; length < sizeof good; length++) refused(good, length, 9);
    refused(BYTES(0x02, 0x01, 0x02, 0x00, 0x07, 0x00, 0xAC, 0x02, 0x00, 0x00, 0x00), 9); /* a byte after the last entry */
    refused(BYTES(0, 0), 9);
    refused(BYTES(1, 2, 0), 9); /* kinds that are none, be it that their low bits are 0 or 1 */
    refused(BYTES(1, 0x82, 0x80, 0, 0), 9);
    refused(BYTES(1, 0x80, 1, 0), 9);
    refused(BYTES(1, 0x80, 2, 0), 9);
    refused(BYTES(1, 0x81, 2, 0), 9);
    refused(BYTES(1, 0x80, 0x80, 4, 0), 9);
    refused(BYTES(1, 0x80, 0x80, 0x80, 0, 7), 9); /* numbers of four groups */
    refused(BYTES(1, 0, 0x80, 0x80, 0x80, 0), 9);
    refused(BYTES(0x81, 0x80, 0x80, 0, 0, 7), 9);
    refused(BYTES(0x80, 0x80, 0), 9); /* numbers in more groups than they need: outermost, a hall's kind and entries, a chute's kind and destination */
    refused(BYTES(0x81, 0, 1, 1, 0, 7), 9);
    refused(BYTES(1, 0x81, 0x80, 0, 1, 0, 7), 9);
    refused(BYTES(1, 1, 0x81, 0, 0, 7), 9);
    refused(BYTES(1, 1, 1, 0x80, 0x80, 0, 7), 9);
    refused(BYTES(1, 1, 1, 0, 0x87, 0), 9);
    refused(BYTES(3, 1, 2, 0, 7, 0, 5), 9); /* fewer entries than promised */
    refused(BYTES(1, 1, 3, 0, 7, 0, 5), 9);
    refused(BYTES(1, 1, 1, 0, 7, 0, 5), 9); /* more entries than promised */
    refused(BYTES(0xFF, 0xFF, 0x7F), 9);    /* 2,097,151 entries */
    refused(BYTES(0xFF, 0xFF, 0x7F, 0, 7), 9);
    refused(BYTES(1, 1, 0xFF, 0xFF, 0x7F), 9);
    refused(big, 65537, 5);
    refused(big, TOO_MANY, 5);
    refused(big, 65536, 9);
}

/* Lists that are refused with 9, and with 5 where the lent buffer is longer than any plan. */
static void unwritten(uint64_t outer, const uint8_t *k, size_t k_length, const uint32_t *v, size_t v_length) {
    lent out;
    EXPECT(measured(hf_hall_length(outer, k, k_length, v, v_length), 0, 9));
    for (size_t n = 0; n < 16; n++) EXPECT(is_written(hf_hall_write(outer, k, k_length, v, v_length, lend(&out, n), n), 9) && untouched(&out));
    EXPECT(is_written(hf_hall_write(outer, k, k_length, v, v_length, big, 65536), 9));
    EXPECT(is_written(hf_hall_write(outer, k, k_length, v, v_length, big, 65537), 5));
    EXPECT(is_written(hf_hall_write(outer, k, k_length, v, v_length, big, TOO_MANY), 5));
}

static void bad_lists(void) {
    static const uint64_t outers[] = {0, 1, 3, 4, 2097151, 2097152, UINT32_MAX, (uint64_t)UINT32_MAX + 1, (uint64_t)UINT32_MAX + 3, UINT64_MAX};
    for (size_t i = 0; i < sizeof outers / sizeof *outers; i++) unwritten(outers[i], kinds, 4, values, 4);
    for (size_t k_length = 0; k_length <= 4; k_length++)
        for (size_t v_length = 0; v_length <= 4; v_length++)
            if (k_length < 4 || v_length < 4) unwritten(2, kinds, k_length, values, v_length);
    unwritten(0, NONE, VALUES(0));
    unwritten(0, BYTES(0), NO_VALUES);
    unwritten(0, BYTES(0), VALUES(0));
    unwritten((uint64_t)UINT32_MAX + 1, NONE, NO_VALUES);
    unwritten(1, NONE, NO_VALUES);
    unwritten(2, BYTES(1, 0, 0, 0), VALUES(1, 7, 300, 0)); /* a hall that promises fewer entries than follow, or more */
    unwritten(2, BYTES(1, 0, 0, 0), VALUES(3, 7, 300, 0));
    unwritten(2, BYTES(1, 0, 0, 0), VALUES(2097151, 7, 300, 0));
    unwritten(1, BYTES(1), VALUES(1));
    unwritten(1, BYTES(2), VALUES(0)); /* kinds that are none */
    unwritten(1, BYTES(128), VALUES(0));
    unwritten(1, BYTES(255), VALUES(0));
    unwritten(1, BYTES(0), VALUES(2097152)); /* values that no number has */
    unwritten(1, BYTES(0), VALUES(UINT32_MAX));
    unwritten(1, BYTES(1), VALUES(2097152));
    unwritten(1, BYTES(1), VALUES(UINT32_MAX));
    bool zero = true;
    for (size_t i = 0; i < TOO_MANY; i++) zero = zero && big[i] == 0;
    EXPECT(zero);
}

void check_halls(void) {
    good_plans();
    bad_plans();
    bad_lists();
}
