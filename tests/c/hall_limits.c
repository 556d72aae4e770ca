/* Hall plans on both sides of their limits: eight levels, 4,096 chutes, 65,536 bytes, the most entries that such a plan has, and the greatest number. */
#include <stdlib.h>

#include "check.h"

enum { LONGEST = 65536, MOST_ENTRIES = 32767, CANARY = 0xA5 };

/* Lists under construction, and the plan of them, which is made here without the library's help. */
static uint8_t kinds[LONGEST], plan[4 * LONGEST];
static uint32_t values[LONGEST];
static size_t entries, length;

static void number(uint32_t value) {
    for (; value >= 128; value >>= 7) plan[length++] = (uint8_t)(value | 128);
    plan[length++] = (uint8_t)value;
}

static void start(uint32_t outer) {
    entries = length = 0;
    number(outer);
}

static void add(uint8_t kind, uint32_t value, size_t times) {
    for (size_t i = 0; i < times; i++) {
        kinds[entries] = kind;
        values[entries++] = value;
        number(kind);
        number(value);
    }
}

/* Whether the functions that read and the functions that write all answer with this number, on a refusal change nothing, and else hand back what is there. */
static bool all_answer(uint32_t outer, uint32_t chutes, uint8_t reading, uint8_t writing) {
    static uint8_t out[4 * LONGEST], read_kinds[LONGEST], before[4 * LONGEST];
    static uint32_t read_values[LONGEST];
    memset(out, CANARY, sizeof out);
    memset(before, CANARY, sizeof before);
    memset(read_kinds, CANARY, sizeof read_kinds);
    memset(read_values, CANARY, sizeof read_values);
    hf_halls read = hf_hall_read(plan, length), into = hf_hall_read_into(plan, length, read_kinds, entries, read_values, entries);
    hf_length needed = hf_hall_length(outer, kinds, entries, values, entries);
    size_t done = reading == 0 ? entries : 0, written = writing == 0 ? length : 0;
    bool answers = read.number == reading && read.entries == done && read.outer == (reading == 0 ? outer : 0) && read.chutes == (reading == 0 ? chutes : 0) &&
                   into.number == read.number && into.entries == read.entries && into.outer == read.outer && into.chutes == read.chutes &&
                   hf_hall_destination(plan, length, 0).number == (reading == 0 ? 10 : reading) && needed.number == writing && needed.length == written &&
                   needed.place == 0 && into.place == read.place && (reading == 9 || read.place == 0);
    hf_written wrote = hf_hall_write(outer, kinds, entries, values, entries, out, length);
    answers = answers && wrote.number == writing && wrote.place == 0;
    return answers && memcmp(read_kinds, kinds, done) == 0 && memcmp(read_values, values, done * sizeof *values) == 0 && memcmp(out, plan, written) == 0 &&
           memcmp(read_kinds + done, before, sizeof read_kinds - done) == 0 && memcmp(out + written, before, sizeof out - written) == 0 &&
           memcmp(read_values + done, before, (LONGEST - done) * sizeof *values) == 0;
}

static void levels(void) {
    for (size_t halls = 0; halls < 12; halls++) { /* one in another: so many, and the outermost level */
        uint8_t expected = halls + 1 <= HF_MAX_LEVELS ? 0 : 9;
        start(1);
        add(HF_HALL, 1, halls);
        add(HF_CHUTE, 5, 1);
        EXPECT(all_answer(1, 1, expected, expected));
        EXPECT(hf_hall_destination(plan, length, 1).destination == (expected == 0 ? 5u : 0u));
        start(halls == 0 ? 0 : 1);
        if (halls > 0) add(HF_HALL, 1, halls - 1), add(HF_HALL, 0, 1);
        EXPECT(all_answer(halls == 0 ? 0 : 1, 0, expected, expected));
    }
}

static void chutes(void) {
    for (uint32_t more = 0; more < 2; more++) {
        uint8_t expected = more == 0 ? 0 : 9;
        start(HF_MAX_CHUTES + more);
        add(HF_CHUTE, HF_MAX_DESTINATION, HF_MAX_CHUTES + more);
        EXPECT(all_answer(HF_MAX_CHUTES + more, HF_MAX_CHUTES, expected, expected));
        start(3); /* in two halls, and an empty one after the last of them */
        add(HF_HALL, 2048, 1), add(HF_CHUTE, 7, 2048);
        add(HF_HALL, 2048 + more, 1), add(HF_CHUTE, 8, 2048 + more);
        add(HF_HALL, 0, 1);
        EXPECT(all_answer(3, HF_MAX_CHUTES, expected, expected));
        EXPECT(hf_hall_destination(plan, length, 4096).destination == (more == 0 ? 8u : 0u));
    }
}

/* A plan of 65,536 bytes, one of 65,537 and longer ones, whose lists keep the rules: they cannot be read, and their buffer or their length is refused. */
static void bytes(void) {
    static const struct {
        uint32_t destination;
        size_t length;
    } sides[] = {{127, LONGEST - 1}, {128, LONGEST}, {16384, LONGEST + 1}};
    for (size_t i = 0; i < sizeof sides / sizeof *sides; i++) {
        uint8_t expected = sides[i].length <= LONGEST ? 0 : 5;
        start(MOST_ENTRIES - 1);
        add(HF_HALL, 0, MOST_ENTRIES - 2);
        add(HF_CHUTE, sides[i].destination, 1);
        EXPECT(length == sides[i].length && all_answer(MOST_ENTRIES - 1, 1, expected, expected));
    }
    EXPECT(hf_hall_write(MOST_ENTRIES - 1, kinds, entries, values, entries, plan, LONGEST).number == 9);
    start(LONGEST);
    add(HF_HALL, 0, LONGEST);
    EXPECT(all_answer(LONGEST, 0, 5, 5));
    kinds[LONGEST - 1] = 2; /* broken lists have no length, be they as long as they may */
    EXPECT(hf_hall_length(LONGEST, kinds, entries, values, entries).number == 9);
    EXPECT(hf_hall_write(LONGEST, kinds, entries, values, entries, plan, LONGEST + 1).number == 5);
    kinds[LONGEST - 1] = HF_HALL;
    EXPECT(hf_hall_length(LONGEST - 1, kinds, entries, values, entries).number == 9);
    EXPECT(hf_hall_length(LONGEST + 1, kinds, entries, values, entries).number == 9);
}

/* So many halls on the level above this one, with halls in them as long as some are left; at most 127 in each, so that every entry takes two bytes. */
static void fill(size_t count, size_t *left, int level) {
    for (size_t i = 0; i < count; i++) {
        size_t inside = level == HF_MAX_LEVELS ? 0 : *left < 127 ? *left : 127;
        *left -= inside;
        add(HF_HALL, (uint32_t)inside, 1);
        fill(inside, left, level + 1);
    }
}

static void most_entries(void) {
    size_t left = MOST_ENTRIES - 127;
    start(127);
    fill(127, &left, 2);
    EXPECT(left == 0 && entries == MOST_ENTRIES && length == LONGEST - 1 && all_answer(127, 0, 0, 0));
    start(127);
    left = MOST_ENTRIES + 1 - 127;
    fill(127, &left, 2);
    EXPECT(left == 0 && entries == MOST_ENTRIES + 1 && length == LONGEST + 1 && all_answer(127, 0, 5, 5));
}

/* Empty halls, 2,097,151 of them and one more, on the outermost level and in a hall: no number is greater, so one more is a breach, and not only too long. */
static void greatest_number(void) {
    size_t most = HF_MAX_DESTINATION;
    uint8_t *k = malloc(most + 2);
    uint32_t *v = calloc(most + 2, sizeof *v);
    EXPECT(k != NULL && v != NULL);
    if (k != NULL && v != NULL) {
        memset(k, HF_HALL, most + 2);
        for (size_t more = 0; more < 2; more++) {
            v[0] = 0;
            EXPECT(hf_hall_length(most + more, k, most + more, v, most + more).number == (more == 0 ? 5 : 9));
            v[0] = (uint32_t)(most + more);
            EXPECT(hf_hall_length(1, k, most + more + 1, v, most + more + 1).number == (more == 0 ? 5 : 9));
        }
    }
    free(k);
    free(v);
}

void check_hall_limits(void) {
    levels();
    chutes();
    bytes();
    most_entries();
    greatest_number();
}
