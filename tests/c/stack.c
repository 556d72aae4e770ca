/* How much of the stack each function takes: it runs on a stack that was filled with canaries, beside one that does nothing. Calls that are refused take less,
 * so every call here is accepted, and no buffer that is written overlaps another. */
#include <stdlib.h>
#include <ucontext.h>

#include "check.h"

enum { STACK = 1 << 18, CANARY = 0xA5, MOST_STACK = 4096 };
static const uint8_t plan[] = {0x03, 0x07, 0xAC, 0x02, 0x00};
static const uint8_t old_plan[] = {0x83, 0x80, 0x00, 0x87, 0x00, 0xAC, 0x82, 0x00, 0x80, 0x80, 0x00}; /* the same, with empty groups */
static const uint32_t rows[] = {7, 300, 0};
/* eight levels, the deepest there are, with a chute in the innermost hall */
static const uint8_t halls[] = {1, 1, 1, 1, 1, 1, 1, 1, 1, 1, 1, 1, 1, 1, 1, 0, 7}, kinds[] = {1, 1, 1, 1, 1, 1, 1, 0};
static const uint32_t values[] = {1, 1, 1, 1, 1, 1, 1, 7};
static uint8_t read_kinds[8];
static uint32_t read_values[8];
static uint8_t key[32], text[300], label[84], out[300], tag[64], opened[300];
static uint64_t lanes[25];
static uint8_t number; /* of the call that ran last */

static void nothing(void) {}
static void permuting(void) { hf_keccak_p(lanes); }
static void cshake(void) { number = hf_cshake256(label, 84, key, 32, text, 300, out, 300).number; }
static void kmac(void) { number = hf_kmac256(key, 32, label, 84, text, 300, out, 300).number; }
static void kmacxof(void) { number = hf_kmacxof256(key, 32, label, 84, text, 300, out, 300).number; }
static void naming(void) { number = hf_session_cshake256(label, 84, key, 32).number; }
static void stepping(void) { number = hf_session_give(hf_session_take(hf_session_kmacxof256(key, 32, label, 84).session, text, 300).session, out, 300).number; }
static void sealing(void) { number = hf_seal(key, 32, label, 84, text, 300, label, 84, out, 300, tag, 64).number; }
static void opening(void) { number = hf_open(key, 32, label, 84, out, 300, label, 84, opened, 300, tag, 64).number; }
static void drawing(void) { number = hf_generator_draw(hf_generator_seed(hf_generator_fresh(), text, 300, label, 84).generator, key, 32, out, 300).number; }
static void drawing_kmac(void) {
    number = hf_kmac_generator_draw(hf_kmac_generator_seed(hf_kmac_generator_fresh(), text, 300, label, 84).generator, key, 32, out, 300).number;
}
static void reading(void) { number = hf_plan_read(plan, sizeof plan).number; }
static void asking(void) { number = hf_plan_destination(plan, sizeof plan, 3).number; }
static void looking(void) { number = hf_plan_row(plan, sizeof plan, plan, sizeof plan, 3).number; }
static void measuring(void) { number = hf_plan_length(rows, 3).number; }
static void writing(void) { number = hf_plan_write(rows, 3, out, sizeof plan).number; }
static void measuring_migrated(void) { number = hf_plan_migrated_length(old_plan, sizeof old_plan).number; }
static void migrating(void) { number = hf_plan_migrate(old_plan, sizeof old_plan, out, sizeof plan).number; }
static void walking(void) { number = hf_plan_step(plan, sizeof plan, hf_plan_start(plan, sizeof plan)).number; }
static void reading_halls(void) { number = hf_hall_read(halls, sizeof halls).number; }
static void asking_halls(void) { number = hf_hall_destination(halls, sizeof halls, 1).number; }
static void reading_into(void) { number = hf_hall_read_into(halls, sizeof halls, read_kinds, 8, read_values, 8).number; }
static void measuring_halls(void) { number = hf_hall_length(1, kinds, 8, values, 8).number; }
static void writing_halls(void) { number = hf_hall_write(1, kinds, 8, values, 8, out, sizeof halls).number; }

/* The bytes of the stack that this work leaves changed. */
static size_t touched(uint8_t *stack, void (*work)(void)) {
    ucontext_t here, there;
    memset(stack, CANARY, STACK);
    EXPECT(getcontext(&there) == 0);
    there.uc_stack.ss_sp = stack;
    there.uc_stack.ss_size = STACK;
    there.uc_link = &here;
    makecontext(&there, work, 0);
    EXPECT(swapcontext(&here, &there) == 0);
    size_t untouched = 0;
    while (untouched < STACK && stack[untouched] == CANARY) untouched++;
    return STACK - untouched;
}

void check_stack(void) {
#ifdef __SANITIZE_ADDRESS__
    return; /* the sanitizer's own frames are larger */
#endif
    /* sealing comes before opening, which opens what it made */
    static void (*const works[])(void) = {permuting,       cshake,             kmac,         kmacxof, naming,        stepping,     sealing,
                                          opening,         drawing,            drawing_kmac, reading, asking,        looking,      measuring,
                                          writing,         measuring_migrated, migrating,    walking, reading_halls, asking_halls, reading_into,
                                          measuring_halls, writing_halls};
    uint8_t *stack = aligned_alloc(4096, STACK);
    EXPECT(stack != NULL);
    if (stack == NULL) return;
    size_t base = touched(stack, nothing), most = 0;
    for (size_t i = 0; i < sizeof works / sizeof *works; i++) {
        size_t taken = touched(stack, works[i]) - base;
        EXPECT(taken <= MOST_STACK);
        EXPECT(number == HF_DONE);
        most = taken > most ? taken : most;
    }
    EXPECT(memcmp(opened, text, sizeof text) == 0);
    printf("the deepest of them takes %zu bytes of stack\n", most);
    free(stack);
}
