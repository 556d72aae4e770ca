/* Whether secrets steer: keys, texts, seeds and states are marked as undefined, and valgrind counts every branch and every address that depends on them. Under
 * valgrind alone; tests/secrets/run does it.
 * usage: secrets [spoilt]   with the word a branch of this program's own depends on a secret, which has to be found */
#include <stdbool.h>
#include <stdio.h>
#include <string.h>
#include <valgrind/memcheck.h>

#include "../c/either_generator.h"

enum { LENGTHS = 7, TAGS = 4 };
static const size_t lengths[LENGTHS] = {0, 1, 8, 135, 136, 137, 700};
static const size_t tags[TAGS] = {16, 31, 32, 64};
static uint8_t key[64], text[700], label[84], made[700], tag[64], given[700];
static unsigned calls, wrong;

#define SECRET(object) VALGRIND_MAKE_MEM_UNDEFINED(&(object), sizeof(object))
#define KNOWN(object) VALGRIND_MAKE_MEM_DEFINED(&(object), sizeof(object))

static void secrets(void)
{
    SECRET(key);
    SECRET(text);
}

static void known(void)
{
    KNOWN(key);
    KNOWN(text);
    KNOWN(made);
    KNOWN(tag);
    KNOWN(given);
}

/* Notes the branches and addresses since the last call, of which there may be so many, and that the call was answered with this number. */
static void noted(const char *entry, unsigned allowed, uint8_t number, uint8_t expected)
{
    static unsigned before;
    unsigned now = VALGRIND_COUNT_ERRORS;
    calls++;
    if (now - before != allowed || number != expected) {
        wrong++;
        printf("%s: %u branches or addresses depend on a secret, not %u; answered with %u\n", entry, now - before, allowed, number);
    }
    before = now;
}

static void hashes(size_t n)
{
    uint64_t lanes[25] = {n};
    SECRET(lanes);
    hf_keccak_p(lanes);
    noted("hf_keccak_p", 0, 0, 0);
    noted("hf_cshake256", 0, hf_cshake256(HF_NOTHING, 0, label, n % 84, text, n, made, n).number, HF_DONE);
    noted("hf_kmac256", 0, hf_kmac256(key, n % 64, label, n % 84, text, n, made, n + 1 < sizeof made ? n + 1 : n).number, HF_DONE);
    noted("hf_kmacxof256", 0, hf_kmacxof256(key, n % 64, label, n % 84, text, n, made, n).number, HF_DONE);
}

static void sessions(size_t n)
{
    hf_step step = hf_session_cshake256(HF_NOTHING, 0, label, n % 84);
    noted("hf_session_cshake256", 0, step.number, HF_DONE);
    step = hf_session_kmacxof256(key, 32, label, n % 84);
    noted("hf_session_kmacxof256", 0, step.number, HF_DONE);
    step = hf_session_take(step.session, text, n);
    noted("hf_session_take", 0, step.number, HF_DONE);
    step = hf_session_give(step.session, made, n);
    noted("hf_session_give", 0, step.number, HF_DONE);
    step = hf_session_give(step.session, made, n);
    noted("hf_session_give", 0, step.number, HF_DONE);
}

/* Opening branches once on the verdict, and only where the lengths are right. */
static void seals(size_t n, size_t t)
{
    secrets();
    noted("hf_seal", 0, hf_seal(key, 32, label, n % 84, text, n, label, n % 84, made, n, tag, t).number, HF_DONE);
    noted("hf_open", 1, hf_open(key, 32, label, n % 84, made, n, label, n % 84, given, n, tag, t).number, HF_DONE);
    known();
    for (size_t place = 0; place < t; place += t - 1) { /* the first byte wrong, then the last */
        tag[place] ^= 0x40;
        secrets();
        SECRET(tag);
        noted("hf_open", 1, hf_open(key, 32, label, n % 84, made, n, label, n % 84, given, n, tag, t).number, HF_TAG_MISMATCH);
        known();
        tag[place] ^= 0x40;
    }
}

static void generator(const either_generator *of, const char *seeding, const char *drawing, size_t n)
{
    hf_draw draw = of->seed(of->fresh(), text, n, label, n % 84);
    noted(seeding, 0, draw.number, HF_DONE);
    draw = of->draw(draw.generator, label, n % 84, made, n);
    noted(drawing, 0, draw.number, HF_DONE);
}

int main(int count, char **words)
{
    if (RUNNING_ON_VALGRIND == 0) {
        fprintf(stderr, "secrets: this program tells nothing but under valgrind\n");
        return 2;
    }
    for (size_t i = 0; i < LENGTHS; i++) {
        secrets();
        hashes(lengths[i]);
        sessions(lengths[i]);
        generator(&cshake_generator, "hf_generator_seed", "hf_generator_draw", lengths[i]);
        generator(&kmac_generator, "hf_kmac_generator_seed", "hf_kmac_generator_draw", lengths[i]);
        known();
        for (size_t j = 0; j < TAGS; j++)
            seals(lengths[i], tags[j]);
    }
    if (count == 2 && strcmp(words[1], "spoilt") == 0) {
        secrets();
        volatile bool even = false;
        if (key[0] % 2 == 0)
            even = true;
        noted("a branch of this program's own", 0, 0, 0);
        known();
        (void)even;
    }
    printf("secrets: %u calls, in %u of which a secret steers\n", calls, wrong);
    return wrong == 0 ? 0 : 1;
}
