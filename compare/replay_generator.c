/* The generators. */
#include "../tests/c/either_generator.h"
#include "replay.h"

/* The generator that lines of `seed` and `draw` go on with, and which of the two it is. */
static hf_generator generator;
static const either_generator *of = &cshake_generator;

/* Number, runs and key are the expected ones, and a refusal leaves whether it was ever seeded. */
static bool answered(hf_draw done, const char *number, const char *runs, const char *key)
{
    buffer expected = lend_bytes(key);
    bool same = done.number == number_of(number) && done.runs == number_of(runs) && memcmp(done.generator.key, expected.bytes, 64) == 0 &&
                done.generator.seeded == (done.number == 0 ? 1 : generator.seeded);
    generator = done.generator;
    give_back(&expected);
    return same;
}

static bool fresh(const either_generator *made)
{
    of = made;
    generator = of->fresh();
    bool zero = generator.seeded == 0;
    for (int i = 0; i < 64; i++)
        zero = zero && generator.key[i] == 0;
    return zero;
}

static bool seed(char *const *f)
{
    buffer seed = lend_bytes(f[1]), personalisation = lend_bytes(f[2]);
    hf_draw done = of->seed(generator, seed.bytes, seed.length, personalisation.bytes, personalisation.length);
    bool same = answered(done, f[3], f[4], f[5]) && still(&seed, f[1]) && still(&personalisation, f[2]);
    give_back(&seed), give_back(&personalisation);
    return same;
}

static bool draw(char *const *f)
{
    buffer additional = lend_bytes(f[1]), out = lend(number_of(f[2]));
    hf_draw done = of->draw(generator, additional.bytes, additional.length, out.bytes, out.length);
    bool same = answered(done, f[3], f[4], f[6]) && still(&additional, f[1]) && (done.number == 0 ? holds(&out, f[5]) : untouched(&out));
    give_back(&additional), give_back(&out);
    return same;
}

bool replay_generator(const call *line)
{
    if (strcmp(line->fields[0], "generator_fresh") == 0)
        return fresh(&cshake_generator);
    if (strcmp(line->fields[0], "kmac_generator_fresh") == 0)
        return fresh(&kmac_generator);
    return (strcmp(line->fields[0], "seed") == 0 ? seed : draw)(line->fields);
}
