/* The two generators as one type, for checks that are the same for both: a KMAC generator's state is carried over from its own type and back. */
#ifndef EITHER_GENERATOR_H
#define EITHER_GENERATOR_H

#include <string.h>

#include "../../include/hailfeather.h"

typedef struct {
    hf_generator (*fresh)(void);
    hf_draw (*seed)(hf_generator generator, const uint8_t *seed, size_t seed_length, const uint8_t *personalisation, size_t personalisation_length);
    hf_draw (*draw)(hf_generator generator, const uint8_t *additional, size_t additional_length, uint8_t *out, size_t out_length);
} either_generator;

static hf_generator carried_over(hf_kmac_generator from)
{
    hf_generator to = {.seeded = from.seeded};
    memcpy(to.key, from.key, sizeof to.key);
    return to;
}

static hf_kmac_generator carried_back(hf_generator from)
{
    hf_kmac_generator to = {.seeded = from.seeded};
    memcpy(to.key, from.key, sizeof to.key);
    return to;
}

static hf_draw answer_carried_over(hf_kmac_draw from) { return (hf_draw){carried_over(from.generator), from.runs, from.number}; }

static hf_generator kmac_fresh(void) { return carried_over(hf_kmac_generator_fresh()); }

static hf_draw kmac_seed(hf_generator generator, const uint8_t *seed, size_t seed_length, const uint8_t *personalisation, size_t personalisation_length)
{
    return answer_carried_over(hf_kmac_generator_seed(carried_back(generator), seed, seed_length, personalisation, personalisation_length));
}

static hf_draw kmac_draw(hf_generator generator, const uint8_t *additional, size_t additional_length, uint8_t *out, size_t out_length)
{
    return answer_carried_over(hf_kmac_generator_draw(carried_back(generator), additional, additional_length, out, out_length));
}

static const either_generator cshake_generator = {hf_generator_fresh, hf_generator_seed, hf_generator_draw};
static const either_generator kmac_generator = {kmac_fresh, kmac_seed, kmac_draw};

#endif
