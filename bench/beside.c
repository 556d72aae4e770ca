/* What bench/run measures: ours beside OpenSSL and portable C, and beside one call of KMACXOF256 what is made of it. */
#include "work.h"

static void one_call(size_t size) { ours.tasks[KMACXOF256](size); }

static void one_call_of_all(size_t piece)
{
    (void)piece;
    one_call(MOST);
}

static const struct worker one = {
    "one call of KMACXOF256", {[SESSION] = one_call_of_all, [SEALING] = one_call, [OPENING] = one_call}, 1u << SEALING | 1u << OPENING, NULL};

const struct worker *const workers[] = {&ours, &openssl, &portable, &one, NULL};
const int visits = 20;

const struct row rows[] = {
    {"Keccak-p[1600, 24], runs", PERMUTATION, {64}},
    {"SHAKE256", SHAKE256, {64, 4096, MOST}},
    {"cSHAKE256", CSHAKE256, {64, 4096, MOST}},
    {"KMAC256", KMAC256, {64, 4096, MOST}},
    {"KMACXOF256", KMACXOF256, {64, 4096, MOST}},
    {"KMACXOF256, output of", OUTPUT, {4096, MOST}},
    {"session of 1 MiB, pieces of", SESSION, {64, 136, 1000, 4096, 65536}},
    {"seal", SEALING, {64, 4096, MOST}},
    {"open", OPENING, {64, 4096, MOST}},
    {"draw", DRAWING, {64, 4096, MOST}},
    {"draw, KMAC generator", KMAC_DRAWING, {64, 4096, MOST}},
    {"plan read, 4,096 rows of", PLAN_READ, {1, 2, 3}},
    {"plan lookup, 4,096 rows of", PLAN_LOOKUP, {1, 2, 3}},
    {"hall read, 4,096 chutes of", HALL_READ, {1, 2, 3}},
    {"hall lookup, 4,096 chutes of", HALL_LOOKUP, {1, 2, 3}},
    {NULL, KINDS, {0}},
};
