/* What bench/before_after measures: ours.c over the archive of an earlier commit, and over a later one. */
#include "work.h"

extern const struct worker before_ours, after_ours;
const struct worker *const workers[] = {&before_ours, &after_ours, NULL};
const int visits = VISITS;

const struct row rows[] = {
    {"Keccak-p[1600, 24], runs", PERMUTATION, {10000}},
    {"SHAKE256", SHAKE256, {MOST}},
    {"KMACXOF256", KMACXOF256, {64, 4096}},
    {"KMACXOF256, output of", OUTPUT, {MOST}},
    {"seal", SEALING, {MOST}},
    {"plan read, 4,096 rows of", PLAN_READ, {1, 2, 3}},
    {NULL, KINDS, {0}},
};
