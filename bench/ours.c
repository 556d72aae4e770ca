/* The library's own entries as workers. */
#include "../include/hailfeather.h"
#include "work.h"

static void permutation(size_t runs)
{
    for (size_t i = 0; i < runs; i++)
        hf_keccak_p(work.lanes);
}

static void shake256(size_t size) { hf_cshake256(work.name, 0, work.custom, 0, work.text, size, work.out, OUT); }

static void cshake256(size_t size) { hf_cshake256(work.name, NAME, work.custom, CUSTOM, work.text, size, work.out, OUT); }

static void kmac256(size_t size) { hf_kmac256(work.key, KEY, work.custom, CUSTOM, work.text, size, work.out, OUT); }

static void kmacxof256(size_t size) { hf_kmacxof256(work.key, KEY, work.custom, CUSTOM, work.text, size, work.out, OUT); }

static void output(size_t size) { hf_kmacxof256(work.key, KEY, work.custom, CUSTOM, work.text, MESSAGE, work.out, size); }

static void session(size_t piece)
{
    hf_step step = hf_session_kmacxof256(work.key, KEY, work.custom, CUSTOM);
    for (size_t at = 0; at < MOST; at += piece)
        step = hf_session_take(step.session, work.text + at, MOST - at < piece ? MOST - at : piece);
    hf_session_give(step.session, work.out, OUT);
}

static void sealing(size_t size) { hf_seal(work.key, KEY, work.iv, IV, work.text, size, work.key, 0, work.out, size, work.tag, TAG); }

static void opening(size_t size)
{
    work.answer = hf_open(work.key, KEY, work.iv, IV, work.sealed, size, work.key, 0, work.out, size, work.seal_tag, TAG).number;
}

static void drawing(size_t size)
{
    hf_generator seeded = {.seeded = 1};
    for (int i = 0; i < SEED_KEY; i++)
        seeded.key[i] = work.drawing_key[i];
    hf_generator_draw(seeded, work.name, NAME, work.out, size);
}

static void kmac_drawing(size_t size)
{
    hf_kmac_generator seeded = {.seeded = 1};
    for (int i = 0; i < SEED_KEY; i++)
        seeded.key[i] = work.drawing_key[i];
    hf_kmac_generator_draw(seeded, work.name, NAME, work.out, size);
}

static void plan_read(size_t row_bytes)
{
    (void)row_bytes;
    work.answer = hf_plan_read(work.plan, work.plan_length).rows;
}

static void plan_lookup(size_t row_bytes)
{
    (void)row_bytes;
    work.answer = hf_plan_destination(work.plan, work.plan_length, 4000).destination;
}

static void hall_read(size_t destination_bytes)
{
    (void)destination_bytes;
    hf_halls found = hf_hall_read(work.plan, work.plan_length);
    work.answer = (uint32_t)found.entries + found.chutes;
}

static void hall_lookup(size_t destination_bytes)
{
    (void)destination_bytes;
    work.answer = hf_hall_destination(work.plan, work.plan_length, 4000).destination;
}

const struct worker ours = {"ours",
                            {permutation, shake256, cshake256, kmac256, kmacxof256, output, session, sealing, opening, drawing, kmac_drawing, plan_read,
                             plan_lookup, hall_read, hall_lookup},
                            0, hf_version};
