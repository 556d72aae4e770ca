/* The plan's entries. */
#include <string.h>

#include "replay.h"

static bool read_plan(char *const *f, const buffer *plan)
{
    hf_rows found = hf_plan_read(plan->bytes, plan->length);
    return found.number == number_of(f[2]) && found.rows == number_of(f[3]) && found.place == number_of(f[4]);
}

static bool destination(char *const *f, const buffer *plan)
{
    hf_destination found = hf_plan_destination(plan->bytes, plan->length, number_of(f[2]));
    return found.number == number_of(f[3]) && found.destination == number_of(f[4]) && found.place == number_of(f[5]);
}

static bool row(char *const *f, const buffer *site)
{
    buffer house = lend_bytes(f[2]);
    hf_row found = hf_plan_row(site->bytes, site->length, house.bytes, house.length, number_of(f[3]));
    bool same = found.number == number_of(f[4]) && found.source == number_of(f[5]) && found.start == number_of(f[6]) &&
                found.length == number_of(f[7]) && found.malformed == number_of(f[8]) && found.place == number_of(f[9]) && still(&house, f[2]);
    give_back(&house);
    return same;
}

/* A walk: the plan stays lent until the next one. */
static buffer walked;
static hf_cursor walk;

static bool start(char *const *f, const buffer *plan)
{
    (void)plan;
    give_back(&walked);
    walked = lend_bytes(f[1]);
    walk = hf_plan_start(walked.bytes, walked.length);
    return walk.number == number_of(f[2]) && walk.at == number_of(f[3]) && walk.place == number_of(f[4]) && still(&walked, f[1]);
}

static bool step(char *const *f)
{
    hf_walk found = hf_plan_step(walked.bytes, walked.length, walk);
    bool same = found.number == number_of(f[1]) && found.destination == number_of(f[2]) && found.next == number_of(f[3]) && found.place == number_of(f[4]);
    walk.at = found.next;
    return same && edges_stand(&walked);
}

/* Whether the fields from f[0] on are the answer's. */
static bool same_length(hf_length found, char *const *f)
{
    return found.number == number_of(f[0]) && found.length == number_of(f[1]) && found.place == number_of(f[2]);
}

/* The same of what was written into a lent buffer, which is given back. */
static bool same_written(hf_written done, buffer *out, char *const *f)
{
    bool same = done.number == number_of(f[0]) && (done.number == 0 ? holds(out, f[1]) : untouched(out)) && done.place == number_of(f[2]);
    give_back(out);
    return same;
}

static bool migrated_length(char *const *f, const buffer *plan) { return same_length(hf_plan_migrated_length(plan->bytes, plan->length), f + 2); }

static bool migrate(char *const *f, const buffer *plan)
{
    buffer out = lend(number_of(f[2]));
    return same_written(hf_plan_migrate(plan->bytes, plan->length, out.bytes, out.length), &out, f + 3);
}

static bool write(char *const *f, const buffer *rows)
{
    const uint32_t *values = (const uint32_t *)(const void *)rows->bytes;
    if (strcmp(f[0], "plan_length") == 0)
        return same_length(hf_plan_length(values, rows->length / 4), f + 2);
    buffer out = lend(number_of(f[2]));
    return same_written(hf_plan_write(values, rows->length / 4, out.bytes, out.length), &out, f + 3);
}

static bool of_rows(char *const *f)
{
    buffer rows = lend_list(f[1], 4);
    bool same = write(f, &rows) && holds_list(&rows, f[1], 4);
    give_back(&rows);
    return same;
}

static const struct {
    const char *name;
    bool (*entry)(char *const *f, const buffer *plan);
} of_plans[] = {
    {"plan_read", read_plan}, {"plan_destination", destination},           {"plan_row", row},
    {"plan_start", start},    {"plan_migrated_length", migrated_length}, {"plan_migrate", migrate},
};

bool replay_plan(const call *line)
{
    char *const *f = line->fields;
    if (strcmp(f[0], "plan_step") == 0)
        return step(f);
    if (strcmp(f[0], "plan_length") == 0 || strcmp(f[0], "plan_write") == 0)
        return of_rows(f);
    size_t i = 0;
    while (strcmp(f[0], of_plans[i].name) != 0)
        i++;
    buffer plan = lend_bytes(f[1]);
    bool same = of_plans[i].entry(f, &plan) && still(&plan, f[1]);
    give_back(&plan);
    return same;
}
