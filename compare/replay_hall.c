/* The hall plan's entries. */
#include <string.h>

#include "replay.h"

static uint32_t *numbers_in(const buffer *lent) { return (uint32_t *)(void *)lent->bytes; }

/* Whether the fields from f[0] on are the answer's, and `place` is its place. */
static bool same_halls(hf_halls found, char *const *f, const char *place)
{
    return found.number == number_of(f[0]) && found.entries == number_of(f[1]) && found.outer == number_of(f[2]) && found.chutes == number_of(f[3]) &&
           found.place == number_of(place);
}

static bool read_halls(char *const *f, const buffer *plan) { return same_halls(hf_hall_read(plan->bytes, plan->length), f + 2, f[6]); }

static bool destination(char *const *f, const buffer *plan)
{
    hf_destination found = hf_hall_destination(plan->bytes, plan->length, number_of(f[2]));
    return found.number == number_of(f[3]) && found.destination == number_of(f[4]) && found.place == number_of(f[5]);
}

static bool read_into(char *const *f, const buffer *plan)
{
    buffer kinds = lend(number_of(f[2])), values = lend(4 * number_of(f[3]));
    hf_halls found = hf_hall_read_into(plan->bytes, plan->length, kinds.bytes, kinds.length, numbers_in(&values), values.length / 4);
    bool filled = found.number == 0 ? holds_list(&kinds, f[8], 1) && holds_list(&values, f[9], 4) : untouched(&kinds) && untouched(&values);
    give_back(&kinds), give_back(&values);
    return filled && same_halls(found, f + 4, f[10]);
}

static bool written(char *const *f, const buffer *kinds, const buffer *values)
{
    uint64_t outer = number_of(f[1]);
    if (strcmp(f[0], "hall_length") == 0) {
        hf_length found = hf_hall_length(outer, kinds->bytes, kinds->length, numbers_in(values), values->length / 4);
        return found.number == number_of(f[4]) && found.length == number_of(f[5]) && found.place == number_of(f[6]);
    }
    buffer out = lend(number_of(f[4]));
    hf_written done = hf_hall_write(outer, kinds->bytes, kinds->length, numbers_in(values), values->length / 4, out.bytes, out.length);
    bool same = done.number == number_of(f[5]) && (done.number == 0 ? holds(&out, f[6]) : untouched(&out)) && done.place == number_of(f[7]);
    give_back(&out);
    return same;
}

static bool of_lists(char *const *f)
{
    buffer kinds = lend_list(f[2], 1), values = lend_list(f[3], 4);
    bool same = written(f, &kinds, &values) && holds_list(&kinds, f[2], 1) && holds_list(&values, f[3], 4);
    give_back(&kinds), give_back(&values);
    return same;
}

bool replay_hall(const call *line)
{
    char *const *f = line->fields;
    if (strcmp(f[0], "hall_length") == 0 || strcmp(f[0], "hall_write") == 0)
        return of_lists(f);
    buffer plan = lend_bytes(f[1]);
    bool same = strcmp(f[0], "hall_read") == 0          ? read_halls(f, &plan)
                : strcmp(f[0], "hall_destination") == 0 ? destination(f, &plan)
                                                        : read_into(f, &plan);
    same = same && still(&plan, f[1]);
    give_back(&plan);
    return same;
}
