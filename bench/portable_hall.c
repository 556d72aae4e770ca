/* The hall plan's reading and lookup in portable C, as one would write them by hand; and the hall plans that are measured. */
#include <stdbool.h>

#include "portable_number.h"

enum { LEVELS = 8, CHUTES = 4096 };

struct halls {
    size_t cursor, entries;
    long chutes, wanted;
    uint32_t found; /* the destination of the chute that is wanted, if the plan has it */
};

/* Whether the hall whose number of entries stands at the cursor keeps the rules; the cursor moves past it. */
static bool read_hall(struct halls *halls, int level)
{
    long entries = number_at(&halls->cursor);
    if (entries < 0)
        return false;
    for (long i = 0; i < entries; i++) {
        long kind = number_at(&halls->cursor);
        if (kind == 0) {
            long destination = number_at(&halls->cursor);
            if (destination < 0 || halls->chutes == CHUTES)
                return false;
            if (++halls->chutes == halls->wanted)
                halls->found = (uint32_t)destination;
        } else if (kind != 1 || level == LEVELS || !read_hall(halls, level + 1)) {
            return false;
        }
    }
    halls->entries += (size_t)entries;
    return true;
}

static bool read_plan(struct halls *halls)
{
    return work.plan_length <= 65536 && read_hall(halls, 1) && halls->cursor == work.plan_length;
}

void portable_hall_read(size_t destination_bytes)
{
    (void)destination_bytes;
    struct halls halls = {.wanted = 0};
    work.answer = read_plan(&halls) ? (uint32_t)halls.entries + (uint32_t)halls.chutes : 0;
}

void portable_hall_lookup(size_t destination_bytes)
{
    (void)destination_bytes;
    struct halls halls = {.wanted = 4000};
    work.answer = read_plan(&halls) ? halls.found : 0;
}

/* The entries of a hall on each level, from the outermost: 4 halls of 4 halls of 16 halls of 16 chutes. */
static void put_hall(size_t level, size_t destination_bytes)
{
    static const uint8_t entries[] = {4, 4, 16, 16};
    work.plan[work.plan_length++] = entries[level];
    for (size_t i = 0; i < entries[level]; i++) {
        bool chute = level + 1 == sizeof entries;
        work.plan[work.plan_length++] = chute ? 0 : 1;
        if (chute)
            put_number(work.plan_length, destination_bytes);
        else
            put_hall(level + 1, destination_bytes);
    }
}

void make_halls(size_t destination_bytes)
{
    work.plan_length = 0;
    put_hall(0, destination_bytes);
}
