/* One seven-bit number of work.plan in portable C: read, and written in a given number of groups. */
#ifndef PORTABLE_NUMBER_H
#define PORTABLE_NUMBER_H
#include "work.h"

/* The number at the cursor, which moves past it; -1 where a byte is missing, a third group promises a fourth, or the last of several groups is empty. */
static inline long number_at(size_t *cursor)
{
    long value = 0;
    for (int shift = 0; shift < 21 && *cursor < work.plan_length; shift += 7) {
        uint8_t byte = work.plan[(*cursor)++];
        value += (long)(byte & 127) << shift;
        if (byte < 128)
            return byte == 0 && shift > 0 ? -1 : value;
    }
    return -1;
}

/* A number in this many groups, none of them 0, that goes by `which`, after what the plan has. */
static inline void put_number(size_t which, size_t groups)
{
    for (size_t group = 1; group <= groups; group++)
        work.plan[work.plan_length++] = (uint8_t)((which + group) % 127 + 1 + (group < groups ? 128 : 0));
}
#endif
