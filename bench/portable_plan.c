/* The plan's reading and lookup in portable C, as one would write them by hand; and the plans that are measured. */
#include "portable_number.h"

/* The number of rows, or -1 for a plan that is refused; the destination of the chute, if the plan has it, into found. */
static long read_plan(long chute, uint32_t *found)
{
    size_t cursor = 0;
    long rows = work.plan_length > 65536 ? -1 : number_at(&cursor);
    if (rows < 0 || rows > 4096)
        return -1;
    for (long row = 1; row <= rows; row++) {
        long value = number_at(&cursor);
        if (value < 0)
            return -1;
        if (row == chute)
            *found = (uint32_t)value;
    }
    return cursor == work.plan_length ? rows : -1;
}

void portable_plan_read(size_t row_bytes)
{
    (void)row_bytes;
    uint32_t found;
    work.answer = (uint32_t)read_plan(0, &found);
}

void portable_plan_lookup(size_t row_bytes)
{
    (void)row_bytes;
    uint32_t found = 0;
    read_plan(4000, &found);
    work.answer = found;
}

void make_plan(size_t row_bytes)
{
    work.plan[0] = 0x80, work.plan[1] = 0x20; /* 4,096 rows */
    work.plan_length = 2;
    for (size_t row = 0; row < 4096; row++)
        put_number(row, row_bytes);
}
