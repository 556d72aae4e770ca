/* The work that is measured, and who does it: ours, OpenSSL and portable C, or two archives of ours, do the same on the same buffers. */
#ifndef WORK_H
#define WORK_H
#include <stddef.h>
#include <stdint.h>

enum { MOST = 1 << 20, BLOCK = 136, KEY = 32, IV = 16, NAME = 8, CUSTOM = 8, TAG = 32, MESSAGE = 64, OUT = 64, SEED_KEY = 64, PIECE = 208, PLAN_MOST = 16937 };

/* All that any of them reads or writes; buffers are touched before they are measured. */
struct work {
    uint8_t key[KEY], iv[IV], name[NAME], custom[CUSTOM], text[MOST], sealed[MOST], seal_tag[TAG], plan[PLAN_MOST], drawing_key[SEED_KEY];
    size_t plan_length;
    /* written: */
    uint8_t out[MOST], tag[TAG];
    uint64_t lanes[25];
    uint32_t answer;
};
extern struct work work;

/* What can be done, each with a size: bytes of the message or text; for OUTPUT, whose message has MESSAGE bytes, and for draws those of the output; for the
   permutation the runs; for a session the bytes of a piece of 1 MiB; for a plan the bytes of a row, for a hall plan those of a destination. */
enum kind {
    PERMUTATION,
    SHAKE256,
    CSHAKE256,
    KMAC256,
    KMACXOF256,
    OUTPUT,
    SESSION,
    SEALING,
    OPENING,
    DRAWING,
    KMAC_DRAWING,
    PLAN_READ,
    PLAN_LOOKUP,
    HALL_READ,
    HALL_LOOKUP,
    KINDS
};

/* One that does it; NULL where it has no such function. */
typedef void task(size_t size);
struct worker {
    const char *name;
    task *tasks[KINDS];
    unsigned aside;            /* a bit for each kind where it does other work than the rest, so that its answers are not compared */
    uint32_t (*version)(void); /* of a library that has one: it has to be the header's */
};
extern const struct worker ours, openssl, portable;

/* What a program measures, by whom, and how often it comes back to each row. Rows go up to one without a name, workers up to NULL. */
enum { SIZES = 5, WORKERS = 4, VISITS = 100 }; /* at most */
struct row {
    const char *name;
    enum kind kind;
    size_t sizes[SIZES];
};
extern const struct row rows[];
extern const struct worker *const workers[];
extern const int visits;

task portable_plan_read, portable_plan_lookup, portable_hall_read, portable_hall_lookup;

/* A plan of 4,096 rows of this many bytes each into work.plan. */
void make_plan(size_t row_bytes);
/* A hall plan of 4,096 chutes in 276 halls on four levels, each destination of this many bytes, into work.plan. */
void make_halls(size_t destination_bytes);
#endif
