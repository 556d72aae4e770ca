/* What the parts of the replay share: lines of the file of calls taken apart, and buffers to lend with canaries around them. */
#ifndef REPLAY_H
#define REPLAY_H

#include <stdbool.h>
#include <stddef.h>
#include <stdint.h>

#include "../include/hailfeather.h"

/* A line's fields in order, the `=` left out. */
enum { MOST_FIELDS = 12 };
typedef struct {
    char *fields[MOST_FIELDS];
    int count;
} call;

/* How a buffer is lent: between canary bytes, which show what was written past it; in an allocation of its own, for valgrind; or ending where a page
   begins that may not be touched, so that reading past it ends the program too. */
typedef enum { CANARIES, OWN, GUARDED } manner;
extern manner lending;

typedef struct {
    uint8_t *whole, *bytes;
    size_t length, edge; /* edge: the canary bytes on each side */
} buffer;

buffer lend(size_t length);                               /* full of canaries */
buffer lend_bytes(const char *field);                     /* with the bytes that a field names: to be read */
buffer lend_list(const char *field, size_t width);        /* with a list's numbers, each of so many bytes */
bool edges_stand(const buffer *lent);                     /* the canaries on both sides are as before */
bool holds(const buffer *lent, const char *field);        /* the edges stand and the lent bytes are those of an output's field */
bool untouched(const buffer *lent);                       /* the edges stand and every lent byte is a canary */
bool still(const buffer *lent, const char *field);        /* the edges stand and the bytes read are still those of the field */
bool holds_list(const buffer *lent, const char *field, size_t width); /* the edges stand and the lent numbers are those of a list's field */
void give_back(buffer *lent);

uint64_t number_of(const char *field);

/* Each calls one entry and tells whether all of its answer is the expected one. */
bool replay_hash(const call *line);
bool replay_session(const call *line);
bool replay_seal(const call *line);
bool replay_generator(const call *line);
bool replay_plan(const call *line);
bool replay_hall(const call *line);

#endif
