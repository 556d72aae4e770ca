/* What the C tests share: counted checks, and output buffers with canary bytes around them. */
#ifndef CHECK_H
#define CHECK_H

#include <stdbool.h>
#include <stddef.h>
#include <stdint.h>
#include <stdio.h>
#include <string.h>

#include "../../include/hailfeather.h"

/* Counts a check, and prints it if it fails. */
#define EXPECT(fact) expect((fact), #fact, __FILE__, __LINE__)
void expect(bool fact, const char *text, const char *file, int line);

/* A lent buffer of at most ROOM bytes, in the midst of canary bytes. */
enum { EDGE = 32, ROOM = 1024 };
typedef struct {
    uint8_t bytes[EDGE + ROOM + EDGE];
    size_t length;
} lent;

uint8_t *lend(lent *buffer, size_t length);               /* all of it canaries, and the pointer to lend */
bool untouched(const lent *buffer);                       /* every byte, inside and around, is still a canary */
bool filled_with(const lent *buffer, const uint8_t *all); /* the lent bytes are these, and the canaries around them stand */

/* A string's bytes and their number, as two arguments. */
#define TEXT(string) (const uint8_t *)(string), sizeof(string) - 1
#define NONE TEXT("")

/* Bytes and their number, as two arguments. */
#define BYTES(...) (const uint8_t[]){__VA_ARGS__}, sizeof(const uint8_t[]){__VA_ARGS__}

/* 16,777,217 bytes of zero: one more than a message or an output may have. */
enum { MOST = 16777216, TOO_MANY = MOST + 1 };
extern uint8_t big[TOO_MANY];

void check_samples(const char *vectors);
void check_hashes(void);
void check_sessions(void);
void check_seals(void);
void check_generators(void);
void check_plans(void);
void check_migration(void);
void check_halls(void);
void check_hall_limits(void);
void check_places(void);
void check_hall_places(void);
void check_stack(void);

#endif
