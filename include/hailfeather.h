/* Hailfeather: Keccak-p[1600, 24], cSHAKE256, KMAC256 and KMACXOF256 in one call, the first and the last also in running sessions, sealing and opening by the
 * KMAC AEAD, the cSHAKE generator and the KMAC generator, chute plans and hall plans. Link with libhailfeather.a (x86-64), which needs nothing but the C
 * library's memory functions.
 *
 * Pointers. Every pointer to bytes, rows or values is followed by the number of its elements. No pointer may be null, also where there are no elements: lend
 * HF_NOTHING, or any other pointer that is not null, with the length 0. Compilers that know the attribute warn of a null pointer. Bytes need no alignment;
 * rows, values and lanes are aligned as their types ask. A buffer that a function writes must not overlap any other buffer of the same call, so nothing is
 * sealed, opened or hashed in place; buffers that are only read may overlap. No pointer is kept after a call.
 *
 * State. Nothing is kept between calls and no memory is asked for but at most 4 KiB of stack, so any thread may call at any time. A session and a generator
 * are plain values: pass one in, and put the one that is handed back in its place. A copy is a second session or generator that goes on from the same point,
 * so never draw from two copies of one generator. Both hold secrets: overwrite them when they are no longer needed. Only pass in what a function of this
 * header handed back; of one made up by hand nothing is promised but that the call is safe, returns, and writes only the output lent to it.
 *
 * Numbers. What a call hands back has a number, which hf_number names: 0 is done, any other is a refusal. Where several apply the smallest is given:
 *    0  done
 *    1  a session that is giving was asked to take, be it an empty piece; or a draw from a generator that was never seeded
 *    2  a KMAC256 or KMACXOF256 key is longer than 4,096 bytes; or a sealing key is not 32 bytes
 *    3  a name, a customisation or an IV is longer than 4,096 bytes; or an additional input or a personalisation is longer than 84
 *    4  cSHAKE256 was asked for with a name of exactly the four bytes KMAC, which belongs to the standard's own function
 *    5  a message (in a session the total so far, with this piece), or text and label together, is longer than 16,777,216 bytes; or a seed, a plan to
 *       be read, or the buffer or the length of a hall plan to be written is longer than 65,536
 *    6  an output (in a session the total so far, with this one) is longer than 16,777,216 bytes; or KMAC256 was asked for no bytes; or the output of
 *       sealing or opening is not as long as the text; or a session that could not start was asked for one byte or more
 *    7  a tag is shorter than 16 bytes or longer than 64
 *    8  the tag does not match
 *    9  the plan is malformed; or rows or halls to be written break the plan's rules; or rows, halls or a migrated plan do not fill the lent buffer exactly;
 *       or the lists that halls are to be read into are not exactly as long as there are entries
 *   10  the plan has no such chute
 * On a refusal every lent buffer and list is as it was before, a session or a generator is handed back as it was passed in, and a count, a destination, a
 * length and a number of rows, entries or chutes are 0. So a return value may be put in place of the old one whatever its number is. Three exceptions: the
 * answer for a malformed plan tells where it is malformed; a session that could not start is handed back giving, with nothing to give; and a walk that is asked
 * past the last row stays where it stands.
 *
 * Time. Of this archive, on an x86-64 processor, tests/secrets found no branch and no address that depends on a key, a text, a seed or a state, but the one
 * branch of hf_open on whether the tag matches, which it answers. Nothing of that is proved, and another compiler or processor may differ.
 */
#ifndef HAILFEATHER_H
#define HAILFEATHER_H

#include <stddef.h>
#include <stdint.h>

#ifdef __cplusplus
extern "C" {
#endif

/* The version of this header, 0.3.0; hf_version tells that of the archive, and the two are to be equal. */
#define HF_VERSION 300u
uint32_t hf_version(void);

/* Nothing to lend: a pointer that is not null, for a length of 0. */
#ifdef __cplusplus
#define HF_NOTHING ((uint8_t *)64)
#else
#define HF_NOTHING ((void *)64)
#endif

/* No pointer of the function may be null. */
#if defined __GNUC__
#define HF_NONNULL __attribute__((nonnull))
#else
#define HF_NONNULL
#endif

/* The numbers. */
enum hf_number {
    HF_DONE = 0,
    HF_WRONG_STATE = 1,
    HF_BAD_KEY_LENGTH = 2,
    HF_STRING_TOO_LONG = 3,
    HF_RESERVED_NAME = 4,
    HF_INPUT_TOO_LONG = 5,
    HF_BAD_OUTPUT_LENGTH = 6,
    HF_BAD_TAG_LENGTH = 7,
    HF_TAG_MISMATCH = 8,
    HF_MALFORMED_PLAN = 9,
    HF_NO_SUCH_CHUTE = 10
};

/* The limits, in bytes unless said otherwise. */
#define HF_MAX_KEY 4096           /* a KMAC key */
#define HF_MAX_NAME 4096          /* a name */
#define HF_MAX_CUSTOMISATION 4096 /* a customisation or an IV */
#define HF_MAX_MESSAGE 16777216   /* a message, in a session in all; text and label together */
#define HF_MAX_OUTPUT 16777216    /* an output, in a session in all; a draw */
#define HF_SEALING_KEY 32         /* a sealing key has exactly so many */
#define HF_MIN_TAG 16
#define HF_MAX_TAG 64
#define HF_MAX_SEED 65536
#define HF_MAX_PERSONALISATION 84
#define HF_MAX_ADDITIONAL 84
#define HF_MAX_PLAN 65536           /* a plan to be read; a hall plan to be written */
#define HF_MAX_ROWS 4096            /* rows */
#define HF_MAX_CHUTES 4096          /* chutes of a hall plan, in all its halls */
#define HF_MAX_LEVELS 8             /* levels of a hall plan, of which the outermost is the first */
#define HF_MAX_DESTINATION 2097151u /* the greatest destination; the greatest number of entries of a hall */

/* ---- Keccak-p, cSHAKE256, KMAC256, KMACXOF256 in one call (FIPS 202, SP 800-185) ---- */
typedef struct {
    size_t runs; /* the permutations that the call takes by its definition; 0 on a refusal */
    uint8_t number;
} hf_outcome;

/* Keccak-p[1600, 24] of 25 lanes where they stand: the lane (x, y) is lanes[5 * y + x]. */
void hf_keccak_p(uint64_t lanes[25]) HF_NONNULL;

/* cSHAKE256 (SP 800-185, 3): fills out. With no name and no customisation it is SHAKE256. A shorter output is the beginning of a longer one, and an
   output of no bytes is accepted. Refuses with 3, 4, 5, 6. */
hf_outcome hf_cshake256(const uint8_t *name, size_t name_length, const uint8_t *customisation, size_t customisation_length,
                        const uint8_t *message, size_t message_length, uint8_t *out, size_t out_length) HF_NONNULL;

/* KMAC256 (SP 800-185, 4): fills out. The output's length is part of what is authenticated, and may not be 0. Refuses with 2, 3, 5, 6. */
hf_outcome hf_kmac256(const uint8_t *key, size_t key_length, const uint8_t *customisation, size_t customisation_length,
                      const uint8_t *message, size_t message_length, uint8_t *out, size_t out_length) HF_NONNULL;

/* KMACXOF256 (SP 800-185, 4.3.1): fills out. A shorter output is the beginning of a longer one, and an output of no bytes is accepted. Refuses with
   2, 3, 5, 6. */
hf_outcome hf_kmacxof256(const uint8_t *key, size_t key_length, const uint8_t *customisation, size_t customisation_length,
                         const uint8_t *message, size_t message_length, uint8_t *out, size_t out_length) HF_NONNULL;

/* ---- Running sessions over cSHAKE256 and KMACXOF256 ----
 * A session takes the message in pieces and then gives the output in portions. The bytes given, joined, are the first bytes of what the one call gives
 * over the pieces, joined; refused calls count for nothing. The first accepted ask for output, be it for no bytes, ends the message for good. */
typedef struct {
    uint64_t lanes[25]; /* the sponge's lanes */
    size_t taken;       /* bytes of the message so far */
    size_t given;       /* bytes of output so far */
    size_t limit;       /* the most bytes that it gives: 16,777,216, or 0 for a session that could not start */
    size_t position;    /* the place of the next byte in the block of 136 bytes */
    uint8_t phase;      /* 0: taking; 1 (or any other number): giving */
    uint8_t suffix;     /* the byte after the message: 1F for SHAKE256, else 04; 0 for a session that could not start */
    uint8_t kmac;       /* 1 for KMACXOF256 (any number but 0 is read as 1), 0 for cSHAKE256 */
} hf_session;

typedef struct {
    hf_session session; /* the session after the call: put it in place of the one passed in */
    uint8_t number;
} hf_step;

/* Starts a session of cSHAKE256. Refuses with 3, 4. */
hf_step hf_session_cshake256(const uint8_t *name, size_t name_length, const uint8_t *customisation, size_t customisation_length) HF_NONNULL;
/* Starts a session of KMACXOF256. Refuses with 2, 3. */
hf_step hf_session_kmacxof256(const uint8_t *key, size_t key_length, const uint8_t *customisation, size_t customisation_length) HF_NONNULL;
/* Takes a piece of the message. An empty piece changes nothing. Refuses with 1, 5. */
hf_step hf_session_take(hf_session session, const uint8_t *piece, size_t piece_length) HF_NONNULL;
/* Fills out with the next bytes of output. Refuses with 6. */
hf_step hf_session_give(hf_session session, uint8_t *out, size_t out_length) HF_NONNULL;

/* ---- Sealing and opening ----
 * The count of runs is the sum over the two calls of KMACXOF256 that each is made of. The label is authenticated with the text and not encrypted. The tag
 * covers ciphertext and label joined, not the place where one ends and the other begins. */

/* Seals text under a key of 32 bytes and an IV (never twice with one key and one IV): the ciphertext into out, as long as the text, and a tag of 16 to 64
   bytes over ciphertext and label into tag. A shorter tag is the beginning of a longer one. Refuses with 2, 3, 5, 6, 7. */
hf_outcome hf_seal(const uint8_t *key, size_t key_length, const uint8_t *iv, size_t iv_length, const uint8_t *text, size_t text_length,
                   const uint8_t *label, size_t label_length, uint8_t *out, size_t out_length, uint8_t *tag, size_t tag_length) HF_NONNULL;

/* Opens what was sealed with the same key, IV and label: compares the tag first, and writes the text into out only if it is the one worked out afresh.
   Refuses with 2, 3, 5, 6, 7, 8. */
hf_outcome hf_open(const uint8_t *key, size_t key_length, const uint8_t *iv, size_t iv_length, const uint8_t *ciphertext, size_t ciphertext_length,
                   const uint8_t *label, size_t label_length, uint8_t *out, size_t out_length, const uint8_t *tag, size_t tag_length) HF_NONNULL;

/* ---- Generators ----
 * The cSHAKE generator (cSHAKE-DRNG), and the KMAC generator (KMAC-DRNG) for those whose policy names KMAC: they have the same limits, refusals and rules, but
 * each makes its own bytes of a seed, so to draw the same bytes again take the same generator. The first takes fewer runs. They gather no randomness: all of
 * it comes from the seeds. Each has types of its own, so that a compiler refuses a state of the one that is passed to the other. */

/* The cSHAKE generator. */
typedef struct {
    uint8_t key[64]; /* secret; all zero before the first seeding */
    uint8_t seeded;  /* 0: never seeded; 1 (or any other number): seeded */
} hf_generator;

typedef struct {
    hf_generator generator; /* the generator after the call: put it in place of the one passed in */
    size_t runs;            /* the permutations that the call takes by its definition; 0 on a refusal */
    uint8_t number;
} hf_draw;

/* A cSHAKE generator that was never seeded. */
hf_generator hf_generator_fresh(void);
/* Makes a new key of the old one, the seed and the personalisation (at most 84 bytes). It may be done again at any time; an empty seed is accepted and
   counts as a seeding. Refuses with 3, 5. */
hf_draw hf_generator_seed(hf_generator generator, const uint8_t *seed, size_t seed_length, const uint8_t *personalisation,
                          size_t personalisation_length) HF_NONNULL;

/* Fills out, with an additional input of at most 84 bytes, in pieces of 208 bytes, and makes a new key with each; 3 runs a piece. Two draws of 10 bytes
   are not one of 20. A draw of no bytes is accepted and leaves the key. Refuses with 1, 3, 6. */
hf_draw hf_generator_draw(hf_generator generator, const uint8_t *additional, size_t additional_length, uint8_t *out, size_t out_length) HF_NONNULL;

/* The KMAC generator: the fields mean what they mean above. */
typedef struct {
    uint8_t key[64];
    uint8_t seeded;
} hf_kmac_generator;

typedef struct {
    hf_kmac_generator generator;
    size_t runs;
    uint8_t number;
} hf_kmac_draw;

/* A KMAC generator that was never seeded. */
hf_kmac_generator hf_kmac_generator_fresh(void);
/* As hf_generator_seed. Refuses with 3, 5. */
hf_kmac_draw hf_kmac_generator_seed(hf_kmac_generator generator, const uint8_t *seed, size_t seed_length, const uint8_t *personalisation,
                                    size_t personalisation_length) HF_NONNULL;
/* As hf_generator_draw, but with 4 runs a piece. Refuses with 1, 3, 6. */
hf_kmac_draw hf_kmac_generator_draw(hf_kmac_generator generator, const uint8_t *additional, size_t additional_length, uint8_t *out,
                                    size_t out_length) HF_NONNULL;

/* ---- Chute plans ----
 * A plan is the number of its rows (at most 4,096), then the destination of each, then nothing more. A number stands in one to three groups of seven bits,
 * lowest group first, with the top bit of a byte set when another follows: 0 to 2,097,151. It stands in the fewest groups that hold it: 7 is 07, and 87 00,
 * whose last group is empty, is malformed; a single 00 is 0. So two good plans with equal rows are equal bytes. Chutes count from 1; destination 0 sends the
 * parcel round again. The plan 03 07 AC 02 00 has three rows, with destinations 7, 300 and 0. Every function reads its plan whole, so a plan that is bad
 * anywhere is refused whichever chute is asked for; the one exception is hf_plan_step, which relies on hf_plan_start. hf_plan_migrate writes an old copy, in
 * which numbers may have more groups than they need, as such a plan.
 *
 * Places. Every answer on plans, flat or of halls, has a place: with the number 9 for a malformed plan the byte, from 0, of the first breach in reading order,
 * each number being judged once it is read; else 0. The place is
 *    that of the first missing byte, which is the plan's length, where a number ends before its last group;
 *    that of a number's third byte where it goes on after that one;
 *    that of a number's last group where it is empty and others stand before it, whatever else the number's value breaks;
 *    0 where there are more than 4,096 rows;
 *    that of the first byte after the last row, or after the last entry;
 *    in a hall plan that of the first byte of a kind which is neither 0 nor 1, or of a hall beyond the eighth level, or of a chute beyond the 4,096th.
 * With 9 for rows or halls to be measured or written, for lists of the wrong length for a good hall plan, or for a buffer of the wrong length for a migrated
 * plan, it is 0. */
typedef struct {
    size_t place;
    uint32_t rows; /* 0 on a refusal */
    uint8_t number;
} hf_rows;

typedef struct {
    size_t place;
    uint32_t destination; /* 0 on a refusal: look at number, since 0 is a destination too */
    uint8_t number;
} hf_destination;

/* One of two plans, or neither. */
enum hf_source { HF_NEITHER = 0, HF_SITE = 1, HF_HOUSE = 2 };

typedef struct {
    size_t start;      /* the row's bytes are plan[start] to plan[start + length - 1] of the plan that source names */
    size_t length;     /* 1 to 3; 0 on a refusal, and then start is 0 too */
    size_t place;      /* in the plan that malformed names */
    uint8_t source;    /* one of hf_source: which plan the row is of; neither on a refusal */
    uint8_t malformed; /* one of hf_source: which plan the number 9 is for, the site plan if both are malformed; neither with every other number */
    uint8_t number;
} hf_row;

typedef struct {
    size_t length; /* in bytes; 0 on a refusal */
    size_t place;  /* in the plan to be migrated; 0 for rows and halls, since no plan is read */
    uint8_t number;
} hf_length;

typedef struct {
    size_t place; /* in the plan to be migrated; 0 for rows and halls, since no plan is read */
    uint8_t number;
} hf_written;

typedef struct {
    size_t at;      /* where the first row stands in the plan; 0 on a refusal */
    size_t place;
    uint8_t number; /* 0, or the plan's refusal */
} hf_cursor;

typedef struct {
    size_t next;          /* where the next row stands; on a refusal where the walk stood */
    size_t place;         /* that of the walk's plan with its number 9; else 0 */
    uint32_t destination; /* 0 on a refusal */
    uint8_t number;
} hf_walk;

/* How many rows a plan has. Refuses with 5, 9. */
hf_rows hf_plan_read(const uint8_t *plan, size_t plan_length) HF_NONNULL;

/* The destination of one chute. Refuses with 5, 9, 10: the last where chute is 0 or greater than this plan's number of rows. A chute has 64 bits so that no
   number that a program has is cut to a chute of the plan. */
hf_destination hf_plan_destination(const uint8_t *plan, size_t plan_length, uint64_t chute) HF_NONNULL;

/* Where the bytes of a chute's row are: in the site plan if it has that chute, else in the house plan. Refuses with 5, 9, 10: the first two where either
   plan is bad, the last where neither has the chute. The site plan is read first; where one plan is malformed and the other too long, the number is 5. */
hf_row hf_plan_row(const uint8_t *site, size_t site_length, const uint8_t *house, size_t house_length, uint64_t chute) HF_NONNULL;

/* How many bytes the plan with these destinations takes. Refuses with 9 where there are more than 4,096 rows or one is greater than 2,097,151. */
hf_length hf_plan_length(const uint32_t *rows, size_t rows_length) HF_NONNULL;

/* Writes the plan with these destinations into out, which must have exactly the length that hf_plan_length answers. Refuses with 9. */
hf_written hf_plan_write(const uint32_t *rows, size_t rows_length, uint8_t *out, size_t out_length) HF_NONNULL;

/* How many bytes the plan takes that hf_plan_migrate writes. The plan is read by the old rule, which differs in one thing: a number may stand in more groups
   than it needs, though not in more than three. Refuses with 5, 9: the last where the plan is malformed by the old rule too, at its place by that rule. */
hf_length hf_plan_migrated_length(const uint8_t *plan, size_t plan_length) HF_NONNULL;

/* Reads a plan by the old rule and writes the one with the same rows, each number in the fewest groups, into out, which must have exactly the length that
   hf_plan_migrated_length answers. A good plan is written as it is. Hall plans are not migrated. Refuses with 5, 9: the last also, at the place 0, where only
   the length of out is wrong. */
hf_written hf_plan_migrate(const uint8_t *plan, size_t plan_length, uint8_t *out, size_t out_length) HF_NONNULL;

/* A walk over the rows one after another. hf_plan_start reads the plan whole; its answer is kept beside the plan, which must not change meanwhile:
       hf_cursor walk = hf_plan_start(plan, plan_length);
       hf_walk row;
       while ((row = hf_plan_step(plan, plan_length, walk)).number == 0) {
           walk.at = row.next;
           .. row.destination ..
       }
   Refuses with 5, 9. */
hf_cursor hf_plan_start(const uint8_t *plan, size_t plan_length) HF_NONNULL;
/* The next row. Refuses with 5, 9, 10: at every ask with the number and the place that hf_plan_start gave, or past the last row with 10. */
hf_walk hf_plan_step(const uint8_t *plan, size_t plan_length, hf_cursor walk) HF_NONNULL;

/* ---- Hall plans ----
 * A hall plan is a number of entries, then the entries, then nothing more. An entry is a chute, which is the number 0 and a destination, or a hall, which is
 * the number 1, again a number of entries, and those entries. Numbers stand as in chute plans. The whole is level 1, a hall among its entries level 2, a hall
 * in that one level 3, and so on to at most 8; a hall may have no entries, and is a level all the same. There are at most 4,096 chutes in all, which count from
 * 1 in reading order through all halls.
 *
 * Outside its bytes a hall plan is its outermost number of entries and two lists of equal length, with an element for each entry in reading order, so that a
 * hall's entries follow the hall at once: kinds has whether it is a chute or a hall, values its destination or its hall's number of entries.
 * The hall plan 02 01 02 00 07 00 AC 02 00 00 is a hall of two chutes, and a chute, with destinations 7, 300 and 0: outer is 2, kinds are 1, 0, 0, 0, and
 * values are 2, 7, 300, 0. Every function reads its plan, or its lists, whole, so what is bad anywhere is refused. */
typedef struct {
    size_t entries;  /* of all halls: so long are the lists, at most 32,767; 0 on a refusal */
    size_t place;    /* as in chute plans */
    uint32_t outer;  /* the outermost number of entries; 0 on a refusal */
    uint32_t chutes; /* of all halls; 0 on a refusal */
    uint8_t number;
} hf_halls;

/* What an entry is. */
enum hf_kind { HF_CHUTE = 0, HF_HALL = 1 };

/* How many entries and chutes a hall plan has. Refuses with 5, 9. */
hf_halls hf_hall_read(const uint8_t *plan, size_t plan_length) HF_NONNULL;

/* The destination of one chute. Refuses with 5, 9, 10: the last where chute is 0 or greater than this plan's number of chutes. */
hf_destination hf_hall_destination(const uint8_t *plan, size_t plan_length, uint64_t chute) HF_NONNULL;

/* Reads a hall plan into two lists, each of which must have exactly as many elements as hf_hall_read answers entries. Answers what that does. Refuses with
   5, 9: the last also, at the place 0, where the plan is good and a list has another length. */
hf_halls hf_hall_read_into(const uint8_t *plan, size_t plan_length, uint8_t *kinds, size_t kinds_length, uint32_t *values,
                           size_t values_length) HF_NONNULL;

/* How many bytes the plan with these halls takes. Refuses with 5, 9: the first where the halls keep the rules and only their plan is too long, the last also
   where the lists are of unequal length, or hold fewer or more entries than outer and the halls promise. outer has 64 bits so that no number that a program
   has is cut to a good one. */
hf_length hf_hall_length(uint64_t outer, const uint8_t *kinds, size_t kinds_length, const uint32_t *values, size_t values_length) HF_NONNULL;

/* Writes the plan with these halls into out, which must have exactly the length that hf_hall_length answers. Refuses with 5, 9: the first where out is
   longer than any plan, whatever the lists are. */
hf_written hf_hall_write(uint64_t outer, const uint8_t *kinds, size_t kinds_length, const uint32_t *values, size_t values_length, uint8_t *out,
                         size_t out_length) HF_NONNULL;

#ifdef __cplusplus
}
#endif
#endif
