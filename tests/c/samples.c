/* NIST's samples for cSHAKE256, KMAC256 and KMACXOF256 and the permuted zero state (vectors/README.md has the layout of the file). */
#include <stdlib.h>

#include "check.h"

typedef struct {
    uint8_t bytes[256];
    size_t length;
} string;

static string hex(const char *digits) {
    string s = {.length = 0};
    unsigned byte;
    while (s.length < sizeof s.bytes && sscanf(digits + 2 * s.length, "%2x", &byte) == 1) s.bytes[s.length++] = (uint8_t)byte;
    return s;
}

static string counted(const char *range) {
    string s = {.length = 0};
    unsigned first = 1, last = 0;
    EXPECT(sscanf(range, "%x to %x", &first, &last) == 2);
    for (unsigned b = first; b <= last; b++) s.bytes[s.length++] = (uint8_t)b;
    return s;
}

static string text(const char *field) {
    string s = {.length = strcmp(field, "-") == 0 ? 0 : strlen(field)};
    memcpy(s.bytes, field, s.length);
    return s;
}

/* Takes the message byte by byte and gives the output in portions of 1, 2, 3 and so on. */
static void in_pieces(hf_step step, const string *message, const string *expected) {
    EXPECT(step.number == 0);
    for (size_t i = 0; i < message->length; i++) step = hf_session_take(step.session, message->bytes + i, 1);
    EXPECT(step.number == 0);
    size_t done = 0;
    for (size_t portion = 1; done < expected->length; done += portion, portion++) {
        if (portion > expected->length - done) portion = expected->length - done;
        lent out;
        step = hf_session_give(step.session, lend(&out, portion), portion);
        EXPECT(step.number == 0 && filled_with(&out, expected->bytes + done));
    }
}

static void sample(const char *title, const string *key, const string *name, const string *custom, const string *message, const string *expected) {
    lent out;
    uint8_t *to = lend(&out, expected->length);
    const uint8_t *k = key->bytes, *n = name->bytes, *s = custom->bytes, *x = message->bytes;
    hf_outcome outcome = {0, 255};
    if (strncmp(title, "cSHAKE256", 9) == 0) {
        outcome = hf_cshake256(n, name->length, s, custom->length, x, message->length, to, expected->length);
        in_pieces(hf_session_cshake256(n, name->length, s, custom->length), message, expected);
    } else if (strncmp(title, "KMACXOF256", 10) == 0) {
        outcome = hf_kmacxof256(k, key->length, s, custom->length, x, message->length, to, expected->length);
        in_pieces(hf_session_kmacxof256(k, key->length, s, custom->length), message, expected);
    } else {
        outcome = hf_kmac256(k, key->length, s, custom->length, x, message->length, to, expected->length);
    }
    EXPECT(outcome.number == 0 && filled_with(&out, expected->bytes));
}

static void sample_line(char *line) {
    char *fields[7];
    for (int i = 0; i < 7; i++) {
        fields[i] = line;
        char *end = strstr(line, " | ");
        if (end == NULL) {
            EXPECT(i == 6);
            break;
        }
        *end = 0;
        line = end + 3;
    }
    string key = hex(fields[1]), name = text(fields[2]), custom = text(fields[3]), message = counted(fields[4]), expected = hex(fields[6]);
    EXPECT(expected.length == 64 && strcmp(fields[5], "64") == 0);
    sample(fields[0], &key, &name, &custom, &message, &expected);
}

/* The lanes on a line, against the state permuted so far and once more; canary lanes stand on both sides. */
static void state_line(const char *line, uint64_t lanes[27]) {
    hf_keccak_p(lanes + 1);
    char *at = (char *)line;
    bool same = true;
    for (int i = 1; i <= 25; i++) same = same && lanes[i] == strtoull(at, &at, 16);
    EXPECT(same && lanes[0] == 7 && lanes[26] == 7);
}

void check_samples(const char *vectors) {
    FILE *file = fopen(vectors, "r");
    EXPECT(file != NULL);
    if (file == NULL) return;
    char line[2048];
    int samples = 0, states = 0;
    uint64_t lanes[27] = {[0] = 7, [26] = 7};
    while (fgets(line, sizeof line, file) != NULL) {
        line[strcspn(line, "\n")] = 0;
        bool ours = strncmp(line, "cSHAKE256 ", 10) == 0 || strncmp(line, "KMAC256 ", 8) == 0 || strncmp(line, "KMACXOF256 ", 11) == 0;
        if (ours) sample_line(line), samples++;
        if (strncmp(line, "once ", 5) == 0 || strncmp(line, "twice ", 6) == 0) state_line(line + 6, lanes), states++;
        if (strlen(line) == 64 && strspn(line, "0123456789ABCDEF") == 64) {
            string none = {.length = 0}, expected = hex(line);
            sample("cSHAKE256", &none, &none, &none, &none, &expected);
            samples++;
        }
    }
    fclose(file);
    EXPECT(samples == 9 && states == 2);
}
