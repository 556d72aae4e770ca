/* Sealing and opening. */
#include <string.h>

#include "replay.h"

/* The arguments that sealing and opening share, lent. */
typedef struct {
    buffer key, iv, text, label, out;
} parts;

static parts lent_parts(char *const *f)
{
    return (parts){lend_bytes(f[1]), lend_bytes(f[2]), lend_bytes(f[3]), lend_bytes(f[4]), lend(number_of(f[5]))};
}

/* What was lent to be read is as it was, and what was lent to be written holds the output, or what it held where the call was refused. */
static bool as_expected(const parts *p, char *const *f, bool refused, const char *output)
{
    return still(&p->key, f[1]) && still(&p->iv, f[2]) && still(&p->text, f[3]) && still(&p->label, f[4]) &&
           (refused ? untouched(&p->out) : holds(&p->out, output));
}

static void give_back_parts(parts *p) { give_back(&p->key), give_back(&p->iv), give_back(&p->text), give_back(&p->label), give_back(&p->out); }

static bool seal(char *const *f)
{
    parts p = lent_parts(f);
    buffer tag = lend(number_of(f[6]));
    hf_outcome done = hf_seal(p.key.bytes, p.key.length, p.iv.bytes, p.iv.length, p.text.bytes, p.text.length, p.label.bytes, p.label.length,
                              p.out.bytes, p.out.length, tag.bytes, tag.length);
    bool refused = done.number != 0;
    bool same = done.number == number_of(f[7]) && done.runs == number_of(f[8]) && as_expected(&p, f, refused, f[9]) &&
                (refused ? untouched(&tag) : holds(&tag, f[10]));
    give_back_parts(&p), give_back(&tag);
    return same;
}

static bool open(char *const *f)
{
    parts p = lent_parts(f);
    buffer tag = lend_bytes(f[6]);
    hf_outcome done = hf_open(p.key.bytes, p.key.length, p.iv.bytes, p.iv.length, p.text.bytes, p.text.length, p.label.bytes, p.label.length,
                              p.out.bytes, p.out.length, tag.bytes, tag.length);
    bool same = done.number == number_of(f[7]) && done.runs == number_of(f[8]) && as_expected(&p, f, done.number != 0, f[9]) && still(&tag, f[6]);
    give_back_parts(&p), give_back(&tag);
    return same;
}

bool replay_seal(const call *line) { return (strcmp(line->fields[0], "seal") == 0 ? seal : open)(line->fields); }
