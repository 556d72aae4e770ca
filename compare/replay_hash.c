/* The permutation, the three functions in one call, and sessions. */
#include <stdlib.h>
#include <string.h>

#include "replay.h"

static bool permutation(const call *line)
{
    buffer lanes = lend_bytes(line->fields[1]);
    hf_keccak_p((uint64_t *)(void *)lanes.bytes);
    bool same = holds(&lanes, line->fields[2]);
    give_back(&lanes);
    return same;
}

typedef hf_outcome one_shot(const uint8_t *, size_t, const uint8_t *, size_t, const uint8_t *, size_t, uint8_t *, size_t);

static one_shot *function_of(const char *entry)
{
    if (strcmp(entry, "cshake256") == 0)
        return hf_cshake256;
    return strcmp(entry, "kmac256") == 0 ? hf_kmac256 : hf_kmacxof256;
}

bool replay_hash(const call *line)
{
    char *const *f = line->fields;
    if (strcmp(f[0], "keccak_p") == 0)
        return permutation(line);
    buffer first = lend_bytes(f[1]), custom = lend_bytes(f[2]), message = lend_bytes(f[3]), out = lend(number_of(f[4]));
    hf_outcome done = function_of(f[0])(first.bytes, first.length, custom.bytes, custom.length, message.bytes, message.length, out.bytes, out.length);
    bool same = done.number == number_of(f[5]) && done.runs == number_of(f[6]);
    same = same && (done.number == 0 ? holds(&out, f[7]) : untouched(&out));
    same = same && still(&first, f[1]) && still(&custom, f[2]) && still(&message, f[3]);
    give_back(&first), give_back(&custom), give_back(&message), give_back(&out);
    return same;
}

/* The session that lines of `take` and `give` go on with. */
static hf_session session;

/* The step's number is the expected one, and a refusal hands the session back as it was passed in. */
static bool stepped(hf_step step, const char *number)
{
    bool kept = memcmp(step.session.lanes, session.lanes, sizeof session.lanes) == 0 && step.session.taken == session.taken &&
                step.session.given == session.given && step.session.limit == session.limit && step.session.position == session.position &&
                step.session.phase == session.phase && step.session.suffix == session.suffix && step.session.kmac == session.kmac;
    session = step.session;
    return step.number == number_of(number) && (step.number == 0 || kept);
}

static bool start(const call *line)
{
    char *const *f = line->fields;
    buffer first = lend_bytes(f[1]), custom = lend_bytes(f[2]);
    bool named = strcmp(f[0], "session_cshake256") == 0;
    hf_step step = (named ? hf_session_cshake256 : hf_session_kmacxof256)(first.bytes, first.length, custom.bytes, custom.length);
    session = step.session;
    bool same = step.number == number_of(f[3]) && still(&first, f[1]) && still(&custom, f[2]);
    give_back(&first), give_back(&custom);
    return same;
}

static bool take(const call *line)
{
    buffer piece = lend_bytes(line->fields[1]);
    bool same = stepped(hf_session_take(session, piece.bytes, piece.length), line->fields[2]) && still(&piece, line->fields[1]);
    give_back(&piece);
    return same;
}

static bool give(const call *line)
{
    buffer out = lend(number_of(line->fields[1]));
    hf_step step = hf_session_give(session, out.bytes, out.length);
    bool same = stepped(step, line->fields[2]) && (step.number == 0 ? holds(&out, line->fields[3]) : untouched(&out));
    give_back(&out);
    return same;
}

bool replay_session(const call *line)
{
    if (strcmp(line->fields[0], "take") == 0)
        return take(line);
    return strcmp(line->fields[0], "give") == 0 ? give(line) : start(line);
}
