/* Sessions: pieces and portions of every small length against one call, the turn from taking to giving, refusals and what they leave as it was. */
#include "check.h"

static bool same(hf_session a, hf_session b) {
    return memcmp(a.lanes, b.lanes, sizeof a.lanes) == 0 && a.taken == b.taken && a.given == b.given && a.limit == b.limit && a.position == b.position &&
           a.phase == b.phase && a.suffix == b.suffix && a.kmac == b.kmac;
}

static hf_session start(void) { return hf_session_kmacxof256(TEXT("a key"), TEXT("a custom")).session; }

static void pieces(size_t piece, size_t portion) {
    uint8_t message[300], expected[300];
    for (size_t i = 0; i < sizeof message; i++) message[i] = (uint8_t)(7 * i + 3);
    EXPECT(hf_kmacxof256(TEXT("a key"), TEXT("a custom"), message, sizeof message, expected, sizeof expected).number == 0);
    hf_session session = start();
    for (size_t at = 0; at < sizeof message; at += piece) {
        size_t n = piece < sizeof message - at ? piece : sizeof message - at;
        session = hf_session_take(session, message + at, n).session;
    }
    EXPECT(session.taken == sizeof message && session.phase == 0);
    bool all = true;
    for (size_t at = 0; at < sizeof expected; at += portion) {
        size_t n = portion < sizeof expected - at ? portion : sizeof expected - at;
        lent out;
        hf_step step = hf_session_give(session, lend(&out, n), n);
        all = all && step.number == 0 && filled_with(&out, expected + at);
        session = step.session;
    }
    EXPECT(all && session.given == sizeof expected && session.phase == 1);
}

static void turning(void) {
    lent out;
    hf_session s = hf_session_take(start(), TEXT("piece")).session;
    hf_step step = hf_session_take(s, NONE);
    EXPECT(step.number == 0 && same(step.session, s));
    step = hf_session_give(s, lend(&out, 0), 0);
    EXPECT(step.number == 0 && step.session.phase == 1 && untouched(&out));
    hf_session giving = step.session;
    step = hf_session_take(giving, NONE);
    EXPECT(step.number == 1 && same(step.session, giving));
    step = hf_session_take(giving, big, TOO_MANY);
    EXPECT(step.number == 1 && same(step.session, giving));
    giving.phase = 2;
    EXPECT(hf_session_take(giving, NONE).number == 1);
}

static void limits(void) {
    lent out;
    hf_session s = start();
    hf_step step = hf_session_take(s, big, TOO_MANY);
    EXPECT(step.number == 5 && same(step.session, s));
    step = hf_session_take(s, big, MOST);
    EXPECT(step.number == 0 && step.session.taken == MOST);
    s = step.session;
    step = hf_session_take(s, big, 1);
    EXPECT(step.number == 5 && same(step.session, s));
    step = hf_session_give(s, big, TOO_MANY);
    EXPECT(step.number == 6 && same(step.session, s) && big[0] == 0 && big[MOST] == 0);
    step = hf_session_give(s, big, MOST);
    EXPECT(step.number == 0 && step.session.given == MOST && big[MOST] == 0);
    memset(big, 0, sizeof big);
    s = step.session;
    step = hf_session_give(s, lend(&out, 1), 1);
    EXPECT(step.number == 6 && same(step.session, s) && untouched(&out));
}

static void not_started(hf_step step, uint8_t number) {
    lent out;
    EXPECT(step.number == number && step.session.phase == 1 && step.session.limit == 0);
    EXPECT(hf_session_give(step.session, lend(&out, 1), 1).number == 6 && untouched(&out));
    EXPECT(hf_session_give(step.session, lend(&out, 0), 0).number == 0 && untouched(&out));
    EXPECT(hf_session_take(step.session, NONE).number == 1);
}

void check_sessions(void) {
    for (size_t n = 1; n <= 300; n += n < 20 ? 1 : 41) pieces(n, 301 - n), pieces(n, n);
    pieces(135, 136);
    pieces(136, 135);
    pieces(137, 137);
    turning();
    limits();
    not_started(hf_session_cshake256(TEXT("KMAC"), NONE), 4);
    not_started(hf_session_cshake256(big, 4097, NONE), 3);
    not_started(hf_session_kmacxof256(big, 4097, big, 4097), 2);
    not_started(hf_session_kmacxof256(NONE, big, 4097), 3);
}
