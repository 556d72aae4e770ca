/* Sealing against its definition by two calls of KMACXOF256, the way back, and what a wrong bit anywhere does. */
#include "check.h"

static const uint8_t key[32] = "a sealing key of 32 bytes, here.";
static uint8_t text[105];

static hf_outcome seal(size_t text_length, lent *out, lent *tag, size_t tag_length) {
    return hf_seal(key, 32, TEXT("iv"), text, text_length, TEXT("label"), lend(out, text_length), text_length, lend(tag, tag_length), tag_length);
}

static void by_definition(void) {
    uint8_t stream[32 + sizeof text], joined[sizeof text + 5], expected_tag[64];
    EXPECT(hf_kmacxof256(key, 32, TEXT("iv"), NONE, stream, sizeof stream).number == 0);
    for (size_t i = 0; i < sizeof text; i++) joined[i] = text[i] ^ stream[32 + i];
    memcpy(joined + sizeof text, "label", 5);
    EXPECT(hf_kmacxof256(stream, 32, NONE, joined, sizeof joined, expected_tag, 64).number == 0);
    lent out, tag;
    hf_outcome outcome = seal(sizeof text, &out, &tag, 64);
    EXPECT(outcome.number == 0 && outcome.runs == 7);
    EXPECT(filled_with(&out, joined) && filled_with(&tag, expected_tag));
    EXPECT(seal(104, &out, &tag, 16).runs == 6);
}

static void and_back(void) {
    lent out, tag, back;
    EXPECT(seal(sizeof text, &out, &tag, 32).number == 0);
    uint8_t *c = out.bytes + EDGE, *t = tag.bytes + EDGE;
    hf_outcome o = hf_open(key, 32, TEXT("iv"), c, sizeof text, TEXT("label"), lend(&back, sizeof text), sizeof text, t, 32);
    EXPECT(o.number == 0 && o.runs == 7 && filled_with(&back, text));
    o = hf_open(key, 32, TEXT("iv"), c, sizeof text, TEXT("label"), lend(&back, sizeof text), sizeof text, t, 16);
    EXPECT(o.number == 0 && filled_with(&back, text));
    bool refused = true;
    for (size_t bit = 0; bit < 8 * (sizeof text + 32); bit++) {
        uint8_t *at = bit / 8 < sizeof text ? c + bit / 8 : t + bit / 8 - sizeof text;
        *at ^= (uint8_t)(1u << bit % 8);
        o = hf_open(key, 32, TEXT("iv"), c, sizeof text, TEXT("label"), lend(&back, sizeof text), sizeof text, t, 32);
        *at ^= (uint8_t)(1u << bit % 8);
        refused = refused && o.number == 8 && o.runs == 0 && untouched(&back);
    }
    EXPECT(refused);
    o = hf_open(key, 32, TEXT("iv"), c, sizeof text, TEXT("Label"), lend(&back, sizeof text), sizeof text, t, 32);
    EXPECT(o.number == 8 && untouched(&back));
    o = hf_open(key, 32, TEXT("iv"), c, sizeof text, TEXT("label"), lend(&back, sizeof text), sizeof text, t, 0);
    EXPECT(o.number == 7 && untouched(&back));
}

static void refusals(void) {
    static const struct {
        size_t key, iv, text, out, tag;
        uint8_t number;
    } rows[] = {{31, 4097, TOO_MANY, 5, 15, 2}, {33, 0, 4, 4, 16, 2},  {32, 4097, TOO_MANY, 5, 15, 3}, {32, 0, TOO_MANY, 5, 15, 5},
                {32, 0, 4, 5, 15, 6},           {32, 0, 4, 4, 15, 7}, {32, 0, 4, 4, 65, 7}};
    for (size_t i = 0; i < sizeof rows / sizeof *rows; i++) {
        lent out, tag;
        size_t o_length = rows[i].out, t_length = rows[i].tag;
        uint8_t *to = lend(&out, o_length);
        hf_outcome o = hf_seal(big, rows[i].key, big, rows[i].iv, big, rows[i].text, NONE, to, o_length, lend(&tag, t_length), t_length);
        EXPECT(o.number == rows[i].number && o.runs == 0 && untouched(&out) && untouched(&tag));
        o = hf_open(big, rows[i].key, big, rows[i].iv, big, rows[i].text, NONE, to, o_length, big, t_length);
        EXPECT(o.number == rows[i].number && o.runs == 0 && untouched(&out));
    }
}

void check_seals(void) {
    for (size_t i = 0; i < sizeof text; i++) text[i] = (uint8_t)(11 * i + 5);
    by_definition();
    and_back();
    refusals();
    lent out, tag;
    EXPECT(hf_seal(key, 32, NONE, NONE, NONE, lend(&out, 0), 0, lend(&tag, 64), 64).runs == 6 && untouched(&out));
}
