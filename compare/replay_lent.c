/* Lent buffers for the replay: bytes from the file's fields, canaries, and comparison with what is expected. */
#include <stdio.h>
#include <stdlib.h>
#include <string.h>
#include <sys/mman.h>
#include <unistd.h>

#include "replay.h"

enum { CANARY = 0xA5 };

/* The pages that hold so many bytes and the page after them. */
static size_t pages(size_t length)
{
    size_t page = (size_t)sysconf(_SC_PAGESIZE);
    return (length + page - 1) / page * page + page;
}

/* Memory that ends where a page begins that may not be touched. */
static uint8_t *guarded(size_t length)
{
    size_t page = (size_t)sysconf(_SC_PAGESIZE), all = pages(length);
    uint8_t *from = mmap(NULL, all, PROT_READ | PROT_WRITE, MAP_PRIVATE | MAP_ANONYMOUS, -1, 0);
    if (from == MAP_FAILED || mprotect(from + all - page, page, PROT_NONE) != 0)
        return NULL;
    return from + all - page - length;
}

static buffer allocated(size_t length)
{
    size_t edge = lending == CANARIES ? 64 : 0;
    buffer lent = {lending == GUARDED ? guarded(length) : malloc(edge + length + edge), NULL, length, edge};
    if (lent.whole == NULL) {
        fprintf(stderr, "replay: no memory for %zu bytes\n", length);
        exit(3);
    }
    memset(lent.whole, CANARY, edge + length + edge);
    lent.bytes = lent.whole + edge;
    return lent;
}

buffer lend(size_t length) { return allocated(length); }

uint64_t number_of(const char *field) { return strtoull(field, NULL, 10); }

static unsigned digit(char c) { return (unsigned)(c <= '9' ? c - '0' : c - 'a' + 10); }

static uint8_t pair(const char *digits) { return (uint8_t)(16 * digit(digits[0]) + digit(digits[1])); }

static size_t length_of(const char *field)
{
    if (field[0] == '-')
        return 0;
    return field[0] == '*' || field[0] == '%' ? (size_t)number_of(field + 1) : strlen(field) / 2;
}

/* Byte i of the bytes that a field names. */
static uint8_t byte_of(const char *field, size_t seed, size_t i) { return field[0] == '*' ? (uint8_t)(seed + 7 * i + i / 256) : pair(field + 2 * i); }

static size_t seed_of(const char *field) { return field[0] == '*' ? (size_t)number_of(strchr(field, ':') + 1) : 0; }

buffer lend_bytes(const char *field)
{
    buffer lent = allocated(length_of(field));
    size_t seed = seed_of(field);
    for (size_t i = 0; i < lent.length; i++)
        lent.bytes[i] = byte_of(field, seed, i);
    return lent;
}

/* How many numbers a list's field has; each goes in so many bytes, low byte first, to where they are to stand, unless that is NULL. */
static size_t list_of(const char *field, size_t width, uint8_t *to)
{
    size_t count = 0;
    for (char *after; *field >= '0' && *field <= '9'; field = *after == ',' ? after + 1 : after) {
        uint64_t times = 1, value = strtoull(field, &after, 10);
        if (*after == '*')
            times = value, value = strtoull(after + 1, &after, 10);
        for (; times > 0; times--, count++)
            for (size_t i = 0; to != NULL && i < width; i++)
                to[width * count + i] = (uint8_t)(value >> 8 * i);
    }
    return count;
}

buffer lend_list(const char *field, size_t width)
{
    buffer lent = allocated(width * list_of(field, width, NULL));
    list_of(field, width, lent.bytes);
    return lent;
}

static bool all_canaries(const uint8_t *from, size_t length)
{
    for (size_t i = 0; i < length; i++)
        if (from[i] != CANARY)
            return false;
    return true;
}

bool edges_stand(const buffer *lent) { return all_canaries(lent->whole, lent->edge) && all_canaries(lent->bytes + lent->length, lent->edge); }

bool untouched(const buffer *lent) { return all_canaries(lent->whole, lent->edge + lent->length + lent->edge); }

bool still(const buffer *lent, const char *field)
{
    size_t seed = seed_of(field);
    bool same = edges_stand(lent) && lent->length == length_of(field);
    for (size_t i = 0; same && i < lent->length; i++)
        same = lent->bytes[i] == byte_of(field, seed, i);
    return same;
}

/* CRC-32 as zlib has it, by a table of the 256 bytes. */
static uint32_t crc32(const uint8_t *bytes, size_t length)
{
    static uint32_t table[256];
    for (uint32_t n = 0; table[255] == 0 && n < 256; n++) {
        table[n] = n;
        for (int bit = 0; bit < 8; bit++)
            table[n] = table[n] & 1 ? table[n] >> 1 ^ 0xEDB88320 : table[n] >> 1;
    }
    uint32_t crc = 0xFFFFFFFF;
    for (size_t i = 0; i < length; i++)
        crc = table[(crc ^ bytes[i]) & 255] ^ crc >> 8;
    return ~crc;
}

bool holds(const buffer *lent, const char *field)
{
    if (field[0] != '%')
        return still(lent, field);
    uint32_t expected = (uint32_t)strtoul(strchr(field, ':') + 1, NULL, 16);
    return edges_stand(lent) && lent->length == length_of(field) && crc32(lent->bytes, lent->length) == expected;
}

bool holds_list(const buffer *lent, const char *field, size_t width)
{
    buffer expected = lend_list(field, width);
    bool same = edges_stand(lent) && lent->length == expected.length && memcmp(lent->bytes, expected.bytes, lent->length) == 0;
    give_back(&expected);
    return same;
}

void give_back(buffer *lent)
{
    if (lending == GUARDED && lent->whole != NULL)
        munmap((uint8_t *)((uintptr_t)lent->whole / (uintptr_t)sysconf(_SC_PAGESIZE) * (uintptr_t)sysconf(_SC_PAGESIZE)), pages(lent->length));
    else
        free(lent->whole);
    *lent = (buffer){NULL, NULL, 0, 0};
}
