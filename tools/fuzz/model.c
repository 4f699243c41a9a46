/* What docs/SHEET.md, docs/NUMBERS.md and include/retimer.h say, as plain C: limits, the sheet's check, the map of known ranges, the bytes of a session. */
#include "fuzz.h"
#include <string.h>

#define MOST_TICKS (UINT64_C(1) << 53)
#define MOST_FRAMES 1048576

/* ---- words and blocks */
uint32_t word_at(const uint8_t *b, size_t k) {
    return b[4 * k] | (uint32_t)b[4 * k + 1] << 8 | (uint32_t)b[4 * k + 2] << 16 | (uint32_t)b[4 * k + 3] << 24;
}

void word_to(uint8_t *b, size_t k, uint32_t v) {
    b[4 * k] = (uint8_t)v;
    b[4 * k + 1] = (uint8_t)(v >> 8);
    b[4 * k + 2] = (uint8_t)(v >> 16);
    b[4 * k + 3] = (uint8_t)(v >> 24);
}

/* Words are stored least byte first, as on the machines that this runs on. */
static uint32_t sum_of(const uint8_t *block) {
    uint32_t words[127], sum = 0;
    size_t k;
    memcpy(words, block, sizeof words);
    for (k = 0; k < 127; k++)
        sum += words[k];
    return sum;
}

void seal(uint8_t *block, uint32_t number) {
    word_to(block, 0, number);
    word_to(block, 127, sum_of(block));
}

static int holds(const uint8_t *block, uint32_t number) {
    return word_at(block, 0) == number && word_at(block, 127) == sum_of(block);
}

/* ---- limits */
int timescale_bad(uint32_t t) {
    return t < 1 || t > 1000000000;
}

int map_bad(const uint64_t *m, size_t length) {
    size_t k;
    if (length % 6 || length > 6144)
        return 1;
    for (k = 0; k < length; k += 6, m += 6)
        if (m[0] > UINT32_MAX || m[1] > UINT32_MAX || m[3] > UINT32_MAX || (wide)m[2] + m[5] > MOST_TICKS || (wide)m[4] + m[5] > MOST_TICKS)
            return 1;
    return 0;
}

int ascends(const uint64_t *m, size_t length) {
    wide source = 0, output = 0;
    size_t k;
    for (k = 0; k < length; k += 6, m += 6) {
        if (!m[5])
            continue;
        if (m[2] < source || m[4] < output)
            return 0;
        source = (wide)m[2] + m[5];
        output = (wide)m[4] + m[5];
    }
    return 1;
}

/* ---- captions */
uint64_t units_a_second(uint32_t kind) {
    return kind == 0 ? 100 : 1000;
}

wide ticks_of(uint64_t units, uint32_t timescale, uint32_t kind) {
    return (wide)units * timescale / units_a_second(kind);
}

int meets(const uint64_t *m, wide start, wide end) {
    return m[5] > 0 && start < (wide)m[2] + m[5] && end > m[2];
}

long first_met(const uint64_t *m, size_t length, wide start, wide end) {
    size_t k;
    for (k = 0; k < length / 6; k++)
        if (meets(m + 6 * k, start, end))
            return (long)k;
    return -1;
}

/* ---- the sheet: where a record's words stand, and its check */
static size_t record(uint32_t i, int wide_layout) {
    return wide_layout ? 128 * (1 + (size_t)i / 42) + 1 + 3 * (i % 42) : 128 * (1 + (size_t)i / 63) + 1 + 2 * (i % 63);
}

static uint64_t duration_of(const uint8_t *s, uint32_t i) {
    size_t at = record(i, word_at(s, 5) == 1);
    return word_at(s, at + 1) | (word_at(s, 5) == 1 ? (uint64_t)word_at(s, at + 2) << 32 : 0);
}

static uint32_t decode_of(const uint8_t *s, uint32_t i) {
    return word_at(s, record(i, word_at(s, 5) == 1)) & 0x7FFFFFFF;
}

static int sync_at(const uint8_t *s, uint32_t i) {
    return word_at(s, record(i, word_at(s, 5) == 1)) >> 31 == 1;
}

static uint32_t head_number(const uint8_t *s, size_t length) {
    uint32_t n, per = word_at(s, 5) == 1 ? 42 : 63;
    size_t k;
    if (!holds(s, 0))
        return 12;
    if (word_at(s, 5) > 1 || word_at(s, 1) < 1 || word_at(s, 1) > (word_at(s, 5) ? 1000000000u : 1000000u))
        return 13;
    n = word_at(s, 2);
    if (n < 1 || n > MOST_FRAMES)
        return 13;
    for (k = 6; k < 127; k++)
        if (word_at(s, k))
            return 13;
    return length == 512 * (1 + ((size_t)n + per - 1) / per) ? 0 : 11;
}

static uint32_t block_number(const uint8_t *s, uint32_t n, size_t b, int wide_layout) {
    uint32_t per = wide_layout ? 42 : 63, words = wide_layout ? 3 : 2, i, k;
    if (!holds(s + 512 * b, (uint32_t)b))
        return 12;
    for (i = (uint32_t)(per * (b - 1)); i < per * b; i++) {
        if (i < n && decode_of(s, i) >= n)
            return 14;
        for (k = 0; i >= n && k < words; k++)
            if (word_at(s, record(i, wide_layout) + k))
                return 14;
    }
    return 0;
}

static uint32_t whole_number(const uint8_t *s, uint32_t n) {
    static uint8_t named[MOST_FRAMES];
    wide total = 0;
    uint32_t i;
    memset(named, 0, n);
    for (i = 0; i < n; i++) {
        if (named[decode_of(s, i)]++)
            return 25;
    }
    for (i = 0; i < n; i++)
        total += duration_of(s, i);
    return total > MOST_TICKS ? 26 : 0;
}

/* Its number, and how many work bytes end zero. */
uint32_t sheet_number(const uint8_t *s, size_t length, size_t work, size_t *zeroed) {
    uint32_t number, n;
    size_t b;
    *zeroed = 0;
    if (!length || length % 512)
        return 11;
    number = head_number(s, length);
    n = word_at(s, 2);
    for (b = 1; !number && b < length / 512; b++)
        number = block_number(s, n, b, word_at(s, 5) == 1);
    if (number)
        return number;
    if (work < ((size_t)n + 7) / 8)
        return 16;
    *zeroed = ((size_t)n + 7) / 8;
    return whole_number(s, n);
}

/* ---- the map of a sound sheet and known ranges */
static uint64_t last_sync(const uint8_t *s, uint32_t n, uint64_t at, uint64_t otherwise) {
    uint64_t i;
    for (i = at < n ? at + 1 : n; i > 0; i--)
        if (sync_at(s, (uint32_t)(i - 1)))
            return i - 1;
    return otherwise;
}

static uint64_t next_sync(const uint8_t *s, uint32_t n, uint64_t at, uint64_t otherwise) {
    for (; at < n; at++)
        if (sync_at(s, (uint32_t)at))
            return at;
    return otherwise;
}

/* Six numbers of a snapped range; 9 or 10. */
static uint32_t segment_of(const uint8_t *s, uint32_t n, const struct range *r, wide output, uint64_t *m) {
    uint64_t first, k;
    if (r->start > r->end)
        return 9;
    first = r->start < n ? decode_of(s, (uint32_t)r->start) : n;
    if (first + (r->end - r->start) > n)
        return 10;
    memset(m, 0, 48);
    m[0] = r->start;
    m[1] = r->end;
    m[3] = r->end - r->start;
    m[4] = (uint64_t)output;
    for (k = 0; k < first; k++)
        m[2] += duration_of(s, (uint32_t)k);
    for (k = first; k < first + m[3]; k++)
        m[5] += duration_of(s, (uint32_t)k);
    return 0;
}

uint32_t map_of(const uint8_t *s, const struct range *list, size_t count, uint32_t direction, uint64_t *m, size_t *numbers) {
    static struct range snapped[1100];
    uint32_t n = word_at(s, 2), number;
    wide output = 0;
    size_t k;
    *numbers = 0;
    for (k = 0; k < count; k++) {
        snapped[k].start = direction ? next_sync(s, n, list[k].start, n) : last_sync(s, n, list[k].start, 0);
        snapped[k].end = direction ? last_sync(s, n, list[k].end, 0) : next_sync(s, n, list[k].end, n);
        if (k && snapped[k].start < snapped[k - 1].end)
            return 8;
    }
    for (k = 0; k < count; k++) {
        number = segment_of(s, n, snapped + k, output, m + 6 * k);
        if (number)
            return number;
        output += m[6 * k + 5];
    }
    *numbers = 6 * count;
    return output > MOST_TICKS ? 26 : 0;
}

/* ---- a session's bytes */
static int zeros(const uint8_t *b, size_t from, size_t to) {
    static const uint8_t none[512];
    return from >= to || !memcmp(b + from, none, to - from);
}

/* Whether the room behind the first `held` bytes is zero; it passes over each block's first and last word. */
static int room_zero(const uint8_t *s, uint32_t held) {
    size_t b;
    for (b = 0; b < 17; b++)
        if (!zeros(s + 512 * (b + 1) + 4, held <= 504 * b ? 0 : held - 504 * b, 504))
            return 0;
    return 1;
}

static int outcome(uint32_t k) {
    return k == 0 || (k >= 19 && k <= 22) || k == 24;
}

int is_parked(const uint8_t *s, size_t length) {
    uint32_t b;
    if (length != RETIMER_SESSION_BYTES)
        return 0;
    for (b = 0; b < 18; b++)
        if (!holds(s + 512 * b, b))
            return 0;
    if (word_at(s, 1) < 1 || word_at(s, 1) > 2 || word_at(s, 4) > 1 || !outcome(word_at(s, 5)) || word_at(s, 12) > 1 || !zeros(s, 68, 508))
        return 0;
    if (!word_at(s, 4))
        return room_zero(s, word_at(s, 16));
    return !word_at(s, 7) && zeros(s, 48, 68) && room_zero(s, 0);
}

/* Limits of 17 that one sees without reading what is held. */
int surely_foreign(const uint8_t *s) {
    uint32_t taken = word_at(s, 6), k;
    if (word_at(s, 2) > 2 || timescale_bad(word_at(s, 3)) || taken > 1u << 30 || word_at(s, 7) > taken || word_at(s, 16) > taken || word_at(s, 16) > 8192)
        return 1;
    for (k = 8; k < 12; k++)
        if (word_at(s, k) > taken)
            return 1;
    return !word_at(s, 4) && word_at(s, 5);
}
