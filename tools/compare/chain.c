/* The whole chain from C: the map of a sheet and a list, a session opened through it, a text fed in pieces of a size and finished;
 * and the whole text at once.
 *   chain KIND SHEET LIST TEXT EXPECTED SIZE
 * The retimed text must be EXPECTED's bytes. Prints the counts and the warnings as lines; exit status 1 where something differs. */
#include "retimer.h"
#include <stdio.h>
#include <stdlib.h>
#include <string.h>

struct bytes {
    uint8_t *at;
    size_t length;
};

struct retimed {
    uint8_t *out;
    uint64_t *warnings;
    uint64_t written, warned, counts[4];
};

static void fail(const char *what, unsigned long number) {
    fprintf(stderr, "chain: %s: %lu\n", what, number);
    exit(1);
}

/* Zeros, kept until the end. */
static void *room(size_t length) {
    static void *made[32];
    static size_t many;
    void *at = many < 32 ? made[many++] = calloc(length ? length : 1, 1) : NULL;
    if (!at)
        fail("no memory for", (unsigned long)length);
    return at;
}

static struct bytes file(const char *path) {
    struct bytes b = {NULL, 0};
    FILE *f = fopen(path, "rb");
    long size = 0;
    if (!f || fseek(f, 0, SEEK_END) || (size = ftell(f)) < 0 || fseek(f, 0, SEEK_SET))
        fail(path, 0);
    b.length = (size_t)size;
    b.at = room(b.length);
    if (fread(b.at, 1, b.length, f) != b.length)
        fail(path, 0);
    fclose(f);
    return b;
}

/* Word k of block 0 of a session: 8 to 11 are the counts. */
static uint64_t word(const uint8_t *session, size_t k) {
    return session[4 * k] | (uint64_t)session[4 * k + 1] << 8 | (uint64_t)session[4 * k + 2] << 16 | (uint64_t)session[4 * k + 3] << 24;
}

static struct retimed places(size_t length) {
    struct retimed r;
    memset(&r, 0, sizeof r);
    r.out = room(3 * length + RETIMER_LEAST_OUTPUT);
    r.warnings = room(8 * (length / 3 + RETIMER_LEAST_PLACES));
    return r;
}

/* One call's answer, joined to those before; a size of 0 finishes. */
static uint32_t call(uint8_t *session, const uint64_t *map, size_t numbers, const uint8_t *piece, size_t size, struct retimed *r) {
    uint64_t written = 0, warned = 0;
    uint8_t *out = r->out + r->written;
    uint64_t *warnings = r->warnings + r->warned;
    uint32_t number = size ? retimer_feed(session, RETIMER_SESSION_BYTES, map, numbers, piece, size, out, RETIMER_LEAST_OUTPUT, warnings, RETIMER_LEAST_PLACES, &written, &warned)
                           : retimer_finish(session, RETIMER_SESSION_BYTES, map, numbers, out, RETIMER_LEAST_OUTPUT, warnings, RETIMER_LEAST_PLACES, &written, &warned);
    r->written += written;
    r->warned += warned;
    return number;
}

static struct retimed in_pieces(uint32_t kind, uint32_t timescale, const uint64_t *map, size_t numbers, struct bytes text, size_t size) {
    static uint8_t session[RETIMER_SESSION_BYTES];
    struct retimed r = places(text.length + RETIMER_MOST_PIECE);
    uint32_t number = retimer_open(kind, timescale, map, numbers, session, sizeof session);
    size_t at = 0, k;
    if (number)
        fail("retimer_open", number);
    for (; at < text.length && !number; at += size)
        number = call(session, map, numbers, text.at + at, text.length - at < size ? text.length - at : size, &r);
    if (!number)
        number = call(session, map, numbers, NULL, 0, &r);
    if (number)
        fail("the text", number);
    for (k = 0; k < 4; k++)
        r.counts[k] = word(session, 8 + k);
    return r;
}

static struct retimed at_once(uint32_t kind, uint32_t timescale, const uint64_t *map, size_t numbers, struct bytes text) {
    struct retimed r = places(text.length);
    uint64_t told[RETIMER_TOLD_NUMBERS] = {0};
    uint32_t number = retimer_text(kind, timescale, map, numbers, text.at, text.length, r.out, RETIMER_OUTPUT_FOR(text.length), r.warnings, RETIMER_PLACES_FOR(text.length), told, RETIMER_TOLD_NUMBERS);
    if (number)
        fail("retimer_text", number);
    if (told[RETIMER_TOLD_TAKEN] != text.length)
        fail("retimer_text took", (unsigned long)told[RETIMER_TOLD_TAKEN]);
    r.written = told[RETIMER_TOLD_WRITTEN];
    r.warned = told[RETIMER_TOLD_WARNED];
    memcpy(r.counts, told + RETIMER_TOLD_SHIFTED, sizeof r.counts);
    return r;
}

static void same(const struct retimed *r, const struct retimed *s) {
    if (r->written != s->written || memcmp(r->out, s->out, r->written))
        fail("another text at once", (unsigned long)s->written);
    if (r->warned != s->warned || memcmp(r->warnings, s->warnings, 8 * r->warned) || memcmp(r->counts, s->counts, sizeof r->counts))
        fail("other warnings or counts at once", (unsigned long)s->warned);
}

static void show(const struct retimed *r) {
    size_t k;
    printf("retimed %lu %lu %lu %lu\n", (unsigned long)r->counts[0], (unsigned long)r->counts[1], (unsigned long)r->counts[2], (unsigned long)r->counts[3]);
    for (k = 0; k + 1 < r->warned; k += 2)
        printf("warning %lu %lu\n", (unsigned long)r->warnings[k], (unsigned long)r->warnings[k + 1]);
}

int main(int count, char **words) {
    static uint8_t work[RETIMER_MOST_WORK];
    static uint64_t map[RETIMER_MAP_NUMBERS];
    uint32_t kind, timescale = 0, number;
    uint64_t segments = 0;
    struct bytes sheet, list, text, expected;
    struct retimed r, s;
    if (count != 7 || !atoi(words[6])) {
        fprintf(stderr, "usage: chain KIND SHEET LIST TEXT EXPECTED SIZE\n");
        return 2;
    }
    kind = (uint32_t)atoi(words[1]);
    sheet = file(words[2]), list = file(words[3]), text = file(words[4]), expected = file(words[5]);
    number = retimer_map(sheet.at, sheet.length, list.at, list.length, RETIMER_OUTWARD, work, sizeof work, map, RETIMER_MAP_NUMBERS, &timescale, &segments);
    if (number)
        fail("retimer_map", number);
    r = in_pieces(kind, timescale, map, 6 * segments, text, (size_t)atoi(words[6]));
    if (r.written != expected.length || memcmp(r.out, expected.at, expected.length))
        fail("the text is not as expected, bytes", (unsigned long)r.written);
    s = at_once(kind, timescale, map, 6 * segments, text);
    same(&r, &s);
    show(&r);
    return 0;
}
