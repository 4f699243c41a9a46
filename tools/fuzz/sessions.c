/* Cases of sessions: opened, fed in random pieces, with refused calls between, damaged, forged, called after the end.
 * Two cuttings of a text, and the whole text at once. */
#define _GNU_SOURCE
#include "fuzz.h"
#include <stdlib.h>
#include <string.h>
#include <sys/mman.h>

#define SIZE RETIMER_SESSION_BYTES

/* What a caller of several calls has joined. */
struct run {
    uint8_t session[SIZE], out[3 * MOST_CAPTIONS + 4096];
    uint64_t warnings[MOST_CAPTIONS + 4096], taken;
    size_t written, warned;
    uint32_t number;
    int ended;
};
static struct run first, second;

/* What is wrong with a call, in the order of its numbers. */
enum { LENGTH = 1, BIT = 2, BAD_MAP = 4, LONG_PIECE = 8, SHORT_OUT = 16, FEW_PLACES = 32 };

/* What a call is given and lent. */
struct lot {
    enum function f;
    uint8_t *session, *out;
    const uint64_t *map;
    const uint8_t *piece;
    uint64_t *warnings;
    size_t size, numbers, length, out_lent, places;
};

static int ends_text(uint32_t number) {
    return (number >= 19 && number <= 22) || number == 24;
}

/* ---- one call */
static void lend_all(struct lot *l, const uint8_t *session, const uint64_t *map, const uint8_t *piece) {
    l->session = lend(&lent_session, l->size);
    lend_these(&lent_session, l->session, session, l->size < SIZE ? l->size : SIZE);
    l->map = given(&in_map, map, 8 * l->numbers);
    l->piece = given(&in_text, piece, l->length);
    l->out = lend(&lent_out, l->out_lent);
    l->warnings = (uint64_t *)(void *)lend(&lent_warnings, 8 * l->places);
}

static uint32_t called(const struct lot *l) {
    if (l->f == FINISH)
        return answered(FINISH, retimer_finish(l->session, l->size, l->map, l->numbers, l->out, l->out_lent, l->warnings, l->places, place(0), place(1)));
    return answered(FEED, call.feed(l->session, l->size, l->map, l->numbers, l->piece, l->length, l->out, l->out_lent, l->warnings, l->places, place(0), place(1)));
}

/* A refused call: all that was lent is as it was. */
static void nothing_written(const struct lot *l) {
    kept(l->f, &lent_session, l->session, l->size, 0, "the session of a refused call");
    kept(l->f, &lent_out, l->out, l->out_lent, 0, "the output of a refused call");
    kept(l->f, &lent_warnings, l->warnings, 8 * l->places, 0, "the warnings of a refused call");
    place_kept(l->f, 0);
    place_kept(l->f, 1);
}

/* The session that a call left: sealed, of the same kind and timescale, with the piece taken, ended by a fault or a finish.
 * An empty piece leaves it as it was. */
static void went_on(const struct lot *l, const uint8_t *before, uint32_t number) {
    const uint8_t *s = l->session;
    uint32_t ended = number || l->f == FINISH;
    if (l->f == FEED && l->length == 0) {
        expect(number == 0 && memcmp(s, before, SIZE) == 0, l->f, "a session that an empty piece changed");
        return;
    }
    expect(is_parked(s, SIZE) && word_at(s, 1) == 2, l->f, "a session that is not sealed");
    expect(word_at(s, 2) == word_at(before, 2) && word_at(s, 3) == word_at(before, 3), l->f, "kind or timescale of the session");
    expect(word_at(s, 6) == word_at(before, 6) + l->length, l->f, "bytes taken");
    expect(word_at(s, 4) == ended && word_at(s, 5) == number, l->f, "ended or outcome");
}

/* An accepted call: what was told is taken, all behind it is as it was. */
static void take(const struct lot *l, struct run *r, uint32_t number) {
    uint64_t written = *place(0), warned = *place(1), line = r->warned ? r->warnings[r->warned - 1] : 1, k;
    expect(written <= l->out_lent && warned <= l->places && warned % 2 == 0, l->f, "told lengths");
    went_on(l, r->session, number);
    r->taken += l->length;
    expect(r->written + written <= 3 * r->taken + 3, l->f, "more than three bytes for each byte taken");
    memcpy(r->out + r->written, l->out, written);
    memcpy(r->warnings + r->warned, l->warnings, 8 * warned);
    for (k = 0; k < warned; line = l->warnings[k + 1], k += 2)
        expect(l->warnings[k] >= 1 && l->warnings[k] <= 5 && l->warnings[k + 1] >= line && l->warnings[k + 1] <= r->taken, l->f, "a warning");
    r->written += written;
    r->warned += warned;
    memcpy(r->session, l->session, SIZE);
    kept(l->f, &lent_session, l->session, l->size, SIZE, "beside the session");
    kept(l->f, &lent_out, l->out, l->out_lent, written, "output behind what was told");
    kept(l->f, &lent_warnings, l->warnings, 8 * l->places, 8 * warned, "places behind what was told");
    place_done(l->f, 0);
    place_done(l->f, 1);
    r->number = number;
    r->ended = number || l->f == FINISH;
}

static uint32_t expected_refusal(const struct run *r, unsigned wrong) {
    if (wrong & (LENGTH | BIT))
        return 27;
    if (r->ended)
        return 18;
    if (wrong & BAD_MAP)
        return 15;
    return wrong & (LONG_PIECE | SHORT_OUT | FEW_PLACES) ? 16 : 0;
}

/* One call with some things wrong. */
static void one_call(struct run *r, enum function f, const uint64_t *map, size_t numbers, const uint8_t *piece, size_t length, unsigned wrong) {
    static uint64_t bad_map[MOST_NUMBERS];
    struct lot l;
    uint32_t as = expected_refusal(r, wrong), number;
    memset(&l, 0, sizeof l);
    l.f = f;
    l.size = wrong & LENGTH ? (one_in(2) ? SIZE + 1 + below(1000) : below(SIZE)) : SIZE;
    l.numbers = wrong & BAD_MAP ? numbers + 1 : numbers;
    l.length = wrong & LONG_PIECE ? RETIMER_MOST_PIECE + 1 + (one_in(3) ? 0 : below(2000)) : length;
    l.out_lent = wrong & SHORT_OUT ? (one_in(2) ? RETIMER_LEAST_OUTPUT - 1 : below(RETIMER_LEAST_OUTPUT)) : RETIMER_LEAST_OUTPUT + (one_in(3) ? below(100) : 0);
    l.places = wrong & FEW_PLACES ? (one_in(2) ? RETIMER_LEAST_PLACES - 1 : below(RETIMER_LEAST_PLACES)) : RETIMER_LEAST_PLACES + (one_in(3) ? below(50) : 0);
    memcpy(bad_map, map, 8 * numbers);
    lend_all(&l, r->session, wrong & BAD_MAP ? bad_map : map, wrong & LONG_PIECE ? text_bytes : piece);
    if (wrong & BIT && l.size) {
        size_t at = below(l.size < SIZE ? l.size : SIZE);
        uint8_t damaged = (uint8_t)(l.session[at] ^ 1u << below(8));
        lend_these(&lent_session, l.session + at, &damaged, 1);
    }
    number = called(&l);
    if (as) {
        expect_number(f, number, as);
        nothing_written(&l);
        return;
    }
    expect(number == 0 || ends_text(number), f, "a good call is refused");
    take(&l, r, number);
}

/* ---- a whole text */
static unsigned draw_wrong(enum function f) {
    unsigned wrong = one_in(2) ? 1u << below(6) : (unsigned)(below(64) & below(64));
    if (f == FINISH)
        wrong &= (unsigned)~LONG_PIECE;
    return wrong ? wrong : FEW_PLACES;
}

/* A call that is refused. */
static void disturb(struct run *r, const uint64_t *map, size_t numbers, const uint8_t *piece, size_t length) {
    enum function f = one_in(3) ? FINISH : FEED;
    one_call(r, f, map, numbers, piece, f == FINISH ? 0 : length, draw_wrong(f));
}

static int start(struct run *r, uint32_t kind, uint32_t timescale, const uint64_t *map, size_t numbers) {
    size_t lent = one_in(15) ? draw_length(SIZE) : SIZE;
    uint8_t *session = lend(&lent_session, lent);
    uint32_t as = timescale_bad(timescale) || map_bad(map, numbers) ? 15 : kind > 2 || lent < SIZE ? 16 : 0;
    uint32_t number = answered(OPEN, call.open(kind, timescale, given(&in_map, map, 8 * numbers), numbers, session, lent));
    expect_number(OPEN, number, as);
    if (!number) {
        expect(is_parked(session, SIZE) && word_at(session, 2) == kind && word_at(session, 3) == timescale && word_at(session, 6) == 0, OPEN, "the session opened");
        memcpy(r->session, session, SIZE);
    }
    kept(OPEN, &lent_session, session, lent, number ? 0 : SIZE, "beside the session, or of a refused open");
    r->written = r->warned = r->taken = 0;
    r->number = 0;
    r->ended = 0;
    return !number;
}

/* The text in pieces of a way of cutting, with refused calls between where asked for, and its end. */
static void feed_all(struct run *r, const uint64_t *map, size_t numbers, size_t length, unsigned cutting, int disturbed) {
    size_t at = 0, n;
    cutting = cutting == 2 && length > 4000 ? 3 : cutting;
    while (!r->number && at < length) {
        n = cutting == 0 ? 1024 : cutting == 1 ? below(1025) : cutting == 2 ? below(9) : 1 + below(300);
        n = n < length - at ? n : length - at;
        if (disturbed && one_in(4))
            disturb(r, map, numbers, text_bytes + at, n);
        one_call(r, FEED, map, numbers, text_bytes + at, n, 0);
        at += n;
    }
    if (!r->number)
        one_call(r, FINISH, map, numbers, text_bytes, 0, 0);
}

static void same(const struct run *a, const struct run *b, enum function f) {
    expect_number(f, b->number, a->number);
    expect(a->written == b->written && !memcmp(a->out, b->out, a->written), f, "another cutting gives another text");
    expect(a->warned == b->warned && !memcmp(a->warnings, b->warnings, 8 * a->warned), f, "another cutting gives other warnings");
    expect(!memcmp(a->session + 32, b->session + 32, 16), f, "another cutting gives other counts");
    expect(a->number || !memcmp(a->session, b->session, SIZE), f, "another cutting leaves another session");
}

struct whole {
    size_t out_lent, places, told_lent;
};

/* The whole text at once; its number is `as`, or that of the run where that is accepted. */
static void at_once(uint32_t kind, uint32_t timescale, const uint64_t *map, size_t numbers, size_t length, struct whole w, uint32_t as, const struct run *r) {
    const uint64_t *m = given(&in_map, map, 8 * numbers);
    const uint8_t *text = given(&in_text, text_bytes, length);
    uint8_t *out = lend(&lent_out, w.out_lent);
    uint64_t *warnings = (uint64_t *)(void *)lend(&lent_warnings, 8 * w.places), *told = (uint64_t *)(void *)lend(&lent_told, 8 * w.told_lent);
    uint64_t got[7] = {0};
    uint32_t number = answered(TEXT, retimer_text(kind, timescale, m, numbers, text, length, out, w.out_lent, warnings, w.places, told, w.told_lent));
    size_t k;
    expect_number(TEXT, number, as ? as : r->number);
    if (!as) {
        memcpy(got, told, sizeof got);
        expect(got[0] == r->written && !memcmp(out, r->out, r->written), TEXT, "another text than in pieces");
        expect(got[1] == r->warned && !memcmp(warnings, r->warnings, 8 * r->warned), TEXT, "other warnings than in pieces");
        for (k = 0; k < 4; k++)
            expect(got[2 + k] == word_at(r->session, 8 + k), TEXT, "other counts than in pieces");
        expect(got[6] == length, TEXT, "bytes taken");
    }
    kept(TEXT, &lent_out, out, w.out_lent, got[0], "output behind what was told");
    kept(TEXT, &lent_warnings, warnings, 8 * w.places, 8 * got[1], "places behind what was told");
    kept(TEXT, &lent_told, told, 8 * w.told_lent, as ? 0 : sizeof got, "the places told");
}

static struct whole enough(size_t length) {
    struct whole w = {3 * length + RETIMER_LEAST_OUTPUT, length / 3 + RETIMER_LEAST_PLACES, 7};
    return w;
}

void case_session(void) {
    uint32_t timescale = draw_timescale(0), kind = draw_kind(0);
    size_t numbers = draw_map(timescale, 0), length = draw_text(kind, timescale, map_numbers, numbers), k;
    if (!start(&first, kind, timescale, map_numbers, numbers))
        return;
    feed_all(&first, map_numbers, numbers, length, (unsigned)below(4), one_in(3));
    for (k = below(3); k > 0; k--) /* 18 from then on */
        one_call(&first, one_in(2) ? FINISH : FEED, map_numbers, numbers, text_bytes, 0, one_in(2) ? 0 : (unsigned)below(64));
    if (!start(&second, kind, timescale, map_numbers, numbers))
        return;
    feed_all(&second, map_numbers, numbers, length, (unsigned)below(4), 0);
    same(&first, &second, FEED);
    at_once(kind, timescale, map_numbers, numbers, length, enough(length), 0, &first);
}

/* ---- the whole text: refusals */
/* More than 2^30 bytes: pages that are there once only, and output that can't be touched. */
static void too_long(void) {
    static uint8_t *text, *out;
    static const uint64_t none = 0;
    uint64_t told[7] = {0};
    size_t most = (size_t)1 << 30, length = most + 1 + below(3), room = 3 * (most + 4) + RETIMER_LEAST_OUTPUT, places = (most + 4) / 3 + RETIMER_LEAST_PLACES;
    if (!text) {
        text = mmap(NULL, most + 4, PROT_READ, MAP_PRIVATE | MAP_ANONYMOUS | MAP_NORESERVE, -1, 0);
        out = mmap(NULL, room + 8 * places, PROT_NONE, MAP_PRIVATE | MAP_ANONYMOUS | MAP_NORESERVE, -1, 0);
    }
    if (text == MAP_FAILED || out == MAP_FAILED)
        return;
    expect_number(TEXT, answered(TEXT, retimer_text((uint32_t)below(3), 1, &none, 0, text, length, out, room, (uint64_t *)(void *)(out + room / 8 * 8), places, told, 7)), 16);
    expect(!told[0] && !told[6], TEXT, "the places told of a refused call");
}

void case_text(void) {
    uint32_t timescale = draw_timescale(0), kind = draw_kind(0);
    size_t numbers = draw_map(timescale, 0), length = draw_text(kind, timescale, map_numbers, numbers);
    struct whole w = enough(length), least = w;
    if (one_in(500))
        too_long();
    if (one_in(3))
        w.out_lent = one_in(2) ? w.out_lent - 1 : below(w.out_lent + 100);
    if (one_in(3))
        w.places = one_in(2) ? w.places - 1 : below(w.places + 100);
    if (one_in(3))
        w.told_lent = below(10);
    if (timescale_bad(timescale) || map_bad(map_numbers, numbers))
        at_once(kind, timescale, map_numbers, numbers, length, w, 15, NULL);
    else if (kind > 2 || w.out_lent < least.out_lent || w.places < least.places || w.told_lent < 7)
        at_once(kind, timescale, map_numbers, numbers, length, w, 16, NULL);
    else if (start(&first, kind, timescale, map_numbers, numbers)) {
        feed_all(&first, map_numbers, numbers, length, 0, 0);
        at_once(kind, timescale, map_numbers, numbers, length, w, 0, &first);
    }
}

/* ---- sessions from elsewhere */
static void forge(uint8_t *s) {
    static const uint32_t hard[] = {0, 1, 2, 3, 18, 19, 23, 24, 25, 1u << 30, (1u << 30) - 1, (1u << 30) + 1, 4096, 4097, 8192, 8193, 8568, 8569, 1000000000, 1000000001, 4294967295u};
    size_t k, many = 1 + below(3);
    for (k = 0; k < many; k++) {
        size_t b = one_in(4) ? below(18) : 0, w = b || one_in(9) ? below(127) : 1 + below(16);
        uint32_t old = word_at(s + 512 * b, w);
        word_to(s + 512 * b, w, one_in(3) ? (uint32_t)near(old, 3) : one_in(4) ? (uint32_t)any() : PICK(hard));
        if (!one_in(20))
            seal(s + 512 * b, (uint32_t)b);
    }
}

/* What the number may be, from the bytes alone. */
static void forged_number(const struct lot *l, const uint8_t *s, uint32_t number) {
    if (!is_parked(s, l->size)) {
        expect_number(l->f, number, 27);
        return;
    }
    expect(number != 27, l->f, "27 for a parked session");
    if (surely_foreign(s))
        expect_number(l->f, number, 17);
    else if (number != 17 && word_at(s, 4))
        expect_number(l->f, number, 18);
    else if (number != 17)
        expect((number == 16) == (word_at(s, 6) + l->length > 1u << 30), l->f, "16 for the bytes taken");
}

/* Whether it was accepted and goes on; what it leaves is second's. */
static int forged_call(const uint8_t *session, size_t numbers, size_t length) {
    struct lot l;
    uint32_t number;
    memset(&l, 0, sizeof l);
    l.f = one_in(3) ? FINISH : FEED;
    l.size = SIZE;
    l.numbers = numbers;
    l.length = l.f == FINISH ? 0 : length;
    l.out_lent = RETIMER_LEAST_OUTPUT;
    l.places = RETIMER_LEAST_PLACES;
    lend_all(&l, session, map_numbers, text_bytes);
    number = called(&l);
    forged_number(&l, session, number);
    if (number && !ends_text(number)) {
        nothing_written(&l);
        return 0;
    }
    second.written = second.warned = 0;
    second.taken = (1u << 30) + 1;
    memmove(second.session, session, SIZE);
    take(&l, &second, number);
    return !second.ended;
}

/* A run goes on in another place, with nothing joined yet. */
static void carry(struct run *to, const struct run *from) {
    memcpy(to->session, from->session, SIZE);
    to->taken = from->taken;
    to->number = from->number;
    to->ended = from->ended;
    to->written = to->warned = 0;
}

/* The same session under mark 1 goes on alike. */
static void other_mark(const struct run *r, size_t numbers, size_t length) {
    carry(&first, r);
    carry(&second, r);
    word_to(second.session, 1, 1);
    seal(second.session, 0);
    one_call(&first, FEED, map_numbers, numbers, text_bytes, length, 0);
    one_call(&second, FEED, map_numbers, numbers, text_bytes, length, 0);
    if (length == 0) { /* an empty piece leaves the mark too */
        word_to(second.session, 1, 2);
        seal(second.session, 0);
    }
    same(&first, &second, FEED);
    expect(!memcmp(first.session, second.session, SIZE), FEED, "another session under mark 1");
}

void case_forged(void) {
    static struct run r;
    uint32_t timescale = draw_timescale(1), kind = (uint32_t)below(3);
    size_t numbers = draw_map(timescale, 1), length, at, n, k;
    if (map_bad(map_numbers, numbers))
        numbers = 0;
    length = draw_text(kind, timescale, map_numbers, numbers);
    if (!start(&r, kind, timescale, map_numbers, numbers))
        return;
    for (at = 0, k = below(9); k > 0 && at < length && !r.ended; k--, at += n) {
        n = 1 + below(one_in(2) ? 1024 : 60);
        n = n < length - at ? n : length - at;
        one_call(&r, FEED, map_numbers, numbers, text_bytes + at, n, 0);
    }
    n = length - at < 1024 ? length - at : 1024;
    memmove(text_bytes, text_bytes + at, length - at);
    if (!r.ended && one_in(4))
        other_mark(&r, numbers, n);
    if (one_in(30))
        for (k = 0; k < SIZE; k++)
            r.session[k] = (uint8_t)any();
    if (!one_in(4))
        forge(r.session);
    if (one_in(3)) { /* another map than it was opened with */
        numbers = draw_map(timescale, 1);
        numbers = map_bad(map_numbers, numbers) ? 0 : numbers;
    }
    if (forged_call(r.session, numbers, n))
        for (k = below(4); k > 0 && forged_call(second.session, numbers, below(n + 1)); k--)
            ;
}
