/* Guarded memory. Each slot is pages of a file in memory, mapped twice, once for reading alone.
 * A page that can't be touched lies directly before and directly behind both. */
#define _GNU_SOURCE
#include "fuzz.h"
#include <stdio.h>
#include <stdlib.h>
#include <string.h>
#include <sys/mman.h>
#include <unistd.h>

#define PAGE 4096
#define PATTERN (1 << 20)
#define AROUND 512 /* bytes beside a lent buffer that are watched too */

struct slot in_sheet, in_list, in_map, in_text, in_captions, in_path;
struct slot lent_work, lent_map, lent_session, lent_out, lent_warnings, lent_rows, lent_told, lent_causes, lent_json, lent_path, lent_place[8];
static uint8_t pattern[PATTERN];

static void stop(const char *what) {
    perror(what);
    exit(2);
}

static uint8_t *mapped(int file, size_t room, int how) {
    uint8_t *at = mmap(NULL, room + 2 * PAGE, PROT_NONE, MAP_PRIVATE | MAP_ANONYMOUS | MAP_NORESERVE, -1, 0);
    if (at == MAP_FAILED || mmap(at + PAGE, room, how, MAP_SHARED | MAP_FIXED, file, 0) == MAP_FAILED)
        stop("mmap");
    return at + PAGE;
}

/* New values for some bytes of a slot. */
static void refill(struct slot *s, size_t from, size_t length) {
    while (length) {
        size_t at = below(PATTERN / 2), n = length < PATTERN / 2 ? length : PATTERN / 2;
        memcpy(s->rw + from, pattern + at, n);
        memcpy(s->mirror + from, pattern + at, n);
        from += n;
        length -= n;
    }
}

static void make(struct slot *s, size_t room, int lent) {
    int file = memfd_create("slot", 0);
    s->room = (room + PAGE - 1) / PAGE * PAGE;
    if (file < 0 || ftruncate(file, (off_t)s->room))
        stop("memfd");
    s->rw = mapped(file, s->room, PROT_READ | PROT_WRITE);
    s->ro = mapped(file, s->room, PROT_READ);
    close(file);
    if (!lent)
        return;
    s->mirror = malloc(s->room);
    if (!s->mirror)
        stop("malloc");
    refill(s, 0, s->room);
}

void make_slots(void) {
    size_t k;
    for (k = 0; k < PATTERN; k++)
        pattern[k] = (uint8_t)any();
    make(&in_sheet, MOST_SHEET, 0);
    make(&in_list, MOST_LIST, 0);
    make(&in_map, 8 * MOST_NUMBERS, 0);
    make(&in_text, 1 << 20, 0);
    make(&in_captions, 8 * 8300, 0);
    make(&in_path, 8192, 0);
    make(&lent_work, RETIMER_MOST_WORK + 4096, 1);
    make(&lent_map, 8 * MOST_NUMBERS, 1);
    make(&lent_session, RETIMER_SESSION_BYTES + 4096, 1);
    make(&lent_out, 3 * MOST_CAPTIONS + RETIMER_LEAST_OUTPUT + 4096, 1);
    make(&lent_warnings, 8 * (MOST_CAPTIONS / 3 + RETIMER_LEAST_PLACES + 512), 1);
    make(&lent_rows, 8 * (RETIMER_CUES_FOR(MOST_CAPTIONS) + 512), 1);
    make(&lent_told, 4096, 1);
    make(&lent_causes, 8 * 1600, 1);
    make(&lent_json, RETIMER_MOST_TEXT + 4096, 1);
    make(&lent_path, 8192, 1);
    for (k = 0; k < 8; k++)
        make(&lent_place[k], 4096, 1);
}

/* Most buffers end at the page that can't be touched, the others begin at one. */
static size_t offset(const struct slot *s, size_t length) {
    return one_in(3) ? 0 : s->room - length;
}

const void *given(struct slot *s, const void *bytes, size_t length) {
    size_t at = offset(s, length);
    if (length)
        memcpy(s->rw + at, bytes, length);
    return s->ro + at;
}

uint8_t *lend(struct slot *s, size_t length) {
    return s->rw + offset(s, length);
}

void lend_these(struct slot *s, uint8_t *at, const uint8_t *bytes, size_t length) {
    memcpy(at, bytes, length);
    memcpy(s->mirror + (at - s->rw), bytes, length);
}

void kept(enum function f, struct slot *s, const void *from, size_t length, size_t written, const char *what) {
    size_t at = (size_t)((const uint8_t *)from - s->rw), first = at < AROUND ? 0 : at - AROUND;
    size_t last = s->room - at - length < AROUND ? s->room : at + length + AROUND;
    expect(written <= length, f, what);
    expect(!memcmp(s->rw + first, s->mirror + first, at - first), f, what);
    expect(!memcmp(s->rw + at + written, s->mirror + at + written, last - at - written), f, what);
    refill(s, at, written);
}

uint64_t *place(unsigned k) {
    struct slot *s = &lent_place[k];
    return (uint64_t *)(void *)(s->rw + s->room - 8);
}

uint32_t *place32(unsigned k) {
    struct slot *s = &lent_place[k];
    return (uint32_t *)(void *)(s->rw + s->room - 4);
}

void place_kept(enum function f, unsigned k) {
    kept(f, &lent_place[k], place(k), 8, 0, "a place for an answer");
}

/* The number has been read; the bytes beside it must be as they were. */
void place_done(enum function f, unsigned k) {
    kept(f, &lent_place[k], place(k), 8, 8, "beside a place for an answer");
}

void place32_done(enum function f, unsigned k) {
    kept(f, &lent_place[k], place32(k), 4, 4, "beside a place for an answer");
}
