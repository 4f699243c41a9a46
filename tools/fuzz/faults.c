/* The self-test's faults: each is put between the harness and a function, and must be noticed. */
#include "fuzz.h"

struct calls call = {retimer_sheet_check, retimer_list_check, retimer_open, retimer_feed, retimer_cues, retimer_units_number, retimer_census, retimer_map_write};

const char *const faults[] = {
    "a byte behind a text that was written", "a byte past the lent work bytes", "a byte before a session", "output written by a refused call", "a number that the function never gives", "a wrong number of those it gives",
    "a byte read past the list", "a byte written into the list", "a told length that is too large", "a damaged session accepted", "output that depends on the cutting", "a count too many", "a session left unsealed", "a length told by a refused call", "words that are told a byte late", "a caption told with its end as its start", NULL};

static uint32_t behind_text(const uint64_t *m, size_t n, uint32_t t, uint32_t a, uint32_t b, const uint8_t *p, size_t pn, uint32_t f, uint8_t *text, size_t lent, uint64_t *written) {
    uint32_t number = retimer_map_write(m, n, t, a, b, p, pn, f, text, lent, written);
    if (!number && *written < lent)
        text[*written] ^= 1;
    return number;
}

static uint32_t past_work(const uint8_t *s, size_t n, uint8_t *work, size_t lent) {
    uint32_t number = retimer_sheet_check(s, n, work, lent);
    ((volatile uint8_t *)work)[lent] ^= 1;
    return number;
}

static uint32_t before_session(uint32_t kind, uint32_t t, const uint64_t *m, size_t n, uint8_t *session, size_t lent) {
    uint32_t number = retimer_open(kind, t, m, n, session, lent);
    ((volatile uint8_t *)session)[-1] ^= 1;
    return number;
}

static uint32_t never_given(const uint8_t *list, size_t n) {
    uint32_t number = retimer_list_check(list, n);
    return number ? 1 : 0;
}

static uint32_t exchanged(uint64_t v, uint32_t t, uint32_t kind) {
    uint32_t number = retimer_units_number(v, t, kind);
    return number == 16 ? 15 : number;
}

static uint32_t reads_past(const uint8_t *list, size_t n) {
    uint32_t number = retimer_list_check(list, n);
    return ((const volatile uint8_t *)list)[n] == 1 ? number : number + 0;
}

static uint32_t writes_in(const uint8_t *list, size_t n) {
    if (n)
        *(volatile uint8_t *)(uintptr_t)list = 32;
    return retimer_list_check(list, n);
}

static uint32_t too_many(const uint64_t *m, size_t n, uint32_t t, uint32_t kind, uint64_t length, uint64_t count, uint64_t *shifted, uint64_t *clipped, uint64_t *dropped) {
    uint32_t number = retimer_census(m, n, t, kind, length, count, shifted, clipped, dropped);
    *clipped += !number && *clipped;
    return number;
}

/* Faults of a feed, and of a reading. */
static unsigned which;

static uint32_t bad_cues(uint32_t kind, const uint8_t *text, size_t n, uint64_t *rows, size_t lent, uint64_t *told, size_t told_lent) {
    uint32_t number = retimer_cues(kind, text, n, rows, lent, told, told_lent);
    if (number != 16 && told[0])
        rows[which == 14 ? 4 : 2] = which == 14 ? rows[4] + 1 : rows[3];
    return number;
}

static uint32_t bad_feed(uint8_t *s, size_t sn, const uint64_t *m, size_t mn, const uint8_t *p, size_t pn, uint8_t *out, size_t on, uint64_t *w, size_t wn, uint64_t *written, uint64_t *warned) {
    uint32_t number = retimer_feed(s, sn, m, mn, p, pn, out, on, w, wn, written, warned);
    int refused = (number >= 15 && number <= 18) || number == 27;
    if (which == 3 && refused && on)
        out[0] ^= 1;
    if (which == 8 && !refused)
        *written += 1;
    if (which == 9 && number == 27)
        return 0;
    if (which == 10 && !refused && *written && pn % 2)
        out[0] ^= 1;
    if (which == 12 && !refused)
        s[511] ^= 1;
    if (which == 13 && refused)
        *warned += 1;
    return number;
}

void put_fault(unsigned fault) {
    which = fault;
    switch (fault) {
    case 0: call.map_write = behind_text; break;
    case 1: call.sheet_check = past_work; break;
    case 2: call.open = before_session; break;
    case 4: call.list_check = never_given; break;
    case 5: call.units_number = exchanged; break;
    case 6: call.list_check = reads_past; break;
    case 7: call.list_check = writes_in; break;
    case 11: call.census = too_many; break;
    case 14:
    case 15: call.cues = bad_cues; break;
    default: call.feed = bad_feed;
    }
}
