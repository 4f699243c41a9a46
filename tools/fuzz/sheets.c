/* Cases of sheets, lists and the maps made of them. */
#include "fuzz.h"
#include <string.h>

static size_t draw_work(size_t need) {
    static const size_t sizes[] = {RETIMER_MOST_WORK, RETIMER_MOST_WORK + 1, 0, 1};
    size_t n = one_in(3) ? near(need, 2) : one_in(3) ? PICK(sizes) : need + below(20);
    return n > RETIMER_MOST_WORK + 1 ? RETIMER_MOST_WORK : n;
}

/* The work bytes: the first `zeroed` are zero, the others as they were. */
static void worked(enum function f, const uint8_t *work, size_t lent, size_t zeroed) {
    size_t k;
    for (k = 0; k < zeroed && !work[k]; k++)
        ;
    expect(k >= zeroed, f, "work bytes that should be zero");
    kept(f, &lent_work, work, lent, zeroed, "work bytes");
}

void case_sheet(void) {
    size_t length = draw_sheet(one_in(2)), lent, zeroed, k;
    uint32_t number, as;
    const uint8_t *sheet;
    uint8_t *work;
    if (one_in(40))
        for (length = one_in(2) ? below(3000) : 512 * below(6), k = 0; k < length; k++)
            sheet_bytes[k] = (uint8_t)any();
    lent = draw_work(length >= 12 ? ((size_t)word_at(sheet_bytes, 2) + 7) / 8 : 1);
    sheet = given(&in_sheet, sheet_bytes, length);
    work = lend(&lent_work, lent);
    as = sheet_number(sheet_bytes, length, lent, &zeroed);
    number = answered(SHEET_CHECK, call.sheet_check(sheet, length, work, lent));
    expect_number(SHEET_CHECK, number, as);
    worked(SHEET_CHECK, work, lent, zeroed);
}

void case_list(void) {
    int known;
    size_t k, length = draw_list(one_in(3) ? any() >> (31 + below(33)) : 1 + below(3000), &known);
    uint32_t number;
    if (one_in(30))
        for (length = below(300), known = 0, k = 0; k < length; k++)
            list_bytes[k] = (uint8_t)any();
    if (known && range_count && ranges[range_count - 1].end > UINT32_MAX)
        known = 0;
    number = answered(LIST_CHECK, call.list_check(given(&in_list, list_bytes, length), length));
    expect(!known || !number, LIST_CHECK, "a sound list is refused");
}

/* What the papers say of the number: 16, the sheet's, the list's, then those of the ranges. */
static uint32_t map_number(size_t length, size_t listed, int known, uint32_t direction, size_t work, size_t lent, size_t *zeroed, uint64_t *made, size_t *numbers) {
    uint32_t number;
    *zeroed = *numbers = 0;
    if (lent < RETIMER_MAP_NUMBERS || direction > 1)
        return 16;
    number = sheet_number(sheet_bytes, length, work, zeroed);
    if (number)
        return number;
    number = call.list_check(list_bytes, listed);
    if (number)
        return number;
    return known && word_at(sheet_bytes, 2) <= 3000 ? map_of(sheet_bytes, ranges, range_count, direction, made, numbers) : 99;
}

/* A map that was made: it opens, outputs follow one another, and known ranges have the numbers worked out. */
static void made_well(const uint64_t *map, uint64_t count, uint32_t timescale, const uint64_t *worked_out, size_t numbers) {
    static uint8_t session[RETIMER_SESSION_BYTES];
    uint64_t k, output = 0;
    expect(count <= 1024 && timescale == word_at(sheet_bytes, 1), MAP, "timescale or count");
    for (k = 0; k < count; k++) {
        const uint64_t *m = map + 6 * k;
        expect(m[1] - m[0] == m[3] && m[1] <= word_at(sheet_bytes, 2) && m[4] == output, MAP, "numbers of a segment");
        output += m[5];
    }
    expect(!map_bad(map, 6 * count), MAP, "a map outside the limits");
    expect(!numbers || (numbers == 6 * count && !memcmp(map, worked_out, 8 * numbers)), MAP, "another map than worked out");
    expect_number(OPEN, answered(OPEN, retimer_open(0, timescale, map, 6 * count, session, sizeof session)), 0);
}

void case_map(void) {
    static uint64_t worked_out[6 * 1100];
    size_t length = draw_sheet(!one_in(8)), lent = one_in(12) ? draw_length(RETIMER_MAP_NUMBERS) : RETIMER_MAP_NUMBERS, zeroed, numbers, listed, work_lent;
    int known;
    uint32_t direction = one_in(20) ? (uint32_t)any() : (uint32_t)below(2), as, number;
    const uint8_t *sheet, *list;
    uint8_t *work;
    uint64_t *map;
    listed = draw_list(word_at(sheet_bytes, 2), &known);
    known = known && (!range_count || ranges[range_count - 1].end <= UINT32_MAX);
    work_lent = one_in(10) ? draw_work(((size_t)word_at(sheet_bytes, 2) + 7) / 8) : RETIMER_MOST_WORK;
    as = map_number(length, listed, known, direction, work_lent, lent, &zeroed, worked_out, &numbers);
    sheet = given(&in_sheet, sheet_bytes, length);
    list = given(&in_list, list_bytes, listed);
    work = lend(&lent_work, work_lent);
    map = (uint64_t *)(void *)lend(&lent_map, 8 * lent);
    number = answered(MAP, retimer_map(sheet, length, list, listed, direction, work, work_lent, map, lent, place32(0), place(1)));
    if (as != 99)
        expect_number(MAP, number, as);
    else
        expect(number == 0 || (number >= 8 && number <= 10) || number == 26, MAP, "number of the ranges");
    worked(MAP, work, work_lent, zeroed);
    if (number) {
        kept(MAP, &lent_map, map, 8 * lent, 0, "the map of a refused call");
        place_kept(MAP, 0);
        place_kept(MAP, 1);
        return;
    }
    made_well(map, *place(1), *place32(0), worked_out, numbers);
    kept(MAP, &lent_map, map, 8 * lent, 48 * *place(1), "numbers behind the map");
    place32_done(MAP, 0);
    place_done(MAP, 1);
}
