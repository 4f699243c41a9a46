/* The captions of a text: each row held against the text, and all of them, by the fates that retimer_why tells, against the counts of retimer_text. */
#include "fuzz.h"
#include <string.h>

#define MOST_ROWS RETIMER_CUES_FOR(MOST_CAPTIONS)
static uint64_t rows[MOST_ROWS], told[2];

/* One call; what it wrote goes to `rows` and `told`. */
static uint32_t read_once(uint32_t kind, size_t length, size_t lent, size_t told_lent) {
    uint64_t *at = (uint64_t *)(void *)lend(&lent_rows, 8 * lent), *said = (uint64_t *)(void *)lend(&lent_told, 8 * told_lent);
    uint32_t number = answered(CUES, call.cues(kind, given(&in_text, text_bytes, length), length, at, lent, said, told_lent));
    size_t many = 0;
    if (number != 16) {
        expect(told_lent >= 2 && said[RETIMER_CUES_COUNT] <= lent / 6, CUES, "a count above what is lent");
        memcpy(told, said, sizeof told);
        many = 6 * (size_t)told[RETIMER_CUES_COUNT];
        memcpy(rows, at, 8 * many);
    }
    kept(CUES, &lent_rows, at, 8 * lent, 8 * many, "places behind the rows");
    kept(CUES, &lent_told, said, 8 * told_lent, number == 16 ? 0 : sizeof told, "numbers behind those told");
    return number;
}

/* Lines, words and order, by the text's bytes alone. */
static void rows_stand(uint32_t kind, size_t length) {
    uint64_t k, ends = 0, last = 0;
    size_t at = 0;
    for (k = 0; k < told[RETIMER_CUES_COUNT]; k++) {
        const uint64_t *row = rows + 6 * k;
        size_t from = (size_t)row[RETIMER_CUE_AT], size = (size_t)row[RETIMER_CUE_SIZE];
        expect(row[RETIMER_CUE_LINE] > last, CUES, "lines in order");
        expect(row[RETIMER_CUE_PASSED] <= 2 && (kind == 0 || !row[RETIMER_CUE_PASSED]), CUES, "what a caption passes with");
        expect(from >= at && from <= length && size <= length - from, CUES, "words outside the text");
        for (last = row[RETIMER_CUE_LINE]; at < from; at++)
            ends += text_bytes[at] == '\n';
        if (kind == 0) {
            size_t end = from + size;
            expect(ends + 1 == last && (end == length || text_bytes[end] == '\n' || text_bytes[end] == '\r'), CUES, "the place of a field");
            expect(!memchr(text_bytes + from, '\n', size), CUES, "a field of two lines");
        } else {
            expect(from && (text_bytes[from - 1] == '\n' ? ends == last : from == length && !size && ends + 1 == last), CUES, "the place of lines");
        }
    }
}

/* The fates of the rows, counted, are the counts of the whole text, and its number is the same. */
static void rows_counted(uint32_t kind, uint32_t timescale, size_t numbers, size_t length, uint32_t number) {
    static uint8_t out[RETIMER_OUTPUT_FOR(MOST_CAPTIONS)];
    static uint64_t warnings[RETIMER_PLACES_FOR(MOST_CAPTIONS)], causes[MOST_NUMBERS / 6];
    uint64_t counted[3] = {0, 0, 0}, passed = 0, whole[RETIMER_TOLD_NUMBERS], k, fate, place_, a, b;
    for (k = 0; k < told[RETIMER_CUES_COUNT]; k++) {
        const uint64_t *row = rows + 6 * k;
        passed += row[RETIMER_CUE_PASSED] != 0;
        if (row[RETIMER_CUE_PASSED])
            continue;
        expect(!retimer_why(map_numbers, numbers, timescale, kind, row[RETIMER_CUE_START], row[RETIMER_CUE_END], causes, MOST_NUMBERS / 6, &fate, &place_, &a, &b), CUES, "times that can't be asked for");
        counted[fate]++;
    }
    expect_number(CUES, retimer_text(kind, timescale, map_numbers, numbers, text_bytes, length, out, sizeof out, warnings, RETIMER_PLACES_FOR(MOST_CAPTIONS), whole, RETIMER_TOLD_NUMBERS), number);
    expect(whole[RETIMER_TOLD_SHIFTED] == counted[RETIMER_SHIFTED] && whole[RETIMER_TOLD_CLIPPED] == counted[RETIMER_CLIPPED] && whole[RETIMER_TOLD_DROPPED] == counted[RETIMER_DROPPED] &&
               whole[RETIMER_TOLD_PASSED] == passed,
           CUES, "the counts of the whole text");
}

/* Exactly enough places, one fewer, more; told numbers around two; any kind. */
static void lent_otherwise(uint32_t kind, size_t length, uint32_t number) {
    uint64_t count = told[RETIMER_CUES_COUNT], line = told[RETIMER_CUES_FAULT_LINE];
    size_t lent = near(6 * count, 7), told_lent = one_in(4) ? below(4) : 2;
    uint32_t other = one_in(8) ? draw_kind(0) : kind;
    if (other != kind && other <= 2)
        return;
    expect_number(CUES, read_once(other, length, lent, told_lent), other > 2 || told_lent < 2 || lent < 6 * count ? 16 : number);
    expect(told[RETIMER_CUES_COUNT] == count && told[RETIMER_CUES_FAULT_LINE] == line, CUES, "the same told again");
}

void case_cues(void) {
    uint32_t timescale = draw_timescale(1), kind = (uint32_t)below(3), number;
    size_t numbers = draw_map(timescale, 1), length, k, lines = 1;
    if (map_bad(map_numbers, numbers))
        numbers = 0;
    length = draw_text(kind, timescale, map_numbers, numbers);
    number = read_once(kind, length, RETIMER_CUES_FOR(length), 2 + below(2));
    expect(number != 16, CUES, "16 for places that are enough");
    for (k = 0; k < length; k++)
        lines += text_bytes[k] == '\n';
    expect((number == 0) == (told[RETIMER_CUES_FAULT_LINE] == 0) && told[RETIMER_CUES_FAULT_LINE] <= lines, CUES, "the line of the fault");
    rows_stand(kind, length);
    rows_counted(kind, timescale, numbers, length, number);
    lent_otherwise(kind, length, number);
}
