/* Cases of conversions and of questions about a map, each against exact arithmetic. */
#include "fuzz.h"
#include <string.h>

#define MOST_UNITS (UINT64_C(1) << 36)
#define MOST_TICKS (UINT64_C(1) << 53)

static uint64_t draw_value(uint64_t most) {
    return one_in(4) ? near(most, 2) : one_in(8) ? any() : (any() >> (11 + below(53))) % (most + 1);
}

void case_conversions(void) {
    uint32_t timescale = draw_timescale(0), kind = draw_kind(0), as;
    uint64_t u = units_a_second(kind), v = draw_value(MOST_UNITS), w = draw_value(MOST_TICKS), t = timescale;
    as = timescale_bad(timescale) ? 15 : kind > 2 || v > MOST_UNITS ? 16 : 0;
    expect_number(UNITS_NUMBER, answered(UNITS_NUMBER, call.units_number(v, timescale, kind)), as);
    answered(TO_TICKS, 0);
    expect(retimer_units_to_ticks(v, timescale, kind) == (as ? 0 : (uint64_t)((wide)v * t / u)), TO_TICKS, "the value");
    as = timescale_bad(timescale) ? 15 : kind > 2 || w > MOST_TICKS ? 16 : 0;
    expect_number(TICKS_NUMBER, answered(TICKS_NUMBER, retimer_ticks_number(w, timescale, kind)), as);
    answered(TO_UNITS_FLOOR, 0);
    expect(retimer_ticks_to_units_floor(w, timescale, kind) == (as ? 0 : (uint64_t)((wide)w * u / t)), TO_UNITS_FLOOR, "the value");
    answered(TO_UNITS_CEIL, 0);
    expect(retimer_ticks_to_units_ceil(w, timescale, kind) == (as ? 0 : (uint64_t)(((wide)w * u + t - 1) / t)), TO_UNITS_CEIL, "the value");
}

/* A tick near an edge of the map, or any. */
static uint64_t draw_tick(size_t numbers) {
    const uint64_t *m = map_numbers + 6 * below(numbers / 6);
    if (numbers < 6 || one_in(6))
        return any() >> below(64);
    return near(one_in(2) ? m[2] : m[2] + m[5], one_in(4) ? 1000 : 1);
}

void case_rough(void) {
    size_t numbers = draw_map(draw_timescale(1), 0);
    uint64_t a = draw_tick(numbers), b = one_in(3) ? a : draw_tick(numbers), c = draw_tick(numbers), d = one_in(3) ? c : draw_tick(numbers), told;
    uint32_t number, as;
    if (a > b && !one_in(12))
        told = a, a = b, b = told;
    if (c > d && !one_in(12))
        told = c, c = d, d = told;
    as = map_bad(map_numbers, numbers) ? 15 : a > b || c > d ? 16 : 0;
    number = answered(ROUGH, retimer_rough(given(&in_map, map_numbers, 8 * numbers), numbers, a, b, c, d, place(0)));
    expect_number(ROUGH, number, as);
    if (number) {
        place_kept(ROUGH, 0);
        return;
    }
    told = first_met(map_numbers, numbers, b, c) >= 0 ? RETIMER_SURELY_KEPT : first_met(map_numbers, numbers, a, d) < 0 ? RETIMER_SURELY_DROPPED : RETIMER_UNSURE;
    expect(*place(0) == told, ROUGH, "the judgement");
    place_done(ROUGH, 0);
}

/* ---- why: the fate of one caption, by the model and by the function */
static uint64_t draw_units(uint32_t kind, uint32_t timescale, size_t numbers) {
    wide u = (wide)draw_tick(numbers) * units_a_second(kind) / (timescale ? timescale : 1);
    return one_in(12) ? draw_value(MOST_UNITS) : near((uint64_t)u % (MOST_UNITS + 2), 2);
}

static uint64_t fate_of(const uint64_t *m, long at, wide a, wide b) {
    if (at < 0)
        return RETIMER_DROPPED;
    m += 6 * at;
    return a >= m[2] && b <= (wide)m[2] + m[5] ? RETIMER_SHIFTED : RETIMER_CLIPPED;
}

static uint64_t cause_of(const uint64_t *m, wide a) {
    return m[5] == 0 ? RETIMER_NO_LENGTH : (wide)m[2] + m[5] <= a ? RETIMER_ENDS_BEFORE : RETIMER_STARTS_AFTER;
}

static void told_why(const uint64_t *causes, size_t lent, size_t numbers, wide a, wide b) {
    long at = first_met(map_numbers, numbers, a, b);
    const uint64_t *m = map_numbers + (at < 0 ? 0 : 6 * at);
    size_t k, many = at < 0 ? numbers / 6 : 0;
    expect(*place(0) == fate_of(map_numbers, at, a, b) && *place(1) == (at < 0 ? 0 : (uint64_t)at), WHY, "fate or place");
    expect(*place(2) == (uint64_t)(at < 0 || a >= m[2] ? 0 : m[2] - a), WHY, "what is cut off the start");
    expect(*place(3) == (uint64_t)(at < 0 || b <= (wide)m[2] + m[5] ? 0 : b - m[2] - m[5]), WHY, "what is cut off the end");
    for (k = 0; k < many; k++)
        expect(causes[k] == cause_of(map_numbers + 6 * k, a), WHY, "a cause");
    kept(WHY, &lent_causes, causes, 8 * lent, 8 * many, "places behind the causes");
    for (k = 0; k < 4; k++)
        place_done(WHY, (unsigned)k);
}

void case_why(void) {
    uint32_t timescale = draw_timescale(0), kind = draw_kind(0), number, as;
    size_t numbers = draw_map(timescale, 0), lent = one_in(8) ? near(numbers / 6, 2) : numbers / 6 + below(3), k;
    uint64_t start = draw_units(kind, timescale, numbers), stop = draw_units(kind, timescale, numbers), *causes;
    causes = (uint64_t *)(void *)lend(&lent_causes, 8 * lent);
    as = timescale_bad(timescale) || map_bad(map_numbers, numbers) ? 15 : kind > 2 || start > MOST_UNITS || stop > MOST_UNITS || lent < numbers / 6 ? 16 : 0;
    number = answered(WHY, retimer_why(given(&in_map, map_numbers, 8 * numbers), numbers, timescale, kind, start, stop, causes, lent, place(0), place(1), place(2), place(3)));
    expect_number(WHY, number, as);
    if (!number) {
        told_why(causes, lent, numbers, ticks_of(start, timescale, kind), ticks_of(stop, timescale, kind));
        return;
    }
    kept(WHY, &lent_causes, causes, 8 * lent, 0, "the causes of a refused call");
    for (k = 0; k < 4; k++)
        place_kept(WHY, (unsigned)k);
}

/* ---- starts that survive */
static void counted(size_t numbers, uint32_t timescale, uint32_t kind, uint64_t length, uint64_t count) {
    uint64_t k, fates[3] = {0, 0, 0};
    for (k = 0; k < count; k++) {
        wide a = ticks_of(k, timescale, kind), b = ticks_of(k + length, timescale, kind);
        fates[fate_of(map_numbers, first_met(map_numbers, numbers, a, b), a, b)]++;
    }
    expect(*place(0) == fates[RETIMER_SHIFTED] && *place(1) == fates[RETIMER_CLIPPED] && *place(2) == fates[RETIMER_DROPPED], CENSUS, "the counts");
}

void case_census(void) {
    uint32_t timescale = draw_timescale(0), kind = draw_kind(0), number, as;
    size_t numbers = draw_map(timescale, 0);
    uint64_t most = 36000000, length = one_in(3) ? below(300) : draw_value(most), count = one_in(3) ? below(400) : draw_value(most);
    as = timescale_bad(timescale) || map_bad(map_numbers, numbers) ? 15 : !ascends(map_numbers, numbers) ? 28 : kind > 2 || length > most || count > most ? 16 : 0;
    number = answered(CENSUS, call.census(given(&in_map, map_numbers, 8 * numbers), numbers, timescale, kind, length, count, place(0), place(1), place(2)));
    expect_number(CENSUS, number, as);
    if (number) {
        place_kept(CENSUS, 0);
        place_kept(CENSUS, 1);
        place_kept(CENSUS, 2);
    } else
        expect(*place(0) + *place(1) + *place(2) == count, CENSUS, "the sum of the counts");
    if (!number && count <= 400 && numbers <= 600)
        counted(numbers, timescale, kind, length, count);
    place_done(CENSUS, 0);
    place_done(CENSUS, 1);
    place_done(CENSUS, 2);
}

/* ---- the delay that loses least */
static uint64_t captions[8300];

static int lost(size_t numbers, uint32_t timescale, uint32_t kind, const uint64_t *c, int64_t delay) {
    wide a, b;
    if ((delay < 0 && (c[0] < (uint64_t)-delay || c[1] < (uint64_t)-delay)))
        return 1;
    a = ticks_of(c[0] + (uint64_t)delay, timescale, kind);
    b = ticks_of(c[1] + (uint64_t)delay, timescale, kind);
    return fate_of(map_numbers, first_met(map_numbers, numbers, a, b), a, b) != RETIMER_SHIFTED;
}

static uint32_t loss_of(size_t numbers, uint32_t timescale, uint32_t kind, size_t count, int64_t delay) {
    uint32_t sum = 0;
    size_t k;
    for (k = 0; k + 1 < count; k += 2)
        sum += (uint32_t)lost(numbers, timescale, kind, captions + k, delay);
    return sum;
}

/* The answer against every delay tried, where there are few. */
static void least(size_t numbers, uint32_t timescale, uint32_t kind, size_t count, uint32_t budget, int64_t delay, uint32_t loss) {
    uint32_t k, found = UINT32_MAX;
    int64_t best = 0;
    for (k = 0; k < budget && k < 12001; k++) {
        int64_t d = k % 2 ? (int64_t)(k + 1) / 2 : -(int64_t)(k / 2);
        uint32_t one = loss_of(numbers, timescale, kind, count, d);
        if (one < found)
            found = one, best = d;
    }
    expect(delay == best && loss == found, BEST_DELAY, "the delay, or its loss");
}

static int late(size_t count) {
    size_t k;
    for (k = 0; k < count; k++)
        if (captions[k] > MOST_UNITS)
            return 1;
    return 0;
}

static void told_delay(size_t numbers, uint32_t timescale, uint32_t kind, size_t count, uint32_t budget) {
    int64_t delay = *(int64_t *)(void *)place(0);
    uint32_t loss = *place32(1), tried = *place32(2), off = *place32(3);
    expect(tried == (budget < 12001 ? budget : 12001) && loss <= count / 2 && off <= loss && delay >= -6000 && delay <= 6000, BEST_DELAY, "tries, loss or how far off");
    if (count <= 20 && budget <= 60 && numbers <= 300)
        least(numbers, timescale, kind, count, budget, delay, loss);
    else
        expect(loss == loss_of(numbers, timescale, kind, count, delay), BEST_DELAY, "the loss");
}

void case_delay(void) {
    uint32_t timescale = draw_timescale(0), kind = draw_kind(0), number, as;
    uint32_t budget = one_in(10) ? 0 : one_in(10) ? (uint32_t)near(12001, 2) : one_in(20) ? (uint32_t)any() : 1 + (uint32_t)below(60);
    size_t numbers = draw_map(timescale, 0), count = one_in(80) ? near(8192, 3) : one_in(10) ? below(100) : 2 * below(11), k;
    for (k = 0; k < count; k++)
        captions[k] = one_in(4) ? below(8000) : one_in(300) ? draw_value(MOST_UNITS) : draw_units(kind, timescale, numbers) % (MOST_UNITS + 1);
    as = timescale_bad(timescale) || map_bad(map_numbers, numbers) ? 15 : !budget || count / 2 > 4096 ? 29 : kind > 2 || count % 2 || late(count) ? 16 : 0;
    number = answered(BEST_DELAY, retimer_best_delay(given(&in_map, map_numbers, 8 * numbers), numbers, timescale, kind, given(&in_captions, captions, 8 * count), count, budget,
                                                     (int64_t *)(void *)place(0), place32(1), place32(2), place32(3)));
    expect_number(BEST_DELAY, number, as);
    if (number) {
        place_kept(BEST_DELAY, 0);
        for (k = 1; k < 4; k++)
            kept(BEST_DELAY, &lent_place[k], place32((unsigned)k), 4, 0, "a place for an answer");
    } else
        told_delay(numbers, timescale, kind, count, budget);
    place_done(BEST_DELAY, 0);
    for (k = 1; k < 4; k++)
        place32_done(BEST_DELAY, (unsigned)k);
}
