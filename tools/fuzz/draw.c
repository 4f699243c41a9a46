/* Random numbers, and random maps, sheets and lists, sound and unsound. */
#include "fuzz.h"
#include <stdio.h>
#include <string.h>

uint64_t map_numbers[MOST_NUMBERS];
uint8_t sheet_bytes[MOST_SHEET], list_bytes[MOST_LIST];
struct range ranges[1100];
size_t range_count;
static uint64_t state;

/* ---- numbers */
uint64_t any(void) {
    uint64_t z = state += 0x9E3779B97F4A7C15u;
    z = (z ^ z >> 30) * 0xBF58476D1CE4E5B9u;
    z = (z ^ z >> 27) * 0x94D049BB133111EBu;
    return z ^ z >> 31;
}

void seed_with(uint64_t seed, uint64_t number) {
    state = seed;
    state = any() ^ number;
    any();
}

uint64_t below(uint64_t n) {
    return n ? any() % n : 0;
}

int one_in(unsigned n) {
    return below(n) == 0;
}

uint64_t near(uint64_t value, uint64_t span) {
    uint64_t by = below(2 * span + 1);
    return by <= span ? (value > UINT64_MAX - by ? UINT64_MAX : value + by) : (value < by - span ? 0 : value - (by - span));
}

/* Any size: as many small numbers as large ones. */
static uint64_t sized(void) {
    return any() >> below(64);
}

uint32_t draw_timescale(int sound) {
    static const uint32_t good[] = {1, 2, 25, 100, 999, 1000, 1001, 24000, 30000, 90000, 1000000, 1000001, 999999999, 1000000000};
    static const uint32_t bad[] = {0, 1000000001, 4294967295u, 2147483648u};
    if (!sound && one_in(12))
        return PICK(bad);
    return one_in(4) ? 1 + (uint32_t)below(1000000000) : PICK(good);
}

uint32_t draw_kind(int sound) {
    if (!sound && one_in(15))
        return one_in(2) ? 3 : (uint32_t)any();
    return (uint32_t)below(3);
}

uint64_t draw_length(uint64_t around) {
    uint64_t n = one_in(4) ? around : one_in(3) ? near(around, 3) : one_in(4) ? below(4) : around + below(200);
    return n;
}

/* ---- maps */
static void row(uint64_t *m, uint64_t frame, uint64_t frames, uint64_t source, uint64_t output, uint64_t duration) {
    m[0] = frame;
    m[1] = frame + frames;
    m[2] = source;
    m[3] = frames;
    m[4] = output;
    m[5] = duration;
}

static size_t draw_count(void) {
    static const size_t counts[] = {0, 1, 1, 2, 2, 3, 3, 4, 5, 8, 13, 30};
    return one_in(60) ? 1023 + below(2) : one_in(20) ? below(200) : PICK(counts);
}

static void spoil_map(uint64_t *m, size_t n) {
    static const uint64_t hard[] = {4294967295u, 4294967296u, (UINT64_C(1) << 53) - 1, UINT64_C(1) << 53, (UINT64_C(1) << 53) + 1, UINT64_C(1) << 63, UINT64_MAX, 0, 1};
    size_t k, many = 1 + below(3);
    for (k = 0; n && k < many; k++)
        m[below(n)] = one_in(3) ? sized() : PICK(hard);
}

static void shuffle(uint64_t *m, size_t segments) {
    size_t k, j, i;
    for (k = 0; k < segments; k++) {
        j = below(segments);
        for (i = 0; i < 6; i++) {
            uint64_t x = m[6 * k + i];
            m[6 * k + i] = m[6 * j + i];
            m[6 * j + i] = x;
        }
    }
}

size_t draw_map(uint32_t timescale, int sound) {
    size_t k, n = draw_count();
    uint64_t t = timescale ? timescale : 1, source = 0, output = 0, frame = 0;
    uint64_t share = one_in(8) ? (UINT64_C(1) << 53) / (n + 1) : 1 + t * (1 + below(60)) / (1 + below(50));
    for (k = 0; k < n; k++) {
        uint64_t length = one_in(7) ? 0 : 1 + below(share / 2), frames = below(2000);
        source += one_in(4) ? 0 : below(share / 3);
        if (one_in(300))
            output += below(share / 3);
        row(map_numbers + 6 * k, frame, frames, source, output, length);
        source += length;
        output += length;
        frame += frames + below(50);
    }
    n *= 6;
    if (n && one_in(12))
        shuffle(map_numbers, n / 6);
    if (!sound && one_in(8))
        spoil_map(map_numbers, n);
    if (!sound && one_in(25)) {
        static const size_t lengths[] = {1, 5, 7, 6143, 6145, 6150, 6156};
        size_t more = PICK(lengths);
        if (more > n)
            memset(map_numbers + n, 0, 8 * (more - n));
        n = more;
    }
    return n;
}

/* ---- sheets */
static size_t record(uint32_t i, int wide_layout) {
    return wide_layout ? 128 * (1 + i / 42) + 1 + 3 * (i % 42) : 128 * (1 + (size_t)i / 63) + 1 + 2 * (i % 63);
}

static uint32_t draw_frames(void) {
    static const uint32_t counts[] = {1, 2, 3, 7, 8, 9, 10, 41, 42, 43, 62, 63, 64, 84, 126, 127, 1024, 1025};
    if (one_in(3000))
        return 1048576 - (uint32_t)below(3);
    return one_in(100) ? 1 + (uint32_t)below(20000) : one_in(3) ? 1 + (uint32_t)below(300) : PICK(counts);
}

/* The decode index of display frame i, by a way of ordering. */
static uint32_t decode(uint32_t i, uint32_t n, unsigned how) {
    uint32_t start = i / 4 * 4;
    if (how == 1 && start + 4 <= n)
        return start + (3 - (i - start));
    if (how == 2)
        return n - 1 - i;
    if (how == 3)
        return (uint32_t)(((uint64_t)i + n / 3) % n);
    return i;
}

static uint64_t duration(uint32_t n, int wide_layout, unsigned how) {
    if (how == 0)
        return 1001;
    if (wide_layout && how == 1)
        return (UINT64_C(1) << 53) / n - below(3);
    if (wide_layout && how == 2 && one_in(8))
        return any() >> (10 + below(40));
    return one_in(9) ? (uint32_t)any() : below(4000);
}

static void spoil_sheet(size_t length) {
    size_t blocks = length / 512, k, many = 1 + below(3);
    for (k = 0; k < many; k++) {
        size_t b = one_in(2) ? 0 : below(blocks), w = one_in(2) ? below(8) : below(128);
        uint32_t value = one_in(3) ? (uint32_t)any() : word_at(sheet_bytes + 512 * b, w) ^ 1u << below(32);
        word_to(sheet_bytes + 512 * b, w, value);
        if (!one_in(4) && w != 127)
            seal(sheet_bytes + 512 * b, w == 0 ? value : (uint32_t)b);
    }
}

size_t draw_sheet(int sound) {
    uint32_t n = draw_frames(), i, per;
    int wide_layout = one_in(3);
    unsigned how = (unsigned)below(5), lasting = (unsigned)below(3), gap = 1 + (unsigned)below(15);
    size_t blocks, b;
    per = wide_layout ? 42 : 63;
    blocks = 1 + (n + per - 1) / per;
    memset(sheet_bytes, 0, 512 * blocks);
    word_to(sheet_bytes, 1, wide_layout ? draw_timescale(1) : 1 + (draw_timescale(1) - 1) % 1000000);
    word_to(sheet_bytes, 2, n);
    word_to(sheet_bytes, 3, (uint32_t)any());
    word_to(sheet_bytes, 5, (uint32_t)wide_layout);
    for (i = 0; i < n; i++) {
        size_t at = record(i, wide_layout);
        uint64_t d = duration(n, wide_layout, lasting);
        int sync = gap == 15 ? one_in(9) : gap == 14 ? i == n / 2 : i % gap == 0;
        word_to(sheet_bytes, at, decode(i, n, how) | (sync ? 1u << 31 : 0));
        word_to(sheet_bytes, at + 1, (uint32_t)d);
        if (wide_layout)
            word_to(sheet_bytes, at + 2, (uint32_t)(d >> 32));
    }
    for (b = 0; b < blocks; b++)
        seal(sheet_bytes + 512 * b, (uint32_t)b);
    if (sound)
        return 512 * blocks;
    if (one_in(3))
        spoil_sheet(512 * blocks);
    return one_in(10) ? (one_in(2) ? below(512 * blocks + 1) : 512 * below(blocks + 1)) : 512 * blocks;
}

/* ---- lists */
struct writer {
    uint8_t *at;
    size_t length, room;
};

static void say(struct writer *w, const char *text) {
    size_t n = strlen(text);
    if (w->length + n <= w->room) {
        memcpy(w->at + w->length, text, n);
        w->length += n;
    }
}

static void say_number(struct writer *w, uint64_t value) {
    char digits[40];
    static const char *const forms[] = {"%llu", "+%llu", " %llu", "%llu\t", "000%llu", " +0%llu "};
    snprintf(digits, sizeof digits, one_in(6) ? PICK(forms) : "%llu", (unsigned long long)value);
    say(w, digits);
}

/* Ranges in order below the frame count; a few past it. */
static void draw_ranges(uint64_t frames) {
    uint64_t at = 0, step = 1 + frames / (1 + below(12));
    size_t most = one_in(200) ? 1023 + below(3) : 1 + below(one_in(10) ? 60 : 6);
    for (range_count = 0; range_count < most && (at < frames || one_in(3)); range_count++) {
        uint64_t start = at + below(step), end = start + 1 + below(step);
        ranges[range_count].start = start;
        ranges[range_count].end = end;
        at = one_in(3) ? end : end + below(step);
    }
}

size_t draw_list(uint64_t frames, int *known) {
    static const char *const between[] = {" ++ ", "++", "\n++ ", "\t++\n", "\xe3\x80\x80++"};
    static const char *const blank[] = {"", " ", "\n", "\xc2\xa0\t"};
    struct writer w = {list_bytes, 0, MOST_LIST};
    size_t k;
    int last = one_in(60); /* it ends at the last frame that there can be */
    *known = 1;
    draw_ranges(frames);
    if (one_in(15)) {
        range_count = 1;
        ranges[0].start = 0;
        ranges[0].end = frames;
        say(&w, PICK(blank));
        return w.length;
    }
    for (k = 0; k < range_count; k++) {
        say(&w, k ? PICK(between) : "");
        say(&w, "Trim(");
        say_number(&w, ranges[k].start);
        say(&w, ",");
        say_number(&w, last && k + 1 == range_count ? UINT32_MAX : ranges[k].end - 1);
        say(&w, ")");
    }
    *known = !last && range_count >= 1 && range_count <= 1024 && w.length <= 65536;
    if (one_in(3)) {
        *known = 0;
        w.length = mutate(list_bytes, w.length, MOST_LIST);
    }
    if (one_in(200)) {
        *known = 0;
        while (w.length < 65530)
            say(&w, one_in(2) ? " " : "++Trim(1,1)");
        while (w.length < 65535 + below(4))
            say(&w, " ");
    }
    return w.length;
}
