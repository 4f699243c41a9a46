/* Cases of maps as JSON texts: written and read back; texts damaged, with the answer of a reader that must agree with itself. */
#include "fuzz.h"
#include <string.h>

/* What a text says of a map. */
struct said {
    uint64_t map[RETIMER_MAP_NUMBERS];
    uint8_t path[RETIMER_MOST_PATH];
    uint32_t timescale, rate_num, rate_den, frames;
    uint64_t numbers, path_length;
};
static struct said want, got;
static uint8_t json[RETIMER_MOST_TEXT + 4096];

/* Bytes of the text, or 0 where it is refused; the number must be `as`. */
static size_t written(const struct said *s, size_t numbers, const uint64_t *map, size_t path_length, size_t lent, uint32_t as) {
    uint8_t *text = lend(&lent_json, lent);
    uint64_t length;
    uint32_t number = answered(MAP_WRITE, call.map_write(given(&in_map, map, 8 * numbers), numbers, s->timescale, s->rate_num, s->rate_den,
                                                         given(&in_path, text_bytes, path_length), path_length, s->frames, text, lent, place(0)));
    expect_number(MAP_WRITE, number, as);
    if (number) {
        kept(MAP_WRITE, &lent_json, text, lent, 0, "the text of a refused call");
        place_kept(MAP_WRITE, 0);
        return 0;
    }
    length = *place(0);
    expect(length && length <= lent && text[length - 1] == '\n', MAP_WRITE, "the length told");
    memcpy(json, text, length);
    kept(MAP_WRITE, &lent_json, text, lent, length, "bytes behind the text");
    place_done(MAP_WRITE, 0);
    return length;
}

static void read_out(const uint64_t *map, size_t map_lent, const uint8_t *path, size_t path_lent) {
    unsigned k;
    got.timescale = *place32(0);
    got.rate_num = *place32(1);
    got.rate_den = *place32(2);
    got.frames = *place32(3);
    got.numbers = *place(4);
    got.path_length = *place(5);
    expect(got.numbers <= RETIMER_MAP_NUMBERS && got.numbers % 6 == 0 && got.path_length <= RETIMER_MOST_PATH, MAP_READ, "told lengths");
    memcpy(got.map, map, 8 * got.numbers);
    memcpy(got.path, path, got.path_length);
    expect(!timescale_bad(got.timescale) && !map_bad(got.map, got.numbers), MAP_READ, "a map outside the limits");
    kept(MAP_READ, &lent_map, map, 8 * map_lent, 8 * got.numbers, "numbers behind the map");
    kept(MAP_READ, &lent_path, path, path_lent, got.path_length, "bytes behind the path");
    for (k = 0; k < 4; k++)
        place32_done(MAP_READ, k);
    place_done(MAP_READ, 4);
    place_done(MAP_READ, 5);
}

static uint32_t read_text(const uint8_t *text, size_t length, size_t map_lent, size_t path_lent) {
    uint64_t *map = (uint64_t *)(void *)lend(&lent_map, 8 * map_lent);
    uint8_t *path = lend(&lent_path, path_lent);
    uint32_t number = answered(MAP_READ, retimer_map_read(given(&in_text, text, length), length, map, map_lent, path, path_lent, place32(0), place32(1), place32(2), place32(3), place(4), place(5)));
    unsigned k;
    if (!number) {
        read_out(map, map_lent, path, path_lent);
        return 0;
    }
    kept(MAP_READ, &lent_map, map, 8 * map_lent, 0, "the map of a refused call");
    kept(MAP_READ, &lent_path, path, path_lent, 0, "the path of a refused call");
    for (k = 0; k < 6; k++)
        place_kept(MAP_READ, k);
    return number;
}

/* What was written is read back. */
static void read_back(size_t length) {
    expect_number(MAP_READ, read_text(json, length, RETIMER_MAP_NUMBERS + below(2), RETIMER_MOST_PATH + below(2)), 0);
    expect(got.numbers == want.numbers && !memcmp(got.map, want.map, 8 * got.numbers), MAP_READ, "another map than was written");
    expect(got.path_length == want.path_length && !memcmp(got.path, want.path, got.path_length), MAP_READ, "another path than was written");
    expect(got.timescale == want.timescale && got.rate_num == want.rate_num && got.rate_den == want.rate_den && got.frames == want.frames, MAP_READ, "other numbers than were written");
}

/* A path of UTF-8, to text_bytes. */
static size_t draw_path(void) {
    static const char *const parts[] = {"/plays/", "霧", "é", "\"", "\\", "\x01", "\x1f", "a", ".mp4", "\n", "𝄞", "\x7f"};
    size_t n = 0, most = one_in(20) ? RETIMER_MOST_PATH : below(40), size;
    for (;;) {
        const char *part = PICK(parts);
        size = strlen(part);
        if (n + size > most)
            return n;
        memcpy(text_bytes + n, part, size);
        n += size;
    }
}

static void draw_said(void) {
    want.timescale = draw_timescale(1);
    want.rate_num = (uint32_t)(any() >> below(64));
    want.rate_den = (uint32_t)(any() >> below(64));
    want.frames = (uint32_t)(any() >> below(64));
    want.numbers = draw_map(want.timescale, 1);
    if (map_bad(map_numbers, want.numbers))
        want.numbers = 0;
    memcpy(want.map, map_numbers, 8 * want.numbers);
    want.path_length = draw_path();
    memcpy(want.path, text_bytes, want.path_length);
}

/* Sound maps and paths; then the same with a text lent that is one byte too short, or just as long. */
void case_stored(void) {
    size_t length, lent;
    draw_said();
    length = written(&want, want.numbers, want.map, want.path_length, RETIMER_MOST_TEXT, 0);
    read_back(length);
    lent = one_in(2) ? length : one_in(2) ? length - 1 : below(length);
    expect((written(&want, want.numbers, want.map, want.path_length, lent, lent < length ? 16 : 0) != 0) == (lent >= length), MAP_WRITE, "room for the text");
    if (one_in(3)) { /* unsound */
        size_t numbers = draw_map(want.timescale, 0), path = one_in(3) ? near(RETIMER_MOST_PATH, 2) : want.path_length;
        uint32_t t = want.timescale, as;
        want.timescale = draw_timescale(0);
        if (path != want.path_length)
            memset(text_bytes, 'a', path);
        if (path && one_in(4))
            text_bytes[path - 1] = 0xE3;
        as = timescale_bad(want.timescale) || map_bad(map_numbers, numbers) ? 15 : path > RETIMER_MOST_PATH ? 16 : path && text_bytes[path - 1] == 0xE3 ? 20 : 0;
        written(&want, numbers, map_numbers, path, RETIMER_MOST_TEXT, as);
        want.timescale = t;
    }
}

/* A number of the text gets other digits. */
static size_t other_number(size_t length) {
    static const char *const numbers[] = {"0", "1000000000", "1000000001", "4294967295", "4294967296", "9007199254740992", "9007199254740993", "18446744073709551615", "18446744073709551616", "01", "7"};
    const char *number = PICK(numbers);
    size_t at = below(length), end, size = strlen(number);
    while (at < length && (json[at] < '0' || json[at] > '9'))
        at++;
    while (at > 0 && json[at - 1] >= '0' && json[at - 1] <= '9')
        at--;
    for (end = at; end < length && json[end] >= '0' && json[end] <= '9'; end++)
        ;
    if (end == at || length - (end - at) + size > sizeof json)
        return length;
    memmove(json + at + size, json + end, length - end);
    memcpy(json + at, number, size);
    return length - (end - at) + size;
}

/* A damaged text, or any bytes: whatever is read is written and read again the same. */
void case_json(void) {
    size_t length, k;
    uint32_t number, again;
    draw_said();
    length = written(&want, want.numbers, want.map, want.path_length, RETIMER_MOST_TEXT, 0);
    if (one_in(20))
        for (length = below(200), k = 0; k < length; k++)
            json[k] = (uint8_t)(one_in(2) ? any() : (uint64_t)"{}[]\",:0123456789\\unrtfalse \n"[below(30)]);
    else if (one_in(3))
        length = other_number(length);
    else
        length = mutate(json, length, sizeof json);
    number = read_text(json, length, RETIMER_MAP_NUMBERS, RETIMER_MOST_PATH);
    expect(number != 16, MAP_READ, "16 where enough is lent");
    again = read_text(json, length, one_in(2) ? RETIMER_MAP_NUMBERS - 1 - below(3) : RETIMER_MAP_NUMBERS, one_in(2) ? RETIMER_MOST_PATH - 1 - below(3) : below(RETIMER_MOST_PATH));
    expect_number(MAP_READ, again, number ? number : 16);
    if (number || read_text(json, length, RETIMER_MAP_NUMBERS, RETIMER_MOST_PATH))
        return;
    memcpy(&want, &got, sizeof want);
    memcpy(text_bytes, want.path, want.path_length);
    read_back(written(&want, want.numbers, want.map, want.path_length, RETIMER_MOST_TEXT, 0));
}
