/* Caption texts of the three kinds, by their grammar, with times around a map's edges; and damage to any bytes. */
#include "fuzz.h"
#include <stdio.h>
#include <string.h>

uint8_t text_bytes[MOST_CAPTIONS];
static size_t length;
static unsigned ending; /* how lines end */

static void say(const char *text) {
    size_t n = strlen(text);
    if (length + n <= MOST_CAPTIONS) {
        memcpy(text_bytes + length, text, n);
        length += n;
    }
}

static const char *line_end(void) {
    static const char *const ends[] = {"\n", "\n", "\n", "\r\n", "\r\n", "\r\r\n"};
    if (one_in(20))
        ending = (unsigned)below(6);
    return ends[ending];
}

/* ---- times: near an edge of the map, or any */
static uint64_t units_near(uint32_t kind, uint32_t timescale, const uint64_t *map, size_t numbers) {
    uint64_t u = units_a_second(kind), units;
    if (numbers >= 6 && !one_in(5)) {
        const uint64_t *m = map + 6 * below(numbers / 6);
        wide tick = (wide)m[2] + (one_in(2) ? m[5] : 0);
        units = (uint64_t)(tick * u / (timescale ? timescale : 1));
        units = near(units, one_in(3) ? 300 : 2);
    } else {
        units = any() >> (28 + below(36));
    }
    return units % (u * 3600 * 10000 + (one_in(50) ? 999 : 0));
}

static void say_time(uint32_t kind, uint64_t units) {
    char t[64];
    uint64_t u = units_a_second(kind);
    unsigned f = (unsigned)(units % u), s = (unsigned)(units / u % 60), m = (unsigned)(units / u / 60 % 60), h = (unsigned)(units / u / 3600);
    if (kind == 0)
        snprintf(t, sizeof t, one_in(10) ? " +%u:%u:%u.%u " : "%u:%02u:%02u.%02u", h, m, s, f);
    else if (kind == 1)
        snprintf(t, sizeof t, one_in(6) ? "%02u:%02u:%02u.%03u" : "%02u:%02u:%02u,%03u", h, m, s, f);
    else if (h == 0 && one_in(2))
        snprintf(t, sizeof t, "%02u:%02u.%03u", m, s, f);
    else
        snprintf(t, sizeof t, "%02u:%02u:%02u.%03u", h, m, s, f);
    if (one_in(400))
        t[below(strlen(t))] = "0:.,x- "[below(7)];
    say(t);
}

/* ---- words */
static void say_words(void) {
    static const char *const words[] = {"The lamp is lit", "今夜は霧が深い", "{\\k40}row", "{\\fad(200,200)}", "\\move(1,2", "{\\t(0,5,\\fscx1)}", "à la fenêtre", ", and so on,", "<00:00:01.000>", "<3", "-->",
                                        "a", "\xc2\xa0", "\xef\xbb\xbf", "𝄞", "--", "[x]", "\r", "\\N", "<i>", "", "\t", "1"};
    size_t k, n = below(6);
    for (k = 0; k < n; k++)
        say(PICK(words));
    if (one_in(300)) {
        size_t size = near(4096, 40);
        for (k = 0; k < size; k++)
            say("z");
    }
    if (one_in(400) && length < MOST_CAPTIONS)
        text_bytes[length++] = (uint8_t)(128 + below(128));
}

static void say_line(const char *text) {
    say(text);
    say(line_end());
}

static void say_captions(uint32_t kind, uint32_t timescale, const uint64_t *map, size_t numbers, const char *between, const char *behind) {
    uint64_t start = units_near(kind, timescale, map, numbers);
    uint64_t end = one_in(2) ? start + below(500) : units_near(kind, timescale, map, numbers);
    say_time(kind, start);
    say(between);
    say_time(kind, end);
    say(behind);
}

/* ---- kinds */
static void ass_line(uint32_t timescale, const uint64_t *map, size_t numbers) {
    static const char *const lines[] = {"[Events]", "[Script Info]", " [Events] ", "[V4+ Styles]", "Format: Layer, Start, End, Style, Text", "Format: Start,End,Text", "Format: Text, End, Start", "Format: Start, Text",
                                        "Format:", "; remark", "", "Title: x", "Style: Default,Arial", "Dialogue: 0", "[Events", "[]"};
    if (one_in(6)) {
        say_line(PICK(lines));
        return;
    }
    say(one_in(4) ? "Comment:" : "Dialogue:");
    if (!one_in(8))
        say(one_in(3) ? " 0," : "0,");
    say_captions(0, timescale, map, numbers, ",", ",");
    say_words();
    say(",");
    say_words();
    say(line_end());
}

/* Lines of about 4,096 bytes together. */
static void long_block(void) {
    size_t k, left = near(4096 - 40, 60);
    while (left > 1) {
        size_t n = one_in(3) ? left : 1 + below(left < 1500 ? left : 1500);
        for (k = 1; k < n; k++)
            say("y");
        say_line("");
        left -= n;
    }
}

static void block(uint32_t kind, uint32_t timescale, const uint64_t *map, size_t numbers) {
    static const char *const arrows[] = {" --> ", " --> ", "-->", "\t-->\xe3\x80\x80", " --> "};
    static const char *const behind[] = {"", "", "", " X1:1 X2:2", " align:start", "\tline:0", "\xc2\xa0", " ", "6"};
    static const char *const beside[] = {"NOTE x", "STYLE", "::cue { color: red }", "REGION", "id:a", " ", "7"};
    size_t k, n = below(4);
    char number[24];
    if (one_in(10))
        say_line(PICK(beside));
    snprintf(number, sizeof number, "%u", (unsigned)below(7000));
    if (!one_in(3))
        say_line(number);
    if (!one_in(15)) {
        say_captions(kind, timescale, map, numbers, PICK(arrows), PICK(behind));
        say(line_end());
    }
    for (k = 0; k < n; k++) {
        say_words();
        say(line_end());
    }
    if (one_in(150))
        long_block();
    if (!one_in(20))
        say(line_end());
    if (kind == 1 && one_in(20))
        say_line(" \t");
}

size_t draw_text(uint32_t kind, uint32_t timescale, const uint64_t *map, size_t numbers) {
    static const char *const heads[] = {"WEBVTT", "WEBVTT", "WEBVTT - play", "WEBVTT\tx", "WEBVTTX", "webvtt", "WEBVTT\r"};
    size_t k, many = one_in(80) ? below(1200) : one_in(6) ? below(80) : below(9);
    length = 0;
    ending = (unsigned)below(6);
    if (one_in(8))
        say(one_in(10) ? "\xef\xbb" : "\xef\xbb\xbf");
    if (kind == 2)
        say_line(heads[one_in(20) ? below(7) : below(4)]);
    if (kind == 0 && !one_in(12)) {
        say_line("[Events]");
        say_line("Format: Layer, Start, End, Style, Text");
    }
    for (k = 0; k < many; k++) {
        if (kind == 0)
            ass_line(timescale, map, numbers);
        else
            block(kind == 2 ? 2 : 1, timescale, map, numbers);
    }
    if (one_in(5))
        length = mutate(text_bytes, length, MOST_CAPTIONS);
    if (one_in(60))
        for (length = below(3000), k = 0; k < length; k++)
            text_bytes[k] = (uint8_t)any();
    return one_in(10) ? below(length + 1) : one_in(8) && length ? length - 1 : length;
}

/* ---- damage */
static size_t cut_out(uint8_t *bytes, size_t n) {
    size_t at = below(n), size = one_in(3) ? below(n - at + 1) : 1 + below(n - at < 8 ? n - at : 8);
    size = size > n - at ? n - at : size;
    memmove(bytes + at, bytes + at + size, n - at - size);
    return n - size;
}

static size_t put_in(uint8_t *bytes, size_t n, size_t room, const void *what, size_t size) {
    size_t at = below(n + 1);
    if (n + size > room)
        return n;
    memmove(bytes + at + size, bytes + at, n - at);
    memcpy(bytes + at, what, size);
    return n + size;
}

size_t mutate(uint8_t *bytes, size_t n, size_t room) {
    static const char *const parts[] = {"\n", "\r", "\r\n", "\n\n", "-->", ",", ":", "[Events]\n", "Format: Start, End, Text\n", "\xef\xbb\xbf", "\xe3\x80\x80", "\xef\xbb", "\xc2\x85", "\xed\xa0\x80", "\xf4\x90\x80\x80", "++", "Trim(", ")", "\"", "\\u",
                                        "\\ud800", "{", "}", "[", "]", "0", "-1", "1e3", "18446744073709551616", "4294967296", "null", "\"a\":[[[[[[[[[1]]]]]]]]],", "\"input\":\"x\",", " "};
    size_t k, many = 1 + below(4);
    for (k = 0; k < many; k++) {
        const char *part = PICK(parts);
        uint8_t copied[64];
        switch (below(6)) {
        case 0:
            if (n)
                bytes[below(n)] = (uint8_t)any();
            break;
        case 1:
            if (n)
                n = cut_out(bytes, n);
            break;
        case 2:
            n = put_in(bytes, n, room, part, strlen(part));
            break;
        case 3:
            if (n)
                bytes[below(n)] ^= (uint8_t)(1u << below(8));
            break;
        case 4:
            n = one_in(4) ? below(n + 1) : n;
            break;
        default:
            if (n > 64) {
                memcpy(copied, bytes + below(n - 64), 64);
                n = put_in(bytes, n, room, copied, 1 + below(64));
            }
        }
    }
    return n;
}
