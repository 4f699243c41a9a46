/* The retimer's C functions:
 *   - frame sheet check and trim list check;
 *   - the map of a sheet and a list;
 *   - captions retimed through a map, in pieces or in one call;
 *   - the captions of a text;
 *   - time conversions, questions about a map, and maps as JSON.
 * They keep no state. They write only to the buffers that the caller lends for that. They return on every input.
 * docs/NUMBERS.md lists the numbers that they return. */
#ifndef RETIMER_H
#define RETIMER_H

#include <stddef.h>
#include <stdint.h>

#ifdef __cplusplus
extern "C" {
#endif

/* Rules for all functions:
 *   - An array is a pointer that is not NULL and, behind it, its length, which may be 0.
 *   - The length is `x_length` for an array that is read, `x_lent` for a buffer that may be written.
 *   - A buffer overlaps nothing else that is passed.
 *   - A place for one result is a pointer that is not NULL. No two places are the same.
 *   - Elements of a buffer behind what is written stay as they were.
 *   - A map is 64-bit numbers, six to a segment: start frame, end frame, source start, frame count, output start,
 *     duration. Its length counts numbers. */

/* The numbers that a function returns. */
enum retimer_number {
    RETIMER_DONE = 0,
    RETIMER_SHAPE = 2,             /* a token of the list is not Trim(a,b) */
    RETIMER_NOT_A_NUMBER = 3,      /* a or b is no decimal number below 2^32 */
    RETIMER_BACKWARD = 4,          /* a > b */
    RETIMER_LAST_FRAME = 5,        /* b = 4294967295 */
    RETIMER_CROSSING = 6,          /* a range starts below the end of the one before */
    RETIMER_LIST_TOO_LONG = 7,     /* more than 65536 bytes or 1024 trims */
    RETIMER_OVERLAP = 8,           /* snapped ranges overlap */
    RETIMER_TURNED_OVER = 9,       /* a snapped range starts above its end */
    RETIMER_PAST_THE_END = 10,     /* a range takes samples past the last */
    RETIMER_SHEET_LENGTH = 11,     /* the sheet's length is wrong */
    RETIMER_SHEET_BLOCK = 12,      /* a block's number or sum is wrong */
    RETIMER_SHEET_HEAD = 13,       /* timescale, frame count or a spare word is out of range */
    RETIMER_SHEET_RECORD = 14,     /* a frame's record is wrong */
    RETIMER_BAD_MAP = 15,          /* the timescale or the map */
    RETIMER_BAD_ARGUMENT = 16,     /* a kind, a value, or a length that is lent */
    RETIMER_FOREIGN_SESSION = 17,  /* a session that no call leads to */
    RETIMER_ENDED = 18,            /* the session has ended */
    RETIMER_LONG_LINE = 19,        /* a line of more than 4096 bytes */
    RETIMER_NOT_UTF8 = 20,
    RETIMER_LONG_BLOCK = 21,       /* an SRT or WebVTT block of more than 4096 bytes */
    RETIMER_BAD_TIME = 22,         /* a caption's time can't be read */
    RETIMER_NO_MAP_TEXT = 23,      /* a text that is no segment map as the cutter stores it */
    RETIMER_FIRST_LINE = 24,       /* a WebVTT text does not begin with WEBVTT */
    RETIMER_NAMED_TWICE = 25,      /* two frames of a sheet name the same sample */
    RETIMER_TOO_MANY_TICKS = 26,   /* a sheet or a map lasts more than 2^53 ticks */
    RETIMER_NO_PARKED_SESSION = 27, /* bytes that are no session */
    RETIMER_OUT_OF_ORDER = 28,     /* a map whose segments do not ascend */
    RETIMER_NO_TRIES = 29          /* budget 0, or more than 4096 captions */
};

/* What each number says, for messages: `static const char *const sentence[] = RETIMER_SENTENCES;` gives
 * sentence[number]. docs/GUIDE.md says what to do. */
#define RETIMER_SENTENCES { \
    "done", \
    "no longer given: a blank trim list keeps the whole play", \
    "an entry of the list is not Trim(a,b)", \
    "a or b is no whole number below 4,294,967,296", \
    "a is greater than b", \
    "b is 4,294,967,295", \
    "a trim begins before the one before it has ended", \
    "the list has more than 65,536 bytes or 1,024 trims", \
    "two trims overlap once they are widened to cutting places", \
    "a trim begins after it ends once it is narrowed (only when cutting inward)", \
    "too few frames are stored behind the first frame of a trim", \
    "the sheet has a wrong length", \
    "a block of the sheet is damaged", \
    "the sheet's head is wrong: ticks a second, frame count, or a spare word", \
    "a frame's entry in the sheet is wrong", \
    "the map, or the ticks a second, is out of range", \
    "an argument is out of range, or a lent buffer too short", \
    "a session that this library did not make", \
    "the session has ended", \
    "a line of the captions has more than 4,096 bytes", \
    "the captions, the trim list or the path of a map's JSON are not UTF-8", \
    "an SRT or WebVTT block has more than 4,096 bytes", \
    "a caption's time can't be read", \
    "a text is no segment map as the cutter stores it", \
    "the WebVTT captions do not begin with the line WEBVTT", \
    "two frames of the sheet name the same stored picture", \
    "the recording, or what is kept of it, lasts longer than 2^53 ticks", \
    "the stored bytes are no parked session", \
    "the kept stretches do not follow the recording in order, so starts can't be counted through them", \
    "more than 4,096 captions are to be shifted, or no shift is to be tried" \
}

/* The warnings of a text, each with the line, counted from 1. */
enum retimer_warning {
    RETIMER_UNKNOWN_COLUMN = 1,    /* an ASS caption passes: Start or End is unknown */
    RETIMER_FEW_FIELDS = 2,        /* an ASS caption passes: it has fewer fields than columns */
    RETIMER_RELATIVE_TAG = 3,      /* the start was cut, and the caption has a tag that counts from its start */
    RETIMER_LOST_PART = 4,         /* the end was cut, and a segment later in the list has a part of the caption */
    RETIMER_TIMES_INSIDE = 5       /* a WebVTT caption has times inside its lines */
};

/* What each warning says: sentence[warning - 1]. */
#define RETIMER_WARNING_SENTENCES { \
    "an ASS caption passed unchanged: its Format line names no Start or no End", \
    "an ASS caption passed unchanged: it has fewer fields than the Format line", \
    "the start was cut off, and the caption has tags that count from its start (fades, moves, karaoke)", \
    "the end was cut off, and a kept stretch further on has a part of the same caption", \
    "a WebVTT caption that is kept has times inside its lines (<00:00:18.500>), which stay as they were" \
}

/* The kinds of captions. */
enum retimer_kind { RETIMER_ASS = 0, RETIMER_SRT = 1, RETIMER_VTT = 2 };

/* Which way cuts are moved to sync frames. */
enum retimer_direction { RETIMER_OUTWARD = 0, RETIMER_INWARD = 1 };

/* Work bytes that are enough for the check of every sheet. */
#define RETIMER_MOST_WORK 131072

/* Checks a frame sheet.
 * Returns 0 for a sound sheet; 11, 12, 13 or 14 for a fault; 16 where `work` is too short; 25 where two frames name
 * the same sample; 26 where the durations together are more than 2^53 ticks.
 * work: n / 8 bytes, rounded up, or more, for n frames. Their content does not matter.
 * With 0, 25 and 26 the bytes needed end zero. With any other number all bytes stay as they were. */
uint32_t retimer_sheet_check(const uint8_t *sheet, size_t sheet_length, uint8_t *work, size_t work_lent);

/* Checks a trim list.
 * Returns 0 for a good list, or a blank one, which keeps the whole play; else 2 to 7, or 20 for bytes that are not
 * UTF-8. */
uint32_t retimer_list_check(const uint8_t *list, size_t list_length);

/* Numbers that are enough for every map: 1024 segments, six to each. */
#define RETIMER_MAP_NUMBERS 6144

/* Makes the map of a sheet and a trim list.
 * work: as for the check. map: at least RETIMER_MAP_NUMBERS numbers. direction: outward or inward.
 * Returns, in this order: 16 where `map` is too short or the direction is neither; the sheet's numbers (11 to 14, 16,
 * 25, 26); the list's (2 to 7, 20); those of its ranges (8 to 10, 26); else 0.
 * With 0 the map is written, `timescale` is the sheet's ticks a second, and `count` is the number of segments. The map
 * to pass on is the first 6 * count numbers.
 * With any other number `map` and both places stay as they were.
 * The work bytes stay where `map` is too short or the direction is neither. Else they are as the check leaves them. */
uint32_t retimer_map(const uint8_t *sheet, size_t sheet_length, const uint8_t *list, size_t list_length, uint32_t direction, uint8_t *work, size_t work_lent,
                     uint64_t *map, size_t map_lent, uint32_t *timescale, uint64_t *count);

/* Captions retimed in pieces.
 *   - The caller keeps a session, between two calls, as RETIMER_SESSION_BYTES bytes. They may be stored and taken up
 *     another day. They have no alignment.
 *   - A piece has at most RETIMER_MOST_PIECE bytes, cut anywhere.
 *   - Each call needs at least RETIMER_LEAST_OUTPUT bytes of output and RETIMER_LEAST_PLACES places for warnings. */
#define RETIMER_SESSION_BYTES 9216
/* The words of a session's block 0, 32 bits each, least byte first. Word k stands at byte 4 * k.
 * Words 0 and 127 of each of the 18 blocks are its number and its sum, as in a frame sheet (docs/SHEET.md).
 * The held bytes stand in blocks 1 to 17. A caller may read the words, but must change none: a wrong sum is 27. */
enum retimer_session_word {
    RETIMER_WORD_MARK = 1,        /* 2; 1 where an older program stored the session */
    RETIMER_WORD_KIND = 2,
    RETIMER_WORD_TIMESCALE = 3,
    RETIMER_WORD_ENDED = 4,       /* 1 once the text has ended or was refused */
    RETIMER_WORD_OUTCOME = 5,     /* the number with which it ended */
    RETIMER_WORD_TAKEN = 6,       /* bytes of the text */
    RETIMER_WORD_LINES = 7,       /* lines that have ended; once the session has ended, this and the last five are 0 */
    RETIMER_WORD_SHIFTED = 8,     /* the counts: captions moved whole, */
    RETIMER_WORD_CLIPPED = 9,     /* shortened, */
    RETIMER_WORD_DROPPED = 10,    /* dropped, */
    RETIMER_WORD_PASSED = 11,     /* and passed */
    RETIMER_WORD_EVENTS = 12,     /* 1 within ASS's section Events */
    RETIMER_WORD_COLUMNS = 13,    /* columns of its Format line, */
    RETIMER_WORD_START = 14,      /* and the places of Start */
    RETIMER_WORD_END = 15,        /* and End */
    RETIMER_WORD_HELD = 16        /* bytes of a line or block that is not complete */
};
#define RETIMER_MOST_PIECE 1024
#define RETIMER_LEAST_OUTPUT 32768
#define RETIMER_LEAST_PLACES 4096

/* Opens a session of a kind, with the ticks a second, through the map.
 * Returns 15 for the timescale or the map; 16 for the kind, then for fewer than RETIMER_SESSION_BYTES bytes; else 0.
 * With 0 the session is the first RETIMER_SESSION_BYTES bytes. With any other number all bytes stay as they were. */
uint32_t retimer_open(uint32_t kind, uint32_t timescale, const uint64_t *map, size_t map_length, uint8_t *session, size_t session_lent);

/* Takes a piece of the text.
 * Refusals, in this order:
 *   27 the session is not RETIMER_SESSION_BYTES bytes that a call left;
 *   17 the bytes name a session that no call leads to;
 *   18 the session has ended;
 *   15 the map;
 *   16 a length, or more than 2^30 bytes taken together.
 * Refused, nothing is written: all buffers and both places stay as they were.
 * Else it returns 0, or 19 to 22 or 24 for a fault of the text, which ends the session.
 *   - The retimed text that is complete stands at the start of `out`, of a faulty text what stands before the fault.
 *   - The warnings stand at the start of `warnings`, two numbers to each: which, and the line.
 *   - `written` and `warned` are how many bytes and how many numbers.
 *   - The session is the one to pass to the next call. An empty piece leaves its bytes as they were. */
uint32_t retimer_feed(uint8_t *session, size_t session_lent, const uint64_t *map, size_t map_length, const uint8_t *piece, size_t piece_length, uint8_t *out,
                      size_t out_lent, uint64_t *warnings, size_t warnings_lent, uint64_t *written, uint64_t *warned);

/* Ends the text: what is held is its last line.
 * It returns the same numbers and writes the same places as a feed. With 0 too the session has ended (18 from then
 * on). */
uint32_t retimer_finish(uint8_t *session, size_t session_lent, const uint64_t *map, size_t map_length, uint8_t *out, size_t out_lent, uint64_t *warnings,
                        size_t warnings_lent, uint64_t *written, uint64_t *warned);

/* Retimes a whole text in one call: it opens, feeds and finishes inside.
 * out: at least RETIMER_OUTPUT_FOR(text_length) bytes. warnings: at least RETIMER_PLACES_FOR(text_length) numbers.
 * told: at least RETIMER_TOLD_NUMBERS numbers.
 * Refused, nothing is written: 15 for the timescale or the map; 16 for the kind, a text of more than 2^30 bytes, or a
 * buffer that is too short.
 * Else it returns 0, or 19 to 22 or 24 for a fault of the text.
 *   - The retimed text stands at the start of `out`, of a faulty text what stands before the fault.
 *   - The warnings stand at the start of `warnings`, two numbers to each.
 *   - `told` has the numbers of enum retimer_told.
 * These are what feeds of the text, cut anywhere, and a finish write, warn of and count. */
#define RETIMER_OUTPUT_FOR(length) (3 * (size_t)(length) + 32768)
#define RETIMER_PLACES_FOR(length) ((size_t)(length) / 3 + 4096)
#define RETIMER_TOLD_NUMBERS 7
enum retimer_told {
    RETIMER_TOLD_WRITTEN = 0, /* bytes of output */
    RETIMER_TOLD_WARNED = 1,  /* numbers for warnings, two to each */
    RETIMER_TOLD_SHIFTED = 2, /* captions moved whole */
    RETIMER_TOLD_CLIPPED = 3, /* captions that were shortened */
    RETIMER_TOLD_DROPPED = 4, /* captions of which nothing is kept */
    RETIMER_TOLD_PASSED = 5,  /* captions that stay as they are, with warning 1 or 2 */
    RETIMER_TOLD_TAKEN = 6    /* bytes of the text */
};
uint32_t retimer_text(uint32_t kind, uint32_t timescale, const uint64_t *map, size_t map_length, const uint8_t *text, size_t text_length, uint8_t *out, size_t out_lent,
                      uint64_t *warnings, size_t warnings_lent, uint64_t *told, size_t told_lent);

/* Lists the captions of a whole text, in its order.
 * rows: RETIMER_CUE_NUMBERS numbers for each caption. RETIMER_CUES_FOR(text_length) are enough for every text, which is
 * proved, and then the text is walked once. With fewer it is walked twice.
 * told: at least RETIMER_CUES_TOLD numbers.
 * Refused, nothing is written: 16 for the kind, a text of more than 2^30 bytes, or a buffer that is too short.
 * Else it returns 0, or 19 to 22 or 24 for a fault of the text.
 *   - The numbers of each caption stand at the start of `rows`, of a faulty text those of each caption before the line
 *     (ASS) or block of the first fault.
 *   - `told` has the numbers of enum retimer_cues_told.
 * For every map the fates that retimer_why gives for these times, counted, are what retimer_text counts for the text. */
#define RETIMER_CUE_NUMBERS 6
#define RETIMER_CUES_FOR(length) (6 * ((size_t)(length) / 8 + 1))
#define RETIMER_CUES_TOLD 2
enum retimer_cue {
    RETIMER_CUE_LINE = 0,   /* the line, counted from 1; in SRT and WebVTT the line of the times */
    RETIMER_CUE_PASSED = 1, /* 0, or the warning 1 or 2 with which the caption passes; then its times are 0 */
    RETIMER_CUE_START = 2,  /* in units of the kind */
    RETIMER_CUE_END = 3,
    RETIMER_CUE_AT = 4,     /* the byte of the text at which the words begin. The words are in ASS the last field,
                             * else the lines below the times; of a caption that passes, its whole line */
    RETIMER_CUE_SIZE = 5    /* how many bytes they are */
};
enum retimer_cues_told {
    RETIMER_CUES_COUNT = 0,     /* captions */
    RETIMER_CUES_FAULT_LINE = 1 /* the line of the fault, or 0. For a block that is too long it is the first line,
                                 * for a time that can't be read the line of the times */
};
uint32_t retimer_cues(uint32_t kind, const uint8_t *text, size_t text_length, uint64_t *rows, size_t rows_lent, uint64_t *told, size_t told_lent);

/* Conversions between caption units and ticks.
 * kind: 0 ASS (hundredths), 1 SRT and 2 WebVTT (thousandths). timescale: ticks a second, 1 to 1000000000.
 * Units are at most 2^36, ticks at most 2^53. A refused conversion returns 0; the functions below give its number. */
uint64_t retimer_units_to_ticks(uint64_t value, uint32_t timescale, uint32_t kind);
uint64_t retimer_ticks_to_units_floor(uint64_t value, uint32_t timescale, uint32_t kind);
uint64_t retimer_ticks_to_units_ceil(uint64_t value, uint32_t timescale, uint32_t kind);

/* The number of a conversion from units, and of one from ticks: 0, 15 (timescale) or 16 (kind or value). */
uint32_t retimer_units_number(uint64_t value, uint32_t timescale, uint32_t kind);
uint32_t retimer_ticks_number(uint64_t value, uint32_t timescale, uint32_t kind);

/* Says what is sure of a caption whose start and end are each known between two ticks. The bounds are included, and may
 * be any 64-bit numbers.
 * Returns 15 for a bad map; 16 where a lower bound is above its upper bound; else 0.
 * With 0 the judgement is one of these three. With any other number it stays as it was. */
#define RETIMER_SURELY_DROPPED 0 /* no choice within the bounds meets a kept segment */
#define RETIMER_SURELY_KEPT 1    /* every choice does */
#define RETIMER_UNSURE 2         /* one does, another does not */
uint32_t retimer_rough(const uint64_t *map, size_t map_length, uint64_t start_low, uint64_t start_high, uint64_t end_low, uint64_t end_high,
                       uint64_t *judgement);

/* Says what becomes of a caption, and why. Its two times are in units, at most 2^36 each.
 * Returns 15 for a bad timescale or map; 16 for a kind above 2, a time above the limit, or fewer places for causes than
 * the map has segments; else 0. With a number that is not 0 nothing is written.
 * With 0 the fate is written.
 *   - Kept caption: `place` is its segment in the list, from 0. `start_cut` and `end_cut` are the ticks that are cut
 *     off at each end. No cause is written.
 *   - Dropped caption: these three are 0. A cause for each segment stands at the start of `causes`. */
#define RETIMER_DROPPED 0
#define RETIMER_SHIFTED 1
#define RETIMER_CLIPPED 2
#define RETIMER_NO_LENGTH 1    /* causes, the first that applies: the segment has no length */
#define RETIMER_ENDS_BEFORE 2  /* it ends at or before the caption's start */
#define RETIMER_STARTS_AFTER 3 /* it starts at or after the caption's end */
uint32_t retimer_why(const uint64_t *map, size_t map_length, uint32_t timescale, uint32_t kind, uint64_t start, uint64_t stop, uint64_t *causes, size_t causes_lent,
                     uint64_t *fate, uint64_t *place, uint64_t *start_cut, uint64_t *end_cut);

/* Counts how many starts survive a cut. There is one caption of `length` units at each start from 0 to count - 1, in
 * units of the kind. length and count are at most 36000000.
 * Returns 15 for the timescale or the map; 28 for a map whose segments of positive duration do not ascend without overlap
 * in source and output; 16 for kind, length or count; else 0. With a number that is not 0 nothing is written.
 * With 0 the three places are how many are shifted, clipped and dropped. They sum to count. */
uint32_t retimer_census(const uint64_t *map, size_t map_length, uint32_t timescale, uint32_t kind, uint64_t length, uint64_t count, uint64_t *shifted,
                        uint64_t *clipped, uint64_t *dropped);

/* Finds the delay that loses the fewest captions.
 * It tries the first `budget` delays in the order 0, 1, -1, 2, -2 to 6000, -6000 units. Of equal ones it takes the first.
 * A caption is lost where a time falls below zero, or where it is clipped or dropped.
 * captions: start and end in turn, in units of the kind, at most 4096 captions, each time at most 2^36.
 * captions_length counts times.
 * Returns 15 for the timescale or the map; 29 for budget 0 or more than 4096 captions; 16 for kind, an odd
 * captions_length or a time; else 0. With a number that is not 0 nothing is written.
 *   - delay: the delay, which may be negative;
 *   - loss: captions lost under it;
 *   - tried: the delays tried, 12001 or the budget where that is smaller;
 *   - off: how far off the loss can be. No delay at all loses fewer than loss - off. */
uint32_t retimer_best_delay(const uint64_t *map, size_t map_length, uint32_t timescale, uint32_t kind, const uint64_t *captions, size_t captions_length,
                            uint32_t budget, int64_t *delay, uint32_t *loss, uint32_t *tried, uint32_t *off);

/* Segment maps as the Rust cutter stores them: the JSON text of to_json. */
#define RETIMER_MOST_PATH 1024      /* bytes of the longest input path */
#define RETIMER_MOST_NUMBERS RETIMER_MAP_NUMBERS /* numbers of the longest map, six to a segment */
#define RETIMER_MOST_TEXT 255141    /* bytes of the longest text */

/* Writes the text of a map, with its line end. Timescale, frame rate (a fraction), input path and frame count go into it.
 * Returns 15 for a bad timescale or map; 16 for a path above 1024 bytes; 20 for one that is not UTF-8; 16 where the text
 * is longer than its buffer; else 0.
 * With 0 the text stands at the start of `text`, and `written` is its length. Else nothing is written. */
uint32_t retimer_map_write(const uint64_t *map, size_t map_length, uint32_t timescale, uint32_t rate_num, uint32_t rate_den, const uint8_t *path,
                           size_t path_length, uint32_t frames, uint8_t *text, size_t text_lent, uint64_t *written);

/* Reads a map from its text.
 * Returns 23 for a text outside the rules of docs/GUIDE.md, or with a path above 1024 bytes; 15 for a timescale or map
 * outside the limits; 16 for fewer than 6144 places for numbers, or fewer than 1024 for path bytes; else 0.
 * With 0 the map's numbers stand at the start of `map`, and the decoded path at the start of `path`. The six places are
 * the timescale, the frame rate, the frame count, and how many numbers and path bytes were written.
 * With any other number nothing is written. */
uint32_t retimer_map_read(const uint8_t *text, size_t text_length, uint64_t *map, size_t map_lent, uint8_t *path, size_t path_lent, uint32_t *timescale,
                          uint32_t *rate_num, uint32_t *rate_den, uint32_t *frames, uint64_t *numbers, uint64_t *path_length);

#ifdef __cplusplus
}
#endif

#endif
