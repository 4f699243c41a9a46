/* Random calls of the C functions, each held against what include/retimer.h says. Shared by the files of this folder. */
#ifndef FUZZ_H
#define FUZZ_H

#include "retimer.h"

/* ---- the run (main.c) */
enum function { SHEET_CHECK, LIST_CHECK, MAP, OPEN, FEED, FINISH, TEXT, CUES, TO_TICKS, TO_UNITS_FLOOR, TO_UNITS_CEIL, UNITS_NUMBER, TICKS_NUMBER, ROUGH, WHY, CENSUS, BEST_DELAY, MAP_WRITE, MAP_READ, FUNCTIONS };

uint32_t answered(enum function f, uint32_t number);              /* counts a call; its number must be one that the header gives to the function */
void expect(int holds, enum function f, const char *what);        /* ends the run with seed and case where it does not hold */
void expect_number(enum function f, uint32_t number, uint32_t as);

/* The functions that a fault is put into by the self-test (faults.c). */
struct calls {
    uint32_t (*sheet_check)(const uint8_t *, size_t, uint8_t *, size_t);
    uint32_t (*list_check)(const uint8_t *, size_t);
    uint32_t (*open)(uint32_t, uint32_t, const uint64_t *, size_t, uint8_t *, size_t);
    uint32_t (*feed)(uint8_t *, size_t, const uint64_t *, size_t, const uint8_t *, size_t, uint8_t *, size_t, uint64_t *, size_t, uint64_t *, uint64_t *);
    uint32_t (*cues)(uint32_t, const uint8_t *, size_t, uint64_t *, size_t, uint64_t *, size_t);
    uint32_t (*units_number)(uint64_t, uint32_t, uint32_t);
    uint32_t (*census)(const uint64_t *, size_t, uint32_t, uint32_t, uint64_t, uint64_t, uint64_t *, uint64_t *, uint64_t *);
    uint32_t (*map_write)(const uint64_t *, size_t, uint32_t, uint32_t, uint32_t, const uint8_t *, size_t, uint32_t, uint8_t *, size_t, uint64_t *);
};
extern struct calls call;
extern const char *const faults[];
void put_fault(unsigned which);

/* ---- random numbers (draw.c) */
void seed_with(uint64_t seed, uint64_t number);
uint64_t any(void);
uint64_t below(uint64_t n);
int one_in(unsigned n);
uint64_t near(uint64_t value, uint64_t span); /* a number at most span away, never wrapping */
#define PICK(row) ((row)[below(sizeof(row) / sizeof *(row))])

/* ---- guarded memory (guard.c): a slot's bytes lie between pages that can't be touched, and are seen a second time read-only */
struct slot {
    uint8_t *rw, *ro, *mirror;
    size_t room;
};
extern struct slot in_sheet, in_list, in_map, in_text, in_captions, in_path;
extern struct slot lent_work, lent_map, lent_session, lent_out, lent_warnings, lent_rows, lent_told, lent_causes, lent_json, lent_path, lent_place[8];
void make_slots(void);
const void *given(struct slot *s, const void *bytes, size_t length); /* an input, read-only, at the slot's end or start */
uint8_t *lend(struct slot *s, size_t length);                        /* bytes of any value, likewise */
void lend_these(struct slot *s, uint8_t *at, const uint8_t *bytes, size_t length);
void kept(enum function f, struct slot *s, const void *at, size_t length, size_t written, const char *what); /* all but the first `written` bytes are as they were; then these get new values */
uint64_t *place(unsigned k);   /* one number to be told, of any value */
uint32_t *place32(unsigned k);
void place_kept(enum function f, unsigned k);
void place_done(enum function f, unsigned k); /* once its number has been read */
void place32_done(enum function f, unsigned k);

/* ---- what is drawn (draw.c, texts.c) */
#define MOST_NUMBERS 6400
#define MOST_SHEET (512 * 24970)
#define MOST_LIST 140000
#define MOST_CAPTIONS 131072 /* bytes of a caption text */
extern uint64_t map_numbers[MOST_NUMBERS];
extern uint8_t sheet_bytes[MOST_SHEET], list_bytes[MOST_LIST], text_bytes[MOST_CAPTIONS];
struct range {
    uint64_t start, end;
};
extern struct range ranges[1100];
extern size_t range_count; /* of a list that is sound and known */
uint32_t draw_timescale(int sound);
uint32_t draw_kind(int sound);
uint64_t draw_length(uint64_t around); /* a length to lend, around a limit */
size_t draw_map(uint32_t timescale, int sound);
size_t draw_sheet(int sound);
size_t draw_list(uint64_t frames, int *known);
size_t draw_text(uint32_t kind, uint32_t timescale, const uint64_t *map, size_t numbers);
size_t mutate(uint8_t *bytes, size_t length, size_t room);

/* ---- what the papers say (model.c) */
__extension__ typedef unsigned __int128 wide;
uint32_t word_at(const uint8_t *bytes, size_t k);
void word_to(uint8_t *bytes, size_t k, uint32_t value);
void seal(uint8_t *block, uint32_t number);
int timescale_bad(uint32_t t);
int map_bad(const uint64_t *map, size_t length);
int ascends(const uint64_t *map, size_t length);
uint64_t units_a_second(uint32_t kind);
wide ticks_of(uint64_t units, uint32_t timescale, uint32_t kind);
int meets(const uint64_t *segment, wide start, wide end);
long first_met(const uint64_t *map, size_t length, wide start, wide end); /* its place, or -1 */
uint32_t sheet_number(const uint8_t *sheet, size_t length, size_t work, size_t *zeroed);
uint32_t map_of(const uint8_t *sheet, const struct range *list, size_t count, uint32_t direction, uint64_t *map, size_t *numbers);
int is_parked(const uint8_t *session, size_t length);
int surely_foreign(const uint8_t *session);

/* ---- cases */
void case_sheet(void);
void case_list(void);
void case_map(void);
void case_session(void);
void case_forged(void);
void case_text(void);
void case_cues(void);
void case_conversions(void);
void case_rough(void);
void case_why(void);
void case_census(void);
void case_delay(void);
void case_stored(void);
void case_json(void);

#endif
