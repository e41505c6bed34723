/*
 * Spindlefig for C: a caption relay for up to eight desks, over memory that the caller lends.
 *
 * Link with libexport.a, which `host/build` writes to target/staticlib (x86-64).
 *
 * A slice goes as a pointer and a length, counted in elements: so much memory is there, the pointer is not null even where the length
 * is 0, and slices of one call do not overlap. Places are cleared to zeros before set-up and then left to the relay. This is C's share;
 * beyond it nothing has to be checked beforehand: what is wrong is refused by its number, 1 to 18, and a row that is too short gets
 * what fits. What each call answers and leaves is proved in crates/export, for every input.
 *
 * The marks have a head, in which the relay keeps what it knows of itself: the number of desks, which set-up puts there, and how many
 * samples are open, which set-up makes 0 and every call keeps as a count over the places would find it. A caller may read these numbers
 * there (SPINDLEFIG_MARKS_..) and must not write them. Where another number of desks than 1 to 8 stands there, or what is lent is too
 * short for it, the call is refused by 1 and leaves the memory as it stood.
 *
 * The running time of a payload is known or unknown. It starts as the packet's timestamp, which is known. SDUR 0 is a duration that is
 * not known yet: after a TYPE 1 unit or a last part (THIS = TOTAL) with SDUR 0 that 1 to 4 and 17 let through, the time is unknown, and
 * stays so to the end of the payload. No number stands for that, since every 32-bit number is a time: `known` goes beside the time.
 */
#ifndef SPINDLEFIG_H
#define SPINDLEFIG_H

#include <stdbool.h>
#include <stddef.h>
#include <stdint.h>

#ifdef __cplusplus
extern "C" {
#endif

/* The place of one open sample; what is in it is the relay's own business. */
typedef struct {
    uint64_t words[184];
} spindlefig_place;

/* ---- What n desks need, in elements; 0 where n is not 1 to 8. ---- */
size_t spindlefig_places(size_t n); /* places */
size_t spindlefig_rows(size_t n);   /* finished times */
size_t spindlefig_marks(size_t n);  /* marks: a head of 10, and 2 a desk */
size_t spindlefig_stores(size_t n); /* bytes of descriptions */

size_t spindlefig_place_size(void); /* the bytes of a place: sizeof(spindlefig_place) */
size_t spindlefig_output(void);     /* the least output that receive takes, which holds any sample */
size_t spindlefig_row(void);        /* the numbers that hold any answer */

/* ---- What stands at the head of the marks, after set-up and after every call. ---- */
enum {
    SPINDLEFIG_MARKS_DESKS = 0,  /* how many desks there are */
    SPINDLEFIG_MARKS_COMMON = 1, /* the common use: the sum, over all desks, of open samples beyond two */
    SPINDLEFIG_MARKS_OPEN = 2    /* from here on, for each desk 0 to 7, how many samples it has open; 0 for a desk that is not there */
};

/* ---- Kinds of outcomes, and the numbers that follow used, known, next and kind in the row of an answer. ---- */
enum {
    SPINDLEFIG_END = 0,       /* the rest was empty */
    SPINDLEFIG_WHOLE = 1,     /* time, u, sidx, sdur, string length, sample length; the sample stands at the front of the output */
    SPINDLEFIG_JOINED = 2,    /* the same */
    SPINDLEFIG_KEPT = 3,      /* how many parts are missing */
    SPINDLEFIG_REPEAT = 4,
    SPINDLEFIG_DESCRIBED = 5,
    SPINDLEFIG_SKIPPED = 6,   /* the TYPE */
    SPINDLEFIG_REFUSED = 7    /* the refusal: 1 to 10, 17 where the string is not well-formed, or 18 at an unknown time */
};

/* ---- Kinds of what stands at a place of the modifiers, and the number that follows the next place and the kind in its row. ---- */
enum {
    SPINDLEFIG_BOXES_END = 0,
    SPINDLEFIG_BOX = 1,       /* the type */
    SPINDLEFIG_NO_BOX = 2     /* the refusal, 15 */
};

/* Makes what n desks need fresh. Answers 0, or 1 where n is not 1 to 8 or something is too short. */
size_t spindlefig_set_up(size_t n,
                         spindlefig_place *places, size_t places_len,
                         uint32_t *rows, size_t rows_len,
                         uint32_t *marks, size_t marks_len,
                         uint8_t *stores, size_t stores_len);

/* Takes the unit at the front of the rest. Where `known` is 0 the running time is unknown, and `time` is not looked at; else it is
 * `time`. The row gets: bytes used, known, next, kind, and the numbers of the kind. Known is 1 where the next running time is next, and 0
 * where it is unknown; next is 0 then.
 * Answers the bytes used: hand known and next back as `known` and `time`, and go on so many bytes further, until no bytes are used. That
 * is at the end of the payload, and for refusals 1 and 2, which no later call of the same payload would escape. The string of a TYPE 1
 * unit, and the data of a TYPE 2 unit, have to be well-formed by themselves, UTF-8 or UTF-16 big-endian as U says: else 17, which adds no
 * time. A string that is handed out is well-formed too. At an unknown time, units of TYPE 1 to 4 that 1 to 4 and 17 let through are 18,
 * which uses their bytes and changes nothing; all else is answered as ever, and the time stays unknown. */
size_t spindlefig_receive(spindlefig_place *places, size_t places_len,
                          uint32_t *rows, size_t rows_len,
                          uint32_t *marks, size_t marks_len,
                          uint8_t *stores, size_t stores_len,
                          size_t desk, size_t known, uint32_t time,
                          const uint8_t *rest, size_t rest_len,
                          uint8_t *out, size_t out_len,
                          uint64_t *row, size_t row_len);

/* Frees the open sample of a desk and a time, which is known, and marks the time finished. Answers 0, or 1 or 11. */
size_t spindlefig_give_up(spindlefig_place *places, size_t places_len,
                          uint32_t *rows, size_t rows_len,
                          uint32_t *marks, size_t marks_len,
                          size_t desk, uint32_t time);

/* Writes the description that an index shows to the front of the output (256 bytes hold any) and answers its length; 0: none. */
size_t spindlefig_lookup(const uint32_t *marks, size_t marks_len,
                         const uint8_t *stores, size_t stores_len,
                         size_t desk, size_t index,
                         const uint8_t *book, size_t book_len,
                         uint8_t *out, size_t out_len);

/* Checks a style book. The row gets: 0 and how many records, or 16 and the first bad record's number. */
void spindlefig_check(const uint8_t *book, size_t book_len, uint64_t *row, size_t row_len);

/* Writes payload k (from 1) of a sample, at most m bytes. The row gets: 0, its length and how many there are, or 12, 13 or 14. */
void spindlefig_write(size_t u, size_t sidx, size_t sdur,
                      const uint8_t *string, size_t string_len,
                      const uint8_t *modifiers, size_t modifiers_len,
                      size_t m, size_t k,
                      uint8_t *out, size_t out_len,
                      uint64_t *row, size_t row_len);

/* Writes the payload of a description; the row as above. */
void spindlefig_describe(size_t sidx,
                         const uint8_t *description, size_t description_len,
                         size_t m, size_t k,
                         uint8_t *out, size_t out_len,
                         uint64_t *row, size_t row_len);

/* What stands at a place of the modifiers. The row gets: the next place, the kind, and the number of the kind. A box's contents are the
 * bytes from its place and 8 on, up to the next place. */
void spindlefig_box(const uint8_t *modifiers, size_t modifiers_len, size_t at, uint64_t *row, size_t row_len);

/* The length in bytes of the character at a place (u 0: UTF-8, else UTF-16 big-endian), and 0 where none is well-formed. */
size_t spindlefig_character(size_t u, const uint8_t *s, size_t s_len, size_t at);

/* Whether all of a string is well-formed (u as above). */
bool spindlefig_well_formed(size_t u, const uint8_t *s, size_t s_len);

#ifdef __cplusplus
}
#endif

#endif
