/* A caption hall in C: two desks, one caption cut and joined again, one style, some refusals, a live line, the stored counts. Prints what
 * the screens show. */
#include "spindlefig.h"

#include <stdio.h>
#include <stdlib.h>
#include <string.h>

enum { DESKS = 2, MOST_DESKS = 8, LIMIT = 30, ROW = 10 };

/* The places of the row of an answer. */
enum { USED, KNOWN, NEXT, KIND, VALUES };

/* Where the string length stands among the values of a sample. */
enum { STRING = VALUES + 4 };

typedef struct {
    spindlefig_place *places;
    uint32_t *rows;
    uint32_t *marks;
    uint8_t *stores;
    uint8_t out[1024];
    uint64_t row[ROW];
} hall;

static void need(int holds, const char *what) {
    if (!holds) {
        fprintf(stderr, "hall: %s\n", what);
        exit(1);
    }
}

static void *memory(size_t count, size_t size) {
    void *p = calloc(count, size);
    need(p != NULL, "no memory");
    return p;
}

/* The head of the marks has the number of desks, so many open samples of the first and the second, and this common use. */
static void need_counts(const hall *h, uint32_t first, uint32_t second, uint32_t common) {
    const uint32_t *open = h->marks + SPINDLEFIG_MARKS_OPEN;
    size_t desk;
    need(h->marks[SPINDLEFIG_MARKS_DESKS] == DESKS, "the head has another number of desks");
    need(open[0] == first && open[1] == second, "the head has other open samples");
    need(h->marks[SPINDLEFIG_MARKS_COMMON] == common, "the head has another common use");
    for (desk = DESKS; desk < MOST_DESKS; desk++)
        need(open[desk] == 0, "a desk that is not there has open samples");
}

/* The memory is asked for by the exported sizes, so nobody counts by hand. What stands in the marks before set-up does not matter. */
static hall open_hall(void) {
    hall h = {0};
    need(spindlefig_place_size() == sizeof(spindlefig_place), "a place has another size");
    need(spindlefig_output() == sizeof h.out, "the least output is another");
    need(spindlefig_row() == ROW, "a row has another length");
    h.places = memory(spindlefig_places(DESKS), sizeof(spindlefig_place));
    h.rows = memory(spindlefig_rows(DESKS), sizeof(uint32_t));
    h.marks = memory(spindlefig_marks(DESKS), sizeof(uint32_t));
    h.stores = memory(spindlefig_stores(DESKS), 1);
    memset(h.marks, 0xff, spindlefig_marks(DESKS) * sizeof(uint32_t));
    need(spindlefig_set_up(DESKS, h.places, spindlefig_places(DESKS), h.rows, spindlefig_rows(DESKS), h.marks,
                           spindlefig_marks(DESKS), h.stores, spindlefig_stores(DESKS)) == 0,
         "set-up is refused");
    need_counts(&h, 0, 0, 0);
    return h;
}

/* One place or one mark fewer than two desks need: set-up refuses by 1, and the hall's tables stay as they are. */
static void refuse_short(hall *h) {
    printf("set-up with a place too few: %zu\n",
           spindlefig_set_up(DESKS, h->places, spindlefig_places(DESKS) - 1, h->rows, spindlefig_rows(DESKS), h->marks,
                             spindlefig_marks(DESKS), h->stores, spindlefig_stores(DESKS)));
    printf("set-up with a mark too few: %zu\n",
           spindlefig_set_up(DESKS, h->places, spindlefig_places(DESKS), h->rows, spindlefig_rows(DESKS), h->marks,
                             spindlefig_marks(DESKS) - 1, h->stores, spindlefig_stores(DESKS)));
}

static void close_hall(hall *h) {
    free(h->places);
    free(h->rows);
    free(h->marks);
    free(h->stores);
}

/* Takes one unit, with so much room for a sample. */
static size_t take(hall *h, size_t desk, size_t known, uint32_t time, const uint8_t *rest, size_t len, size_t room) {
    size_t used = spindlefig_receive(h->places, spindlefig_places(DESKS), h->rows, spindlefig_rows(DESKS), h->marks,
                                     spindlefig_marks(DESKS), h->stores, spindlefig_stores(DESKS), desk, known, time, rest,
                                     len, h->out, room, h->row, ROW);
    need(used == h->row[USED], "the row tells other bytes used");
    need(h->row[KNOWN] == 1 || (h->row[KNOWN] == 0 && h->row[NEXT] == 0), "the row tells another known");
    return used;
}

static void print_time(const char *name, uint64_t known, uint64_t time) {
    if (known)
        printf(" %s %llu", name, (unsigned long long)time);
    else
        printf(" %s ?", name);
}

/* Takes one unit, and prints what became of it. */
static size_t hear(hall *h, size_t desk, size_t known, uint32_t time, const uint8_t *rest, size_t len) {
    size_t used = take(h, desk, known, time, rest, len, sizeof h->out);
    printf("desk %zu", desk);
    print_time("time", known, time);
    printf(" used %zu", used);
    print_time("next", h->row[KNOWN], h->row[NEXT]);
    printf(" kind %llu", (unsigned long long)h->row[KIND]);
    if (h->row[KIND] == SPINDLEFIG_KEPT || h->row[KIND] == SPINDLEFIG_REFUSED)
        printf(" %llu", (unsigned long long)h->row[VALUES]);
    if (h->row[KIND] == SPINDLEFIG_WHOLE || h->row[KIND] == SPINDLEFIG_JOINED)
        printf(" shows: %.*s", (int)h->row[STRING], (const char *)h->out);
    printf("\n");
    return used;
}

/* The first unit of a packet: its time is known. */
static void receive(hall *h, size_t desk, uint32_t time, const uint8_t *rest, size_t len) {
    hear(h, desk, 1, time, rest, len);
}

/* The hall knows its number of desks by the front of the marks: another number there is refused by 1, and changes nothing else. */
static void refuse_head(hall *h, uint32_t other, const uint8_t *rest, size_t len) {
    h->marks[SPINDLEFIG_MARKS_DESKS] = other;
    printf("with %u at the front of the marks: ", other);
    receive(h, 0, 2000, rest, len);
    need(h->marks[SPINDLEFIG_MARKS_DESKS] == other, "the head is changed");
    h->marks[SPINDLEFIG_MARKS_DESKS] = DESKS;
    need_counts(h, 0, 0, 0);
}

static void give_up(hall *h, size_t desk, uint32_t time) {
    printf("give-up of desk %zu time %u: %zu\n", desk, time,
           spindlefig_give_up(h->places, spindlefig_places(DESKS), h->rows, spindlefig_rows(DESKS), h->marks,
                              spindlefig_marks(DESKS), desk, time));
}

/* A part that opens a sample counts up; one that spoils it and a give-up count down; a repeat and a refused give-up leave the counts. */
static void count(hall *h) {
    static const uint8_t first[11] = {2, 0, 10, 0x21, 0, 0, 1, 128, 0, 2, 'a'};
    static const uint8_t spoiling[8] = {4, 0, 7, 0x22, 0, 0, 1, 'b'};
    uint32_t time;
    for (time = 0; time < 4; time++)
        receive(h, 1, time, first, sizeof first);
    need_counts(h, 0, 4, 2);
    receive(h, 1, 3, first, sizeof first);
    receive(h, 0, 3, first, sizeof first);
    need_counts(h, 1, 4, 2);
    receive(h, 1, 0, spoiling, sizeof spoiling);
    need_counts(h, 1, 3, 1);
    give_up(h, 1, 1);
    need_counts(h, 1, 2, 0);
    give_up(h, 1, 1);
    give_up(h, 0, 3);
    need_counts(h, 0, 2, 0);
}

/* Goes through a payload with so much room for the answers, until no bytes are used, as every caller does. */
static void go_through(hall *h, size_t desk, const uint8_t *rest, size_t len, size_t room) {
    size_t known = 1, calls = 0, used;
    uint32_t time = 0;
    do {
        used = take(h, desk, known, time, rest, len, room);
        rest += used;
        len -= used;
        known = (size_t)h->row[KNOWN];
        time = (uint32_t)h->row[NEXT];
        calls++;
    } while (used > 0);
    printf("desk %zu room %zu: calls %zu, last kind %llu", desk, room, calls, (unsigned long long)h->row[KIND]);
    if (h->row[KIND] == SPINDLEFIG_REFUSED)
        printf(" %llu", (unsigned long long)h->row[VALUES]);
    printf("\n");
}

/* A live line, of unknown duration (SDUR 0): what follows it in the packet has no time. A style needs none; a caption does. The line
 * finishes its time all the same, so the packet is late when it comes again. */
static void play_live(hall *h, size_t desk, uint32_t timestamp) {
    static const uint8_t payload[28] = {1, 0, 9, 128, 0, 0, 0, 0, 1, 'A', 1, 0, 8, 128, 0, 0, 5, 0, 0, 5, 0, 4, 1, 'a', 6, 0, 2, 1};
    size_t at = 0, known = 1, used;
    uint32_t time = timestamp;
    do {
        used = hear(h, desk, known, time, payload + at, sizeof payload - at);
        at += used;
        known = (size_t)h->row[KNOWN];
        time = (uint32_t)h->row[NEXT];
    } while (used > 0);
    receive(h, desk, timestamp, payload, sizeof payload);
    need_counts(h, 0, 0, 0);
}

/* Cuts a caption by the writer and plays its payloads, the last first. */
static void play_caption(hall *h, size_t desk, uint32_t time, const char *text, const uint8_t *modifiers, size_t len) {
    uint8_t payload[LIMIT];
    size_t k = 1;
    spindlefig_write(0, 128, 500, (const uint8_t *)text, strlen(text), modifiers, len, LIMIT, 1, payload, LIMIT, h->row, ROW);
    need(h->row[0] == 0, "the writer refuses");
    for (k = h->row[2]; k > 0; k--) {
        spindlefig_write(0, 128, 500, (const uint8_t *)text, strlen(text), modifiers, len, LIMIT, k, payload, LIMIT, h->row, ROW);
        receive(h, desk, time, payload, h->row[1]);
    }
}

static void play_style(hall *h, size_t desk, const char *style) {
    uint8_t payload[LIMIT];
    uint8_t shown[256];
    size_t len;
    spindlefig_describe(7, (const uint8_t *)style, strlen(style), LIMIT, 1, payload, LIMIT, h->row, ROW);
    need(h->row[0] == 0, "the description is refused");
    receive(h, desk, 0, payload, h->row[1]);
    len = spindlefig_lookup(h->marks, spindlefig_marks(DESKS), h->stores, spindlefig_stores(DESKS), desk, 7,
                            (const uint8_t *)"", 0, shown, sizeof shown);
    printf("style 7 of desk %zu is %.*s\n", desk, (int)len, (const char *)shown);
}

static void walk(hall *h, const uint8_t *modifiers, size_t len) {
    size_t at = 0;
    spindlefig_box(modifiers, len, at, h->row, ROW);
    while (h->row[1] == SPINDLEFIG_BOX) {
        printf("box %.4s with %llu bytes\n", (const char *)modifiers + at + 4, (unsigned long long)h->row[0] - at - 8);
        at = (size_t)h->row[0];
        spindlefig_box(modifiers, len, at, h->row, ROW);
    }
    if (h->row[1] == SPINDLEFIG_NO_BOX)
        printf("walk refused by %llu\n", (unsigned long long)h->row[2]);
    else
        printf("walk ends\n");
}

int main(void) {
    static const uint8_t blink[12] = {0, 0, 0, 12, 'b', 'l', 'n', 'k', 0, 0, 0, 3};
    static const uint8_t bad[5] = {1, 0, 0, 128, 0};
    static const uint8_t half_a_letter[10] = {1, 0, 9, 128, 0, 0, 5, 0, 1, 0xc3};
    static const uint8_t skipped[6] = {6, 0, 2, 7, 0, 2};
    hall h = open_hall();
    play_caption(&h, 0, 1000, "The fox enters, and the hens laugh.", blink, sizeof blink);
    receive(&h, 1, 1000, bad, sizeof bad);
    receive(&h, 1, 1000, half_a_letter, sizeof half_a_letter);
    play_style(&h, 1, "green");
    refuse_short(&h);
    play_style(&h, 1, "white");
    walk(&h, blink, sizeof blink);
    walk(&h, blink, sizeof blink - 1);
    go_through(&h, 0, skipped, sizeof skipped, sizeof h.out);
    refuse_head(&h, 0, skipped, sizeof skipped);
    refuse_head(&h, 9, skipped, sizeof skipped);
    refuse_head(&h, DESKS + 1, skipped, sizeof skipped);
    go_through(&h, DESKS, skipped, sizeof skipped, sizeof h.out);
    go_through(&h, 0, skipped, sizeof skipped, sizeof h.out - 1);
    give_up(&h, 0, 1000);
    play_live(&h, 0, 0);
    count(&h);
    spindlefig_check(bad, sizeof bad, h.row, ROW);
    printf("a book of 5 bytes: %llu, record %llu\n", (unsigned long long)h.row[0], (unsigned long long)h.row[1]);
    printf("the first character of \xc3\xa9t\xc3\xa9 has %zu bytes\n", spindlefig_character(0, (const uint8_t *)"\xc3\xa9t\xc3\xa9", 5, 0));
    printf("half of it is %s\n", spindlefig_well_formed(0, (const uint8_t *)"\xc3", 1) ? "well-formed" : "ill-formed");
    close_hall(&h);
    return 0;
}
