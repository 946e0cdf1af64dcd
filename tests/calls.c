/* The calls of kit_planner.h as a C program meets them: the sample card planned, checked and read, two cards joined,
 * null pointers lent, marks, and refusals by number, card, place, index and reason. It is C99 and C++11 alike;
 * tests/calls.sh compiles it as both. It ends at the first check that fails. */
#include "kit_planner.h"

#include <stdio.h>
#include <stdlib.h>
#include <string.h>

#ifdef __cplusplus
#define LANGUAGE "C++11"
#else
#define LANGUAGE "C99"
#endif

/* Declared once more, so that the compiler refuses any other types in the header. A name in parentheses is the
 * archive's function and not the header's macro. */
uint32_t (kit_plan)(const uint8_t *card, size_t card_len, uint8_t *sheet, size_t sheet_len);
uint32_t (kit_read)(const uint8_t *card, size_t card_len, const uint8_t *sheet, size_t sheet_len);
uint32_t (kit_join)(const uint8_t *first, size_t first_len, const uint8_t *second, size_t second_len,
                    uint8_t *joined, size_t joined_len);
uint32_t (kit_source)(const uint8_t *first, size_t first_len, const uint8_t *second, size_t second_len, uint16_t i);

enum { CARD, NODE, RULE, LINE, SHEET, STEPS, MARK, STEP, PLACES };
enum { NEITHER, FIRST, SECOND };

/* The sample card: P = 0, T = 3, N = 4, s = 8. */
static const uint8_t sample[40] = {
    0x00, 0x28, 0x01, 0x00, 0x03, 0x00, 0x04, 0x00, 0x01, 0x04, 0x08, /* front */
    0x01, 0x00, 0x0A, 0x00, 0x00, /* node 0: name 10 */
    0x01, 0x00, 0x14, 0x00, 0x00, /* node 1: name 20, the goal */
    0x07, 0x00, 0x00, 0x00, 0x01, /* node 2: 10 gives 20 */
    0x01, 0x00, 0x1E, 0x00, 0x00, /* node 3: name 30 */
    0x00, 0x00, 0x01, 0x00, 0x02, 0x01, 0x00, 0x03, 0x00 /* must 0, must 2, may 3 */
};
static const uint8_t sample_sheet[10] = {0x00, 0x0A, 0x01, 0x02, 0x03, 0x01, 0x00, 0x01, 0x01, 0x00};

/* Name 0 and the goal done, two rules of which the second is no clause. */
static const uint8_t bad_rule[25] = {
    0x00, 0x19, 0x01, 0x02, 0x00, 0x00, 0x02, 0x00, 0x01, 0x00, 0x05,
    0x01, 0x00, 0x00, 0x00, 0x00, 0x03, 0x00, 0x00, 0x00, 0x00, 0x00, 0x00, 0x00, 0x01
};

/* The same without rules: bytes 9 to 13 are its own sheet. */
static const uint8_t holds_sheet[21] = {
    0x00, 0x15, 0x01, 0x00, 0x00, 0x00, 0x02, 0x00, 0x01, 0x00, 0x05,
    0x01, 0x00, 0x00, 0x00, 0x00, 0x03, 0x00, 0x00, 0x00, 0x00
};

/* Name 2 must be used, and is the goal: P = 0, T = 1, N = 1, d = 16, s = 250. */
static const uint8_t small[19] = {
    0x00, 0x13, 0x01, 0x00, 0x01, 0x00, 0x01, 0x00, 0x00, 0x10, 0xFA,
    0x01, 0x00, 0x02, 0x00, 0x00, /* node 0: name 2, the goal */
    0x00, 0x00, 0x01 /* must 0 */
};

/* small, then sample: nodes 1 to 4 are the sample's, d the greater, s the sum but no more than 255. */
static const uint8_t joined_card[53] = {
    0x00, 0x35, 0x01, 0x00, 0x04, 0x00, 0x06, 0x00, 0x05, 0x10, 0xFF, /* front */
    0x01, 0x00, 0x02, 0x00, 0x00, /* node 0: name 2 */
    0x01, 0x00, 0x0A, 0x00, 0x00, /* node 1: name 10 */
    0x01, 0x00, 0x14, 0x00, 0x00, /* node 2: name 20 */
    0x07, 0x00, 0x01, 0x00, 0x02, /* node 3: 10 gives 20 */
    0x01, 0x00, 0x1E, 0x00, 0x00, /* node 4: name 30 */
    0x04, 0x00, 0x00, 0x00, 0x02, /* node 5: 2 both 20, the goal */
    0x00, 0x00, 0x01, 0x00, 0x01, 0x01, 0x00, 0x03, 0x01, 0x00, 0x04, 0x00 /* must 0, must 1, must 3, may 4 */
};
static const uint8_t joined_sheet[12] = {
    0x00, 0x0C, 0x01, 0x03, 0x04, 0x00, 0x02, 0x01, 0x01, 0x01, 0x01, 0x00
};

/* A byte of the sample card or sheet put to another value, and the refusal that follows. */
struct fault {
    size_t at;
    uint8_t to;
    unsigned number, place, index;
};

/* Refused by both calls. */
static const struct fault card_faults[] = {
    {1, 0x27, 2, CARD, 0}, {2, 2, 3, CARD, 0},  {9, 17, 4, CARD, 0}, {6, 3, 5, CARD, 0},
    {21, 11, 6, NODE, 2},  {26, 0, 6, NODE, 3}, {8, 2, 7, CARD, 0},  {36, 2, 9, LINE, 1}
};
static const struct fault sheet_faults[] = {
    {1, 9, 12, SHEET, 0}, {2, 0, 12, SHEET, 0}, {3, 3, 12, SHEET, 0}, {5, 0, 13, STEP, 0},
    {6, 9, 13, STEP, 1},  {7, 2, 14, MARK, 0},  {9, 1, 14, MARK, 2}
};

static unsigned passed;

static void check(int holds, const char *what) {
    if (!holds) {
        fprintf(stderr, "calls.c as %s: check %u: %s\n", LANGUAGE, passed + 1, what);
        exit(1);
    }
    passed++;
}

static void told_of(uint32_t answer, unsigned number, unsigned card, unsigned place, unsigned index) {
    check(KIT_NUMBER(answer) == number, "number");
    check(KIT_CARD(answer) == card, "card");
    check(KIT_PLACE(answer) == place, "place");
    check(KIT_INDEX(answer) == index, "index");
}

static void told(uint32_t answer, unsigned number, unsigned place, unsigned index) {
    told_of(answer, number, NEITHER, place, index);
}

static int filled(const uint8_t *bytes, size_t n) {
    size_t i;
    for (i = 0; i < n; i++)
        if (bytes[i] != 0xEE) return 0;
    return 1;
}

/* Plans into the first room bytes of a filled buffer: refused, and all bytes are as before. */
static void plan_refused(const uint8_t *card, size_t n, size_t room, unsigned number, unsigned place, unsigned index) {
    uint8_t buffer[324];
    memset(buffer, 0xEE, sizeof buffer);
    told(kit_plan(card, n, buffer, room), number, place, index);
    check(filled(buffer, sizeof buffer), "a refusal leaves the buffer alone");
}

/* Plans the sample card into the first room bytes of a filled buffer, and reads the sheet back. */
static void planned(size_t room) {
    uint8_t buffer[324];
    memset(buffer, 0xEE, sizeof buffer);
    told(kit_plan(sample, sizeof sample, buffer, room), 0, CARD, 2);
    check(memcmp(buffer, sample_sheet, sizeof sample_sheet) == 0, "the sheet's bytes");
    check(filled(buffer + 10, sizeof buffer - 10), "bytes past the sheet keep what they held");
    told(kit_read(sample, sizeof sample, buffer, 10), 0, CARD, 2);
}

static void cards_refused(void) {
    uint8_t card[40];
    size_t i;
    plan_refused(sample, 0, 324, 1, CARD, 0);
    plan_refused(sample, 10, 324, 1, CARD, 0);
    plan_refused(bad_rule, sizeof bad_rule, 324, 8, RULE, 1);
    told(kit_read(sample, 10, sample_sheet, 10), 1, CARD, 0);
    told(kit_read(bad_rule, sizeof bad_rule, sample_sheet, 10), 8, RULE, 1);
    for (i = 0; i < sizeof card_faults / sizeof card_faults[0]; i++) {
        const struct fault f = card_faults[i];
        memcpy(card, sample, sizeof card);
        card[f.at] = f.to;
        plan_refused(card, sizeof card, 324, f.number, f.place, f.index);
        told(kit_read(card, sizeof card, sample_sheet, 10), f.number, f.place, f.index);
    }
}

static void plans_refused(void) {
    uint8_t card[40];
    plan_refused(sample, sizeof sample, 15, 10, SHEET, 0);
    plan_refused(sample, sizeof sample, 0, 10, SHEET, 0);
    memcpy(card, sample, sizeof card);
    card[39] = 1; /* name 30 must be used, and cannot be */
    plan_refused(card, sizeof card, 324, 11, CARD, 0);
}

static void sheets_refused(void) {
    uint8_t sheet[10];
    size_t i;
    told(kit_read(sample, sizeof sample, sample_sheet, 0), 12, SHEET, 0);
    told(kit_read(sample, sizeof sample, sample_sheet, 9), 12, SHEET, 0);
    for (i = 0; i < sizeof sheet_faults / sizeof sheet_faults[0]; i++) {
        const struct fault f = sheet_faults[i];
        memcpy(sheet, sample_sheet, sizeof sheet);
        sheet[f.at] = f.to;
        told(kit_read(sample, sizeof sample, sheet, sizeof sheet), f.number, f.place, f.index);
    }
}

/* The sample card, or nearly, and sheets with a step too few, one too many, steps nested too deep, and steps that
 * are right but leave a must line over. */
static void steps_refused(void) {
    static const uint8_t few[9] = {0x00, 0x09, 0x01, 0x01, 0x03, 0x01, 0x02, 0x01, 0x00};
    static const uint8_t many[11] = {0x00, 0x0B, 0x01, 0x03, 0x03, 0x01, 0x00, 0x00, 0x01, 0x01, 0x00};
    uint8_t card[40];
    memcpy(card, sample, sizeof card);
    told(kit_read(card, sizeof card, few, sizeof few), 18, STEP, 1);
    told(kit_read(card, sizeof card, many, sizeof many), 18, STEP, 2);
    card[9] = 1;
    told(kit_read(card, sizeof card, sample_sheet, 10), 17, STEP, 1);
    told(kit_read(card, sizeof card, few, sizeof few), 18, STEP, 1);
    card[9] = 0;
    told(kit_read(card, sizeof card, sample_sheet, 10), 17, STEP, 0);
    card[9] = 4;
    card[39] = 1; /* name 30 must be used */
    told(kit_read(card, sizeof card, sample_sheet, 10), 19, STEPS, 0);
}

/* kit_read only reads, so card and sheet may overlap or be the same. */
static void overlapping(void) {
    told(kit_read(sample, sizeof sample, sample, sizeof sample), 12, SHEET, 0);
    told(kit_read(holds_sheet, sizeof holds_sheet, holds_sheet + 9, 5), 0, CARD, 0);
}

/* Joins small and sample in the first room bytes of a filled buffer, and plans the joined card. */
static void joined(size_t room) {
    uint8_t buffer[2891], sheet[324];
    memset(buffer, 0xEE, sizeof buffer);
    told(kit_join(small, sizeof small, sample, sizeof sample, buffer, room), 0, CARD, sizeof joined_card);
    check(memcmp(buffer, joined_card, sizeof joined_card) == 0, "the joined card's bytes");
    check(filled(buffer + 53, sizeof buffer - 53), "bytes past the joined card keep what they held");
    told(kit_plan(buffer, 53, sheet, sizeof sheet), 0, CARD, 3);
    check(memcmp(sheet, joined_sheet, sizeof joined_sheet) == 0, "the joined card's sheet");
}

/* Joins in the first room bytes of a filled buffer, which stays as it is. */
static void join_refused(const uint8_t *first, size_t n, const uint8_t *second, size_t m, size_t room,
                         uint32_t refusal) {
    uint8_t buffer[2891];
    memset(buffer, 0xEE, sizeof buffer);
    check(kit_join(first, n, second, m, buffer, room) == refusal, "the join's refusal");
    check(filled(buffer, sizeof buffer), "a refused join leaves the buffer alone");
}

/* Both calls over two cards refuse them alike. */
static void pair_refused(const uint8_t *first, size_t n, const uint8_t *second, size_t m, uint32_t refusal) {
    join_refused(first, n, second, m, 2891, refusal);
    join_refused(first, n, second, m, 0, refusal);
    check(kit_source(first, n, second, m, 0) == refusal, "the question's refusal");
}

static void sources(void) {
    static const uint32_t wanted[4] = {0x00100010, 0x0020001F, 0x00200022, 0x00200025};
    uint16_t i;
    for (i = 0; i < 4; i++) {
        const uint32_t answer = kit_source(small, sizeof small, sample, sizeof sample, i);
        const uint8_t *card = KIT_CARD(answer) == FIRST ? small : sample;
        check(answer == wanted[i], "the source of a line");
        check(card[KIT_INDEX(answer) + 2] == joined_card[43 + 3 * i], "must or may as in the joined card");
    }
    told(kit_source(small, sizeof small, sample, sizeof sample, 4), 16, LINE, 4);
    told(kit_source(small, sizeof small, sample, sizeof sample, 65535), 16, LINE, 65535);
    told_of(kit_source(sample, sizeof sample, small, sizeof small, 3), 0, SECOND, CARD, 16);
    told_of(kit_source(sample, sizeof sample, sample, sizeof sample, 3), 0, SECOND, CARD, 31);
}

/* Each fault in one of the cards is told of that card; in both, of the first. */
static void pairs_refused(void) {
    uint8_t card[40], full[2571];
    size_t i;
    for (i = 0; i < sizeof card_faults / sizeof card_faults[0]; i++) {
        const struct fault f = card_faults[i];
        const uint32_t refusal = f.number << 24 | f.place << 16 | f.index;
        memcpy(card, sample, sizeof card);
        card[f.at] = f.to;
        pair_refused(card, sizeof card, small, sizeof small, refusal | 1u << 20);
        pair_refused(small, sizeof small, card, sizeof card, refusal | 2u << 20);
        pair_refused(card, sizeof card, sample, 0, refusal | 1u << 20);
    }
    told_of(kit_source(sample, 10, sample, 0, 0), 1, FIRST, CARD, 0);
    told_of(kit_source(small, sizeof small, bad_rule, sizeof bad_rule, 0), 8, SECOND, RULE, 1);
    pair_refused(small, sizeof small, bad_rule, sizeof bad_rule, 0x08220001);
    join_refused(small, sizeof small, sample, sizeof sample, 52, 0x0A040000);
    join_refused(small, sizeof small, sample, sizeof sample, 0, 0x0A040000);
    memset(full, 0, sizeof full); /* 512 names: no node is left for the new goal */
    full[0] = 0x0A, full[1] = 0x0B, full[2] = 1, full[5] = 2;
    for (i = 0; i < 512; i++) full[11 + 5 * i] = 1;
    pair_refused(full, sizeof full, small, sizeof small, 0x0F000000);
    pair_refused(small, sizeof small, full, sizeof full, 0x0F000000);
}

/* A null pointer with length 0 is answered as any other empty one is. */
static void null_of_one_card(void) {
    uint8_t sheet[324];
    check(kit_plan(NULL, 0, sheet, sizeof sheet) == kit_plan(sample, 0, sheet, sizeof sheet), "plan, null card");
    check(kit_plan(sample, sizeof sample, NULL, 0) == kit_plan(sample, sizeof sample, sheet, 0), "plan, null sheet");
    check(kit_plan(NULL, 0, NULL, 0) == kit_plan(sample, 0, sheet, 0), "plan, both null");
    check(kit_read(NULL, 0, sample_sheet, 10) == kit_read(sample, 0, sample_sheet, 10), "read, null card");
    check(kit_read(sample, sizeof sample, NULL, 0) == kit_read(sample, sizeof sample, sheet, 0), "read, null sheet");
    check(kit_read(NULL, 0, NULL, 0) == kit_read(sample, 0, sheet, 0), "read, both null");
    check(kit_check(NULL, 0) == kit_check(sample, 0), "check, null card");
    told(kit_plan(NULL, 0, sheet, sizeof sheet), 1, CARD, 0);
    told(kit_plan(sample, sizeof sample, NULL, 0), 10, SHEET, 0);
    told(kit_read(sample, sizeof sample, NULL, 0), 12, SHEET, 0);
}

static void null_of_two_cards(void) {
    uint8_t card[2891];
    const size_t n = sizeof small, m = sizeof sample, room = sizeof card;
    check(kit_join(NULL, 0, sample, m, card, room) == kit_join(small, 0, sample, m, card, room), "join, null first");
    check(kit_join(small, n, NULL, 0, card, room) == kit_join(small, n, sample, 0, card, room), "join, null second");
    check(kit_join(small, n, sample, m, NULL, 0) == kit_join(small, n, sample, m, card, 0), "join, null buffer");
    check(kit_join(NULL, 0, NULL, 0, NULL, 0) == kit_join(small, 0, sample, 0, card, 0), "join, all null");
    check(kit_source(NULL, 0, sample, m, 0) == kit_source(small, 0, sample, m, 0), "source, null first");
    check(kit_source(small, n, NULL, 0, 0) == kit_source(small, n, sample, 0, 0), "source, null second");
    check(kit_source(NULL, 0, NULL, 0, 0) == kit_source(small, 0, sample, 0, 0), "source, both null");
    told_of(kit_join(NULL, 0, sample, m, card, room), 1, FIRST, CARD, 0);
    told_of(kit_join(small, n, NULL, 0, card, room), 1, SECOND, CARD, 0);
    told(kit_join(small, n, sample, m, NULL, 0), 10, SHEET, 0);
    told_of(kit_source(small, n, NULL, 0, 0), 1, SECOND, CARD, 0);
}

/* Line 0 is "3 menu 2", a must line, and the goal one of never and 2: right, the line, right. */
static void choices(void) {
    static const uint8_t card[44] = {
        0x00, 0x2C, 0x01, 0x00, 0x01, 0x00, 0x06, 0x00, 0x04, 0x01, 0x03, /* front: d = 1, s = 3 */
        0x01, 0x00, 0x02, 0x00, 0x00, /* node 0: name 2 */
        0x01, 0x00, 0x03, 0x00, 0x00, /* node 1: name 3 */
        0x09, 0x00, 0x00, 0x00, 0x00, /* node 2: never */
        0x0A, 0x00, 0x01, 0x00, 0x00, /* node 3: 3 menu 2 */
        0x08, 0x00, 0x02, 0x00, 0x00, /* node 4: never one of 2, the goal */
        0x03, 0x00, 0x00, 0x00, 0x00, /* node 5: done */
        0x00, 0x03, 0x01 /* must 3 */
    };
    static const uint8_t steps[4] = {KIT_RIGHT, 0, KIT_RIGHT, 1};
    uint8_t sheet[KIT_SHEET_MAX], other[44];
    check(kit_plan(card, sizeof card, sheet, sizeof sheet) == 3, "a card with choices is planned");
    check(memcmp(sheet + 5, steps, sizeof steps) == 0, "right, line 0, right; and the mark");
    check(kit_read(card, sizeof card, sheet, 9) == 3, "its sheet is accepted");
    sheet[5] = KIT_LEFT;
    told(kit_read(card, sizeof card, sheet, 9), 18, STEP, 1); /* never wants no step */
    sheet[5] = 0;
    told(kit_read(card, sizeof card, sheet, 9), 13, STEP, 0);
    sheet[5] = KIT_RIGHT;
    sheet[6] = KIT_RIGHT;
    told(kit_read(card, sizeof card, sheet, 9), 13, STEP, 1);
    sheet[6] = 0;
    sheet[7] = KIT_LEFT; /* the side of the menu with 3 */
    told(kit_read(card, sizeof card, sheet, 9), 13, STEP, 2);
    memcpy(other, card, sizeof card);
    other[10] = 2; /* s */
    told(kit_plan(other, sizeof other, sheet, sizeof sheet), 11, CARD, 0);
    other[10] = 3;
    other[22] = 1; /* never has no left field */
    told(kit_check(other, sizeof other), 6, NODE, 2);
}

/* Name 2 is a must line, and the goal "2 either way rest": one side uses the line, the other leaves it to rest. */
static void one_way(void) {
    static const uint8_t card[29] = {
        0x00, 0x1D, 0x01, 0x00, 0x01, 0x00, 0x03, 0x00, 0x02, 0x01, 0x01, /* front: d = 1, s = 1 */
        0x01, 0x00, 0x02, 0x00, 0x00, /* node 0: name 2 */
        0x02, 0x00, 0x00, 0x00, 0x00, /* node 1: rest */
        0x05, 0x00, 0x00, 0x00, 0x01, /* node 2: 2 either way rest, the goal */
        0x00, 0x00, 0x01 /* must 0 */
    };
    static const uint8_t wanted[7] = {0x00, 0x07, 0x01, 0x01, 0x01, 0x00, KIT_MARK_ONE_WAY};
    static const uint8_t others[4] = {KIT_MARK_LEFT, KIT_MARK_USED, KIT_MARK_REST, 4};
    uint8_t sheet[KIT_SHEET_MAX], both_ways[29];
    size_t i;
    check(kit_plan(card, sizeof card, sheet, sizeof sheet) == 1, "a card with two ways is planned");
    check(memcmp(sheet, wanted, sizeof wanted) == 0, "its line is used one way only");
    check(kit_read(card, sizeof card, sheet, 7) == 1, "its sheet is accepted");
    for (i = 0; i < sizeof others; i++) {
        sheet[6] = others[i];
        told(kit_read(card, sizeof card, sheet, 7), 14, MARK, 0);
    }
    memcpy(both_ways, card, sizeof card);
    both_ways[10] = 2; /* s */
    both_ways[25] = 0; /* 2 either way 2 */
    check(kit_plan(both_ways, sizeof both_ways, sheet, sizeof sheet) == 2, "2 either way 2 is planned");
    check(sheet[7] == KIT_MARK_USED, "a line that both sides use is surely used");
    check(kit_read(both_ways, sizeof both_ways, sheet, 8) == 2, "and that sheet is accepted");
    sheet[7] = KIT_MARK_ONE_WAY;
    told(kit_read(both_ways, sizeof both_ways, sheet, 8), 14, MARK, 0);
}

/* A card is checked as kit_plan checks it. One that cannot be planned is sound all the same. */
static void checked(void) {
    uint8_t card[40];
    size_t i;
    check(kit_check(sample, sizeof sample) == 0, "the sample card is sound");
    check(kit_check(small, sizeof small) == 0, "the small card is sound");
    memcpy(card, sample, sizeof card);
    card[39] = 1; /* name 30 must be used, and cannot be */
    check(kit_check(card, sizeof card) == 0, "a card without a plan is sound");
    told(kit_check(sample, 10), 1, CARD, 0);
    told(kit_check(bad_rule, sizeof bad_rule), 8, RULE, 1);
    for (i = 0; i < sizeof card_faults / sizeof card_faults[0]; i++) {
        const struct fault f = card_faults[i];
        memcpy(card, sample, sizeof card);
        card[f.at] = f.to;
        told(kit_check(card, sizeof card), f.number, f.place, f.index);
    }
}

/* Some reasons by their words; that all are those of the Rust package is for tests/install.sh. */
static void reasons(void) {
    unsigned i, j;
    check(strcmp(kit_reason(0), "not refused") == 0, "the reason of 0");
    check(strcmp(kit_reason(1), "fewer than 11 bytes") == 0, "the reason of 1");
    check(strcmp(kit_reason(11), "no derivation within limits") == 0, "the reason of 11");
    check(strcmp(kit_reason(16), "line not below the joined T") == 0, "the reason of 16");
    for (i = 20; i < 300; i++) check(strcmp(kit_reason(i), "unknown") == 0, "no reason past 19");
    check(strcmp(kit_reason(0xffffffffu), "unknown") == 0, "the reason of the last number");
    for (i = 0; i < 20; i++)
        for (j = i + 1; j <= 20; j++) check(strcmp(kit_reason(i), kit_reason(j)) != 0, "each reason is another");
}

static void constants(void) {
    static const enum kit_place places[] = {KIT_PLACE_CARD,  KIT_PLACE_NODE,  KIT_PLACE_RULE, KIT_PLACE_LINE,
                                            KIT_PLACE_SHEET, KIT_PLACE_STEPS, KIT_PLACE_MARK, KIT_PLACE_STEP};
    unsigned i;
    check(sizeof places / sizeof places[0] == PLACES, "eight places");
    for (i = 0; i < PLACES; i++) check(places[i] == i, "a place's number");
    check(KIT_CARD_MAX == 11 + 5 * 512 + 2 * 64 + 3 * 64, "the longest card");
    check(KIT_SHEET_MAX == 5 + 255 + 64, "the longest sheet");
    check(KIT_LEFT == 254 && KIT_RIGHT == 255, "the two choices");
    check(KIT_MARK_LEFT == 0 && KIT_MARK_USED == 1 && KIT_MARK_REST == 2 && KIT_MARK_ONE_WAY == 3, "the four marks");
    check(strcmp(KIT_VERSION, "0.4.0") == 0, "the version");
}

int main(void) {
    planned(16);
    planned(324);
    cards_refused();
    plans_refused();
    sheets_refused();
    steps_refused();
    overlapping();
    joined(53);
    joined(2891);
    sources();
    pairs_refused();
    null_of_one_card();
    null_of_two_cards();
    choices();
    one_way();
    checked();
    reasons();
    constants();
    printf("calls.c as %s: %u checks passed\n", LANGUAGE, passed);
    return 0;
}
