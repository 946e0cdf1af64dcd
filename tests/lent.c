/* Which pointers the calls of kit_planner.h lend. The four functions here stand in for the archive's and keep what they
 * were lent. C99 and C++11 alike, as tests/calls.c. It ends at the first check that fails. */
#include "kit_planner.h"

#include <stdio.h>
#include <stdlib.h>

static const uint8_t *lent[3];
static size_t lens[3];
static unsigned passed;

static void keep(int at, const uint8_t *bytes, size_t len) {
    lent[at] = bytes;
    lens[at] = len;
}

uint32_t (kit_plan)(const uint8_t *card, size_t card_len, uint8_t *sheet, size_t sheet_len) {
    keep(0, card, card_len);
    keep(1, sheet, sheet_len);
    return 1;
}

uint32_t (kit_read)(const uint8_t *card, size_t card_len, const uint8_t *sheet, size_t sheet_len) {
    keep(0, card, card_len);
    keep(1, sheet, sheet_len);
    return 2;
}

uint32_t (kit_join)(const uint8_t *first, size_t first_len, const uint8_t *second, size_t second_len,
                    uint8_t *joined, size_t joined_len) {
    keep(0, first, first_len);
    keep(1, second, second_len);
    keep(2, joined, joined_len);
    return 3;
}

uint32_t (kit_source)(const uint8_t *first, size_t first_len, const uint8_t *second, size_t second_len, uint16_t i) {
    keep(0, first, first_len);
    keep(1, second, second_len);
    return i;
}

static void check(int holds, const char *what) {
    if (!holds) {
        fprintf(stderr, "lent.c: check %u: %s\n", passed + 1, what);
        exit(1);
    }
    passed++;
}

/* What was lent last as number at: where it was null with length 0, a pointer that is not, else just these. */
static void was(int at, const uint8_t *bytes, size_t len) {
    check(lens[at] == len, "the length is handed on");
    check(bytes || len ? lent[at] == bytes : lent[at] != NULL, "the pointer is handed on, or is not null");
}

/* Each call with these as any of its pointers. */
static void each_call(uint8_t *a, size_t n, uint8_t *b, size_t m, uint8_t *c, size_t room) {
    check(kit_plan(a, n, b, m) == 1, "plan's answer");
    was(0, a, n), was(1, b, m);
    check(kit_read(a, n, b, m) == 2, "read's answer");
    was(0, a, n), was(1, b, m);
    check(kit_join(a, n, b, m, c, room) == 3, "join's answer");
    was(0, a, n), was(1, b, m), was(2, c, room);
    check(kit_source(a, n, b, m, 65535) == 65535, "source's answer");
    was(0, a, n), was(1, b, m);
    check(kit_check(a, n) == 1, "check's answer is the plan's");
    was(0, a, n), check(lent[1] != NULL && lens[1] == 0, "check lends an empty buffer");
}

/* Null with length 0, null with another length, which is left to the caller, an empty one and a whole one. */
static void each_pointer(void) {
    uint8_t bytes[4] = {1, 2, 3, 4};
    uint8_t *const pointers[4] = {NULL, NULL, bytes, bytes};
    const size_t sizes[4] = {0, 4, 0, 4};
    int i, j, k;
    for (i = 0; i < 4; i++)
        for (j = 0; j < 4; j++)
            for (k = 0; k < 4; k++) each_call(pointers[i], sizes[i], pointers[j], sizes[j], pointers[k], sizes[k]);
}

/* The archive's own functions get what is given. */
static void own_functions(void) {
    uint32_t (*const plan)(const uint8_t *, size_t, uint8_t *, size_t) = &kit_plan;
    uint8_t byte = 0;
    check(plan(NULL, 0, NULL, 0) == 1, "the answer by a pointer to the function");
    check(lent[0] == NULL && lent[1] == NULL, "null by a pointer to the function");
    each_call(&byte, 1, &byte, 1, &byte, 1);
    (kit_join)(NULL, 0, NULL, 0, NULL, 0);
    check(lent[0] == NULL && lent[1] == NULL && lent[2] == NULL, "null by a name in parentheses");
}

int main(void) {
    each_pointer();
    own_functions();
    printf("lent.c: %u checks passed\n", passed);
    return 0;
}
