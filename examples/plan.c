/* Plans the card of a file and prints its steps and marks, or why it is refused.
 *
 * Usage: plan CARD
 *
 * The exit status is 0 where the card is planned, 1 where it is refused, 2 where it could not be read or told.
 * With the library installed:
 *
 *   cc -std=c99 plan.c $(pkg-config --cflags --libs kit_planner) -o plan
 */
#include <errno.h>
#include <kit_planner.h>
#include <stdio.h>
#include <string.h>

/* One byte more than the longest card, so that a longer file is refused too. */
#define ROOM (KIT_CARD_MAX + 1)

static const char *const places[] = {"card", "node", "rule", "line", "sheet", "steps", "mark", "step"};
static const char *const marks[] = {"left on the tray", "used", "taken by rest", "used one way only"};

/* Reads the file's beginning; 0 where that went well. */
static int read_file(const char *name, uint8_t *bytes, size_t *len) {
    FILE *file = fopen(name, "rb");
    int failed;
    if (!file) return -1;
    *len = fread(bytes, 1, ROOM, file);
    failed = ferror(file);
    fclose(file);
    return failed;
}

static void print_refusal(uint32_t answer) {
    const unsigned place = KIT_PLACE(answer);
    printf("refused %u at %s", KIT_NUMBER(answer), places[place]);
    if (place != KIT_PLACE_CARD && place != KIT_PLACE_SHEET && place != KIT_PLACE_STEPS)
        printf(" %u", KIT_INDEX(answer));
    printf(": %s\n", kit_reason(KIT_NUMBER(answer)));
}

/* A choice, or the entry used. Entries are numbered through: P rules, then T lines, then what is lent. */
static void print_step(const uint8_t *card, unsigned entry) {
    const unsigned rules = card[3], lines = card[4];
    if (entry == KIT_LEFT || entry == KIT_RIGHT)
        printf("%s\n", entry == KIT_LEFT ? "left" : "right");
    else if (entry < rules)
        printf("rule %u\n", entry);
    else if (entry < rules + lines)
        printf("line %u\n", entry - rules);
    else
        printf("lent %u\n", entry - rules - lines);
}

static void print_sheet(const uint8_t *card, const uint8_t *sheet) {
    const unsigned steps = sheet[3], lines = sheet[4];
    unsigned i;
    printf("planned, steps: %u\n", steps);
    for (i = 0; i < steps; i++) {
        printf("step %u: ", i);
        print_step(card, sheet[5 + i]);
    }
    for (i = 0; i < lines; i++) printf("line %u: %s\n", i, marks[sheet[5 + steps + i]]);
}

int main(int argc, char **argv) {
    uint8_t card[ROOM], sheet[KIT_SHEET_MAX];
    size_t len = 0;
    uint32_t answer;
    if (argc != 2) {
        fprintf(stderr, "usage: plan CARD\n");
        return 2;
    }
    if (read_file(argv[1], card, &len) != 0) {
        fprintf(stderr, "plan: %s: %s\n", argv[1], strerror(errno));
        return 2;
    }
    answer = kit_plan(card, len, sheet, sizeof sheet);
    if (KIT_NUMBER(answer) != 0)
        print_refusal(answer);
    else
        print_sheet(card, sheet);
    if (fflush(stdout) != 0) {
        fprintf(stderr, "plan: standard output: %s\n", strerror(errno));
        return 2;
    }
    return KIT_NUMBER(answer) != 0;
}
