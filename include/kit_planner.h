/* The kit planner: four calls over bytes, in libplanner_c.a (x86-64 Linux), for C99 and C++11 and later.
 *
 * Each answers one number of 32 bits:
 *
 *   bits 31..24   0 where the call did what it is for, else the refusal's number, 1 to 19
 *   bits 23..20   which card. Beside a refusal of kit_join or kit_source: 1 or 2 where it is the first or the
 *                 second card's own (1 to 9), 0 where it is neither's (10, 15, 16). Where kit_source found the
 *                 line: 1 or 2, the card that holds it. Else 0
 *   bits 19..16   the refusal's place, one of enum kit_place
 *   bits 15..0    the index of the node, rule, line, mark or step, from 0; or what the call tells: k, the number
 *                 of steps (kit_plan, kit_read), the joined card's length (kit_join), where the line stands in its card
 *                 (kit_source); 0 where there is neither
 *
 * What the caller sees to; nothing tests it:
 *
 *   - Each pointer leads to as many bytes as the length beside it says. It may be null where that length is 0.
 *     This header sees to that: its macros put another pointer in the place of a null one, and nothing is read
 *     or written through it. A call that goes past them, by &kit_plan, (kit_plan)(..) or from another language,
 *     is the archive's own and wants pointers that are not null, also with length 0.
 *   - The buffer that kit_plan or kit_join writes overlaps nothing else that is lent. What is only read may
 *     overlap or be the same: card and sheet of kit_read, the two cards of kit_join and of kit_source.
 *   - Nothing else writes these bytes during a call, nor reads those of the buffer that it writes.
 *
 * Any lengths and any bytes are allowed. A call keeps nothing and takes no memory but the stack: on the deepest
 * cards tried 552 KB for kit_plan, 60 KB for kit_read and 2 KB for the others. It may run in several threads at
 * once, each with a buffer of its own to write.
 *
 * Checking, reading, joining and asking for a source take time by the length of card and sheet. kit_plan can take
 * long on a hard card and cannot be stopped, so run it in a thread or process of its own where that matters.
 * Nothing is proved of time; docs/BENCHMARKS.md has what was measured.
 */
#ifndef KIT_PLANNER_H
#define KIT_PLANNER_H

#include <stddef.h>
#include <stdint.h>

#define KIT_VERSION "0.4.0"

/* The lengths of the longest card and the longest sheet: room for any that a call writes. */
#define KIT_CARD_MAX 2891
#define KIT_SHEET_MAX 324

/* Steps of a sheet that choose the left or the right side: of a "one of" where it is met, or of a menu of the entry used
 * just before. Every other step is the number of the entry used, 230 at most: rules from 0, lines from P, the number of
 * rules, and clauses lent on the way from P + T. */
#define KIT_LEFT 254
#define KIT_RIGHT 255

/* Marks of a sheet: what becomes of a line. Of the two sides of an "either way" only one will be walked in the end. */
enum kit_mark {
    KIT_MARK_LEFT = 0,   /* a may line that no step uses: it stays on the tray, or a rest takes it */
    KIT_MARK_USED = 1,   /* surely used: whichever side of each "either way" is walked, a step uses it */
    KIT_MARK_REST = 2,   /* a must line that no step uses: a rest takes it */
    KIT_MARK_ONE_WAY = 3 /* used one way only: one side of an "either way" uses it, the other does not */
};

/* What a refusal speaks of. Node, rule, line, mark and step have an index. */
enum kit_place {
    KIT_PLACE_CARD = 0,
    KIT_PLACE_NODE = 1,
    KIT_PLACE_RULE = 2,
    KIT_PLACE_LINE = 3,
    KIT_PLACE_SHEET = 4,
    KIT_PLACE_STEPS = 5,
    KIT_PLACE_MARK = 6,
    KIT_PLACE_STEP = 7
};

#ifdef __cplusplus
extern "C" {
#endif

/* Plans a card. After planned with k, the first 5 + k + T bytes at sheet are the card's sheet (T is the number
 * of the card's lines), and those behind them keep what they held. After a refusal (1 to 11) all of them do. The k
 * steps begin at sheet[5]: each the number of the entry used, or KIT_LEFT or KIT_RIGHT for a choice. The T marks begin
 * at sheet[5 + k], one of enum kit_mark for each line.
 * A sheet buffer of 5 + s + T bytes, s the card's step limit, is enough; KIT_SHEET_MAX bytes are, for any card. */
uint32_t kit_plan(const uint8_t *card, size_t card_len, uint8_t *sheet, size_t sheet_len);

/* Reads a sheet against its card: accepted with k, or a refusal: the card's own (1 to 9), 12 of the sheet, the first
 * wrong step (13, 17 or 18, place step; a missing one stands behind the last), 19 where the steps are right one by
 * one but the items do not divide, or never is wanted (place steps), 14 of a mark. Writes nothing. */
uint32_t kit_read(const uint8_t *card, size_t card_len, const uint8_t *sheet, size_t sheet_len);

/* Joins two cards to one: the nodes, rules and lines of the first, each followed by those of the second, and the
 * goal both of the two goals. After joined with a length, the first so many bytes at joined are the joined card,
 * and those behind them keep what they held. After a refusal all of them do: the first card's own (1 to 9), then
 * the second's; 15 where the joined card would pass a limit; 10 where the buffer is shorter than it is.
 * KIT_CARD_MAX bytes are enough, for any two cards. */
uint32_t kit_join(const uint8_t *first, size_t first_len, const uint8_t *second, size_t second_len,
                  uint8_t *joined, size_t joined_len);

/* Tells where line i of the joined card comes from: KIT_CARD is the card that holds it, 1 or 2, and its three
 * bytes there begin at offset KIT_INDEX. Or a refusal: 1 to 9 and 15 as for kit_join, then 16, place line i,
 * where i is not below the joined card's number of lines. Writes nothing. */
uint32_t kit_source(const uint8_t *first, size_t first_len, const uint8_t *second, size_t second_len, uint16_t i);

#ifdef __cplusplus
}
#endif

/* The parts of an answer. */
static inline unsigned kit_number_of(uint32_t answer) { return answer >> 24; }
static inline unsigned kit_card_of(uint32_t answer) { return answer >> 20 & 0xfu; }
static inline unsigned kit_place_of(uint32_t answer) { return answer >> 16 & 0xfu; }
static inline unsigned kit_index_of(uint32_t answer) { return answer & 0xffffu; }
#define KIT_NUMBER(answer) kit_number_of(answer)
#define KIT_CARD(answer) kit_card_of(answer)
#define KIT_PLACE(answer) kit_place_of(answer)
#define KIT_INDEX(answer) kit_index_of(answer)

/* When the refusal with this number applies. */
static inline const char *kit_reason(unsigned number) {
    switch (number) {
    case 0: return "not refused";
    case 1: return "fewer than 11 bytes";
    case 2: return "length field differs from the bytes lent";
    case 3: return "version not 1";
    case 4: return "P, T, N or d out of range";
    case 5: return "length formula not met";
    case 6: return "unknown kind, name above 999, unused field not 0, part not lower, part of the wrong reading, or height above 8";
    case 7: return "goal not below N or not a goal";
    case 8: return "rule not below N or not a clause";
    case 9: return "line not below N or not a clause, or must/may byte above 1";
    case 10: return "buffer shorter than 5 + s + T or, joining, than the joined card";
    case 11: return "no derivation within limits";
    case 12: return "sheet under 5 bytes, length field not the bytes lent, version not 1, T not the card's, length not 5 + k + T, or k above s";
    case 13: return "the step names no rule, line or lent part in scope that gives the name wanted there, or is no choice that fits where one is wanted";
    case 14: return "a mark is not the true one";
    case 15: return "joined P, T or N past its limit, or the new goal's height above 8";
    case 16: return "line not below the joined T";
    case 17: return "the step stands inside more uses than the nesting limit allows";
    case 18: return "the step is missing (more is wanted) or one too many (nothing is wanted any more)";
    case 19: return "a part is used twice, a must line or lent part neither used nor left to rest, the sides of \"either way\" use different parts, or never is wanted";
    default: return "unknown";
    }
}

/* The pointer to lend: the one given or, for a null one with length 0, one to a byte that nothing reads or writes. */
static inline const uint8_t *kit_lent(const uint8_t *bytes, size_t len) {
    static const uint8_t none = 0;
    return bytes || len ? bytes : &none;
}
static inline uint8_t *kit_lent_buffer(uint8_t *bytes, size_t len) {
    static uint8_t none;
    return bytes || len ? bytes : &none;
}

/* The calls with such pointers, for the macros behind them. */
static inline uint32_t kit_plan_lent(const uint8_t *card, size_t card_len, uint8_t *sheet, size_t sheet_len) {
    return kit_plan(kit_lent(card, card_len), card_len, kit_lent_buffer(sheet, sheet_len), sheet_len);
}
static inline uint32_t kit_read_lent(const uint8_t *card, size_t card_len, const uint8_t *sheet, size_t sheet_len) {
    return kit_read(kit_lent(card, card_len), card_len, kit_lent(sheet, sheet_len), sheet_len);
}
static inline uint32_t kit_join_lent(const uint8_t *first, size_t first_len, const uint8_t *second,
                                     size_t second_len, uint8_t *joined, size_t joined_len) {
    return kit_join(kit_lent(first, first_len), first_len, kit_lent(second, second_len), second_len,
                    kit_lent_buffer(joined, joined_len), joined_len);
}
static inline uint32_t kit_source_lent(const uint8_t *first, size_t first_len, const uint8_t *second,
                                       size_t second_len, uint16_t i) {
    return kit_source(kit_lent(first, first_len), first_len, kit_lent(second, second_len), second_len, i);
}
#define kit_plan(...) kit_plan_lent(__VA_ARGS__)
#define kit_read(...) kit_read_lent(__VA_ARGS__)
#define kit_join(...) kit_join_lent(__VA_ARGS__)
#define kit_source(...) kit_source_lent(__VA_ARGS__)

/* Checks a card and plans nothing: 0 where it is sound, else its refusal, 1 to 9. It is kit_plan with an empty
 * buffer. No sheet has room there, so a sound card is refused with 10 before any search. */
static inline uint32_t kit_check(const uint8_t *card, size_t card_len) {
    uint8_t none = 0;
    const uint32_t answer = kit_plan(card, card_len, &none, 0);
    return kit_number_of(answer) == 10 ? 0 : answer;
}

#endif
