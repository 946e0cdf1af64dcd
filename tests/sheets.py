#!/usr/bin/env python3
"""Writes the input of the program `sheets`, labelled pairs of a card and a sheet, and what it must print of them: every answer of the
reader behind 9, with its place, stated by hand.

Usage: sheets.py            writes crates/sheets/stdin and crates/sheets/stdout
       sheets.py --check    exits 1 if those files are not what this script writes
"""
from cards import DONE, LEFT, NEVER, REST, RIGHT, all_of, both, either, gives, lend, menu, one_of, store, tray, word

A, B, C = "a", "b", "c"


def sheet(steps, marks=()):
    size = 5 + len(steps) + len(marks)
    return word(size) + bytes([1, len(steps), len(marks)]) + bytes(steps) + bytes(marks)


def at(number, i):
    return f"refused {number} step {i}"


TWELVE, NINETEEN = "refused 12 sheet", "refused 19 steps"

# c needs b, then a; each is a rule. The list is 2 1 0.
RULES = [A, B, gives(A, gives(B, C))]


def made(steps, **limits):
    return tray(C, rules=RULES, **limits), sheet(steps)


# label, (card, sheet), answer
STEPS = [
    ("the list", made([2, 1, 0]), "accepted 3"),
    ("first step makes another name", made([0, 1, 0]), at(13, 0)),
    ("conditions in the other order", made([2, 0, 1]), at(13, 1)),
    ("last step makes another name", made([2, 1, 1]), at(13, 2)),
    ("last step is no entry", made([2, 1, 3]), at(13, 2)),
    ("last step is 255", made([2, 1, 255]), at(13, 2)),
    ("two wrong steps", made([2, 0, 7]), at(13, 1)),
    ("nested above d 1", made([2, 1, 0], d=1), at(17, 1)),
    ("nested above d 0", made([2, 1, 0], d=0), at(17, 0)),
    ("no entry, and nested above d: 13 before 17", made([2, 0, 0], d=1), at(13, 1)),
    ("nested above d, then no entry: the earlier step", made([2, 1, 7], d=1), at(17, 1)),
    ("no entry, then nested above d: the earlier step", made([1, 1, 0], d=1), at(13, 0)),
    ("last step missing", made([2, 1]), at(18, 2)),
    ("all steps missing", made([]), at(18, 0)),
    ("missing step would be nested above d", made([2], d=1), at(18, 1)),
    ("no step at d 0", made([], d=0), at(18, 0)),
    ("wrong step before a missing one", made([2, 0]), at(13, 1)),
    ("one step too many", made([2, 1, 0, 0]), at(18, 3)),
    ("three steps too many, told by the first", made([2, 1, 0, 7, 7, 7]), at(18, 3)),
    ("wrong step before one too many", made([2, 1, 1, 0]), at(13, 2)),
    ("as many steps as s", made([2, 1, 0], s=3), "accepted 3"),
    ("more steps than s", made([2, 1, 0], s=2), TWELVE),
    ("wrong step, and more steps than s", made([0, 1, 0], s=2), TWELVE),
    ("missing step behind s", made([2, 1], s=2), at(18, 2)),
    ("a step for done", (tray(DONE), sheet([0])), at(18, 0)),
    ("a step for rest", (tray(REST, must=[A]), sheet([0], [1])), at(18, 0)),
    ("a clause with no head", (tray(both(A, REST), lines=[(gives(A, REST), 1), (A, 0)]), sheet([0], [1, 0])), at(13, 0)),
    ("a lent clause outside its lend", (tray(both(lend(A, A), A)), sheet([0, 0])), at(13, 1)),
    ("a lent clause in the conditions of a rule", (tray(lend(A, C), rules=[gives(A, C)]), sheet([0, 1])), "accepted 2"),
    ("second side of either way", (tray(either(A, B), must=[A, B]), sheet([0, 0], [1, 2])), at(13, 1)),
]

ITEMS = [
    ("a line used twice", (tray(both(A, A), must=[A]), sheet([0, 0], [1])), NINETEEN),
    ("a line used up, then used again", (tray(both(A, both(A, B)), must=[A, B]), sheet([0, 0, 1], [1, 1])), NINETEEN),
    ("a line used in its own conditions", (tray(A, lines=[(gives(A, A), 1), (A, 0)]), sheet([0, 0, 1], [1, 1])), NINETEEN),
    ("a must line neither used nor covered", (tray(DONE, must=[A]), sheet([], [2])), NINETEEN),
    ("a must line covered by rest", (tray(REST, must=[A]), sheet([], [2])), "accepted 0"),
    ("a may line not used", (tray(DONE, may=[A]), sheet([], [0])), "accepted 0"),
    ("a lent clause left over", (tray(both(lend(A, DONE), REST)), sheet([])), NINETEEN),
    ("a lent clause covered by rest", (tray(lend(A, REST)), sheet([])), "accepted 0"),
    ("a lent clause used twice", (tray(lend(A, both(A, A))), sheet([0, 0])), NINETEEN),
    ("sides of either way that do not agree", (tray(either(A, B), must=[A, B]), sheet([0, 1], [1, 1])), NINETEEN),
    ("sides of either way that agree", (tray(either(both(A, B), both(B, A)), must=[A, B]), sheet([0, 1, 1, 0], [1, 1])), "accepted 4"),
    ("either way, rest on one side", (tray(either(A, REST), must=[A]), sheet([0], [3])), "accepted 1"),
    ("used twice, and a step missing: 18", (tray(all_of([A, A, A]), must=[A]), sheet([0, 0], [1])), at(18, 2)),
    ("used twice, and a step too many: 18", (tray(both(A, A), must=[A]), sheet([0, 0, 0], [1])), at(18, 2)),
    ("used twice, and a wrong step: 13", (tray(all_of([A, A, B]), must=[A]), sheet([0, 0, 0], [1])), at(13, 2)),
    ("used twice, and nested above d: 17", (tray(all_of([A, A, C]), rules=[gives(A, C)], must=[A], d=1), sheet([1, 1, 0, 1], [1])), at(17, 3)),
    ("used twice, and a wrong mark: 19", (tray(both(A, A), must=[A]), sheet([0, 0], [0])), NINETEEN),
]

ORDER = [
    ("a wrong mark", (tray(A, must=[A]), sheet([0], [2])), "refused 14 mark 0"),
    ("the first wrong mark", (tray(both(A, REST), must=[A, B], may=[B]), sheet([0], [1, 1, 1])), "refused 14 mark 1"),
    ("a wrong step, and a wrong mark: 13", (tray(A, must=[A]), sheet([1], [3])), at(13, 0)),
    ("a step too many, and a wrong mark: 18", (tray(A, must=[A]), sheet([0, 0], [3])), at(18, 1)),
    ("a wrong step in a sheet of version 2", (tray(A, must=[A]), word(7) + bytes([2, 1, 1, 1, 1])), TWELVE),
    ("a wrong step, and k one less", (tray(A, must=[A]), word(7) + bytes([1, 0, 1, 1, 1])), TWELVE),
    ("a card at fault", (tray(A, must=[A], d=17), sheet([1], [1])), "refused 4 card"),
    ("no card and no sheet", (b"", b""), "refused 1 card"),
    ("no sheet", (tray(A, must=[A]), b""), TWELVE),
]


def mixed(steps, mark=1, d=2):
    """The card of docs/FORMAT.md with a rule (entry 0), a line (entry 1) and a lend (entry 2). The list is 0 2 1."""
    return tray(lend(B, C), rules=[gives(A, gives(B, C))], must=[A], d=d, s=3), sheet(steps, [mark])


SHOWN = [
    ("rule, line and lend", mixed([0, 2, 1]), "accepted 3"),
    ("rule, line and lend, b and a swapped", mixed([0, 1, 2]), at(13, 1)),
    ("rule, line and lend, no entry 3", mixed([0, 3, 1]), at(13, 1)),
    ("rule, line and lend, d 1", mixed([0, 2, 1], d=1), at(17, 1)),
    ("rule, line and lend, two steps", mixed([0, 2], 2), at(18, 2)),
    ("rule, line and lend, d 1 and one step", mixed([0], 2, d=1), at(18, 1)),
]

# a needs b, and a is wanted 128 times: 256 steps.
MANY = tray(all_of([A] * 128), rules=[gives(B, A), B], s=255)
LONG = [0, 1] * 128
LONGEST = [
    ("255 steps of 256", (MANY, sheet(LONG[:255])), at(18, 255)),
    ("255 steps of 256, the last wrong", (MANY, sheet(LONG[:254] + [1])), at(13, 254)),
    ("255 steps of 255", (tray(all_of([A] * 127 + [B]), rules=[gives(B, A), B], s=255), sheet(LONG[:254] + [1])), "accepted 255"),
]


def chosen(steps, marks=(1, 1, 0), d=2, s=8):
    """b gives ((c gives a) menu a), line 0, with b, line 1, and may c, line 2. The lists are 0 254 2 1 and 0 255 1."""
    return tray(A, must=[gives(B, menu(gives(C, A), A)), B], may=[C], d=d, s=s), sheet(steps, marks)


def tools(steps):
    """a menu b, and in it c menu d, line 0; d is wanted. The list is 0 255 255."""
    return tray("d", must=[menu(menu(A, B), menu(C, "d"))]), sheet(steps, [1])


def either_of(steps, mark=1, **limits):
    """a one of b, and must a, line 0. The list is 254 0."""
    return tray(one_of(A, B), must=[A], **limits), sheet(steps, [mark])


CHOICES = [
    ("one of, left", either_of([LEFT, 0]), "accepted 2"),
    ("one of, the other side", either_of([RIGHT, 0]), at(13, 1)),
    ("one of, no choice", either_of([], 2), at(18, 0)),
    ("one of, an entry for the choice", either_of([0]), at(13, 0)),
    ("one of, 253 for the choice", either_of([253], 2), at(13, 0)),
    ("one of, a choice for the entry", either_of([LEFT, LEFT], 2), at(13, 1)),
    ("one of, a choice too many", either_of([LEFT, 0, LEFT]), at(18, 2)),
    ("one of, more steps than s", either_of([LEFT, 0], s=1), TWELVE),
    ("one of, as many as s", either_of([LEFT, 0], s=2), "accepted 2"),
    ("one of, d 0: the entry is nested too deep, not the choice", either_of([LEFT, 0], d=0), at(17, 1)),
    ("choices alone at d 0", (tray(both(one_of(DONE, A), one_of(A, REST)), must=[A], d=0), sheet([LEFT, RIGHT], [2])), "accepted 2"),
    ("a choice where the name is plain", (tray(A, must=[A]), sheet([LEFT], [2])), at(13, 0)),
    ("a choice for done", (tray(DONE), sheet([RIGHT])), at(18, 0)),
    ("a choice behind an entry without a menu", (tray(A, must=[A]), sheet([0, LEFT], [1])), at(18, 1)),
    ("menu in a recipe, left", chosen([0, LEFT, 2, 1], (1, 1, 1)), "accepted 4"),
    ("menu in a recipe, right", chosen([0, RIGHT, 1]), "accepted 3"),
    ("menu in a recipe, an entry for the choice", chosen([0, 2, 1], (1, 1, 1)), at(13, 1)),
    ("menu in a recipe, conditions in the other order", chosen([0, LEFT, 1, 2], (1, 1, 1)), at(13, 2)),
    ("menu in a recipe, the choice behind a condition", chosen([0, 2, LEFT, 1], (1, 1, 1)), at(13, 1)),
    ("menu in a recipe, the choice before the entry", chosen([LEFT, 0, 2, 1], (1, 1, 1)), at(13, 0)),
    ("menu in a recipe, no choice", chosen([0], (1, 2, 0)), at(18, 1)),
    ("menu in a recipe, left without c", chosen([0, LEFT, 1]), at(13, 2)),
    ("menu in a recipe, one step too many", chosen([0, RIGHT, 1, 2], (1, 1, 1)), at(18, 3)),
    ("menu in a recipe, d 1: the condition is nested, not the choice", chosen([0, RIGHT, 1], d=1), at(17, 2)),
    ("menu in a recipe, d 0: 17 at the entry", chosen([0, RIGHT, 1], d=0), at(17, 0)),
    ("menu in a recipe, d 0, and no choice: 17 at the entry", chosen([0], (1, 2, 0), d=0), at(17, 0)),
    ("menus in a menu", tools([0, RIGHT, RIGHT]), "accepted 3"),
    ("menus in a menu, the outer side without the name", tools([0, LEFT, RIGHT]), at(13, 1)),
    ("menus in a menu, the inner side without the name", tools([0, RIGHT, LEFT]), at(13, 2)),
    ("menus in a menu, no inner choice", tools([0, RIGHT]), at(18, 2)),
    ("menus in a menu, an entry for the inner choice", tools([0, RIGHT, 0]), at(13, 2)),
    ("menus in a menu, a third choice", tools([0, RIGHT, RIGHT, RIGHT]), at(18, 3)),
    ("a menu without the name", (tray(C, must=[menu(A, B)]), sheet([0, LEFT], [1])), at(13, 0)),
    ("a side without a head", (tray(A, must=[menu(A, REST)]), sheet([0, RIGHT], [1])), at(13, 1)),
    ("the side with the name", (tray(A, must=[menu(B, A)]), sheet([0, RIGHT], [1])), "accepted 2"),
    ("the side with another name", (tray(A, must=[menu(B, A)]), sheet([0, LEFT], [1])), at(13, 1)),
    ("a side that fits too", (tray(A, must=[menu(A, A)]), sheet([0, RIGHT], [1])), "accepted 2"),
    ("a menu used both ways", (tray(both(A, B), must=[menu(A, B)]), sheet([0, LEFT, 0, RIGHT], [1])), NINETEEN),
    ("a rule's menu used both ways", (tray(both(A, B), rules=[menu(A, B)]), sheet([0, LEFT, 0, RIGHT])), "accepted 4"),
    ("sides of either way that choose otherwise", (tray(either(one_of(A, B), one_of(A, B)), may=[A, B]), sheet([LEFT, 0, RIGHT, 1], [1, 1])), NINETEEN),
    ("a must line of the other side", (tray(one_of(A, B), must=[A, B]), sheet([LEFT, 0], [1, 2])), NINETEEN),
    ("a choice, and a wrong mark", either_of([LEFT, 0], 0), "refused 14 mark 0"),
    ("never", (tray(NEVER), sheet([])), NINETEEN),
    ("never beside rest", (tray(both(NEVER, REST), must=[A]), sheet([], [2])), NINETEEN),
    ("never, then a right step", (tray(both(NEVER, A), must=[A]), sheet([0], [1])), NINETEEN),
    ("never, then a wrong step", (tray(both(NEVER, A), must=[A]), sheet([1], [2])), at(13, 0)),
    ("never, then a missing step", (tray(both(NEVER, A), must=[A]), sheet([], [2])), at(18, 0)),
    ("never, then a step nested too deep", (tray(both(NEVER, A), must=[A], d=0), sheet([0], [1])), at(17, 0)),
    ("never, and a step too many", (tray(NEVER), sheet([0])), at(18, 0)),
    ("never, and a wrong mark: 19", (tray(NEVER, may=[A]), sheet([], [1])), NINETEEN),
    ("never one way", (tray(either(A, NEVER), must=[A]), sheet([0], [1])), NINETEEN),
    ("never chosen", (tray(one_of(NEVER, A), may=[A]), sheet([LEFT], [0])), NINETEEN),
    ("never not chosen", (tray(one_of(NEVER, A), must=[A]), sheet([RIGHT, 0], [1])), "accepted 2"),
    ("never in a condition", (tray(A, rules=[gives(NEVER, A)]), sheet([0])), NINETEEN),
]


def marked(marks):
    """b either way rest, beside a. The list 0 1 has the marks 1 3 2 0: a is surely used, b one way only, the rest takes must c."""
    return tray(both(A, either(both(B, REST), REST)), must=[A, B, C], may=[C]), sheet([0, 1], marks)


def two_equal(steps, marks):
    """a and rest, either way, with two may lines a. Each way may use its own or the same."""
    return tray(either(both(A, REST), both(A, REST)), may=[A, A]), sheet(steps, marks)


def wrong(i):
    return f"refused 14 mark {i}"


# Marks 1 and 3: surely used, and in the list but not surely (02, #105).
MARKS = [
    ("all four marks", marked([1, 3, 2, 0]), "accepted 2"),
    ("1 where 3 is true", marked([1, 1, 2, 0]), wrong(1)),
    ("0 where 3 is true", marked([1, 0, 2, 0]), wrong(1)),
    ("2 where 3 is true", marked([1, 2, 2, 0]), wrong(1)),
    ("4 where 3 is true", marked([1, 4, 2, 0]), wrong(1)),
    ("3 where 1 is true", marked([3, 3, 2, 0]), wrong(0)),
    ("3 for a must line that is not in the list", marked([1, 3, 3, 0]), wrong(2)),
    ("3 for a may line that is not in the list", marked([1, 3, 2, 3]), wrong(3)),
    ("1 for 3, then 3 for 2: the first", marked([1, 1, 3, 0]), wrong(1)),
    ("3 for 1, then 1 for 3: the first", marked([3, 1, 2, 0]), wrong(0)),
    ("3 for 2, then 3 for 0: the first", marked([1, 3, 3, 3]), wrong(2)),
    ("used on both sides, mark 1", (tray(either(A, A), must=[A]), sheet([0, 0], [1])), "accepted 2"),
    ("used on both sides, mark 3", (tray(either(A, A), must=[A]), sheet([0, 0], [3])), wrong(0)),
    ("no either way, mark 3", (tray(A, must=[A]), sheet([0], [3])), wrong(0)),
    ("one side, mark 1", (tray(either(A, REST), must=[A]), sheet([0], [1])), wrong(0)),
    ("one side, mark 2", (tray(either(A, REST), must=[A]), sheet([0], [2])), wrong(0)),
    ("one side of a may line, mark 0", (tray(either(A, REST), may=[A]), sheet([0], [0])), wrong(0)),
    ("both sides at different places", (tray(either(both(A, REST), both(B, A)), must=[A, B]), sheet([0, 1, 0], [1, 3])), "accepted 3"),
    ("both sides at different places, marks 3 3", (tray(either(both(A, REST), both(B, A)), must=[A, B]), sheet([0, 1, 0], [3, 3])), wrong(0)),
    ("two equal lines, another each way", two_equal([0, 1], [3, 3]), "accepted 2"),
    ("two equal lines, another each way, marks 1 1", two_equal([0, 1], [1, 1]), wrong(0)),
    ("two equal lines, the second both ways", two_equal([1, 1], [0, 1]), "accepted 2"),
    ("two equal lines, the second both ways, mark 3", two_equal([1, 1], [0, 3]), wrong(1)),
    ("a lent clause's condition one way", (tray(lend(gives(A, C), either(C, REST)), must=[A]), sheet([1, 0], [3])), "accepted 2"),
    ("a lent clause's condition both ways", (tray(lend(gives(A, C), either(C, C)), must=[A]), sheet([1, 0, 1, 0], [1])), "accepted 4"),
    ("one of with either way, left", (tray(one_of(either(A, REST), A), must=[A]), sheet([LEFT, 0], [3])), "accepted 2"),
    ("one of with either way, right", (tray(one_of(either(A, REST), A), must=[A]), sheet([RIGHT, 0], [1])), "accepted 2"),
    ("one of with either way, the other side's mark", (tray(one_of(either(A, REST), A), must=[A]), sheet([RIGHT, 0], [3])), wrong(0)),
    ("sides that do not agree, marks 3 3: 19", (tray(either(A, B), must=[A, B]), sheet([0, 1], [3, 3])), NINETEEN),
    ("never one way, mark 3: 19", (tray(either(A, NEVER), must=[A]), sheet([0], [3])), NINETEEN),
]


def main():
    given, wanted = bytearray(), bytearray()
    for label, (card, data), answer in STEPS + ITEMS + ORDER + SHOWN + LONGEST + CHOICES + MARKS:
        text = label.encode()
        given += bytes([len(text)]) + text + word(len(card)) + word(len(data)) + card + data
        wanted += f"{label}: {answer}\n".encode()
    store("sheets", given, wanted)


main()
