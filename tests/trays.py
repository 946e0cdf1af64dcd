#!/usr/bin/env python3
"""Writes the input of the program `trays`, the cards of document 01's table of trays and more, and what it must print of them.

A record is a label, the length of the buffer to be lent, and a card.

Usage: trays.py            writes crates/trays/stdin and crates/trays/stdout
       trays.py --check    exits 1 if those files are not what this script writes
Both exit 1 if the trays that are proved are not among them with the same outcomes.
"""
import pathlib
import re
import sys

from cards import DONE, LEFT, NEVER, REST, RIGHT, all_of, both, either, gives, lend, menu, one_of, store, tray, word

ROOT = pathlib.Path(__file__).resolve().parent.parent


def planned(steps, marks):
    return "plan " + " ".join([str(len(steps))] + [str(e) for e in steps]) + " marks" + "".join(f" {m}" for m in marks)


A, B, C = "a", "b", "c"
TEN, ELEVEN = "refused 10 sheet", "refused 11 card"
ANY = 0xFFFF  # a buffer with room for any sheet
RULES = [A, B, gives(A, gives(B, C))]

TRAYS = [
    ("nothing, done", tray(DONE), planned([], [])),
    ("must a, done", tray(DONE, must=[A]), ELEVEN),
    ("may a, done", tray(DONE, may=[A]), planned([], [0])),
    ("must a, rest", tray(REST, must=[A]), planned([], [2])),
    ("must a, a both a", tray(both(A, A), must=[A]), ELEVEN),
    ("must a, must a, a both a", tray(both(A, A), must=[A, A]), planned([0, 1], [1, 1])),
    ("must a, a either way a", tray(either(A, A), must=[A]), planned([0, 0], [1])),
    ("must a, a either way rest", tray(either(A, REST), must=[A]), planned([0], [3])),
    ("must a, must b, rest both a", tray(both(REST, A), must=[A, B]), planned([0], [1, 2])),
    ("may a, must a, a", tray(A, lines=[(A, 0), (A, 1)]), planned([1], [0, 1])),
    ("must a, must b, both orders", tray(either(both(A, B), both(B, A)), must=[A, B]), planned([0, 1, 1, 0], [1, 1])),
    ("rules a, b, a gives (b gives c); c", tray(C, rules=RULES), planned([2, 1, 0], [])),
    ("the same with d 1", tray(C, rules=RULES, d=1), ELEVEN),
    ("lend a to a", tray(lend(A, A)), planned([0], [])),
    ("(lend a to done) both rest", tray(both(lend(A, DONE), REST)), ELEVEN),
    ("lend a to rest", tray(lend(A, REST)), planned([], [])),
    ("rules a gives a, a; a with d 3", tray(A, rules=[gives(A, A), A], d=3), planned([0, 0, 1], [])),
    ("the same with s 2", tray(A, rules=[gives(A, A), A], d=3, s=2), planned([0, 1], [])),
    ("may a, a either way done", tray(either(A, DONE), may=[A]), ELEVEN),
    ("rest in one way excuses nothing in the other", tray(either(REST, A), must=[A, B]), ELEVEN),
    ("rest on both ways", tray(either(both(A, REST), both(B, REST)), must=[A, B]), planned([0, 1], [3, 3])),
    ("d 0, a", tray(A, must=[A], d=0), ELEVEN),
    ("d 0, rest", tray(REST, must=[A], d=0), planned([], [2])),
    ("s 0, a", tray(A, must=[A], s=0), ELEVEN),
    ("s 0, done", tray(DONE, s=0), planned([], [])),
    ("a clause with no head is of no use", tray(A, must=[gives(A, REST)], may=[A]), ELEVEN),
    ("a clause with no head under rest", tray(both(A, REST), lines=[(gives(A, REST), 1), (A, 0)]), planned([1], [2, 1])),
    ("sibling lends share a number", tray(both(lend(A, A), lend(B, B))), planned([0, 0], [])),
    ("nested lends go on counting", tray(lend(A, lend(B, both(B, A)))), planned([1, 0], [])),
    ("a lent clause serves in a rule's conditions", tray(lend(A, C), rules=[gives(A, C)]), planned([0, 1], [])),
    ("each choice of a must line leaves another over", tray(both(A, B), lines=[(A, 1), (gives(C, A), 1), (B, 1), (C, 1)]), ELEVEN),
    ("rest covers a must line that a later choice would use",
        tray(both(A, both(B, REST)), lines=[(A, 0), (gives(B, A), 1), (B, 1), (B, 0)]), planned([0, 2], [1, 2, 1, 0])),
    ("a must line that only a later choice uses", tray(A, lines=[(A, 0), (gives(B, A), 1), (B, 1)]), planned([1, 2], [0, 1, 1])),
    ("the condition nearest the head first", tray(C, must=[gives(A, gives(B, C)), A, B]), planned([0, 2, 1], [1, 1, 1])),
    ("equal lines with different bytes", tray(both(A, A), lines=[(A, 0), (A, 1), (A, 0)]), planned([0, 1], [1, 1, 0])),
]
# b gives ((c gives a) menu a)
OFFER = gives(B, menu(gives(C, A), A))
TRAYS += [
    ("left works, so left", tray(one_of(A, B), may=[A, B]), planned([LEFT, 0], [1, 0])),
    ("left fails, right works", tray(one_of(A, B), must=[B]), planned([RIGHT, 0], [1])),
    ("neither side works", tray(one_of(A, B), must=[C]), ELEVEN),
    ("both sides together, but one of is one", tray(one_of(A, B), must=[A, B]), ELEVEN),
    ("one of in one of", tray(one_of(A, one_of(B, C)), must=[C]), planned([RIGHT, RIGHT, 0], [1])),
    ("left would use a part that is wanted later", tray(both(one_of(A, B), A), may=[A, B]), planned([RIGHT, 1, 0], [1, 1])),
    ("a must line only right uses", tray(one_of(A, both(A, B)), must=[A, B]), planned([RIGHT, 0, 1], [1, 1])),
    ("one of in each side of either way", tray(either(one_of(A, B), one_of(B, A)), may=[A, B]), planned([LEFT, 0, RIGHT, 0], [1, 0])),
    ("one of under a lend", tray(lend(A, one_of(DONE, A))), planned([RIGHT, 0], [])),
    ("never", tray(NEVER), ELEVEN),
    ("never both rest", tray(both(NEVER, REST), must=[A]), ELEVEN),
    ("never either way rest", tray(either(NEVER, REST), must=[A]), ELEVEN),
    ("never one of a", tray(one_of(NEVER, A), must=[A]), planned([RIGHT, 0], [1])),
    ("a recipe that asks for never", tray(A, lines=[(gives(NEVER, A), 0), (A, 0)]), planned([1], [0, 1])),
    ("menu, left", tray(A, must=[menu(A, B)]), planned([0, LEFT], [1])),
    ("menu, right", tray(B, must=[menu(A, B)]), planned([0, RIGHT], [1])),
    ("menu, both sides fit", tray(A, must=[menu(A, A)]), planned([0, LEFT], [1])),
    ("menu, neither side fits", tray(C, must=[menu(A, B)]), ELEVEN),
    ("menu, one side has no head", tray(A, must=[menu(REST, A)]), planned([0, RIGHT], [1])),
    ("menu, no side has a head", tray(both(A, REST), lines=[(menu(REST, REST), 1), (A, 0)]), planned([1], [2, 1])),
    ("a menu is used once", tray(both(A, B), must=[menu(A, B)]), ELEVEN),
    ("two menus, one each way", tray(both(A, B), must=[menu(A, B)] * 2), planned([0, LEFT, 1, RIGHT], [1, 1])),
    ("a rule's menu, both ways", tray(both(A, B), rules=[menu(A, B)]), planned([0, LEFT, 0, RIGHT], [])),
    ("a menu that is lent", tray(lend(menu(A, B), B)), planned([0, RIGHT], [])),
    ("menus in a menu, the outer choice first", tray(B, must=[menu(menu(A, B), C)]), planned([0, LEFT, RIGHT], [1])),
    ("menu inside a recipe", tray(A, must=[OFFER, B], may=[C]), planned([0, LEFT, 2, 1], [1, 1, 1])),
    ("menu inside a recipe, right", tray(A, must=[OFFER, B]), planned([0, RIGHT, 1], [1, 1])),
    ("a choice in a condition behind one at its menu", tray(A, must=[gives(one_of(B, C), menu(B, A)), C]), planned([0, RIGHT, RIGHT, 1], [1, 1])),
    ("a choice just fits s", tray(one_of(A, B), must=[B], s=2), planned([RIGHT, 0], [1])),
    ("a choice counts toward s", tray(one_of(A, B), must=[B], s=1), ELEVEN),
    ("a menu's choice just fits s", tray(A, must=[menu(A, B)], s=2), planned([0, LEFT], [1])),
    ("a menu's choice counts toward s", tray(A, must=[menu(A, B)], s=1), ELEVEN),
    ("s takes the left side away", tray(A, must=[OFFER, B], may=[C], s=3), planned([0, RIGHT, 1], [1, 1, 0])),
    ("d 0, choices alone", tray(both(one_of(A, DONE), one_of(DONE, A)), d=0), planned([RIGHT, LEFT], [])),
    ("d 1, a choice is not nested", tray(one_of(A, B), must=[A], d=1), planned([LEFT, 0], [1])),
    ("d 1, a menu's choice is not nested", tray(A, must=[menu(B, A)], d=1), planned([0, RIGHT], [1])),
    ("d 1, a choice in a condition is not nested", tray(A, must=[gives(one_of(B, DONE), A)], d=1), planned([0, RIGHT], [1])),
    ("d 0, 64 choices", tray(all_of([one_of(DONE, A)] * 32 + [one_of(A, DONE)] * 32), d=0, s=64), planned([LEFT] * 32 + [RIGHT] * 32, [])),
    ("d 0, 64 choices, s 63", tray(all_of([one_of(DONE, A)] * 32 + [one_of(A, DONE)] * 32), d=0, s=63), ELEVEN),
]
# Marks 1 and 3: surely used, and in the list but not surely (02, #105).
TRAYS += [
    ("either way inside both", tray(both(A, either(B, REST)), must=[A, B]), planned([0, 1], [1, 3])),
    ("both sides use it at different places", tray(either(both(A, REST), both(B, A)), must=[A, B]), planned([0, 1, 0], [1, 3])),
    ("one side by a recipe", tray(either(A, C), rules=[gives(A, C)], must=[A]), planned([1, 0, 1], [1])),
    ("a condition on one side alone",
        tray(either(both(A, C), both(A, REST)), rules=[gives(B, C)], must=[A, B]), planned([1, 0, 2, 1], [1, 3])),
    ("the right side alone", tray(either(REST, A), must=[A]), planned([0], [3])),
    ("two either ways side by side", tray(both(either(A, REST), either(B, REST)), must=[A, B]), planned([0, 1], [3, 3])),
    ("either way inside either way", tray(either(both(A, either(B, REST)), both(A, REST)), must=[A, B]), planned([0, 1, 0], [1, 3])),
    ("either way inside either way, each part uses it", tray(either(either(A, A), A), must=[A]), planned([0, 0, 0], [1])),
    ("either way inside either way, all parts but one", tray(either(either(A, A), either(A, REST)), must=[A]), planned([0, 0, 0], [3])),
    ("either way inside either way, one part of each", tray(either(either(A, REST), either(REST, A)), must=[A]), planned([0, 0], [3])),
    ("a lend on one side", tray(either(lend(B, both(A, B)), REST), must=[A]), planned([0, 1], [3])),
    ("a lend on one side, its line on both", tray(either(lend(B, both(A, B)), both(A, REST)), must=[A]), planned([0, 1, 0], [1])),
    ("either way under a lend", tray(lend(B, either(both(A, B), both(A, REST))), must=[A]), planned([0, 1, 0], [1])),
    ("a lent clause's condition on one side", tray(lend(gives(A, C), either(C, REST)), must=[A]), planned([1, 0], [3])),
    ("a lent clause's condition on both sides", tray(lend(gives(A, C), either(C, C)), must=[A]), planned([1, 0, 1, 0], [1])),
    ("a lent clause's condition, and the line itself", tray(lend(gives(A, C), either(C, both(A, REST))), must=[A]), planned([1, 0, 0], [1])),
    ("one of on one side", tray(either(one_of(B, A), REST), must=[A]), planned([RIGHT, 0], [3])),
    ("one of on one side, its line on both", tray(either(one_of(B, A), A), must=[A]), planned([RIGHT, 0, 0], [1])),
    ("either way as the side taken", tray(one_of(B, either(A, REST)), must=[A]), planned([RIGHT, 0], [3])),
    ("a menu on one side", tray(either(B, REST), must=[menu(A, B)]), planned([0, RIGHT], [3])),
    ("a menu on both sides, each its own way", tray(either(A, B), must=[menu(A, B)]), planned([0, LEFT, 0, RIGHT], [1])),
    ("a condition inside a menu on one side",
        tray(either(both(A, REST), both(A, REST)), must=[OFFER, B], may=[C], s=7), planned([0, LEFT, 2, 1, 0, RIGHT, 1], [1, 1, 3])),
    ("a line in a condition of a line, one side", tray(either(A, REST), must=[gives(B, A), B]), planned([0, 1], [3, 3])),
    ("a line in a condition of a line, and itself", tray(either(A, both(B, REST)), must=[gives(B, A), B]), planned([0, 1, 1], [3, 1])),
    ("either way in a condition", tray(C, rules=[gives(either(A, REST), gives(B, C))], must=[A, B]), planned([0, 2, 1], [3, 1])),
    ("a rule serves beside the line", tray(either(both(A, A), REST), rules=[A], must=[A]), planned([0, 1], [3])),
    ("a rule serves both ways, rest takes the line", tray(either(both(A, REST), both(A, REST)), rules=[A], must=[A]), planned([0, 0], [2])),
    ("one of two equal lines both ways", tray(either(both(A, REST), both(A, REST)), must=[A, A]), planned([0, 0], [1, 2])),
    ("may and must lines one way", tray(either(both(A, B), REST), lines=[(A, 0), (B, 1)]), planned([0, 1], [3, 3])),
    ("all four marks", tray(both(A, either(both(B, REST), REST)), must=[A, B, C], may=[C]), planned([0, 1], [1, 3, 2, 0])),
]
for n in (8, 32, 64):
    TRAYS.append((f"{n} equal must lines, {n} wanted", tray(all_of([A] * n), must=[A] * n, s=255), planned(list(range(n)), [1] * n)))
    TRAYS.append((f"{n} equal must lines, {n - 1} wanted", tray(all_of([A] * (n - 1)), must=[A] * n, s=255), ELEVEN))
    TRAYS.append((f"{n - 1} equal must lines, {n} wanted", tray(all_of([A] * n), must=[A] * (n - 1), s=255), ELEVEN))

TWO_OF_A = tray(both(A, A), must=[A, A])  # s 8, T 2
LARGEST = tray(REST, must=[A] * 64, s=255)
# label, card, outcome, length of the buffer
BUFFERS = [
    ("buffer of exactly 5 + s + T", TWO_OF_A, planned([0, 1], [1, 1]), 15),
    ("buffer of one byte less", TWO_OF_A, TEN, 14),
    ("buffer of one byte more", TWO_OF_A, planned([0, 1], [1, 1]), 16),
    ("buffer of exactly 5 + k + T", TWO_OF_A, TEN, 9),
    ("no buffer", TWO_OF_A, TEN, 0),
    ("least buffer of all", tray(DONE, s=0), planned([], []), 5),
    ("one less than the least", tray(DONE, s=0), TEN, 4),
    ("buffer of exactly 5 + 255 + 64", LARGEST, planned([], [2] * 64), 324),
    ("buffer of one less than 5 + 255 + 64", LARGEST, TEN, 323),
    ("not derivable, buffer of exactly 5 + s + T", tray(DONE, must=[A]), ELEVEN, 14),
    ("not derivable, buffer of one byte less", tray(DONE, must=[A]), TEN, 13),
    ("no card and no buffer", b"", "refused 1 card", 0),
    ("card at fault and buffer of one byte less", tray(DONE, d=17), "refused 4 card", 12),
]


def proved():
    """The cards and outcomes that are proved (planner/specs/Trays.antt), as this script writes an outcome."""
    text = (ROOT / "crates" / "planner" / "specs" / "Trays.antt").read_text()
    text = text[text.index("\ntrays =") : text.index("-- A rule, a line")]
    for row in re.split(r"\btray\b", re.sub("--.*", "", text))[1:]:
        data, *lists = (bytes(map(int, re.findall(r"\d+", part))) for part in re.findall(r"\(([\d\s∷]*)\[\]\)|\[\]", row))
        yield data, ELEVEN if "no_plan" in row else planned(*lists[:2])


def main():
    outcomes = {data: outcome for _, data, outcome in TRAYS}
    starred = list(proved())
    if len(starred) != 30 or any(outcomes.get(data) != outcome for data, outcome in starred):
        sys.exit("planner/specs/Trays.antt: not the cards and outcomes of this script")
    cards, found = bytearray(), bytearray()
    for label, data, outcome, room in [(*t, ANY) for t in TRAYS] + BUFFERS:
        text = label.encode()
        cards += bytes([len(text)]) + text + word(room) + word(len(data)) + data
        found += f"{label}: {outcome}\n".encode()
    store("trays", cards, found)


main()
