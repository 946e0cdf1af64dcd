#!/usr/bin/env python3
"""Writes the input of the program `benches`, labelled pairs of cards, and what it must print of them.

A record is a label, the length of the buffer to be lent, the lengths of both cards, and the cards. What is printed of a pair: the joined
card, made here from the nodes, rules and lines of both (02, #101); how many bytes behind it are as they were; its plan; and the source of
every joined line and of one beyond. Plans and refusals are stated by hand.

Usage: benches.py            writes crates/benches/stdin and crates/benches/stdout
       benches.py --check    exits 1 if those files are not what this script writes
"""
from typing import NamedTuple

from cards import card, pack, store, word

ATOM, REST, DONE, BOTH, EITHER, LEND, GIVES, ONE_OF, NEVER, MENU = range(1, 11)
MOST = 2900  # the program lends no more


class Card(NamedTuple):
    nodes: list  # kind, left, right
    goal: int = 0
    rules: list = []  # a node
    lines: list = []  # a node, must/may byte
    d: int = 4
    s: int = 8



def unpack(data):
    def number(at):
        return data[at] * 256 + data[at + 1]

    rules = 11 + 5 * number(5)
    lines = rules + 2 * data[3]
    return Card(
        [(data[at], number(at + 1), number(at + 3)) for at in range(11, rules, 5)],
        number(7),
        [number(at) for at in range(rules, lines, 2)],
        [(number(at), data[at + 2]) for at in range(lines, len(data), 3)],
        data[9],
        data[10],
    )


def joined(first, second):
    n = len(first.nodes)
    nodes = list(first.nodes)
    for kind, left, right in second.nodes:
        nodes.append((kind, n + left, n + right) if kind not in (ATOM, REST, DONE, NEVER) else (kind, left, right))
    nodes.append((BOTH, first.goal, n + second.goal))
    rules = first.rules + [n + r for r in second.rules]
    lines = first.lines + [(n + l, m) for l, m in second.lines]
    return Card(nodes, len(nodes) - 1, rules, lines, max(first.d, second.d), min(first.s + second.s, 255))


def hexed(data):
    return "".join(f" {b:02x}" for b in data)


def sources(first, second):
    """The lines of both cards with where they stand, and one beyond."""
    i = 0
    for name, data in ("first", first), ("second", second):
        t = data[4]
        for at in range(len(data) - 3 * t, len(data), 3):
            yield f"line {i}: {name} card at {at}:{hexed(data[at : at + 3])}"
            i += 1
    yield f"line {i}: refused 16 line {i}, neither card"


def planned(steps, marks):
    return "plan " + " ".join([str(len(steps))] + [str(e) for e in steps]) + " marks" + "".join(f" {m}" for m in marks)


def gives(g, d):
    return ("gives", g, d)


def tower(height, goal=None):
    """A card with a node of each height up to this one, each part shared by both sides; its goal is the last unless told."""
    return pack(*Card([(DONE, 0, 0)] + [(BOTH, i, i) for i in range(height - 1)], height - 1 if goal is None else goal))


def of_done(n=1, rules=0, lines=0, **limits):
    """A card with goal done, of so many nodes, rules and may lines; rules and lines are rest, the last node."""
    return pack(*Card([(DONE, 0, 0)] * (n - 1) + [(REST if n > 1 else DONE, 0, 0)], 0, [n - 1] * rules, [(n - 1, 0)] * lines, **limits))


NOTHING, ELEVEN = planned([], []), "refused 11 card"
SAMPLE = bytes.fromhex("0028010003000400010408 01000A0000 0100140000 0700000001 01001E0000 000001 000201 000300".replace(" ", ""))
RULE = card("b", [gives("a", "b")], [("a", 1)], 2, 3)
MUST, MAY, WANT = (card(goal, [], lines, 4, 8) for goal, lines in [(("done",), [("a", 1)]), (("done",), [("a", 0)]), ("a", [])])
# every kind, each part shared, names that are node numbers too
KINDS = pack(*Card([(ATOM, 0, 0), (ATOM, 999, 0), (REST, 0, 0), (DONE, 0, 0), (GIVES, 0, 1), (EITHER, 1, 1), (LEND, 4, 5), (BOTH, 6, 3)],
    7, [2], [(0, 1), (0, 0), (2, 0)]))
TWO = pack(*Card([(ATOM, 3, 0), (ATOM, 4, 0)], 0, [], [(0, 1), (1, 0)]))
# a menu b, line 0, and must b, line 1; b one of never, and a
CHOICE = card(("both", ("one of", "b", ("never",)), "a"), [], [(("menu", "a", "b"), 1), ("b", 1)], 4, 8)
# the rule c gives (d menu a); never one of d, with a lent c
OFFER = card(("lend", "c", ("one of", ("never",), "d")), [gives("c", ("menu", "d", "a"))], [], 4, 8)
# must a; a either way rest
ONE_WAY = card(("either", "a", ("rest",)), [], [("a", 1)], 4, 8)
COVERED = pack(*Card([(REST, 0, 0)], 0, [], [(0, 1)] * 40))
LARGEST = of_done(256, 32, 32, s=200), of_done(255, 32, 32, s=100)

# label, both cards, the joined card's plan; the buffer is exactly as long as the joined card
JOINED = [
    ("two small cards", SAMPLE, RULE, planned([2, 1, 0, 4], [1, 1, 0, 1])),
    ("the same the other way round", RULE, SAMPLE, planned([0, 1, 3, 2], [1, 1, 1, 0])),
    ("a card with itself", RULE, RULE, planned([0, 2, 0, 3], [1, 1])),
    ("least cards", of_done(), of_done(), NOTHING),
    ("all kinds in the second card", TWO, KINDS, planned([1, 6, 3, 6, 3], [1, 0, 1, 0, 0])),
    ("all kinds in the first card", KINDS, TWO, planned([6, 1, 6, 1, 4], [1, 0, 0, 1, 0])),
    ("choices in both cards", CHOICE, OFFER, planned([254, 2, 1, 254, 255, 0, 254, 3], [1, 1])),
    ("choices in both cards, the other way round", OFFER, CHOICE, planned([255, 0, 254, 3, 254, 2, 1, 254], [1, 1])),
    ("a line used one way only in each card", ONE_WAY, ONE_WAY, planned([0, 1], [3, 3])),
    ("a line used one way only in the first card", ONE_WAY, RULE, planned([1, 0, 2], [3, 1])),
    ("lines in the first card alone", TWO, of_done(), planned([0], [1, 0])),
    ("lines in the second card alone", of_done(), TWO, planned([0], [1, 0])),
    ("a line of the first card for the second's goal", MAY, WANT, planned([0], [1])),
    ("a rule of the second card for the first's goal", WANT, card(("done",), ["a"], [], 4, 8), planned([0], [])),
    ("the second card's rest covers the first's must line", MUST, card(("rest",), [], [], 4, 8), planned([], [2])),
    ("no list", MUST, of_done(), ELEVEN),
    ("d 2 and 5", of_done(d=2), of_done(d=5), NOTHING),
    ("d 16 and 0", of_done(d=16), of_done(d=0), NOTHING),
    ("s 0 and 0", of_done(s=0), of_done(s=0), NOTHING),
    ("s 127 and 127", of_done(s=127), of_done(s=127), NOTHING),
    ("s 128 and 127", of_done(s=128), of_done(s=127), NOTHING),
    ("s 128 and 128", of_done(s=128), of_done(s=128), NOTHING),
    ("s 255 and 255", of_done(s=255), of_done(s=255), NOTHING),
    ("joined P 64", of_done(2, rules=33), of_done(2, rules=31), NOTHING),
    ("joined T 64", COVERED, of_done(2, lines=24), planned([], [2] * 40 + [0] * 24)),
    ("joined height 8", tower(7), tower(7), NOTHING),
    ("height 8, but not of a goal", tower(8, 6), tower(8, 0), NOTHING),
    ("joined N 512, P 64 and T 64: the longest card", *LARGEST, planned([], [0] * 64)),
]
# label, both cards, how much longer the buffer is than the joined card, the plan
ROOMS = [
    ("buffer of one byte more", SAMPLE, RULE, 1, planned([2, 1, 0, 4], [1, 1, 0, 1])),
    ("buffer of nine bytes more", of_done(), of_done(), 9, NOTHING),
    ("buffer of one byte less", SAMPLE, RULE, -1, None),
    ("no buffer", of_done(), of_done(), -26, None),
    ("longest card, buffer of one byte less", *LARGEST, -1, None),
]
BASE = card("b", ["a", gives("a", "b")], [("a", 1), ("c", 0)], 4, 8)  # nodes from 11, rules from 31, lines from 35


def changed(at, value):
    return BASE[:at] + bytes([value]) + BASE[at + 1 :]


FAULTS = [
    ("ten bytes", "1 card", BASE[:10]),
    ("one byte more", "2 card", BASE + b"\0"),
    ("version 2", "3 card", changed(2, 2)),
    ("d 17", "4 card", changed(9, 17)),
    ("N says one more", "5 card", changed(6, 5)),
    ("kind 0", "6 node 3", changed(26, 0)),
    ("goal equal to N", "7 card", changed(8, 4)),
    ("rule far out", "8 rule 1", changed(34, 9)),
    ("must/may byte 2", "9 line 1", changed(40, 2)),
]
WRONG = dict((said.split()[0], data) for _, said, data in FAULTS)
# label, both cards, the refusal of joining and of asking; the buffer has room
REFUSED = [(f"{fault}, first card", data, SAMPLE, f"{said}, first card") for fault, said, data in FAULTS]
REFUSED += [(f"{fault}, second card", SAMPLE, data, f"{said}, second card") for fault, said, data in FAULTS]
REFUSED += [
    ("no bytes at all", b"", b"", "1 card, first card"),
    ("9 of the first card before 1 of the second", WRONG["9"], WRONG["1"], "9 line 1, first card"),
    ("6 of both cards", WRONG["6"], changed(11, 0), "6 node 3, first card"),
    ("9 of the second card before 15", of_done(2, lines=63), WRONG["9"], "9 line 1, second card"),
    ("joined P 65", of_done(2, rules=33), of_done(2, rules=32), "15 card, neither card"),
    ("joined T 65", of_done(2, lines=64), of_done(2, lines=1), "15 card, neither card"),
    ("joined N 513", of_done(256), of_done(256), "15 card, neither card"),
    ("goal of height 8 in the first card, 15 before 16", tower(8), of_done(), "15 card, neither card"),
    ("goal of height 8 in the second card, 15 before 16", of_done(), tower(8), "15 card, neither card"),
]
# the same with no buffer
UNROOMED = [
    ("9 of the first card before 10", WRONG["9"], SAMPLE, "9 line 1, first card"),
    ("9 of the second card before 10", SAMPLE, WRONG["9"], "9 line 1, second card"),
    ("15 before 10", tower(8), SAMPLE, "15 card, neither card"),
]


def records():
    """The label, the buffer's length, both cards, and the lines that are printed below the label."""
    rooms = [(*pair[:3], 0, pair[3]) for pair in JOINED] + ROOMS
    for label, first, second, more, plan in rooms:
        data = pack(*joined(unpack(first), unpack(second)))
        room = len(data) + more
        if more < 0:
            lines = ["refused 10 sheet, neither card", f"kept {room}"]
        else:
            lines = [f"joined {len(data)}:{hexed(data)}", f"kept {more}", plan]
        yield label, room, first, second, [*lines, *sources(first, second)]
    for label, first, second, said, room in [(*pair, MOST) for pair in REFUSED] + [(*pair, 0) for pair in UNROOMED]:
        yield label, room, first, second, [f"refused {said}", f"kept {room}", f"line 0: refused {said}"]


def main():
    pairs, found = bytearray(), bytearray()
    for label, room, first, second, lines in records():
        text = label.encode()
        pairs += bytes([len(text)]) + text + word(room) + word(len(first)) + word(len(second)) + first + second
        found += "\n  ".join([label, *lines]).encode() + b"\n"
    store("benches", pairs, found)


main()
