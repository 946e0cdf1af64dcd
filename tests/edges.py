#!/usr/bin/env python3
"""Writes the input of the program `edges`, labelled cards over the edges of document 01, and what it must print of them.

Usage: edges.py            writes crates/edges/stdin and crates/edges/stdout
       edges.py --check    exits 1 if those files are not what this script writes
"""
from cards import store, word

ATOM, TOP, ONE, TENSOR, WITH, LOLLI_GOAL, LOLLI_CLAUSE, PLUS, ZERO, MENU = range(1, 11)


def node(kind, left=0, right=0):
    return bytes([kind]) + word(left) + word(right)


def card(nodes, goal=0, rules=(), lines=(), d=4, s=8, version=1, length=None, n=None, p=None, t=None):
    """A card; a count or the length field may be given apart from what stands there."""
    body = b"".join(nodes) + b"".join(word(r) for r in rules) + b"".join(word(l) + bytes([m]) for l, m in lines)
    front = bytes([version, len(rules) if p is None else p, len(lines) if t is None else t])
    front += word(len(nodes) if n is None else n) + word(goal) + bytes([d, s])
    total = 2 + len(front) + len(body)
    return word(total if length is None else length) + front + body


A, R, D = node(ATOM, 1), node(TOP), node(ONE)


def tower(height):
    """Nodes of which the last has this height, each part shared by both sides."""
    return [A] + [node(TENSOR, i, i) for i in range(height - 1)]

# label, what 01 says of the card, the card
CARDS = [
    ("sample card", "sound", bytes.fromhex(
        "0028010003000400010408 01000A0000 0100140000 0700000001 01001E0000 000001 000201 000300".replace(" ", ""))),
    ("no bytes", "1 card", b""),
    ("ten bytes", "1 card", card([D])[:10]),
    ("eleven bytes, length field 16", "2 card", card([D])[:11]),
    ("eleven bytes, no nodes", "4 card", card([], n=0)),
    ("one byte cut off", "2 card", card([D])[:-1]),
    ("one byte more", "2 card", card([D]) + b"\0"),
    ("length field one less", "2 card", card([D], length=15)),
    ("version 0", "3 card", card([D], version=0)),
    ("version 2", "3 card", card([D], version=2)),
    ("least card", "sound", card([D])),
    ("N 0", "4 card", card([], n=0, lines=[], length=None)),
    ("N 512", "sound", card([D] * 512)),
    ("N 513", "4 card", card([D] * 513)),
    ("P 64", "sound", card([A], rules=[0] * 64)),
    ("P 65", "4 card", card([A], rules=[0] * 65)),
    ("T 64", "sound", card([A], lines=[(0, 1)] * 64)),
    ("T 65", "4 card", card([A], lines=[(0, 1)] * 65)),
    ("P 255", "4 card", card([A], p=255)),
    ("d 16", "sound", card([D], d=16)),
    ("d 17", "4 card", card([D], d=17)),
    ("s 0", "sound", card([D], s=0)),
    ("s 255", "sound", card([D], s=255)),
    ("N says one more than there is", "5 card", card([D, D], n=3)),
    ("N says one less than there is", "5 card", card([D, D], n=1)),
    ("P says one more", "5 card", card([A], rules=[0], p=2)),
    ("T says one more", "5 card", card([A], lines=[(0, 0)], t=2)),
    ("kind 0", "6 node 0", card([node(0)])),
    ("kind 11", "6 node 0", card([node(11)])),
    ("kind 255", "6 node 1", card([D, node(255)])),
    ("name 0", "sound", card([node(ATOM, 0)])),
    ("name 999", "sound", card([node(ATOM, 999)])),
    ("name 1000", "6 node 0", card([node(ATOM, 1000)])),
    ("name with a right field", "6 node 0", card([node(ATOM, 5, 1)])),
    ("rest with a left field", "6 node 0", card([node(TOP, 1)])),
    ("rest with a right field", "6 node 0", card([node(TOP, 0, 256)])),
    ("done with a left field", "6 node 0", card([node(ONE, 1)])),
    ("done with a right field", "6 node 0", card([node(ONE, 0, 1)])),
    ("height 8", "sound", card(tower(8), goal=7)),
    ("height 9", "6 node 8", card(tower(9), goal=0)),
    ("height 9 on the left alone", "6 node 8", card(tower(8) + [node(WITH, 7, 0)])),
    ("height 9 on the right alone", "6 node 8", card(tower(8) + [node(WITH, 0, 7)])),
    ("recipes of height 8", "sound", card([A] + [node(LOLLI_CLAUSE, 0, i) for i in range(7)], rules=[7])),
    ("recipes of height 9", "6 node 8", card([A] + [node(LOLLI_CLAUSE, 0, i) for i in range(8)], rules=[0])),
    ("part equal to its own node, left", "6 node 1", card([A, node(TENSOR, 1, 0)])),
    ("part equal to its own node, right", "6 node 1", card([A, node(TENSOR, 0, 1)])),
    ("part of a later node", "6 node 1", card([A, node(WITH, 0, 2), A])),
    ("part far out", "6 node 1", card([A, node(WITH, 65535, 0)])),
    ("both of a recipe, left", "6 node 2", card([A, node(LOLLI_CLAUSE, 0, 0), node(TENSOR, 1, 0)])),
    ("both of a recipe, right", "6 node 2", card([A, node(LOLLI_CLAUSE, 0, 0), node(TENSOR, 0, 1)])),
    ("either way of a recipe, left", "6 node 2", card([A, node(LOLLI_CLAUSE, 0, 0), node(WITH, 1, 0)])),
    ("either way of a recipe, right", "6 node 2", card([A, node(LOLLI_CLAUSE, 0, 0), node(WITH, 0, 1)])),
    ("lend of done", "6 node 1", card([D, node(LOLLI_GOAL, 0, 0)])),
    ("lend of a recipe", "sound", card([A, node(LOLLI_CLAUSE, 0, 0), node(LOLLI_GOAL, 1, 0)], goal=2)),
    ("lend to a recipe", "6 node 2", card([A, node(LOLLI_CLAUSE, 0, 0), node(LOLLI_GOAL, 0, 1)])),
    ("lend of rest", "sound", card([R, node(LOLLI_GOAL, 0, 0)], goal=1)),
    ("recipe that gives done", "6 node 1", card([D, node(LOLLI_CLAUSE, 0, 0)])),
    ("recipe of done that gives rest", "sound", card([D, R, node(LOLLI_CLAUSE, 0, 1)], rules=[2])),
    ("recipe of a recipe", "6 node 2", card([A, node(LOLLI_CLAUSE, 0, 0), node(LOLLI_CLAUSE, 1, 0)])),
    ("node 511 at fault", "6 node 511", card([D] * 511 + [node(11)])),
    ("one of with no node below", "6 node 0", card([node(PLUS)])),
    ("one of two goals", "sound", card([A, D, node(PLUS, 0, 1)], goal=2)),
    ("one of a recipe, left", "6 node 2", card([A, node(LOLLI_CLAUSE, 0, 0), node(PLUS, 1, 0)])),
    ("one of a recipe, right", "6 node 2", card([A, node(LOLLI_CLAUSE, 0, 0), node(PLUS, 0, 1)])),
    ("one of a menu, left", "6 node 2", card([A, node(MENU, 0, 0), node(PLUS, 1, 0)])),
    ("one of a menu, right", "6 node 2", card([A, node(MENU, 0, 0), node(PLUS, 0, 1)])),
    ("one of with a part equal to its own node, left", "6 node 1", card([A, node(PLUS, 1, 0)])),
    ("one of with a part equal to its own node, right", "6 node 1", card([A, node(PLUS, 0, 1)])),
    ("one of height 8", "sound", card([A] + [node(PLUS, i, 0) for i in range(7)], goal=7)),
    ("one of height 9, left", "6 node 8", card([A] + [node(PLUS, i, 0) for i in range(8)])),
    ("one of height 9, right", "6 node 8", card([A] + [node(PLUS, 0, i) for i in range(8)])),
    ("never", "sound", card([node(ZERO)])),
    ("never with a left field", "6 node 0", card([node(ZERO, 1)])),
    ("never with a right field", "6 node 0", card([node(ZERO, 0, 1)])),
    ("never with a left field of 256", "6 node 0", card([node(ZERO, 256)])),
    ("never has height 1", "sound", card([node(ZERO)] + [node(PLUS, i, i) for i in range(7)], goal=7)),
    ("never is no clause", "6 node 2", card([node(ZERO), A, node(LOLLI_CLAUSE, 1, 0)])),
    ("never is a condition", "sound", card([node(ZERO), A, node(LOLLI_CLAUSE, 0, 1)], rules=[2])),
    ("never is lent", "6 node 2", card([node(ZERO), A, node(LOLLI_GOAL, 0, 1)])),
    ("menu with no node below", "6 node 0", card([node(MENU)])),
    ("menu of two clauses", "sound", card([A, R, node(MENU, 0, 1)], rules=[2], lines=[(2, 1)])),
    ("menu of done, left", "6 node 2", card([A, D, node(MENU, 1, 0)])),
    ("menu of done, right", "6 node 2", card([A, D, node(MENU, 0, 1)])),
    ("menu of never", "6 node 2", card([A, node(ZERO), node(MENU, 0, 1)])),
    ("menu of one of", "6 node 2", card([A, node(PLUS, 0, 0), node(MENU, 0, 1)])),
    ("menu of recipes and menus", "sound", card([A, node(LOLLI_CLAUSE, 0, 0), node(MENU, 0, 1), node(MENU, 1, 2)], rules=[3])),
    ("menu with a part equal to its own node, left", "6 node 1", card([A, node(MENU, 1, 0)])),
    ("menu with a part equal to its own node, right", "6 node 1", card([A, node(MENU, 0, 1)])),
    ("menu of height 8", "sound", card([A] + [node(MENU, i, 0) for i in range(7)], rules=[7])),
    ("menu of height 9, left", "6 node 8", card([A] + [node(MENU, i, 0) for i in range(8)])),
    ("menu of height 9, right", "6 node 8", card([A] + [node(MENU, 0, i) for i in range(8)])),
    ("a recipe that gives a menu", "sound", card([A, node(MENU, 0, 0), node(LOLLI_CLAUSE, 0, 1)], rules=[2])),
    ("a recipe whose condition is a menu", "6 node 2", card([A, node(MENU, 0, 0), node(LOLLI_CLAUSE, 1, 0)])),
    ("lend of a menu", "sound", card([A, node(MENU, 0, 0), node(LOLLI_GOAL, 1, 0)], goal=2)),
    ("lend to a menu", "6 node 2", card([A, node(MENU, 0, 0), node(LOLLI_GOAL, 0, 1)])),
    ("both of a menu", "6 node 2", card([A, node(MENU, 0, 0), node(TENSOR, 1, 0)])),
    ("goal is a menu", "7 card", card([A, node(MENU, 0, 0)], goal=1)),
    ("rule is one of", "8 rule 0", card([A, node(PLUS, 0, 0)], rules=[1])),
    ("rule is never", "8 rule 0", card([A, node(ZERO)], rules=[1])),
    ("line is one of", "9 line 0", card([A, node(PLUS, 0, 0)], lines=[(1, 1)])),
    ("line is never", "9 line 0", card([A, node(ZERO)], lines=[(1, 0)])),
    ("goal is the last node", "sound", card([A, D], goal=1)),
    ("goal equal to N", "7 card", card([A, D], goal=2)),
    ("goal far out", "7 card", card([A, D], goal=65535)),
    ("goal is a recipe", "7 card", card([A, node(LOLLI_CLAUSE, 0, 0)], goal=1)),
    ("rule equal to N", "8 rule 1", card([A], rules=[0, 1])),
    ("rule is done", "8 rule 2", card([A, D], rules=[0, 0, 1])),
    ("rule is both", "8 rule 0", card([A, node(TENSOR, 0, 0)], rules=[1])),
    ("rule 63 at fault", "8 rule 63", card([A], rules=[0] * 63 + [9])),
    ("rule is rest", "sound", card([R], rules=[0])),
    ("line equal to N", "9 line 1", card([A], lines=[(0, 0), (1, 0)])),
    ("line is done", "9 line 1", card([A, D], lines=[(0, 1), (1, 1)])),
    ("line is lend", "9 line 0", card([A, node(LOLLI_GOAL, 0, 0)], lines=[(1, 1)])),
    ("line 63 at fault", "9 line 63", card([A], lines=[(0, 1)] * 63 + [(1, 1)])),
    ("must/may byte 2", "9 line 1", card([A], lines=[(0, 1), (0, 2), (0, 1)])),
    ("must/may byte 255", "9 line 0", card([A], lines=[(0, 255)])),
    ("line and its byte at fault", "9 line 0", card([A], lines=[(1, 2)])),
    ("faults 1 and 2", "1 card", b"\0"),
    ("faults 2 and 3", "2 card", card([D], version=9, length=3)),
    ("faults 3 and 4", "3 card", card([D], version=9, d=17)),
    ("faults 4 and 5", "4 card", card([D], d=17, n=2)),
    ("faults 5 and 6", "5 card", card([node(11)], n=2)),
    ("faults 6 and 7", "6 node 1", card([D, node(11), node(11)], goal=7)),
    ("faults 6 by kind at 1 and by height at 8", "6 node 1", card([A, node(11)] + [node(TENSOR, 0 if i == 0 else i + 1, 0) for i in range(8)])),
    ("faults 7, 8 and 9", "7 card", card([A], goal=3, rules=[4], lines=[(5, 5)])),
    ("faults 8 and 9", "8 rule 0", card([A], rules=[4], lines=[(5, 5)])),
    ("faults 9 at 0 and 1", "9 line 0", card([A], lines=[(0, 2), (1, 0)])),
    ("a node shared by all others", "sound", card([A] + [node(TENSOR, 0, 0)] * 511, goal=511)),
    ("shared twice at each of 8 heights, 2^7 paths", "sound", card(tower(8), goal=7, rules=[0], lines=[(0, 0)])),
]


def main():
    cards, found = bytearray(), bytearray()
    for label, verdict, data in CARDS:
        text = label.encode()
        cards += bytes([len(text)]) + text + word(len(data)) + data
        found += f"{label}: {verdict if verdict == 'sound' else 'refused ' + verdict}\n".encode()
    store("edges", cards, found)


main()
