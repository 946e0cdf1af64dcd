"""Cards by their bytes, from formulas as nested tuples, and the files of a test program."""
import pathlib
import sys

KINDS = {"rest": 2, "done": 3, "both": 4, "either": 5, "lend": 6, "gives": 7, "one of": 8, "never": 9, "menu": 10}
LEFT, RIGHT = 254, 255


def word(n):
    return bytes([n // 256 % 256, n % 256])


def name(text):
    return ord(text) - ord("a") + 1


def pack(nodes, goal, rules, lines, d, s):
    """The card of these nodes (kind, left, right), rules (a node) and lines (a node, must/may byte)."""
    body = b"".join(bytes([kind]) + word(left) + word(right) for kind, left, right in nodes)
    body += b"".join(word(r) for r in rules) + b"".join(word(l) + bytes([m]) for l, m in lines)
    front = bytes([1, len(rules), len(lines)]) + word(len(nodes)) + word(goal) + bytes([d, s])
    return word(2 + len(front) + len(body)) + front + body


def card(goal, rules, lines, d, s):
    """The card with each formula once, parts before what holds them."""
    nodes, places = [], {}

    def place(f):
        if f not in places:
            if isinstance(f, str):
                node = (1, name(f), 0)
            else:
                node = (KINDS[f[0]], *([place(p) for p in f[1:]] or [0, 0]))
            places[f] = len(nodes)
            nodes.append(node)
        return places[f]

    roots = place(goal), [place(f) for f in rules], [(place(f), m) for f, m in lines]
    return pack(nodes, *roots, d, s)


# Formulas as nested tuples: a name is a string; ("rest",), ("done",), ("both", G, H), ("either", G, H), ("lend", D, G), ("gives", G, D),
# ("one of", G, H), ("never",), ("menu", D, E).
REST, DONE, NEVER = ("rest",), ("done",), ("never",)


def both(g, h):
    return ("both", g, h)


def either(g, h):
    return ("either", g, h)


def lend(d, g):
    return ("lend", d, g)


def gives(g, d):
    return ("gives", g, d)


def one_of(g, h):
    return ("one of", g, h)


def menu(d, e):
    return ("menu", d, e)


def all_of(parts):
    """A balanced "both" of the parts."""
    if len(parts) == 1:
        return parts[0]
    half = (len(parts) + 1) // 2
    return both(all_of(parts[:half]), all_of(parts[half:]))


def tray(goal, rules=(), must=(), may=(), lines=None, d=4, s=8):
    """The card of a tray; lines, where given, is a list of (formula, must/may byte) in the card's order."""
    if lines is None:
        lines = [(f, 1) for f in must] + [(f, 0) for f in may]
    return card(goal, list(rules), list(lines), d, s)


def store(program, given, wanted):
    """Writes the program's input and what it must print; with --check, exits 1 if its files are not these."""
    folder = pathlib.Path(__file__).resolve().parent.parent / "crates" / program
    files = [(folder / "stdin", given), (folder / "stdout", wanted)]
    if "--check" in sys.argv:
        sys.exit(0 if all(path.read_bytes() == text for path, text in files) else 1)
    for path, text in files:
        path.write_bytes(text)
