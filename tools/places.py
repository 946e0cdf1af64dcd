#!/usr/bin/env python3
"""Lists the places of src/ that an older style of code leaves, by the points of docs/DESIGN-PASS.md.

Usage: places.py [--list POINT] [ROOT]

Without --list it prints a row for each point and part with its count; with it, each place of that point. ROOT is a checkout (default: this one).
"""
import collections
import glob
import os
import re
import sys

NAME = r"[A-Za-z_][A-Za-z_0-9]*"


def sources(root):
    for path in sorted(glob.glob(os.path.join(root, "crates/*/src/*.rt"))):
        yield os.path.relpath(path, root), open(path).read()


def proofs(root):
    for path in sorted(glob.glob(os.path.join(root, "crates/*/proofs/**/*.antt"), recursive=True)):
        yield os.path.relpath(path, root), open(path).read()


class Function:
    """A function of a source: its name, parameters, clauses, body, and the line where it begins."""

    def __init__(self, path, line, name, params, clauses, body):
        self.path, self.line, self.name, self.params, self.clauses, self.body = path, line, name, params, clauses, body

    def place(self):
        return f"{self.path}:{self.line} {self.name}"


def split_params(text):
    parts, depth, word = [], 0, ""
    for c in text:
        depth += c in "([<{"
        depth -= c in ")]>}"
        if c == "," and depth == 0:
            parts.append(word)
            word = ""
        else:
            word += c
    parts.append(word)
    return [" ".join(p.split()) for p in parts if p.strip()]


def close(text, at, left, right):
    depth = 0
    for i in range(at, len(text)):
        depth += text[i] == left
        depth -= text[i] == right
        if depth == 0:
            return i
    return len(text)


def functions(path, text):
    for m in re.finditer(rf"(?m)^ *(?:pub )?(?:extern \"C\" )?fn ({NAME})(?:<[^(]*>)?\(", text):
        end = close(text, m.end() - 1, "(", ")")
        params = split_params(text[m.end():end])
        clauses, at = [], end
        while True:
            k = re.compile(r"\s*(?:->[^{]*?)?\s*(requires|ensures)\*?(?: (\w+))? \{").match(text, at + 1)
            if not k:
                break
            stop = close(text, k.end() - 1, "{", "}")
            clauses.append((k.group(1), k.group(2), " ".join(text[k.end():stop].split())))
            at = stop
        body = text.find("{", at + 1)
        body = text[body:close(text, body, "{", "}") + 1] if body >= 0 else ""
        yield Function(path, text.count("\n", 0, m.start()) + 1, m.group(1), params, clauses, body)


def shape_of(variants):
    """What the enum of these variants is a shape of, if it is one of the library's."""
    empty = [v for v in variants if "(" not in v and "{" not in v]
    if any("Refusal" in v for v in variants):
        return "Result"
    if len(variants) == 2 and len(empty) == 2:
        return "bool"
    if len(variants) == 2 and len(empty) == 1:
        return "Option"
    if any(re.match(r"(Neither|Nothing|None)\b", v) for v in empty):
        return "Option of an enum"
    return None


def own_enums(path, text):
    for m in re.finditer(rf"(?m)^pub enum ({NAME}) \{{", text):
        body = text[m.end():close(text, m.end() - 1, "{", "}")]
        variants = [v.strip() for v in split_params(re.sub(r"//.*", "", body))]
        yield m, m.group(1), variants, shape_of(variants)


def lines_of(path, text, pattern):
    out = []
    for i, line in enumerate(text.split("\n"), 1):
        if re.search(pattern, line) and not line.strip().startswith("//"):
            out.append(f"{path}:{i} {line.strip()}")
    return out


def body_shape(body):
    """The body with each name and number replaced by its order of appearance: twins have one shape."""
    seen = {}
    keep = {"let", "mut", "if", "else", "return", "while", "for", "in", "loop", "match", "true", "false", "as", "usize", "u8", "u16", "u64"}

    def sub(m):
        w = m.group(0)
        return w if w in keep else seen.setdefault(w, f"v{len(seen)}")

    return re.sub(rf"{NAME}|\d[\d_a-fx]*", sub, re.sub(r"//.*", "", body))


def twins(all_functions):
    groups = collections.defaultdict(list)
    for f in all_functions:
        if f.body.count("\n") >= 4:
            groups[body_shape(f.body)].append(f)
    return [f.place() for g in groups.values() if len(g) > 1 for f in g]


def clauses_repeated(all_functions):
    count = collections.Counter()
    for f in all_functions:
        for part in {p for kind, _, c in f.clauses if kind == "requires" for p in [c] + [x.strip() for x in c.split(" × ")]}:
            count[part] += 1
    return [f"{n} contracts: {c}" for c, n in count.most_common() if n >= 3]


def travelling(all_functions):
    """Parameter pairs by name and type that three or more functions of two or more parameters have together, each time the one stands."""
    have = collections.Counter()
    pairs = collections.Counter()
    for f in all_functions:
        names = sorted({p for p in f.params if ":" in p})
        have.update(names)
        pairs.update((a, b) for i, a in enumerate(names) for b in names[i + 1:])
    return [f"{n} functions: {a}, {b}" for (a, b), n in pairs.most_common() if n >= 3 and n >= 0.9 * min(have[a], have[b])]


def points(root):
    code = list(sources(root))
    all_functions = [f for path, text in code for f in functions(path, text)]
    found = collections.OrderedDict()

    def lines(pattern):
        return [p for path, text in code for p in lines_of(path, text, pattern)]

    shapes = [(path, n, shape) for path, text in code for _, n, _, shape in own_enums(path, text) if shape]
    names = sorted({n for _, n, _ in shapes})
    found["1 enums of the shape of Option, Result or bool"] = [f"{p} {n}: {s}" for p, n, s in shapes]
    found["1 taken apart by hand (let .. else, match) where ? would do"] = (
        lines(rf"let ({'|'.join(names)})::\w+(\(\w+\))? = .* else \{{") if names else [])
    found["1 numbers for kinds"] = lines(r"\bk (==|<|<=|>|>=) \d|\d+ < k\b|kind(_at)?\(.*\) (==|!=) \d|match k \{")
    found["1 numbers for refusals"] = lines(r"refuse\(.*, \d+, |^\s*\d+,$|number: \d+|wrong\(\d+, ")
    found["1 a value beside a flag, in words"] = lines(r"fn (put_way|way_in|flag|follow)\b")
    found["2 functions of one shape (names and numbers apart)"] = twins(all_functions)
    found["3 while and loop"] = lines(r"^\s*(while|loop)\b")
    found["4 hand-written both, either, max, min, difference, equality"] = lines(
        r"fn (both|either|greater|lesser|less|at_most|same|taken_off|less_of)\b|\b(both|either)\(")
    found["4 hand-written conversion and printing"] = lines(r"fn (print_\w+|flag|card_number)\b")
    found["4 an if that returns what its test says"] = [
        f.place() for f in all_functions if re.search(r"if [^{}]*\{\s*return (true|false);\s*\}|if [^{}]*\{ (true|false) \} else|else \{ (true|false) \}", f.body)
        and "while" not in f.body and "for " not in f.body]
    found["5 clauses in three or more contracts"] = clauses_repeated(all_functions)
    found["5 parameters that travel together"] = travelling(all_functions)
    found["5 functions of more than 8 parameters"] = [f"{f.place()} ({len(f.params)})" for f in all_functions if len(f.params) > 8]
    found["6 array with a length or a second array beside it"] = [
        f.place() for f in all_functions
        if re.search(r"nodes: .*\b(linear|heads): |agenda: .*\blen: |names: .*\btable: |codes: .*\bwords: ", ", ".join(f.params))]
    found["6 the length of an array, asked or told"] = lines(r"length \w+\.(now|old|new) ≡ \d+")
    found["7 a flag that says which step to run"] = [f.place() for f in all_functions if re.search(r"\b(meets|wide|bounded|linear): bool", ", ".join(f.params))]
    texts = list(proofs(root))
    found["8 proof files that name Rattle's own records"] = [p for p, t in texts if re.search(r"\btie\.the-claims\b", t)]
    found["8 proof lines over 150 columns"] = [f"{p}:{i}" for p, t in texts for i, l in enumerate(t.split("\n"), 1) if len(l) > 150]
    return found


def main():
    words = sys.argv[1:]
    listed = words[words.index("--list") + 1] if "--list" in words else None
    rest = [w for w in words if w not in ("--list", listed)]
    root = rest[0] if rest else os.path.join(os.path.dirname(__file__), "..")
    for name, places in points(root).items():
        if listed is None:
            print(f"{len(places):5}  {name}")
        elif name.startswith(listed):
            print(f"# {name}: {len(places)}")
            for p in places:
                print(p)


if __name__ == "__main__":
    main()
