#!/usr/bin/env python3
"""Respells the repository's own definitions and lemmas: words in snake case, as the library's are.

Usage: spell.py [--check]      at the top of the repository, once, after the kit's port.py; --check only says what would change

A name is what a file of specs/ or a file of lemmas in proofs/ declares, at the margin or as a field, a constructor or a local name. What
begins with a capital (a type, a fact) keeps its spelling. A dash or a capital inside a name begins a new word. Names that a function's
proof declares (proofs/F/) are made names and stay. A new name that is taken already is given in TAKEN.
"""
import collections
import glob
import os
import re
import sys

FUNCTION_FILES = ("Proof.antt", "Invariants.antt", "Answers.antt")
# old name: new name, where the rule's new name is another's already
LEMMAS = """both-goals clause-of entry-at fault-by job-walk joined-depth joined-steps lent-place linear-at mark-by no-floor past-use row-agenda
row-lax row-strict sample-sheet second-entry sheet-fits side-at side-taken surely-of top-node bit-and bit-or""".split()
# lemmas whose names port.py had turned already
TURNED = "head_at first_entry items_at left_over row_len row_seen".split()
TAKEN = {n: n.replace("-", "_") + "_lem" for n in LEMMAS + TURNED}
TAKEN.update({"goal-node": "is_goal_part", "is-goal": "goal_is", "no-entry": "no_such_entry"})
# the made name that a respelled word may have been, in a function's proof
BACK = {new: old for old, new in TAKEN.items()}
PART = r"[^\s(){}\[\],;.`\"]+"
TOKEN = re.compile(PART)
DECLARED = re.compile(r"^(\s*)((?:(?:abbrev|unfoldable|opaque|pub|data|record) )*)([^\s:(){},=]+(?: [^\s:(){},=]+)*)((?: \([^()]*(?:\([^()]*\)[^()]*)*\)| \{[^{}]*\})*) :(?: |$)")
BOUND = re.compile(r"[({]([^\s:(){},=]+(?: [^\s:(){},=]+)*) :")
LAMBDA = re.compile(r"λ ((?:[^\s.(){}]+ ?)+)\.")
LET = re.compile(r"\blet ([^\s:(){},=]+)(?: :|\s*=)")
USE = re.compile(r"^\s*(?:pub )?(?:ghost )?use ([^\s{]+?)\.\{([^}]*)\}", re.M)
OWN = re.compile(r"^Rattle\.(\w+)\.")


def snake(name):
    """The name's new spelling."""
    if name[0].isupper() or name in ("-",):
        return name
    name = re.sub(r"(?<=[a-z0-9])(?=[A-Z])", "\0", name)
    words = name.split("\0")
    name = "_".join([words[0]] + [w[0].lower() + w[1:] for w in words[1:]])
    return re.sub(r"(?<=[^\s-])-(?=[^\s-])", "_", name)


def needs(name):
    return snake(name) != name and not name.startswith("◌")


def read(path):
    with open(path, encoding="utf-8") as f:
        return f.read()


def crates():
    return {l.split(":")[0].split()[0] for l in read("crates.txt").splitlines() if ":" in l and not l.startswith("#")}


def antt_files():
    return sorted(glob.glob("crates/*/specs/**/*.antt", recursive=True) + glob.glob("crates/*/proofs/**/*.antt", recursive=True))


def is_function_file(path):
    return os.path.basename(path) in FUNCTION_FILES


def uncommented(line):
    return re.sub(r"(?<!\S)--.*", "", line)


def declared(path):
    """The names that a file declares: (those that other files can name, local ones)."""
    outer, local = set(), set()
    for line in read(path).splitlines():
        line = uncommented(line)
        if line.lstrip().startswith(("use ", "pub use ")):
            continue
        m = DECLARED.match(line)
        if m:
            into = outer if not m[1] or m[2].strip() or len(m[1]) in (2, 4) else local
            into.update(m[3].split())
        for pattern in (BOUND, LAMBDA):
            for m in pattern.finditer(line):
                local.update(m[1].split())
        local.update(m[1] for m in LET.finditer(line))
    return {n for n in outer if needs(n)}, {n for n in local if needs(n)}


def library_names(text, own):
    """The names that a file takes from the library."""
    found = set()
    for m in USE.finditer(text):
        crate = OWN.match(m[1] + ".")
        if not crate or crate[1] not in own:
            found.update(n.split(" as ")[0].strip() for n in m[2].replace("\n", " ").split(","))
    return found


def respelled(text, names, comment):
    """The text with its names respelled; in a comment only names in mixed case and names in backquotes."""
    def line_of(line):
        at = re.search(rf"(?<!\S){comment}", line)
        code, said = (line[: at.start()], line[at.start() :]) if at else (line, "")
        code = TOKEN.sub(lambda m: names.get(m[0], m[0]), code)
        said = re.sub(rf"`[^`]*`", lambda q: TOKEN.sub(lambda m: names.get(m[0], m[0]), q[0]), said)
        said = TOKEN.sub(lambda m: names.get(m[0], m[0]) if re.search(r"[a-z][A-Z]", m[0]) else m[0], said)
        return code + said

    return "\n".join(line_of(l) for l in text.split("\n"))


def main():
    check = "--check" in sys.argv[1:]
    own, outer, local, where = crates(), {}, {}, collections.defaultdict(set)
    texts = {p: read(p) for p in antt_files()}
    for path in texts:
        if is_function_file(path):
            continue
        names, inner = declared(path)
        for n in names:
            outer[n] = TAKEN.get(n, snake(n))
            where[n].add(path)
        local[path] = inner
    outer.update(TAKEN)
    # two names that fall together, or one that is another's already
    new = collections.defaultdict(set)
    for old, name in outer.items():
        new[name].add(old)
    every = set()
    for path, text in texts.items():
        if not is_function_file(path):
            every |= {t for l in text.splitlines() for t in TOKEN.findall(uncommented(l))}
    for name, olds in sorted(new.items()):
        if len(olds) > 1:
            print(f"fall together: {sorted(olds)} as {name}: {[sorted(where[o]) for o in olds]}")
        if name in every:
            at = [p for p, t in texts.items() if any(name in TOKEN.findall(uncommented(l)) for l in t.splitlines()) and not is_function_file(p)]
            print(f"taken: {sorted(olds)} as {name}: {sorted(where[next(iter(olds))])} in {at[:4]}")
    changed = 0
    files = list(texts) + sorted(glob.glob("crates/*/src/**/*.rt", recursive=True))
    for path in files:
        text = texts.get(path) or read(path)
        names = dict(outer)
        for n in local.get(path, ()):
            names[n] = snake(n)
        for n in library_names(text, own):
            names.pop(n, None)
        names.update({n: TAKEN[n] for n in TAKEN if n in names})
        done = respelled(text, names, "//" if path.endswith(".rt") else "--")
        if done != text:
            changed += 1
            if not check:
                with open(path, "w", encoding="utf-8") as f:
                    f.write(done)
    print(f"{len(outer)} names, {changed} files")


if __name__ == "__main__":
    main()
