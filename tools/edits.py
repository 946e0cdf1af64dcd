#!/usr/bin/env python3
"""Brings the must-fail edits, and those of more-edits/, from the old spelling to today's, each under its own name; or says whether each applies.

Usage: edits.py [FROM TURNED]    at the top of the repository: writes crates/*/{must-fail,more-edits}/*.edit as the commit FROM has them, respelled
       edits.py --check [NAME..] says for each edit (of these crates) whether it applies to the sources as they stand; fails where one doesn't

FROM is the last commit in the old spelling, TURNED the one in which port.py and spell.py ran; they are read from the first two lines of
docs/PORT.md where they are not given. An edit has a line 'file: PATH' and pairs of lines 'old: TEXT' and 'new: TEXT'; each old TEXT stands
in its file exactly once, and further pairs apply to what the earlier ones made.

An edit whose texts apply as they are is kept. Else the names in it are turned as the scripts turned them in its file: FROM's and TURNED's
lines are laid side by side, imports aside, and words in the same place are taken for one another; a projection is written tight. A text
whose line the layout moved is given in HAND, old and new.
"""
import collections
import difflib
import glob
import os
import re
import subprocess
import sys

WORD = re.compile(r"[^\s(){}\[\],;.`\"⌜⌝]+")
# Path of an edit: its file and pairs, where its lines were laid out anew, where a definition that follows the edited one goes with it, or where
# the steps of the body, which have their names by its words, would lose names that the answers cite: a shadowing local then keeps the words,
# so that a fact is what fails.
LEFT = "Derives es (I ∖ only e) (residual_at es a e)"
SOUND = "let Checked::Sound = goal else {"
RUN = "RunOf es (I ∖ only e) (residual_at es a e) d U"
HAND = {
    # the arguments of the call stand on one line
    "crates/engine/must-fail/right_before_left.edit": [
        ("src/lib.rt", "node, name, n, 254, first, f, b,", "node, name, n, 255, first, f, b,"),
    ],
    "crates/checks/must-fail/goal_passed_over.edit": [
        ("src/lib.rt", f"    {SOUND}", f"    let goal = nodes; {SOUND}"),
    ],
    # 64 < p & 254 is 65 < p, of a byte
    "crates/front/must-fail/rules_65.edit": [
        ("src/lib.rt", "    if 64 < p {", "    let p = p & 254; if 64 < p {"),
    ],
    "crates/prune/must-fail/remembered_under_a_floor.edit": [
        ("src/lib.rt", "    if !open {", "    let open = !open; if !open {"),
    ],
    "crates/prune/more-edits/known_asked_with_lent.edit": [
        ("src/lib.rt", "    if !bare {", "    let bare = !bare; if !bare {"),
    ],
    # b ^ 3 is 1 where b is 2
    "crates/scope/must-fail/must_not_minded.edit": [
        ("src/lib.rt", "        if b == 1 {", "        let b = b ^ 3; if b == 1 {"),
    ],
    "crates/sheet_front/must-fail/another_t_passes.edit": [
        ("src/lib.rt", "    if t != lines {", "    let lines = t; if t != lines {"),
    ],
    # version ^ 3 is 1 where version is 2
    "crates/sheet_front/must-fail/version_two_read.edit": [
        ("src/lib.rt", "    if version != 1 {", "    let version = version ^ 3; if version != 1 {"),
    ],
    "crates/summary/must-fail/thirteen_where_too_deep.edit": [
        ("src/lib.rt", "    if unfit {", "    let unfit = deeper == 0; if unfit {"),
    ],
    # the runs of a derivation are indexed by it, so their items are the ones that it now has
    "crates/calculus/must-fail/used_item_stays.edit": [
        ("specs/Derivation.antt", f"      → {LEFT} → Derives", f"      → {LEFT} → Derives".replace("∖", "∪")),
        ("specs/Runs.antt", f"      {{d : {LEFT}}}", f"      {{d : {LEFT}}}".replace("∖", "∪")),
        ("specs/Runs.antt", f"      → {RUN}", f"      → {RUN}".replace("∖", "∪")),
    ],
}


def shown(commit, path):
    """A file as the commit has it, or None."""
    ran = subprocess.run(["git", "show", f"{commit}:{path}"], capture_output=True, text=True)
    return None if ran.returncode else ran.stdout


def read(path):
    with open(path, encoding="utf-8") as f:
        return f.read()


def edits_in(folder="."):
    return sorted(glob.glob(f"{folder}/crates/*/must-fail/*.edit") + glob.glob(f"{folder}/crates/*/more-edits/*.edit"))


def parsed(text):
    """[(file, old, new)] of an edit."""
    pairs, path, old = [], None, None
    for line in text.split("\n"):
        if line.startswith("file: "):
            path = line[len("file: "):].strip()
        elif line.startswith("old: "):
            old = line[len("old: "):]
        elif line.startswith("new:"):
            pairs.append((path, old, line[len("new:"):].removeprefix(" ")))
            old = None
    return pairs


def fault(pairs, crate):
    """Why the pairs don't apply to the crate's files as they stand, or None."""
    texts, was = {}, {}
    for path, old, new in pairs:
        if not path or not old:
            return "a new: line without a file: and an old: line before it"
        file = f"crates/{crate}/{path}"
        if path not in texts:
            if not os.path.isfile(file):
                return f"there is no file {path}"
            texts[path] = was[path] = read(file)
        found = texts[path].count(old)
        if found != 1:
            return f"stands {found} times in {path}: {old.strip()}"
        texts[path] = texts[path].replace(old, new)
    if not pairs:
        return "no pair of old: and new:"
    return None if texts != was else "changes nothing"


def body(text):
    """The lines that are no imports, without those that go on over several lines."""
    lines, inside = [], False
    for line in text.split("\n"):
        if inside or re.match(r"\s*(pub )?(ghost )?use ", line):
            inside = not re.search(r"[;}]\s*$", line)
            continue
        lines.append(line)
    return lines


def names(before, after):
    """{old word: new word} where the lines of a file before and after the scripts have different words in the same place."""
    votes = collections.defaultdict(collections.Counter)
    before, after = body(before), body(after)
    for tag, i, j, k, m in difflib.SequenceMatcher(None, before, after, autojunk=False).get_opcodes():
        if tag == "replace" and j - i == m - k:
            for one, other in zip(before[i:j], after[k:m]):
                one, other = WORD.findall(one), WORD.findall(other)
                if len(one) == len(other):
                    for a, b in zip(one, other):
                        votes[a][b] += 1
    return {word: said.most_common(1)[0][0] for word, said in votes.items()}


def respelled(text, known):
    text = WORD.sub(lambda m: known.get(m[0], m[0]), text)
    # a projection stands tight
    return re.sub(r"(?<=[\w′'ᴳᴰ)]) \.(?=[a-z])", ".", text)


def turned(edit, origin, scripts):
    """The edit's text today, and what is wrong with it, if anything."""
    path = edit.removeprefix("./")
    crate = path.split("/")[1]
    text = shown(origin, path)
    if text is None:
        return None, None  # a new one
    pairs = parsed(text)
    why = fault(pairs, crate)
    if why or path in HAND:
        if path in HAND:
            given = HAND[path]
        else:
            given = []
            for file, old, new in pairs:
                known = names(shown(origin, f"crates/{crate}/{file}"), shown(scripts, f"crates/{crate}/{file}"))
                given.append((file, respelled(old, known), respelled(new, known)))
        why = fault(given, crate)
        head = [line for line in text.split("\n") if not line.startswith(("file: ", "old: ", "new:")) and line]
        lines, last = head, None
        for file, old, new in given:
            lines = lines + ([f"file: {file}"] if file != last else []) + [f"old: {old}", f"new: {new}"]
            last = file
        text = "\n".join(lines) + "\n"
    return text, why


def main():
    words = [w for w in sys.argv[1:] if w != "--check"]
    bad = 0
    if "--check" in sys.argv[1:]:
        every = [e for e in edits_in() if not words or e.split("/")[2] in words]
        for edit in every:
            why = fault(parsed(read(edit)), edit.split("/")[2])
            if why:
                bad += 1
                print(f"{edit}: {why}")
        print(f"{len(every)} edits, {bad} that do not apply")
        return bool(bad)
    if len(words) != 2:
        words = [line.split()[-1] for line in read("docs/PORT.md").split("\n")[:2]]
    every, changed = edits_in(), 0
    for edit in every:
        text, why = turned(edit, *words)
        if why:
            bad += 1
            print(f"{edit}: {why}")
        if text is not None and text != read(edit):
            changed += 1
            with open(edit, "w", encoding="utf-8") as f:
                f.write(text)
    print(f"{len(every)} edits, {changed} written, {bad} that do not apply")
    return bool(bad)


if __name__ == "__main__":
    sys.exit(main())
