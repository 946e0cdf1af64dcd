#!/usr/bin/env python3
"""Turns a crate's Proof.antt files that close a Tie into Invariants.antt and Answers.antt. It goes by the names that a check lists:

    cd crates/NAME; rt check --generated NAMES --old-names; cd ../..
    python3 tools/answers.py NAME NAMES/names.json COMMIT [MADE]

MADE is what `rt check --generated MADE` writes once Answers.antt stand: where a lemma takes a record of facts, its type is read there.

COMMIT is the last commit in the old form: the old names of goals are read there. A step keeps its fields; `.before` goes, since a step's name
alone is enough; a clause that had a number has its label. What it can't turn stays and is printed. rt check decides.
"""
import json
import os
import re
import subprocess
import sys

sys.path.insert(0, os.path.dirname(os.path.abspath(__file__)))
import spell

WORD = r"[^\s(){}\[\],;.]+"


def norm(name):
    """A made name with its dashes as underscores: older kits wrote dashes."""
    return name.replace("-", "_") if name else name


# fields that every record of facts has
FIELDS = {norm(f): f for f in "well_formed type_inv type_inv_old".split()}


def read(path):
    with open(path, encoding="utf-8") as f:
        return f.read()


# contracts: the labels of each function of the repository

def labels_of(path_of_crate, crate, found):
    """Adds `crate::mod::Type::f` -> (requires labels, ensures labels, parameter names)."""
    src = os.path.join(path_of_crate, "src")
    for folder, _, files in os.walk(src):
        for name in files:
            if not name.endswith(".rt"):
                continue
            rel = os.path.relpath(os.path.join(folder, name), src)[:-3]
            mods = [] if rel in ("lib", "main") else rel.split("/")
            if mods and mods[-1] == "mod":
                mods.pop()
            holder = None
            fn, sig = None, ""
            for line in read(os.path.join(folder, name)).split("\n"):
                m = re.match(r"impl(?:<.*>)? (\w+)", line)
                if m:
                    holder = m[1]
                if line == "}":
                    holder = holder if fn is None else holder
                if line.startswith("}"):
                    holder = None
                m = re.match(r"\s*(?:pub )?(?:const )?(?:unsafe )?(?:extern \"C\" )?fn (\w+)", line)
                if m:
                    fn = "::".join([crate] + mods + ([holder] if holder and line.startswith(" ") else []) + [m[1]])
                    found[fn] = ([], [], [])
                if fn:
                    m = re.match(r"\s+(requires|ensures)\*?(?: (\w+))? \{", line)
                    if m:
                        found[fn][0 if m[1] == "requires" else 1].append(m[2])


def label_path(labels, numbers):
    """(the label, numbers that are left) for the numbers behind .requires or .ensures; None if they don't fit."""
    if len(labels) < 2:
        return None, numbers
    at, rest = 0, list(numbers)
    while True:
        if at == len(labels) - 1:
            return labels[at], rest
        if not rest:
            return None, numbers
        if rest[0] == "0":
            return labels[at], rest[1:]
        if rest[0] != "1":
            return None, numbers
        rest = rest[1:]
        at += 1


def clauses_left(labels, numbers, path, before):
    """The tuple of the clauses that a path names together: all from the n-th on, where the numbers behind it are n times 1. Else None.
    In a tactic's list, which the text before shows, they stand one by one."""
    left = labels[len(numbers) :]
    if len(labels) < 2 or len(left) < 2 or any(n != "1" for n in numbers):
        return None
    depth = 0
    for i in range(len(before) - 1, -1, -1):
        depth += (before[i] in ")]}") - (before[i] in "([{")
        if depth < 0:
            if before[i] == "(" and re.search(r"(?<![^\s(,])(omega|search|grind|cc) $", before[:i]):
                return ", ".join(f"{path}.{label}" for label in left)
            break
    text = f"{path}.{left[-1]}"
    for label in reversed(left[:-1]):
        text = f"({path}.{label}, {text})"
    return text


# declarations of a proof file

class Decl:
    def __init__(self, lines):
        self.lines = lines
        self.head = next(i for i, l in enumerate(lines) if not l.startswith("--"))
        m = re.match(r"(?:(?:abbrev|pub|unfoldable|opaque) )*(\S+)", lines[self.head])
        self.name = m[1]

    def text(self):
        return "\n".join(self.lines)


def split(text):
    """(the lines of imports and the file's comment, declarations)."""
    blocks, now = [], []
    for line in text.rstrip("\n").split("\n"):
        if line.strip() == "":
            if now:
                blocks.append(now)
            now = []
        else:
            now.append(line)
    if now:
        blocks.append(now)
    head, decls = [], []
    joined = []
    for b in blocks:
        # a block that is indented belongs to the module above it
        if joined and b[0].startswith("  ") and not joined[-1][-1].startswith("use "):
            joined[-1].extend([""] + b)
        else:
            joined.append(b)
    for b in joined:
        if any(l.startswith(("use ", "  ", "}")) or l.startswith("--") for l in b) and not any(re.match(r"[^\s-].* [:=]( |$)", l) and not l.startswith("use ") for l in b):
            head.extend(b)
            continue
        # the imports may run into the first declaration
        k = 0
        while k < len(b) and b[k].startswith("use "):
            k += 1
        head.extend(b[:k])
        # a block may hold several declarations
        part = []
        for line in b[k:]:
            starts = line != "" and not line.startswith((" ", ")", "}", "]", "--", "unfolding", "infix"))
            if starts and part and any(not p.startswith("--") for p in part):
                sig = next((p for p in part if not p.startswith("--")), "")
                name = re.match(r"(?:(?:abbrev|pub|unfoldable|opaque) )*(\S+)", sig)[1]
                mine = re.match(r"(?:(?:abbrev|pub|unfoldable|opaque) )*(\S+)", line)[1]
                if mine != name:
                    decls.append(Decl(part))
                    part = []
            part.append(line)
        if part:
            if all(l.startswith("--") for l in part):
                head.extend(part)
            else:
                decls.append(Decl(part))
    return head, decls


GOAL = re.compile(r"^(?:pub )?(\S+) : tie \.?Need-(\S+)|^(?:pub )?(\S+) : tie\.Need-(\S+)")


def goals_of(text):
    """The old names of the goals in order: [(declared name, need)]."""
    found = []
    for line in text.split("\n"):
        m = GOAL.match(line)
        if m:
            found.append((m[1] or m[3], m[2] or m[4]))
    return found


class Places:
    def __init__(self, names):
        self.by_old = {}
        for (old, parent, step, callee, _), new in zip(names["places"], names["places_by_name"]):
            self.by_old.setdefault(norm(old), (new, norm(parent), step, callee))
        self.arms = {norm(p[0]): a for p, a in zip(names["places"], names["arms"])}

    def chain(self, place):
        found = []
        while place is not None and place in self.by_old:
            found.append(place)
            place = self.by_old[place][1]
        return found

    def steps(self, place):
        """old step -> (new step, callee), of the steps before the place; the nearest wins."""
        found = {}
        for p in self.chain(place):
            new, parent, step, callee = self.by_old[p]
            if step and step[0]:
                found.setdefault(norm(step[0]), (step[1], callee))
        return found


class Made:
    """The records of facts that a check made of a function: what each has before it, and how its type is written."""

    def __init__(self, folder):
        self.before, self.goal, self.arguments = {}, {}, None
        for name in ("Lts.antt", "Lts/View.antt"):
            path = os.path.join(folder, name)
            if not os.path.exists(path):
                continue
            for m in re.finditer(r"pub record (\S+) : Type 0 where\n\s*pub before :\s+(\S+)", read(path)):
                self.before[m[1]] = m[2].split(".")[-1]
            for m in re.finditer(r"pub record (\S+) : Type 0 where\n(?!\s*pub before)", read(path)):
                self.before.setdefault(m[1], None)
        path = os.path.join(folder, "Goals.antt")
        if os.path.exists(path):
            for m in re.finditer(r"abbrev pub (\S+) : Type 0\n\1 =\s+(?:Lts\.|View\.)+(\S+)((?:[^\n]|\n(?!\n))*)", read(path)):
                if m[2] in self.before:
                    self.goal[m[1]] = m[2]
                    self.arguments = re.sub(r"\s+", " ", m[3]).strip()

    def record(self, place):
        """The record of an old place: of what is past, where there is one."""
        for name in self.before:
            if norm(name) == "Past_" + place:
                return name
        for name in self.before:
            if norm(name) == place:
                return name
        return None

    def depth(self, start, end):
        n = 0
        while start is not None and n < 200:
            if start == end:
                return n
            start = self.before.get(start)
            n += 1
        return None


class Turn:
    made = None
    at = None  # the record that the present declaration takes
    cycle = False
    text = None  # the crate's source, once read

    def __init__(self, crate, function, names, contracts):
        self.crate, self.function, self.names, self.contracts = crate, function, names, contracts
        self.places = Places(names)
        self.own = contracts.get(function, ([], [], []))
        self.left = []
        self.helpers = {}  # name -> old place of its first argument
        self.aliases = set()

    def source(self):
        """The crate's source."""
        if self.text is None:
            self.text = ""
            for folder, _, files in os.walk(os.path.join("crates", self.crate, "src")):
                self.text += "".join(read(os.path.join(folder, name)) for name in sorted(files) if name.endswith(".rt"))
        return self.text

    def behind_call(self, callee, fields):
        """The fields behind a call, where .new goes by the callee's parameters."""
        params = self.names.get("params", {}).get(callee)
        n = 1
        while n < len(fields) and fields[n] == "1":
            n += 1
        if params and n < len(fields) and fields[n] == "0" and n - 1 < len(params):
            return ["new", params[n - 1]] + fields[n + 1 :]
        return fields

    def body(self, text, place, variables=("c",)):
        """The text of a body at a place: paths at place variables are turned."""
        steps = self.places.steps(place) if place else {}
        for a in self.aliases:
            text = re.sub(rf"\({re.escape(a)} ((?:{WORD})(?:\.before)*)\)", r"\1", text)
            text = re.sub(rf"(?<![^\s(,]){re.escape(a)} ((?:{WORD})(?:\.before)*)(?![\w.])", r"\1", text)
        known = set(variables)
        changed = True
        while changed:
            changed = False
            m = re.search(rf"let ({WORD}) = ({'|'.join(re.escape(v) for v in known)})((?:\.before)*) in\s*", text)
            if m:
                v, of = m[1], m[2]
                text = text[: m.start()] + text[m.end() :]
                text = re.sub(rf"(?<![^\s(,\[]){re.escape(v)}(?=[\s.),;\]]|$)", of, text)
                changed = True
        # a helper's argument
        for name, to in self.helpers.items():
            def arg(m):
                if self.made:
                    n = self.made.depth(self.at, self.made.record(to))
                    if n is not None:
                        return m[1] + " " + m[2] + ".before" * n
                    self.left.append(f"helper {name} at {place}: {self.made.record(to)} is not before {self.at}")
                    return m[0]
                chain = self.places.chain(place)
                if to not in chain:
                    self.left.append(f"helper {name} at {place}: its place {to} is not on the way")
                    return m[0]
                return m[1] + " " + m[2] + ".before" * chain.index(to)
            one = "|".join(re.escape(v) for v in known)
            text = re.sub(rf"(?<![^\s(,\[])({re.escape(name)}) \(({one})(?:\.before)*\)", arg, text)
            text = re.sub(rf"(?<![^\s(,\[])({re.escape(name)}) ({one})(?:\.before)*(?=[\s),;\]]|$)", arg, text)

        arms = {}
        for p in reversed(self.places.chain(place) if place else []):
            arm = self.places.arms.get(p)
            for field, step, inside in arm[2] if arm else []:
                if not field.endswith("-own"):
                    arms[(norm(step), *inside)] = [arm[0], field]
                elif not inside:
                    arms[(norm(step),)] = [arm[0], field]

        def path(m):
            var, rest = m[1], m[2]
            fields = re.findall(r"\.([^.\s(){}\[\],;]+)", rest)
            keep = []
            while fields and fields[0] == "before":
                fields.pop(0)
            if not fields:
                return m[0]
            first = fields.pop(0)
            if first == "pre":
                first = "requires"
            if norm(first) not in steps:
                back = spell.BACK.get(first, first)
                first = back if norm(back) in steps else first
            for n in range(len(fields), 0, -1):
                found = arms.get((norm(first), *fields[:n]))
                if found:
                    return ".".join([var] + found + fields[n:])
            if (norm(first),) in arms and fields and (fields[0] == "rest" or fields[0].startswith("keys")):
                return ".".join([var] + arms[(norm(first),)] + fields)
            low = first[:1].lower() + first[1:]
            first = low if norm(first) not in steps and norm(low) in steps else first
            bare = re.sub(r"\d+$", "", norm(first))
            if norm(first) not in steps and first[-1:].isdigit() and bare in steps:
                first = bare
            if norm(first) in steps:
                new, callee = steps[norm(first)]
                first = new
                if fields and fields[0] == "rest":
                    fields.insert(0, first + "-own")
                if fields[:1] == ["new"]:
                    fields = self.behind_call(callee, fields)
                if fields and fields[0] == "ensures" and callee in self.contracts:
                    n = 1
                    while n < len(fields) and fields[n].isdigit():
                        n += 1
                    label, rest_numbers = label_path(self.contracts[callee][1], fields[1:n])
                    if label:
                        fields = ["ensures", label] + rest_numbers + fields[n:]
                    elif n > 1 and n == len(fields):
                        several = clauses_left(self.contracts[callee][1], fields[1:n], f"{var}.{first}.ensures", m.string[: m.start()])
                        if several:
                            return several
            elif first == "requires" and self.cycle and fields[:1] == ["0"]:
                first, fields = "decreases", fields[1:]
            elif first == "requires":
                if self.cycle and fields[:1] == ["1"]:
                    fields = fields[1:]
                n = 0
                while n < len(fields) and fields[n].isdigit():
                    n += 1
                label, rest_numbers = label_path(self.own[0], fields[:n])
                if label:
                    fields = [label] + rest_numbers + fields[n:]
                elif n == len(fields) and (n > 0 or self.cycle and not re.search(r"= $", m.string[: m.start()])):
                    several = clauses_left(self.own[0], fields[:n], f"{var}.requires", m.string[: m.start()])
                    if several:
                        return several
            elif norm(first) in FIELDS:
                first = FIELDS[norm(first)]
            return ".".join([var, first] + fields)

        text = re.sub(rf"(?<![^\s(,\[])({'|'.join(re.escape(v) for v in known)})((?:\.[^.\s(){{}}\[\],;]+)+)", path, text)
        # a value that a `let` gives to all that a call ensures, or to all that is required
        by_new = {new: callee for new, callee in steps.values()}
        for m in list(re.finditer(rf"let ({WORD}) = c\.(?:(\S+)\.ensures|requires) in\s", text)):
            labels = self.contracts.get(by_new.get(m[2]), ([], []))[1] if m[2] else self.own[0]
            if len(labels) > 1:
                def of(x):
                    label, rest = label_path(labels, x[1].strip(".").split("."))
                    return m[1] + "." + ".".join([label] + rest) if label else x[0]
                text = re.sub(rf"(?<![^\s(,\[]){re.escape(m[1])}((?:\.\d)+)", of, text)
        # a call that a `let` names
        for m in list(re.finditer(rf"let ({WORD}) = c\.([^\s.]+) in\s", text)):
            callee = by_new.get(m[2])
            def behind(x):
                fields = x[1].strip(".").split(".")
                if fields[0] == "new":
                    return ".".join([m[1]] + self.behind_call(callee, fields))
                label, rest = label_path(self.contracts.get(callee, ([], []))[1], fields[1:])
                return ".".join([m[1], "ensures", label] + rest) if label else x[0]
            if callee:
                text = re.sub(rf"(?<![^\s(,\[]){re.escape(m[1])}(\.(?:new|ensures)(?:\.\d)+)", behind, text)
        # a test `!x` tells of x itself, and so does a test of `let y = !..`; a test `!x.f` does not
        def plain(x):
            word = re.search(r"\.if-(not-)?([^.]+)\.(?:true|false)$", x[1])
            if re.search(rf"!{re.escape(word[2])}\.\w+(?![\w(])", self.source()) if word[1] else not re.search(rf"let {re.escape(word[2])} = !", self.source()):
                return x[0]
            return x[1]
        text = re.sub(r"\(not-(?:true|false) _ ([^\s(),]+\.if-[^\s(),.]+\.(?:true|false))\)", plain, text)
        text = re.sub(r"(?<!\()not-(?:true|false) _ ([^\s(),]+\.if-[^\s(),.]+\.(?:true|false))(?=[\s),;]|$)", plain, text)
        return text


def top_level_comma(s):
    depth = 0
    for i, ch in enumerate(s):
        if ch in "([{":
            depth += 1
        elif ch in ")]}":
            depth -= 1
        elif ch == "," and depth == 0:
            return i
    return -1


def matching(s):
    """Whether the text is one pair of round brackets."""
    if not (s.startswith("(") and s.endswith(")")):
        return False
    depth = 0
    for i, ch in enumerate(s):
        depth += (ch in "([{") - (ch in ")]}")
        if depth == 0 and i < len(s) - 1:
            return False
    return True


def last_term(body):
    """Where the last term of a body begins: behind its last `in`, or its first `=`, outside all brackets."""
    at, depth, i = re.search(r"\s=(?=\s)", body).end(), 0, 0
    while i < len(body):
        ch = body[i]
        depth += (ch in "([{") - (ch in ")]}")
        if depth == 0 and re.match(r"\sin\s", body[i : i + 4]):
            at = i + 3
        i += 1
    return at


def pair_parts(text, labels):
    """A nested pair's parts, one for each label; or None."""
    parts, rest = [], text.strip()
    for _ in range(len(labels) - 1):
        if not matching(rest):
            return None
        inner = rest[1:-1]
        k = top_level_comma(inner)
        if k < 0:
            return None
        parts.append(inner[:k].strip())
        rest = inner[k + 1 :].strip().rstrip(",").rstrip()
    return parts + [rest]


def own_names(decls, made):
    """The new spelling of the names that a function's proof file gives itself: lemmas, fields of records, local names."""
    found = set()
    for d in decls:
        text = d.text()
        if d.name not in made:
            found.add(d.name)
        if re.match(r"(?:pub )?record ", d.lines[d.head]):
            found.add(re.match(r"(?:pub )?record (\S+)", d.lines[d.head])[1])
            found.update(f for l in d.lines for m in [re.match(r"  (?:pub )?(\S+(?: [^\s:(){}]+)*) :", l)] if m for f in m[1].split())
        for line in d.lines:
            for pattern in (spell.BOUND, spell.LAMBDA):
                for m in pattern.finditer(line):
                    found.update(m[1].split())
            found.update(m[1] for m in spell.LET.finditer(line))
        # names of a where or a module
        found.update(m[1] for m in re.finditer(r"^ +([^\s:(){}=]+) : ", text, re.M))
        for m in re.finditer(r"^(\S+)((?: [^\s=(){}]+)+) =", text, re.M):
            found.update(m[2].split())
    return {n: spell.snake(n) for n in found if spell.needs(n)}


def named_anew(text, names):
    return spell.TOKEN.sub(lambda m: names.get(m[0], m[0]), text)


def as_record(body, labels, own=()):
    """A body whose last term proves several clauses as a nested pair, as a record of the clauses."""
    at = last_term(body)
    lead, last = body[:at], body[at:].strip()
    if last == "c.requires" and len(own) == len(labels):
        return f"{lead} record {{ " + "; ".join(f"{l} = c.requires.{o}" for l, o in zip(labels, own)) + " }"
    parts = [last] * len(labels) if re.match(r"(omega|search|grind|cc)\b", last) else pair_parts(last, labels)
    if parts is None:
        m = re.match(r"(rw (?:\((?:[^()]|\((?:[^()]|\([^()]*\))*\))*\)|\S+)) ", last)
        inner = m and pair_parts(last[m.end() :], labels)
        if inner:
            parts = [f"{m[1]} ({p})" for p in inner]
        else:
            n = len(labels)
            if m and last[m.end() :].startswith("at "):
                m = None
            lead_in = m[1] + " " if m else ""
            last = last[m.end() :] if m else last
            parts = [f"{lead_in}(({last})" + ".1" * k + (".0" if k < n - 1 else "") + ")" for k in range(n)] if m else [f"({last})" + ".1" * k + (".0" if k < n - 1 else "") for k in range(n)]
    return f"{lead} record {{ " + "; ".join(f"{l} = {p}" for l, p in zip(labels, parts)) + " }"


def turn_file(crate, folder, names_all, contracts, commit, made):
    path = os.path.join(folder, "Proof.antt")
    rel = os.path.relpath(folder, os.path.join("crates", crate, "proofs"))
    if "+" in rel:
        return turn_cycle(crate, folder, rel, names_all, contracts, commit, made)
    dotted = rel.replace("/", ".")
    key = f"Rattle-{crate}-proofs.{dotted}.Lts"
    if key not in names_all:
        return [f"{path}: no names {key}"]
    names = names_all[key]
    function = "::".join([crate] + rel.split("/"))
    turn = Turn(crate, function, names, contracts)
    text = read(path)
    if ".Tie as tie" not in text:
        return [f"{path}: no Tie, left"]
    old_text = subprocess.run(["git", "show", f"{commit}:{path}"], capture_output=True, text=True).stdout
    old = goals_of(old_text)
    new = goals_of(text)
    said = []
    if len(old) != len(new):
        said.append(f"{path}: {len(old)} goals in the old form and {len(new)} now")
    need_of = {n[0]: norm(o[1]) for o, n in zip(old, new)}
    goal_of = {norm(o): n for o, n in names["needs"]}
    place_of = {norm(o): norm(p[0]) for (o, _), p in zip(names["needs"], names["asked_at"])}
    new_place = {norm(o): p[1] for (o, _), p in zip(names["needs"], names["asked_at"])}
    if made:
        turn.made = Made(os.path.join(made, f"Rattle-{crate}-proofs", rel))
    head, decls = split(text)
    answers, invariants = [], []
    imports = [l for l in head if "Statement.{statement}" not in l and ".Tie as tie" not in l]
    comments = [l for l in imports if l.startswith("--")]
    uses = [l for l in imports if not l.startswith("--")]
    plain_uses = list(uses)
    module = f"Rattle.{crate}.proofs.{dotted}"
    # helpers and aliases first
    for d in decls:
        sig = d.lines[d.head]
        m = re.match(r"abbrev (\S+) : (?:\(c : )?tie\.(\S+)(?: invariant[^\s)]* decreases[^\s)]*)*\)? → tie\.(?:\S+)(?: invariant[^\s)]* decreases[^\s)]*)*$", sig)
        if m:
            turn.aliases.add(m[1])
            d.alias = True
            continue
        m = re.match(r"(?:abbrev )?(\S+) : (?:\(\w+ : tie\.(\S+?)(?: [^)]*)?\)|tie\.(\S+)(?: invariant[^\s)]* decreases[^\s)]*)*(?= →))", sig)
        if m:
            turn.helpers[m[1]] = norm(m[2] or m[3])
    for d in decls:
        sig = d.lines[d.head]
        if getattr(d, "alias", False):
            continue
        if re.match(r"(pub )?\S+[-_]spec : ", sig):
            continue
        if re.match(r"(abbrev )?(pub )?(invariant|decreases)\S* : tie", sig) or re.match(r"abbrev \S+ : tie\.(invariant|decreases)", sig):
            invariants.append(d)
            continue
        if d.name in need_of:
            need = need_of[d.name]
            for ending, now in (("holds", "init"), ("again", "preserved"), ("less", "smaller")):
                if need not in goal_of:
                    need = re.sub(rf"_{ending}(?=$|_\d)", "_" + now, need)
            if need not in goal_of:
                said.append(f"{path}: no new name for {need}")
                settled = [l for l in d.lines]
                continue
            goal, place = goal_of[need], place_of[need]
            lines = d.lines[d.head :]
            out = d.lines[: d.head] + [f"pub {goal} : goal.{goal}"]
            body = []
            for l in lines[1:]:
                if l.startswith("unfolding"):
                    out.append(l)
                else:
                    body.append(l)
            btext = "\n".join(body)
            if re.fullmatch(rf"{re.escape(d.name)} c( κs)? = (search rules|tt)", btext.strip()) and not any(l.startswith("unfolding") for l in out):
                continue
            btext = re.sub(rf"^{re.escape(d.name)} c κs", f"{goal} c", btext)
            btext = re.sub(rf"^{re.escape(d.name)}(?=\s)", goal, btext)
            turn.at = turn.made and turn.made.goal.get(new_place[need])
            if re.fullmatch(rf"{re.escape(goal)} c = c\.match\d*\.keys\d+", btext.strip()):
                continue
            btext = turn.body(btext, place)
            labels = None
            if goal.startswith("returns"):
                labels = turn.own[1]
            else:
                m = re.match(r"(.*)-requires", goal)
                if m:
                    callee = None
                    # the call that follows the place
                    after = {c for o, (n, parent, step, c) in turn.places.by_old.items() if parent == place and c}
                    if len(after) == 1:
                        callee = after.pop()
                    if callee in contracts:
                        labels = contracts[callee][0]
            if labels and len(labels) > 1:
                rec = as_record(btext, labels, turn.own[0])
                if rec:
                    btext = rec
                else:
                    said.append(f"{path}: {goal}: {len(labels)} clauses, not a tuple")
            answers.append("\n".join(out + [btext]))
            continue
        # a helper
        place = turn.helpers.get(d.name)
        t = d.text()
        def typed(m):
            p = turn.places.by_old.get(norm(m[1]))
            if not p:
                said.append(f"{path}: {d.name}: no place {m[1]}")
                return m[0]
            if turn.made and turn.made.arguments is not None and turn.made.record(norm(m[1])):
                uses.extend(u for u in [f"use {module}.Lts as lts", f"use {module}.Reads as reads"] if u not in uses)
                arguments = re.sub(r"(?<![\w.-])the-(invariant|decreases)", r"goal.the-\1", turn.made.arguments).replace("Tie.", "tie.").replace("Reads.", "reads.").replace("Given.", "given.")
                for word, name in (("tie.", "Tie as tie"), ("given.", "Given as given")):
                    if word in arguments and f"use {module}.{name}" not in uses:
                        uses.append(f"use {module}.{name}")
                return f"lts.{turn.made.record(norm(m[1]))} {arguments}"
            if norm(m[1]) in {norm(a[0]) for a in names["asked_at"]}:
                return "goal." + p[0]
            uses.extend(u for u in [f"use {module}.Lts as lts", f"use {module}.Reads as reads"] if u not in uses)
            if any(v[3] for v in turn.places.by_old.values()):
                if f"use {module}.Tie as tie" not in uses:
                    uses.append(f"use {module}.Tie as tie")
                return f"lts.{m[1]} tie.the-claims reads.Pre reads.Post"
            return f"lts.{m[1]} reads.Pre reads.Post"
        t = re.sub(r"tie\.([A-Za-z0-9_-]+?)(?: invariant[^\s)]* decreases[^\s)]*)?(?=\)| →)", typed, t)
        turn.at = turn.made and place and turn.made.record(place)
        v = re.search(r"\((\w+) : tie\.", d.lines[d.head])
        t = turn.body(t, place, (v[1],) if v else ("c",))
        answers.append(t)
    said_names = own_names(decls, need_of)
    answers = [named_anew(a, said_names) for a in answers]
    if invariants:
        inv = []
        texts = " ".join(d.text() for d in invariants)
        shared = [d for d in decls if d not in invariants and re.search(rf"(?<![^\s(]){re.escape(kept_name(d))}(?![^\s)])", texts)]
        for d in shared:
            inv.append(named_anew(published(d), said_names))
        if shared:
            answers = [a for a in answers if a not in {named_anew(turn_shared(d, turn), said_names) for d in shared}]
            names_of = ", ".join(said_names.get(kept_name(d), kept_name(d)) for d in shared)
            uses.append(f"use {module}.Invariants.{{{names_of}}}")
        for d in invariants:
            inv.append(named_anew(turn_invariant(d, names, turn, said, path), said_names))
        with open(os.path.join(folder, "Invariants.antt"), "w", encoding="utf-8") as f:
            f.write("\n".join(plain_uses + [f"use {module}.Given as goal", "", "\n\n".join(inv)]) + "\n")
    answers = [a for a in answers if a]
    comments = comments if answers else []
    if answers:
        with open(os.path.join(folder, "Answers.antt"), "w", encoding="utf-8") as f:
            f.write("\n".join(comments + uses + [f"use {module}.Goals as goal", "", "\n\n".join(answers)]) + "\n")
    os.remove(path)
    return said + [f"{path}: {l}" for l in turn.left]


def parameters(crate, function):
    """The names of a function's parameters."""
    for folder, _, files in os.walk(os.path.join("crates", crate, "src")):
        for name in files:
            if name.endswith(".rt"):
                m = re.search(rf"\bfn {function}\b[^(]*\(((?:[^()]|\([^()]*\))*)\)", read(os.path.join(folder, name)))
                if m:
                    return [p.split(":")[0].strip().replace("mut ", "").lstrip("&") for p in m[1].split(",") if p.strip()]
    return []


def turn_cycle(crate, folder, rel, names_all, contracts, commit, made):
    """A cycle's file: the goals of each of its functions, and a measure for each."""
    path = os.path.join(folder, "Proof.antt")
    text = read(path)
    said = []
    cycle = rel.split("/")[-1]
    mods = rel.split("/")[:-1]
    dotted = rel.replace("/", ".")
    module = f"Rattle.{crate}.proofs.{dotted}"
    old_path = path
    functions = {}
    for k in names_all:
        m = re.match(rf"Rattle-{crate}-proofs\.{re.escape(dotted)}\.Lts-(\S+)$", k)
        if m:
            functions[norm(m[1])] = (m[1], k)
    old_text = subprocess.run(["git", "show", f"{commit}:{path}"], capture_output=True, text=True).stdout
    if not old_text:
        # the old folder was named after the cycle's functions
        listed = subprocess.run(["git", "ls-tree", "-r", "--name-only", commit, f"crates/{crate}/proofs"], capture_output=True, text=True).stdout
        for f in listed.split("\n"):
            of = f.split("/")[-2] if f.endswith("/Proof.antt") else ""
            if of.startswith("+") and {norm(x) for x in of.strip("+").split("+")} == set(functions):
                old_text = subprocess.run(["git", "show", f"{commit}:{f}"], capture_output=True, text=True).stdout
        if not old_text:
            said.append(f"{path}: no old file of {sorted(functions)}")
    pattern = re.compile(r"^(?:pub )?(\S+) : \(t : ℕ\) → (\S+?)-lts ?\.Need-(\S+) ", re.M)
    old = pattern.findall(old_text)
    new = pattern.findall(text)
    if len(old) != len(new):
        said.append(f"{path}: {len(old)} goals in the old form and {len(new)} now")
    need_of = {n[0]: (norm(o[1]), norm(o[2])) for o, n in zip(old, new)}
    turns = {}
    for f, (name, key) in functions.items():
        t = Turn(crate, "::".join([crate] + mods + [name]), names_all[key], contracts)
        t.cycle = True
        turns[f] = t
    head, decls = split(text)
    uses = [l for l in head if not l.startswith("--")]
    comments = [l for l in head if l.startswith("--")]
    dropped = re.compile(r"\.Reads as |\.Kinds as |\.Lts-\S+ as |borrow\.Fn\.(Kinds|PlainCycle)|proofs\.\+\S+\.\{|^  statement,|^  close,|^\}")
    uses = [u for u in uses if not dropped.search(u)]
    answers, measures = [], []
    for d in decls:
        sig = d.lines[d.head]
        m = re.match(r"abbrev μ-(\S+) : Measures", sig)
        if m:
            f = norm(m[1])
            name = functions[f][0] if f in functions else m[1]
            params = parameters(crate, name)
            rest = "\n".join(d.lines[d.head + 1 :]).partition("=")[2]
            rest = re.sub(r"(?<![\w.])a((?:\.1)*)\.0(?=[.\s)]|$)", lambda x: f"l.{params[x[1].count('1')]}", rest)
            measures.append(f"abbrev pub decreases-{name} : goal.decreases-{name}\ndecreases-{name} l ={rest}")
            continue
        m = re.match(r"abbrev \S+ : (\S+?)-lts\.(invariant|decreases)-", sig)
        if m and norm(m[1]) in turns:
            turn = turns[norm(m[1])]
            measures.append(turn_invariant(d, turn.names, turn, said, path))
            continue
        if re.match(r"abbrev \S+ : (\(t : ℕ\) → |ℕ → )?(In \d+ |\S+[-_]lts\.Claims$)", sig) or re.match(r"pub \+", sig):
            continue
        if d.name in need_of:
            f, need = need_of[d.name]
            turn = turns.get(f)
            if not turn:
                said.append(f"{path}: {d.name}: no function {f}")
                continue
            names = turn.names
            goal_of = {norm(o): n for o, n in names["needs"]}
            place_of = {norm(o): norm(p[0]) for (o, _), p in zip(names["needs"], names["asked_at"])}
            new_place = {norm(o): p[1] for (o, _), p in zip(names["needs"], names["asked_at"])}
            for ending, now in (("holds", "init"), ("again", "preserved"), ("less", "smaller")):
                if need not in goal_of:
                    need = re.sub(rf"_{ending}(?=$|_\d)", "_" + now, need)
            if need not in goal_of:
                said.append(f"{path}: {f}: no new name for {need}")
                continue
            goal = names.get("stem", "") + goal_of[need]
            place = place_of[need]
            out = d.lines[: d.head] + [f"pub {goal} : goal.{goal}"]
            body = []
            for l in d.lines[d.head + 1 :]:
                (out if l.startswith("unfolding") else body).append(l)
            btext = "\n".join(body)
            if re.fullmatch(rf"{re.escape(d.name)} t c( κs)? = (search rules|tt)", btext.strip()) and not any(l.startswith("unfolding") for l in out):
                continue
            if re.search(r" = c\.match\d*\.keys\d+$", btext.strip()):
                continue
            btext = re.sub(rf"^{re.escape(d.name)} t c κs", f"{goal} t c", btext)
            btext = re.sub(rf"^{re.escape(d.name)}(?=\s)", goal, btext)
            btext = turn.body(btext, place)
            labels = None
            if goal_of[need].startswith("returns"):
                labels = turn.own[1]
            else:
                m = re.match(r"(.*)-requires", goal_of[need])
                callee = None
                after = {c for o, (n, parent, step, c) in turn.places.by_old.items() if m and parent == place and c}
                if len(after) == 1:
                    callee = after.pop()
                if callee in contracts and norm(callee.split("::")[-1]) not in functions:
                    labels = contracts[callee][0]
            if labels and len(labels) > 1:
                btext = as_record(btext, labels, turn.own[0])
            answers.append("\n".join(out + [btext]))
            continue
        m = re.search(r"\((\w+) : (\S+?)-lts\.(\S+)", sig)
        if m:
            turn = turns.get(norm(m[2]))
            said.append(f"{path}: {d.name}: a lemma over a record of {m[2]}")
            answers.append(turn.body(d.text(), norm(m[3]), (m[1],)) if turn else d.text())
            continue
        answers.append(d.text())
    with open(os.path.join(folder, "Invariants.antt"), "w", encoding="utf-8") as f:
        f.write("\n".join(uses + [f"use {module}.Given as goal", "", "\n\n".join(measures)]) + "\n")
    with open(os.path.join(folder, "Answers.antt"), "w", encoding="utf-8") as f:
        f.write("\n".join(comments + uses + [f"use {module}.Goals as goal", "", "\n\n".join(answers)]) + "\n")
    os.remove(path)
    return said + [f"{path}: {l}" for t in turns.values() for l in t.left]


def kept_name(d):
    m = re.match(r"(?:(?:pub|abbrev|unfoldable|record|data) )*(\S+)", d.lines[d.head])
    return m[1]


def turn_shared(d, turn):
    """A declaration without records of facts, as it stands among the answers."""
    return turn.body(d.text(), None)


def published(d):
    """A declaration of the invariants' file that the answers cite too."""
    lines = list(d.lines)
    head = lines[d.head]
    if re.match(r"(pub )?record ", head):
        lines = [re.sub(r"^  (?!pub )(?=\S+(?: \S+)* :)", "  pub ", l) for l in lines]
        lines[d.head] = head if head.startswith("pub ") else "pub " + head
    elif "pub " not in head:
        lines[d.head] = re.sub(r"^((?:abbrev |unfoldable )?)", r"\1pub ", head)
    return "\n".join(lines)


def turn_invariant(d, names, turn, said, path):
    """An invariant or a measure, over the live variables: all of them as the loop begins, and then those that change as they are."""
    lines = d.lines[d.head :]
    m = re.match(r"abbrev (?:pub )?(\S+) : (?:tie|\S+?-lts)\.(\S+)", lines[0])
    kind, _, old = m[2].partition("-")
    loops = {norm(l[0][0]): (l[0][1], l[1], c) for l, c in zip(names["loops"], names["changed"])}
    if norm(old) not in loops:
        said.append(f"{path}: no loop {old}: {sorted(loops)}")
        return d.text()
    new, variables, changed = loops[norm(old)]
    new = names.get("stem", "") + new
    body = "\n".join(lines[1:])
    head, _, rest = body.partition("=")
    arguments = head.split()[1:]
    now = [v for v, c in zip(variables, changed) if c]
    if len(arguments) != len(variables) + len(now):
        said.append(f"{path}: {m[1]}: {len(arguments)} arguments and {variables} {now}")
        return d.text()
    to = {a: f"l.initial.{v}" if c else f"l.{v}" for a, v, c in zip(arguments, variables, changed)}
    to.update({a: f"l.{v}" for a, v in zip(arguments[len(variables) :], now)})
    to.pop("_", None)
    for a, v in to.items():
        rest = re.sub(rf"(?<![^\s(,\[])({re.escape(a)})(?=[\s.),;\]]|$)", lambda x: v, rest)
    comments = d.lines[: d.head]
    return "\n".join(comments + [f"abbrev pub {kind}-{new} : goal.{kind}-{new}", f"{kind}-{new} l ={rest}"])


def main():
    crate, names_path, commit = sys.argv[1:4]
    made = sys.argv[4] if len(sys.argv) > 4 else None
    contracts = {}
    for c in sorted(os.listdir("crates")):
        labels_of(os.path.join("crates", c), c, contracts)
    names_all = json.loads(read(names_path))
    for folder, _, files in sorted(os.walk(os.path.join("crates", crate, "proofs"))):
        if "Proof.antt" in files:
            for line in turn_file(crate, folder, names_all, contracts, commit, made):
                print(line)


if __name__ == "__main__":
    main()
