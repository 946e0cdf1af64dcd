#!/usr/bin/env python3
"""Checks README.md and docs/*.md: every file and every name mentioned is there, and every table is whole.

A file is a word with a slash or a file's ending; it must be a path of the repository or the end of one, and may hold `*`. A name is a word
in backticks that can be an identifier. In the documents of DEFINED it must be defined in the code (in a table with a column for names and
one for files: in the row's files), elsewhere it must occur there. The documents of GONE speak of what is gone: their names, and files that
are not in backticks, are left out; of docs/PORT.md all files are.

Usage: docs.py                says what is wrong with file and line, and exits 1; or how much it checked
       docs.py --self-test    tries the checks on made-up documents with one fault each
"""
import os
import pathlib
import re
import sys
import tempfile

DEFINED = ("docs/PROOFS.md", "docs/GLOSSARY.md", "docs/ARCHITECTURE.md")
PORT = "docs/PORT.md"
GONE = ("docs/CHANGES.md", "docs/DESIGN-PASS.md", "docs/LOOK-BACK.md", PORT)
CODE = ("crates/", "include/", "rust/", "tests/", "examples/", "man/")
NOT_OURS = {".git", "target", "out", "__pycache__"}
KEYWORDS = set("requires ensures ghost let else match enum struct impl mut unsafe record data u8 u16 u32 u64 usize bool".split())

ENDING = r"\.(?:antt|rt|rs|md|py|sh|h|c|txt|card|sheet|names|out|svg|edit|toml)"
PATH = re.compile(rf"[\w.*·+-]*/[\w.*/·+-]*|[\w*-]+{ENDING}")
BARE_PATH = re.compile(rf"(?<![\w/.:`])(?:(?:crates|docs|rust|tests|include|cards|examples|man|\.ci)/[\w.*/·+-]*|[\w*/-]+{ENDING}\b)")
LINK = re.compile(r"\]\(([^)#:\s]+)")
LETTER = r"[\w'&\u2190-\u2bff-]"
SIMPLE = rf"(?:[^\W\d]|◌){LETTER}*"
NAME = re.compile(rf"({SIMPLE}(?:::{SIMPLE})*)(?:\(\))?")
# in a term with spaces only words in mixed case, with an underscore or with a hyphen are taken for names
IN_TERM = re.compile(rf"(?<!{LETTER})(?:[A-Z]?[a-z]+[A-Z][A-Za-z]*|[A-Z][a-z]{{3,}}|[a-z]+(?:[_-][a-z0-9]+)+)(?!{LETTER})")

BEFORE = r"(?:(?:pub|abbrev|unfoldable|record|data) +)"
DEFINITIONS = {
    ".antt": [rf"^{BEFORE}*({SIMPLE}) +[({{:]", rf"^ +{BEFORE}+({SIMPLE}) +[({{:]", rf"^ *{BEFORE}*((?:{SIMPLE} +)+): "],
    ".rt": [r"\b(?:fn|struct|enum|mod|const|type)\s+(\w+)", r"^\s+([A-Z]\w*)(?:,|\(.*\),)\s*$", r"^\s+(?:pub\s+)?(\w+): .*,\s*$"],
    ".h": [r"^#define\s+(\w+)", r"^\w[\w *]*\b(\w+)\("],
    ".py": [r"^(?:def|class)\s+(\w+)", r"^([A-Z_]+)\s*="],
    ".sh": [r"^(\w+)\(\)"],
    ".toml": [r'^name = "(\w+)"'],
}
DEFINITIONS[".rs"], DEFINITIONS[".c"] = DEFINITIONS[".rt"], DEFINITIONS[".h"]
DEFINITIONS = {ending: [re.compile(p, re.M) for p in patterns] for ending, patterns in DEFINITIONS.items()}


class Tree:
    """The repository's paths, and of its code the names each file defines, those of libraries, those of modules, and all words."""

    def __init__(self, root):
        self.folders, self.files = set(), set()
        self.defined, self.imported, self.words = {}, set(), set()
        self.crates = {p.name for p in (root / "crates").glob("*")}
        for folder, below, files in os.walk(root):
            below[:] = [b for b in below if b not in NOT_OURS]
            at = pathlib.Path(folder).relative_to(root)
            self.folders |= {(at / b).as_posix() for b in below}
            self.files |= {(at / f).as_posix() for f in files}
        self.modules = {p.split("/")[-1] for p in self.folders}
        self.modules |= {pathlib.Path(p).stem for p in self.files if p.endswith((".rt", ".edit"))}
        self.words |= self.modules
        for path in self.files:
            if path.startswith(CODE) and path != "tests/docs.py":
                self.read(path, (root / path).read_text(errors="replace"))

    def read(self, path, text):
        self.words |= {pathlib.Path(path).stem, *re.findall(rf"{LETTER}+", text), *re.findall(r"\w+", text)}
        text = re.sub(r"^\s*(?:--|//|#!|# ).*", "", text, flags=re.M)  # comments define nothing
        found = {n for p in DEFINITIONS.get(pathlib.Path(path).suffix, []) for m in p.findall(text) for n in m.split()}
        self.defined[path] = found
        self.imported |= set(re.findall(r"\w+(?:::\w+)+", text))
        for crate, names in re.findall(r"\buse (?:Rattle\.(\w+))?[^{;\n]*\{([^}]*)\}", text):
            if crate not in self.crates:
                self.imported |= set(re.findall(rf"{LETTER}+", names))

    def matching(self, path):
        """The files and folders that the path, with or without its beginning, stands for."""
        pattern = re.compile("(?:.*/)?" + re.escape(path.strip("/")).replace(r"\*", "[^/]*"))
        paths = self.folders if path.endswith("/") else self.folders | self.files
        return {p for p in paths if pattern.fullmatch(p)}

    def around(self, path):
        """What may stand before the :: of a name that the file defines."""
        package = self.defined.get(path.split("/")[0] + "/Cargo.toml", set())
        return self.defined[path] | set(path.split("/")) | {pathlib.Path(path).stem} | package

    def defines(self, name, files=None):
        """Whether a file, or one of those given, defines the name."""
        *outer, last = name.split("::")
        paths = [p for p, names in self.defined.items() if last in names and (files is None or p in files)]
        return any(set(outer) <= self.around(p) for p in paths)

    def known(self, name):
        """Whether the name is defined or imported, or is that of a module, a crate, a must-fail edit or a folder."""
        return self.defines(name) or name in self.imported or name in self.modules or name in KEYWORDS


def cells(row):
    """A row's cells; a pipe behind a backslash or in backticks divides none."""
    shielded = re.sub(r"\\\||`[^`]*`", lambda m: m[0].replace("|", "\0"), row.strip())
    return [c.replace("\0", "|").strip() for c in shielded[1:-1].split("|")]


def blocks(text):
    """The first line's number and the lines of each table and of each other paragraph. Fenced code is left out."""
    block, fenced = [], False
    for number, line in enumerate([*text.splitlines(), ""], 1):
        fence = line.lstrip().startswith("```")
        table = re.match(r" {0,3}\|", line) is not None
        if block and (fence or fenced or not line.strip() or table != block[0][2]):
            yield block[0][0], [b[1] for b in block], block[0][2]
            block = []
        fenced ^= fence
        if line.strip() and not fence and not fenced:
            block.append((number, line, table))


class Document:
    """One document under check: what is wrong with it, and how much was looked at."""

    def __init__(self, tree, path, text):
        self.tree, self.path = tree, path
        self.wrong, self.counts = [], {"names": 0, "files": 0, "tables": 0}
        fences = [i for i, line in enumerate(text.splitlines(), 1) if line.lstrip().startswith("```")]
        if len(fences) % 2:
            self.say(fences[-1], "a fence without its other")
        end_of_table = 0
        for first, lines, table in blocks(text):
            if table:
                self.table(first, lines)
                end_of_table = first + len(lines)
            else:
                if first == end_of_table:
                    self.say(first, "text directly behind a table")
                self.words(first, "\n".join(lines))

    def say(self, line, what):
        if (line, what) not in self.wrong:
            self.wrong.append((line, what))

    def table(self, first, lines):
        self.counts["tables"] += 1
        head, rows = cells(lines[0]), [cells(line) for line in lines]
        if len(rows) < 2 or not all(re.fullmatch(r":?-+:?", c) for c in rows[1]):
            self.say(first, "a row of a table without a head and a line of dashes above it")
            head = None
        elif len(rows) == 2:
            self.say(first, "a table without rows")
        for i, row in enumerate(rows):
            if not lines[i].rstrip().endswith("|"):
                self.say(first + i, "a row that does not end with |")
            elif head and len(row) != len(head):
                self.say(first + i, f"a row of {len(row)} cells in a table of {len(head)}")
            self.words(first + i, lines[i])
            if head and i > 1 and len(row) == len(head):
                self.row(first + i, list(zip(head, row)))

    def row(self, line, row):
        """In a table with a column for names and one for files the names are defined in the row's files."""
        columns = [next((c for h, c in row if h.lower().startswith(starts)), None) for starts in (("name", "theorem"), "file")]
        if self.path not in DEFINED or None in columns:
            return
        found = [self.tree.matching(p.rstrip(".")) for p in BARE_PATH.findall(columns[1].replace("`", " "))]
        if not all(found):
            return  # told already: no such file
        files = {f for f in self.tree.files for p in set().union(*found) if f == p or f.startswith(p + "/")}
        for word in re.findall(r"`([^`]+)`", columns[0]):
            name = NAME.fullmatch(word)
            exists = name and (self.tree.defines(name[1]) or name[1] in self.tree.imported)
            if exists and not self.tree.defines(name[1], files):
                self.say(line, f"{name[1]} is not defined in {columns[1] or 'no file'}")

    def words(self, first, text):
        """Every file and name mentioned in the text."""
        if text.count("`") % 2:
            self.say(first, "a backtick without its other")
        for m in re.finditer(r"`([^`]+)`", text):
            self.word(first + text.count("\n", 0, m.start()), " ".join(m[1].split()))
        outside = re.sub(r"`[^`]+`", lambda m: "`" + "\n" * m[0].count("\n"), text)
        bare = [] if self.path in GONE else [*BARE_PATH.finditer(outside), *LINK.finditer(outside)]
        for m in bare:
            self.file(first + outside.count("\n", 0, m.start()), m[m.lastindex or 0].rstrip("."))

    def word(self, line, word):
        name = NAME.fullmatch(word)
        if PATH.fullmatch(word) and re.search("[A-Za-z]", word):
            self.file(line, word)
        elif self.path in GONE:
            return
        elif name and len(name[1]) > 1 and re.search("[A-Za-z]|◌", name[1]):
            self.name(line, name[1])
        elif " " in word and self.path in DEFINED:
            for m in IN_TERM.finditer(word):
                self.name(line, m[0])

    def file(self, line, path):
        self.counts["files"] += 1
        if self.path != PORT and "target" not in path.split("/")[:2] and not self.tree.matching(path):
            self.say(line, f"no such file: {path}")

    def name(self, line, name):
        """A name of two letters is a variable: it only has to occur."""
        self.counts["names"] += 1
        if self.path in DEFINED and len(name) > 2:
            if not self.tree.known(name):
                self.say(line, f"not defined: {name}")
        elif not set(name.split("::")) <= self.tree.words:
            self.say(line, f"does not occur in the code: {name}")


def check(root):
    tree = Tree(root)
    documents = sorted(p for p in tree.files if p == "README.md" or re.fullmatch(r"docs/[^/]*\.md", p))
    return [Document(tree, path, (root / path).read_text()) for path in documents]


MADE_UP = {
    "crates/one/specs/Good.antt": """-- A comment says nothing : of a definition
use Rattle.std.specs.Far.{far_away}
use Rattle.one.specs.Near.{no_longer}
pub data Colour : Type 0 where
  red green : Colour
pub record Pair (a b : Colour) : Type 0 where
  pub first : Colour
unfoldable pub swap_them : Colour → Colour
swap_them red = locally_bound
infixr 30 ◌▹◌
pub ◌▹◌ : Colour → Colour → Colour
""",
    "crates/one/specs/Other.antt": "pub res_⊗ : Colour\n",
    "crates/one/src/lib.rt": "pub struct Brush {\n    pub width: u8,\n}\nimpl Brush {\n    fn paint(card: &[u8]) {\n    }\n}\n",
    "rust/Cargo.toml": '[package]\nname = "easel"\n',
    "rust/src/lib.rs": "pub fn stand() {}\n",
    "include/one.h": "#define ONE_NUMBER(x) (x)\nint one_call(void);\n",
    "docs/PROOFS.md": """# Proofs

| what | name | file |
|---|---|---|
| a pipe \\| or `two | of them` | `swap_them` (of `Colour`), `red`, `green`; `Pair`, `first` | crates/one/specs/Good.antt |
| a term | `res_⊗`: `Pair r (swap_them r)` | `crates/one/specs/Other.antt` |
| code | `Brush::paint`, `one::paint`, `width`, `paint()` | crates/one/src/lib.rt, include/ |

`one_call` and `ONE_NUMBER` in include/one.h; `far_away` and `◌▹◌`; the crate `one`, the folder `specs`; `easel::stand`;
no `requires`.
Not names: `rt ci plan`, `0x1f`, `00 0A`, `N passed, 0 failed`, `≡`, `&mut [u8]`, `k`, `1/100`, `target/bin/plan`, rust/target/release/kit, must/may, `a
b`.

```
| no table, `no_name`
```
""",
    "docs/NOTES.md": "`Good.antt`, `specs/Other.antt`, `crates/*/specs/`, [proofs](PROOFS.md), crates/one/src/lib.rt. `locally_bound`.\n",
    "docs/CHANGES.md": "`gone_name` and crates/one/specs/Gone.antt are gone.\n",
    "docs/PORT.md": "`gone_name` and `crates/one/specs/Gone.antt` are gone.\n",
}
TABLE = "| name | file |\n|---|---|\n"
# document, its text, line and words of the one fault
FAULTS = [
    ("docs/NOTES.md", "x\n`crates/one/specs/Gone.antt`", 2, "no such file: crates/one/specs/Gone.antt"),
    ("docs/NOTES.md", "in crates/one/specs/Gone.antt.", 1, "no such file: crates/one/specs/Gone.antt"),
    ("docs/NOTES.md", "`Gone.antt`", 1, "no such file: Gone.antt"),
    ("docs/NOTES.md", "`crates/*/gone/`", 1, "no such file: crates/*/gone/"),
    ("docs/NOTES.md", "`one/Good.antt`", 1, "no such file: one/Good.antt"),
    ("docs/NOTES.md", "[gone](GONE.md)", 1, "no such file: GONE.md"),
    ("docs/NOTES.md", "two lines of\ntext, `never_there`", 2, "does not occur in the code: never_there"),
    ("docs/CHANGES.md", "`crates/one/specs/Gone.antt`", 1, "no such file: crates/one/specs/Gone.antt"),
    ("docs/GLOSSARY.md", "`locally_bound`", 1, "not defined: locally_bound"),
    ("docs/GLOSSARY.md", "`no_longer`", 1, "not defined: no_longer"),
    ("docs/GLOSSARY.md", "`swap`", 1, "not defined: swap"),
    ("docs/GLOSSARY.md", "`comment`", 1, "not defined: comment"),
    ("docs/GLOSSARY.md", "`zz`", 1, "does not occur in the code: zz"),
    ("docs/GLOSSARY.md", "`Pair::paint`", 1, "not defined: Pair::paint"),
    ("docs/GLOSSARY.md", "`Pair r (goneAway r)`", 1, "not defined: goneAway"),
    ("docs/GLOSSARY.md", "`Pair r (gone_away r)`", 1, "not defined: gone_away"),
    ("docs/GLOSSARY.md", "`Pair r (gone-away r)`", 1, "not defined: gone-away"),
    ("docs/GLOSSARY.md", "`◌◃◌`", 1, "not defined: ◌◃◌"),
    ("docs/PROOFS.md", TABLE + "| `swap_them` | crates/one/specs/Other.antt |", 3, "swap_them is not defined in crates/one/specs/Other.antt"),
    ("docs/PROOFS.md", TABLE + "| `far_away` | crates/one/specs/Good.antt |", 3, "far_away is not defined in crates/one/specs/Good.antt"),
    ("docs/PROOFS.md", TABLE + "| `swap_them` | |", 3, "swap_them is not defined in no file"),
    ("docs/NOTES.md", TABLE + "| a | b |\n\n| c | d |\n| e | f |", 5, "a row of a table without a head"),
    ("docs/NOTES.md", TABLE + "| a | b |\n\n| c | d |", 5, "a row of a table without a head"),
    ("docs/NOTES.md", "| a | b |\n| c | d |", 1, "a row of a table without a head"),
    ("docs/NOTES.md", TABLE + "| a |", 3, "a row of 1 cells in a table of 2"),
    ("docs/NOTES.md", TABLE + "| a | b | c |", 3, "a row of 3 cells in a table of 2"),
    ("docs/NOTES.md", "| a | b |\n|---|\n| c | d |", 2, "a row of 1 cells in a table of 2"),
    ("docs/NOTES.md", TABLE + "| a | b", 3, "a row that does not end with |"),
    ("docs/NOTES.md", TABLE + "| a | b |\nc |", 4, "text directly behind a table"),
    ("docs/NOTES.md", TABLE, 1, "a table without rows"),
    ("docs/NOTES.md", "one ` alone", 1, "a backtick without its other"),
    ("docs/NOTES.md", "```\nx\n```\n\n```\n`gone_name`\n", 5, "a fence without its other"),
]


def self_test():
    with tempfile.TemporaryDirectory() as folder:
        root = pathlib.Path(folder)
        for path, text in MADE_UP.items():
            (root / path).parent.mkdir(parents=True, exist_ok=True)
            (root / path).write_text(text)
        for document in check(root):
            assert not document.wrong, (document.path, document.wrong)
        tree = Tree(root)
    for path, text, line, words in FAULTS:
        wrong = Document(tree, path, text).wrong
        assert len(wrong) == 1 and wrong[0][0] == line and words in wrong[0][1], (text, wrong)
    print(f"docs.py: each of {len(FAULTS)} faults found")


def main():
    if "--self-test" in sys.argv:
        return self_test()
    documents = check(pathlib.Path(__file__).resolve().parent.parent)
    for document in documents:
        for line, what in sorted(document.wrong):
            print(f"{document.path}:{line}: {what}")
    if any(d.wrong for d in documents):
        sys.exit(1)
    sums = {what: sum(d.counts[what] for d in documents) for what in ("names", "files", "tables")}
    print(f"docs.py: {sums['names']} names, {sums['files']} files and {sums['tables']} tables in {len(documents)} documents")


main()
