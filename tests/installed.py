#!/usr/bin/env python3
"""Checks what `make install` has laid below a prefix: the manual pages are whole, and versions and reasons are everywhere the same.

Usage: installed.py PREFIX         says what is wrong and exits 1; or how much it checked
       installed.py --self-test    tries the check of a page on made-up pages with one fault each
"""
import pathlib
import re
import sys

ROOT = pathlib.Path(__file__).resolve().parent.parent
# page: its sections, in this order
PAGES = {
    "kit.1": "NAME, SYNOPSIS, DESCRIPTION, COMMANDS, OPTIONS, EXIT STATUS, ENVIRONMENT, FILES, DIAGNOSTICS, EXAMPLES, SEE ALSO",
    "kit_plan.3": "NAME, LIBRARY, SYNOPSIS, DESCRIPTION, RETURN VALUE, ERRORS, NOTES, EXAMPLES, SEE ALSO",
    "kit-card.5": "NAME, DESCRIPTION, THE CARD, THE SHEET, REFUSALS, TEXT CARDS, EXAMPLES, SEE ALSO",
}
LINKS = ["kit_read", "kit_join", "kit_source", "kit_check", "kit_reason"]
MACROS = set("TH SH SS PP TP B I BI BR IR RB RI EX EE nf fi br".split())
PAIRS = {".EX": ".EE", ".nf": ".fi"}
REFUSALS = range(1, 20)


def title(page, version):
    """The line that a page begins with."""
    name, section = page.rsplit(".", 1)
    return f'.TH {name.upper()} {section} "" "kit_planner {version}" "Kit planner"'.replace("KIT-", r"KIT\-")


def wrong_line(line, filled):
    """What is wrong with a line of a page, or None; filled says that it stands in running text."""
    macro = re.match(r"\.(\w*)", line)
    if macro and macro[1] not in MACROS:
        return f"no macro: {line}"
    if line.startswith("'"):
        return f"begins like a macro: {line}"
    if filled and not line.strip():
        return "an empty line in running text"
    if line != line.rstrip() or not line.isascii() or "\t" in line:
        return f"a blank at the end, a tab or a letter that is not ASCII: {line}"
    if re.search(r"\\(?!-|e|f[BIR])", line):
        return f"an escape that is none of ours: {line}"
    if re.findall(r"\\f(.)", line)[-1:] not in ([], ["R"]):
        return f"the font is not put back: {line}"
    if line.count('"') % 2 and macro:
        return f"a quotation mark without its other: {line}"
    return None


def wrong_page(page, text, version):
    """All that is wrong with a page."""
    lines, wrong, inside = text.splitlines(), [], None
    if lines[:1] != [title(page, version)]:
        wrong.append(f"the first line is not {title(page, version)}")
    for number, line in enumerate(lines, 1):
        what = wrong_line(line, inside is None)
        if line in PAIRS:
            what = f"{line} inside {inside}" if inside else what
            inside = line
        elif line in PAIRS.values():
            what = what if PAIRS.get(inside) == line else f"{line} without its other"
            inside = None
        if what:
            wrong.append(f"line {number}: {what}")
    if inside:
        wrong.append(f"{inside} without its other")
    if re.findall(r'^\.SH "?([^"\n]*)', text, re.M) != PAGES[page].split(", "):
        wrong.append(f"its sections are not {PAGES[page]}")
    return wrong


def found(pattern, path):
    """The first group of the pattern where it first matches in the file."""
    match = re.search(pattern, path.read_text(), re.M)
    return match[1] if match else f"nothing in {path.name}"


def reasons(pattern, path):
    """Number and reason of each refusal that the file tells."""
    rows = re.findall(pattern, path.read_text(), re.M)
    return {int(number): reason.replace('\\"', '"') for number, reason in rows if int(number) in REFUSALS}


def check(prefix):
    """What is wrong, and how many things were looked at."""
    man, header = prefix / "share/man", prefix / "include/kit_planner.h"
    version = found(r'^#define KIT_VERSION "(.*)"$', header)
    same = {"the version of kit_planner.pc": (found(r"^Version: (.*)$", prefix / "lib/pkgconfig/kit_planner.pc"), version)}
    for package in [ROOT / "rust/Cargo.toml", *sorted(ROOT.glob("rust/*/Cargo.toml"))]:
        same[f"the version of {package.relative_to(ROOT)}"] = (found(r'^version = "(.*)"$', package), version)
    told = reasons(r'case (\d+): return "(.*)";', header)
    same["the refusals of the header"] = (list(told), list(REFUSALS))
    same["the reasons of rust/src/lib.rs"] = (reasons(r'^ +(\d+) => "(.*)",$', ROOT / "rust/src/lib.rs"), told)
    same["the reasons of kit_plan.3"] = (reasons(r"^\.TP.*\n(\d+)\n(.*)\n\.br$", man / "man3/kit_plan.3"), told)
    listed = reasons(r"^\.TP.*\n(\d+)\n([^.].*\n(?:[^.].*\n)*Place: [a-z]+)(?: i)?\.$", man / "man5/kit-card.5")
    same["the refusals of kit-card.5"] = (list(listed), list(REFUSALS))
    for link in LINKS:
        same[f"{link}.3"] = ((man / f"man3/{link}.3").read_text(), ".so man3/kit_plan.3\n")
    wrong = [f"{what}: {a!r} and not {b!r}" for what, (a, b) in same.items() if a != b]
    for page in PAGES:
        text = (man / f"man{page[-1]}" / page).read_text()
        wrong += [f"{page}: {what}" for what in wrong_page(page, text, version)]
    return wrong, len(same) + len(PAGES)


def self_test():
    page, version = "kit_plan.3", "1.2.3"
    whole = "\n".join([title(page, version), *(f".SH {s}\n.B bold\nText \\fIleaning\\fR." for s in PAGES[page].split(", ")), ".EX", "", "x", ".EE", ""])
    assert not wrong_page(page, whole, version), wrong_page(page, whole, version)
    faults = [
        (".B bold", ".XX bold", "no macro"),
        (".B bold", "'B bold", "begins like a macro"),
        (".B bold", "", "an empty line"),
        (".B bold", ".B bold ", "a blank at the end"),
        (".B bold", "b\u00f6ld", "not ASCII"),
        (".B bold", "\\(bu bold", "an escape"),
        (".B bold", '.B "bold', "a quotation mark"),
        ("\\fR", "", "the font is not put back"),
        (".EX", ".nf", ".EE without its other"),
        (".EE", "", ".EX without its other"),
        ("x\n", ".nf\n", ".nf inside .EX"),
        (".SH NOTES", ".SS NOTES", "its sections"),
        (version, "1.2.4", "the first line"),
    ]
    for old, new, words in faults:
        wrong = wrong_page(page, whole.replace(old, new, 1), version)
        assert wrong and words in wrong[0], (old, new, wrong)
    print(f"installed.py: each of {len(faults)} faults found")


def main():
    if sys.argv[1:] == ["--self-test"]:
        return self_test()
    wrong, looked_at = check(pathlib.Path(sys.argv[1]))
    for what in wrong:
        print(f"installed.py: {what}")
    if wrong:
        sys.exit(1)
    print(f"installed.py: {looked_at} things agree")


main()
