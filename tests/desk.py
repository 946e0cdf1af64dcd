#!/usr/bin/env python3
"""Runs the program kit as the desk does: every command on every card of cards/ against the stored output beside it, and what no stored
output can show: failing files and pipes, a terminal, many cards at once.

Usage: desk.py KIT            says what differs or fails, and exits 1; or how much it checked
       desk.py KIT --write    writes the stored outputs and the pictures of docs/
"""
import difflib
import json
import os
import pathlib
import pty
import re
import resource
import select
import signal
import subprocess
import sys
import tempfile
import time
import xml.etree.ElementTree

ROOT = pathlib.Path(__file__).resolve().parent.parent
NAMES = ["--names", "cards/depot.names"]
PICTURES = {
    "docs/card.svg": ["show", "--svg", "cards/pump.card", "cards/pump.sheet", *NAMES],
    "docs/tree.svg": ["tree", "--svg", "cards/pump.card", *NAMES],
}
# which card a broken sheet is read against, where it is not the pump's
OTHER_CARD = {"17": "shallow", "13-side": "menu", "13-entry": "menu", "13-choice": "one-of", "19-never": "never"}
SVG = "{http://www.w3.org/2000/svg}"


# what is told of the sample card without its last line, and drawn of it with 20 bytes behind
CUT = """-: refused 2 at the card, byte 37
the length field says 40, but there are 37 bytes: 3 bytes missing at the end

    29  00 00 00 00 01 00 02 01
                                ^^
"""
BEHIND = f"""    40  {"00 " * 15}00  behind the end       16 bytes
        {"^^ " * 15}^^
    56  00 00 00 00  behind the end       4 bytes
        ^^ ^^ ^^ ^^
    60  end
"""


class Wrong(Exception):
    """A check that failed."""


passed = 0


def check(holds, what):
    global passed
    if not holds:
        raise Wrong(what)
    passed += 1


class Kit:
    """The program, run in the repository."""

    def __init__(self, program):
        self.program = str(pathlib.Path(program).resolve())

    def run(self, *words, input=b"", **more):
        more = {"stdout": subprocess.PIPE, "stderr": subprocess.PIPE, "cwd": ROOT, "timeout": 120, **more}
        if "stdin" not in more:
            more["input"] = input
        return subprocess.run([self.program, *words], **more)

    def out(self, *words, **more):
        """What it prints, where all goes well."""
        done = self.run(*words, **more)
        check(done.returncode == 0 and not done.stderr, f"kit {' '.join(words)}: {done}")
        return done.stdout


# ---- stored outputs


def of_card(path):
    """The commands for a card, by its path without ending."""
    card, sheet = f"{path}.card", f"{path}.sheet"
    files = [card, sheet] if (ROOT / sheet).exists() else [card]
    text = f"{path}.txt"
    raw = ["--as-is"] if path.startswith("cards/broken/") else []
    for words in (["check", card], ["plan", card], ["tree", card], ["show", *files], ["text", card], ["card", text, *raw]):
        if words[0] != "card":
            yield [*words, *NAMES]
        yield [*words, *NAMES, "--json"]
    for words in (["show", *files, "--svg"], ["tree", card, "--dot"], ["tree", card, "--svg"], ["text", card, "--nodes"], ["text", card, "--bytes"]):
        yield [*words, *NAMES]
    if len(files) == 2:
        yield from of_sheet("read", *files)
        yield from of_sheet("tree", *files)


def of_sheet(command, *files):
    """A command for a card and its sheet."""
    yield [command, *files, *NAMES]
    yield [command, *files, *NAMES, "--json"]


def of_folders():
    """The commands for many cards."""
    for words in (["check", "cards"], ["check", "cards/broken"], ["plan", "cards"], ["read", "cards"]):
        yield [*words, *NAMES]
        yield [*words, *NAMES, "--json"]
    yield ["plan", "cards/pump.card", "cards/missing.card", "cards/short.card", "-j", "2"]
    yield ["read", "cards/pump.card", "cards/pump.sheet", "cards/pump.card", "cards/rigging.sheet"]
    for words in ([], ["plan"], ["read"], ["check"], ["show"], ["tree"], ["card"], ["text"]):
        yield [*words, "--help"]
    yield ["--version"]


def stored():
    """Each file of stored output with its commands."""
    for card in sorted(ROOT.glob("cards/**/*.card")):
        path = card.relative_to(ROOT).with_suffix("").as_posix()
        yield f"{path}.out", list(of_card(path))
    for sheet in sorted(ROOT.glob("cards/broken/*.sheet")):
        path = sheet.relative_to(ROOT).with_suffix("").as_posix()
        card = OTHER_CARD.get(path.removeprefix("cards/broken/refused-"), "pump")
        files = f"cards/{card}.card", f"{path}.sheet"
        drawn = [["show", *files, "--svg", *NAMES], ["tree", *files, "--svg", *NAMES], ["tree", *files, "--dot", *NAMES]]
        yield f"{path}.out", [words for command in ("read", "tree", "show") for words in of_sheet(command, *files)] + drawn
    yield "cards/folders.out", list(of_folders())


def transcript(kit, commands):
    """What the commands print, with their exit status."""
    text = ""
    for words in commands:
        done = kit.run(*words)
        well_formed(words, done)
        error = f"[standard error]\n{done.stderr.decode()}" if done.stderr else ""
        text += f"$ kit {' '.join(words)}\n{done.stdout.decode()}{error}[status {done.returncode}]\n\n"
    return text


def once(pairs):
    """An object of JSON, each of whose keys stands once."""
    check(len({key for key, _ in pairs}) == len(pairs), f"a key stands twice: {pairs}")
    return dict(pairs)


def well_formed(words, done):
    """JSON is JSON, a picture is a picture, a graph is a graph."""
    text = done.stdout.decode()
    if "--json" in words:
        check([json.loads(line, object_pairs_hook=once) for line in text.splitlines()], f"{words}: no JSON")
    if "--svg" in words and (words[0] == "show" or done.returncode == 0):
        picture(words, text)
    if "--dot" in words and done.returncode == 0:
        lines = text.splitlines()
        row = re.compile(r"""  (node \[.*\]|n\d+ \[label="[^"\\]*", fillcolor="#\w+"\]|n\d+ -> n\d+ \[label="[^"\\]*"\]);""")
        check(lines[0] == "digraph way {" and lines[-1] == "}" and all(row.fullmatch(x) for x in lines[1:-1]), f"{words}: no graph")


def picture(words, text):
    """A well-formed picture; of a card or sheet each box is as wide as it has bytes, and every byte has its box."""
    root = xml.etree.ElementTree.fromstring(text)
    check(root.tag == SVG + "svg", f"{words}: no picture")
    boxes = root.findall(SVG + "g")
    check(boxes, f"{words}: an empty picture")
    if words[0] == "show":
        sizes = [(float(g.find(SVG + "rect").get("width")), len(g.find(SVG + "text").text.split())) for g in boxes]
        check(all(width == 30 * count for width, count in sizes), f"{words}: a box is not to scale")
        files = [ROOT / w for w in words if w.endswith((".card", ".sheet"))]
        check(sum(count for _, count in sizes) == sum(f.stat().st_size for f in files), f"{words}: bytes without a box")


def stored_outputs(kit, write):
    for path, commands in stored():
        text = transcript(kit, commands)
        file = ROOT / path
        if write:
            file.write_text(text)
        before = file.read_text().splitlines() if file.exists() else []
        differs = list(difflib.unified_diff(before, text.splitlines(), path, "now", lineterm="", n=1))
        check(not differs, "\n".join(differs[:20]))
    kept = {path for path, _ in stored()}
    extra = [f for f in (f.relative_to(ROOT).as_posix() for f in ROOT.glob("cards/**/*.out")) if f not in kept]
    check(not extra, f"outputs of no card: {extra}")


def pictures(kit, write):
    for path, words in PICTURES.items():
        text = kit.out(*words)
        if write:
            (ROOT / path).write_bytes(text)
        check((ROOT / path).read_bytes() == text, f"{path} is not what kit {' '.join(words)} draws")


def manual(kit):
    """The synopsis of kit.1 is what the pages of help begin with, and the page tells every option that they tell."""
    page = (ROOT / "man/kit.1").read_text()
    plain = re.sub(r"\\f[BIR]", "", page).replace("\\-", "-")
    synopsis = re.search(r"\.SH SYNOPSIS\n\.nf\n(.*?)\.fi\n", plain, re.S)[1]
    dots = re.compile(r" ?\.\.+")
    told = {dots.sub("", line) for line in synopsis.splitlines()}
    shown = re.search(r"\n\n((?:    .*\n)+)", kit.out("card", "--help").decode())[1]
    example = re.search(r"\.SS Text cards\n.*?\.EX\n(.*?)\.EE\n", page, re.S)[1]
    cards = {kit.out("card", "-", input=text.encode()) for text in (shown, example)}
    check(len(cards) == 1, "the text cards of kit.1 and of kit card --help are not the same")
    for command in ("plan", "read", "check", "show", "tree", "card", "text"):
        text = kit.out(command, "--help").decode()
        usage = [line for line in text.splitlines() if line.startswith(f"kit {command} ")]
        check(usage, f"{command} --help has no usage")
        for line in usage:
            check(dots.sub("", line) in told, f"kit.1 has another synopsis: {line}")
        for option in set(re.findall(r"(?<![\w-])--?[a-z][a-z-]*", text)):
            check(re.search(rf"\n\.BI? {option}[ \n]", plain), f"kit.1 does not tell {option}")


def both_forms(kit):
    """Each card and sheet of cards/ is what its text says, and each plan's sheet is the one stored."""
    for text in sorted(ROOT.glob("cards/**/*.txt")):
        path = text.relative_to(ROOT).as_posix()
        files = [f for f in (text.with_suffix(".card"), text.with_suffix(".sheet")) if f.exists()]
        raw = ["--as-is"] if path.startswith("cards/broken/") else []
        check(kit.out("card", path, *raw) == files[0].read_bytes(), f"{path} is not {files[0].name}")
        if len(files) == 2:
            sheet = kit.out("plan", str(files[0].relative_to(ROOT)), "-o", "-")
            check(sheet == files[1].read_bytes(), f"{files[1].name} is not the plan of {files[0].name}")
    numbers = {int(f.stem.split("-")[1]) for f in ROOT.glob("cards/broken/refused-*.txt")}
    # 10, 15 and 16 are never told by kit; 11 is that of short, over, shallow and never
    check(numbers == set(range(1, 20)) - {10, 11, 15, 16}, f"broken: {sorted(numbers)}")


# ---- files and pipes that fail


def fails(kit, what, *words, **more):
    """Status 2 and one line on standard error."""
    done = kit.run(*words, **more)
    check(done.returncode == 2, f"{what}: status {done.returncode}")
    check(re.fullmatch(rb"kit: [^\n]+\n", done.stderr), f"{what}: {done.stderr}")
    return done


def lost_output(kit):
    sample = "cards/sample.card"
    commands = [["plan", sample], ["check", sample], ["read", sample, "cards/sample.sheet"], ["show", sample], ["tree", sample], ["text", sample]]
    commands += [["card", "cards/sample.txt"], ["plan", "cards"], ["--help"], ["plan", "--help"], ["--version"], ["plan", sample, "-o", "-"]]
    for words in commands:
        with open("/dev/full", "wb") as full:
            fails(kit, f"{words} to a full disk", *words, stdout=full)
        reader, writer = os.pipe()
        os.close(reader)
        fails(kit, f"{words} to a closed pipe", *words, stdout=writer)
        os.close(writer)
        fails(kit, f"{words} without standard output", *words, stdout=subprocess.DEVNULL, preexec_fn=lambda: os.close(1))


def failing_files(kit, folder):
    sample = "cards/sample.card"
    kept = folder / "kept.sheet"
    kept.write_bytes(b"as it was")
    no_room = {"preexec_fn": lambda: (signal.signal(signal.SIGXFSZ, signal.SIG_IGN), resource.setrlimit(resource.RLIMIT_FSIZE, (3, 3)))}
    for words in (["plan", sample], ["card", "cards/sample.txt"], ["text", sample], ["show", sample, "--svg"], ["tree", sample, "--svg"]):
        fails(kit, f"{words}, no room", *words, "-o", str(kept), **no_room)
        fails(kit, f"{words}, no folder", *words, "-o", str(folder / "none" / "x"))
        fails(kit, f"{words}, a folder", *words, "-o", str(folder))
        fails(kit, f"{words}, a full disk", *words, "-o", "/dev/full")
        fails(kit, f"{words}, a missing file", words[0], str(folder / "missing"), "-o", str(kept))
        for place in (f"{folder}/new/", ""):
            check(not fails(kit, f"{words}, no file", *words, "-o", place).stdout, f"{words}: told before it failed")
    with open("/dev/full", "wb") as full:
        fails(kit, "a sheet whose plan cannot be told", "plan", sample, "-o", str(kept), stdout=full)
        fails(kit, "a card that cannot be told", "card", "cards/sample.txt", "-o", str(kept), "--json", stdout=full)
    done = kit.run("plan", "cards/short.card", "-o", str(kept))
    check(done.returncode == 1, "a refused plan")
    done = kit.run("card", "cards/broken/refused-6.txt", "-o", str(kept))
    check(done.returncode == 1 and b"refused 6 at node 2" in done.stdout, "a card that the check refuses")
    check(kept.read_bytes() == b"as it was", "what was there is gone")
    check([f.name for f in folder.iterdir()] == ["kept.sheet"], f"left over: {list(folder.iterdir())}")
    kept.chmod(0o640)
    kit.out("plan", sample, "-o", str(kept))
    check(kept.read_bytes() == (ROOT / "cards/sample.sheet").read_bytes(), "the sheet is written")
    check(kept.stat().st_mode & 0o777 == 0o640, "who may read it has not changed")
    link, ahead = folder / "link", folder / ("long" * 60)
    link.symlink_to("kept.sheet")
    kit.out("card", "cards/sample.txt", "-o", str(link))
    check(link.is_symlink() and kept.read_bytes() == (ROOT / sample).read_bytes(), "a link is followed")
    link.unlink()
    link.symlink_to(ahead)
    kit.out("card", "cards/sample.txt", "-o", str(link))
    check(link.is_symlink() and ahead.read_bytes() == kept.read_bytes(), "a link to nothing yet, and a long name")
    fails(kit, "a card over itself", "plan", str(kept), "-o", str(kept))
    fails(kit, "a card among many over itself", "plan", str(kept), sample, "-o", str(folder))
    check(kept.read_bytes() == (ROOT / sample).read_bytes(), "a card that was read is gone")
    for place in ("/dev/stdout", "/dev/fd/1"):
        check(kit.out("card", "cards/sample.txt", "-o", place) == (ROOT / sample).read_bytes(), f"{place} is a pipe")
    fails(kit, "a names file over itself", "text", sample, "--names", "cards/depot.names", "-o", "cards/depot.names")
    odd = os.fsdecode(os.fsencode(folder) + b"/\xff.sheet")
    kit.out("plan", sample, "-o" + odd)
    check(os.path.exists(odd), "a name that is no UTF-8")


def cut_off(kit, folder):
    """A pipe that is closed while sheets are written leaves whole sheets and nothing else."""
    card = (ROOT / "cards/pump.card").read_bytes()
    for i in range(400):
        (folder / f"{i}.card").write_bytes(card)
    sheets = folder / "sheets"
    sheets.mkdir()
    for _ in range(10):
        child = subprocess.Popen([kit.program, "plan", str(folder), "-o", str(sheets)], stdout=subprocess.PIPE, stderr=subprocess.PIPE)
        child.stdout.readline()
        child.stdout.close()
        child.stderr.read()
        child.stderr.close()
        check(child.wait(60) == 2, "a closed pipe among many")
        wrong = [f.name for f in sheets.iterdir() if f.read_bytes() != (ROOT / "cards/pump.sheet").read_bytes()]
        check(not wrong and all(f.suffix == ".sheet" for f in sheets.iterdir()), f"left over: {wrong}")


def wrong_usage(kit):
    for words in ([], ["fly"], ["plan"], ["plan", "a", "--svg"], ["show", "a", "b", "c"], ["text", "--nodes", "--bytes", "a"], ["plan", "-j", "0", "a"],
                  ["plan", "a", "-o"], ["read", "cards/sample.card"], ["read", "-", "-"], ["check", "-", "--names", "-"], ["tree", "--svg", "--dot", "a"],
                  ["plan", "cards", "-o", "cards/pump.card"], ["check", "docs"], ["card", "-o", "x", "--json=1", "y"],
                  ["read", "cards", "cards/pump.sheet"], ["check", "--", "--help"], ["plan", "-j", "+4", "cards/sample.card"],
                  ["plan", "cards/sample.card", "-o", "-", "--json"], ["card", "cards/sample.txt", "-o", "-", "--json"]):
        check(not fails(kit, words, *words).stdout, f"{words}: something was printed")
    folder = fails(kit, "a folder and a sheet", "read", "cards", "cards/pump.sheet")
    check(folder.stderr.startswith(b"kit: kit read wants"), "a folder and a sheet are told as wrong usage")


def streams(kit):
    card, text = (ROOT / "cards/sample.card").read_bytes(), (ROOT / "cards/sample.txt").read_bytes()
    sheet = (ROOT / "cards/sample.sheet").read_bytes()
    check(kit.out("card", "-", input=text) == card, "a text from standard input")
    check(kit.out("plan", "-", "-o", "-", input=card) == sheet, "a card from standard input, a sheet to standard output")
    check(kit.out("read", "cards/sample.card", "-", input=sheet).endswith(b"accepted, 2 steps\n"), "a sheet from standard input")
    check(kit.out("check", "-", input=card).startswith(b"-: sound"), "a check of standard input")
    crlf = b"\xef\xbb\xbf" + text.replace(b"\n", b"\r\n")
    check(kit.out("card", "-", input=crlf) == card, "a text with other line ends")
    done = kit.run("card", "-", input=b"goal done\n\xff\n")
    check((done.returncode, done.stderr) == (2, b"-:2:1: this is no UTF-8 text\n"), f"{done}")
    long = kit.run("check", "-", input=card + bytes(200_000))
    check(long.returncode == 1 and b"refused 2" in long.stdout and b"more than 65535 bytes" in long.stdout, "a long file")
    check(b" 65536  and more\n" in kit.run("show", "-", input=card + bytes(200_000)).stdout, "a long file drawn")
    long = kit.run("read", "cards/sample.card", "-", input=bytes(200_000))
    check(b"says 0, but there are more than 65535 bytes" in long.stdout, "a long sheet")
    check(kit.run("check", "-", input=card[:-3]).stdout.decode() == CUT, "a card that is cut off")
    check(BEHIND in kit.run("show", "-", input=card + bytes(20)).stdout.decode(), "bytes behind a card")
    long = kit.run("card", "-", input=text + b"# comment\n" * 1_700_000 + b"must 7\n")
    check(long.returncode == 2 and not long.stdout and b"at most 16777216 bytes" in long.stderr, "a text that is too long")
    for words in (["check", "-"], ["card", "-"], ["read", "cards/sample.card", "-"]):
        done = fails(kit, f"{words} without standard input", *words, stdin=subprocess.DEVNULL, preexec_fn=lambda: os.close(0))
        check(b"standard input: it is closed" in done.stderr, f"{words}: {done.stderr}")
    words = kit.out("plan", "cards/pump.card", "--names", "cards/pump.txt")
    check(words == kit.out("plan", "cards/pump.card", *NAMES), "the names of a text card")
    check(b"shaft" in words and b"101" not in words, "words for numbers")


def odd_names(kit, folder):
    """A file's name can hold what means something in a picture, a graph or JSON."""
    card, sheet = folder / 'a <b> & "c"\\.card', folder / "-o.sheet"
    card.write_bytes((ROOT / "cards/two-ways.card").read_bytes())
    sheet.write_bytes((ROOT / "cards/two-ways.sheet").read_bytes())
    for words in (["show", "--svg"], ["show", "--json"], ["tree", "--svg"], ["tree", "--dot"], ["tree", "--json"]):
        done = kit.run(*words, "--", str(card), "-o.sheet", cwd=folder)
        check(done.returncode == 0 and not done.stderr, f"{words}: {done}")
        well_formed([words[1], *words], done)
    check(b"&lt;b&gt; &amp; &quot;c&quot;" in kit.out("show", "--svg", str(card)), "the name stands in the picture")


# ---- a terminal, and many cards


def on_terminal(kit, words, **more):
    """What it writes where both its outputs are a terminal, and its exit status."""
    ours, theirs = pty.openpty()
    more = {"cwd": ROOT, **more}
    child = subprocess.Popen([kit.program, *words], stdin=subprocess.DEVNULL, stdout=theirs, stderr=theirs, **more)
    os.close(theirs)
    return child, ours


def all_of(child, ours):
    text = b""
    while True:
        try:
            part = os.read(ours, 4096)
        except OSError:
            part = b""
        if not part:
            break
        text += part
    os.close(ours)
    return text, child.wait(60)


def colours(kit):
    plain = {k: v for k, v in os.environ.items() if k != "NO_COLOR"}
    for words in (["plan", "cards/sample.card"], ["check", "cards/broken/refused-6.card"], ["show", "cards/sample.card"], ["tree", "cards/sample.card"]):
        coloured, _ = all_of(*on_terminal(kit, words, env=plain))
        check(b"\x1b[" in coloured, f"{words}: no colour on a terminal")
        for value in ("1", ""):
            kept_plain, _ = all_of(*on_terminal(kit, words, env={**plain, "NO_COLOR": value}))
            check(b"\x1b[" not in kept_plain, f"{words}: colour with NO_COLOR")
        done = kit.run(*words, env=plain)
        check(b"\x1b[" not in done.stdout, f"{words}: colour in a pipe")
        check(re.sub(rb"\x1b\[[\d;]*m", b"", coloured).replace(b"\r", b"") == done.stdout, f"{words}: other words on a terminal")
    with tempfile.TemporaryDirectory() as folder:
        file = f"{folder}/drawn"
        for words in (["show", "cards/sample.card", "-o", file], ["tree", "cards/sample.card", "-o", file]):
            all_of(*on_terminal(kit, words, env=plain))
            check(b"\x1b" not in pathlib.Path(file).read_bytes(), f"{words}: colour in a file")
    text, status = all_of(*on_terminal(kit, ["card", "cards/sample.txt"]))
    check(status == 2 and text.startswith(b"kit: a card is bytes"), "no bytes on a terminal")


def seen(ours, what, seconds=60):
    """Reads until the words come, or fails."""
    text, end = b"", time.monotonic() + seconds
    while not re.search(what, text):
        ready, _, _ = select.select([ours], [], [], max(0, end - time.monotonic()))
        check(ready, f"{what} does not come: {text[-300:]}")
        text += os.read(ours, 4096)
    return text


def long_card(kit, folder):
    """A card that does not come for long: the others are done in the meantime, told in their order, and the progress is shown."""
    for name in ("1-slow", "3-slow"):
        os.mkfifo(folder / f"{name}.card")
    card = (ROOT / "cards/sample.card").read_bytes()
    (folder / "2.card").write_bytes(card)
    (folder / "4.card").write_bytes(card)
    sheets = folder / "sheets"
    sheets.mkdir()
    child, ours = on_terminal(kit, ["plan", "-j", "1", ".", "-o", "sheets"], env={**os.environ, "NO_COLOR": "1"}, cwd=folder)
    try:
        held_up_none(child, ours, folder, sheets)
    finally:
        child.kill()


def held_up_none(child, ours, folder, sheets):
    card = (ROOT / "cards/sample.card").read_bytes()
    line = seen(ours, rb"0 of 4 told, \d+ s with \./1-slow.card")
    check(all(len(part) < 80 for part in line.split(b"\r\x1b[K")), f"the progress is more than a line: {line}")
    # both wait to be read, so two cards are at hand though one at a time was asked for; and the others are written meanwhile
    end = time.monotonic() + 60
    while not (sheets / "4.sheet").exists() and time.monotonic() < end:
        time.sleep(0.05)
    check(sorted(f.name for f in sheets.iterdir()) == ["2.sheet", "4.sheet"], "the others are held up")
    for name in ("3-slow", "1-slow"):
        (folder / f"{name}.card").write_bytes(card)
    text, status = all_of(child, ours)
    check(re.search(rb"\r\x1b\[K\S*1-slow\.card: planned", text), f"the progress stands before what is told: {text}")
    told = re.findall(rb"(\S+)\.card: planned, 2 steps", text)
    check([t.split(b"/")[-1] for t in told] == [b"1-slow", b"2", b"3-slow", b"4"], f"the order is another: {text}")
    check(status == 0 and b"4 cards: 4 planned, 0 refused, 0 errors" in text, f"the summary: {text}")


def many_cards(kit, folder):
    """However many at a time, the same is told."""
    outputs = {kit.run("plan", "--json", "-j", str(n), "cards", "cards/broken").stdout for n in (1, 2, 8)}
    check(len(outputs) == 1 and len(next(iter(outputs)).splitlines()) == 22, "-j changes what is told")
    kit.run("plan", "cards", "-o", str(folder))
    for sheet in ROOT.glob("cards/*.sheet"):
        check((folder / sheet.name).read_bytes() == sheet.read_bytes(), f"{sheet.name} among many")
    check(len(list(folder.iterdir())) == 7, "a sheet for each planned card")
    for card in ROOT.glob("cards/*.card"):
        (folder / card.name).write_bytes(card.read_bytes())
    check(kit.run("plan", str(folder), "-o", str(folder)).returncode == 1, "sheets beside their cards")
    told = kit.out("read", "cards", str(folder))
    check(told.endswith(b"7 cards: 7 accepted, 0 refused, 0 errors\n"), "cards of one folder with sheets of another")
    fails(kit, "two cards, one sheet", "plan", "cards/pump.card", "cards/pump.card", "-o", str(folder))


def main(program, write):
    kit = Kit(program)
    both_forms(kit)
    stored_outputs(kit, write)
    pictures(kit, write)
    manual(kit)
    lost_output(kit)
    wrong_usage(kit)
    streams(kit)
    colours(kit)
    for test in (failing_files, cut_off, odd_names, long_card, many_cards):
        with tempfile.TemporaryDirectory() as folder:
            test(kit, pathlib.Path(folder))
    print(f"desk.py: {passed} checks passed")


if __name__ == "__main__":
    if len(sys.argv) < 2 or sys.argv[2:] not in ([], ["--write"]):
        sys.exit(__doc__)
    try:
        main(sys.argv[1], bool(sys.argv[2:]))
    except Wrong as wrong:
        sys.exit(f"desk.py: {wrong}")
