//! What `--help` says.
use crate::args::Command;

pub const MAIN: &str = "\
kit sees, writes, checks and explains cards and sheets of the kit planner.

    kit plan  CARD.. [-o SHEET]     plan a card: each step in words, each line with its mark
    kit read  CARD SHEET ..         check a sheet against its card
    kit check CARD..                tell whether a card is sound, or what is wrong, where and why
    kit show  CARD [SHEET]          draw every byte; --svg as a picture for the wall
    kit tree  CARD [SHEET]          draw the way of doing the job; --dot, --svg
    kit card  TEXT [-o CARD]        a text card to bytes
    kit text  CARD                  a card to text; --nodes, --bytes

    kit COMMAND --help              more of one command
    kit --version

A file - is standard input. -o FILE writes the file whole or not at all. --names FILE has words
for numbers. --json tells everything as JSON. Nodes, rules, lines, lent clauses, steps and
conditions are counted from 0.

Exit status: 0 planned, accepted, sound, written; 1 refused; 2 wrong usage, a mistake in a text,
or a file that cannot be read or written.
";

const PLAN: &str = "\
kit plan CARD.. [-o SHEET] [-j N] [--names FILE] [--json]

Plans each card: the steps in order, with the entry used (rule 0, line 2, lent 1), what it gives
and what for, or with the side chosen (left, right) and what that is; then each line of the tray
with its mark in words: used, used one way only (one side of an either way uses it, the other does
not), taken by rest, or left on the tray. Or the refusal and its reason.

    -o SHEET      writes the sheet's bytes; with several cards a folder, for a file NAME.sheet each;
                  - writes them to standard output, and nothing else
    -j N          so many cards at a time; as many as there are cores where it is not given
    --names FILE  words for numbers: statements \"name WORD NUMBER\", in a file of their own or in a text card
    --json        an object a card

A folder stands for its files NAME.card. Several cards are told a line each, in the order given,
with a summary at the end, and the exit status is the worst of all. A card that takes longer than
a second does not hold up the others; on a terminal a line then tells how far it is.
";

const READ: &str = "\
kit read CARD SHEET [CARD SHEET ..] [-j N] [--names FILE] [--json]
kit read FOLDER [FOLDER] [-j N] [--names FILE] [--json]

Checks each sheet against its card: accepted with the number of its steps, or the refusal, where
it is and why. A folder stands for its files NAME.sheet, each read against NAME.card beside it; of
two folders the first has the cards, the second the sheets.

    -j N          so many at a time
    --names FILE  words for numbers
    --json        an object a sheet
";

const CHECK: &str = "\
kit check CARD.. [-j N] [--names FILE] [--json]

Tells of each card that it is sound; or the refusal's number and place, the offset of the wrong
bytes, these bytes with carets under them, and the reason that applies.

    -j N          so many cards at a time
    --names FILE  words for numbers
    --json        an object a card: number, place, index, offset, length, reason

A folder stands for its files NAME.card.
";

const SHOW: &str = "\
kit show CARD [SHEET] [--svg] [-o FILE] [--names FILE] [--json]

Draws every byte in order: its offset, its value in hex and what it is; nodes with their formulas,
rules and lines with their entry numbers; the sheet likewise. A card or sheet that is refused is
drawn too, with carets under what is wrong (status 1).

    --svg         a picture: boxes as wide as they have bytes, coloured by part
    -o FILE       writes to the file
    --names FILE  words for numbers
    --json        a list with an object for the card and one for the sheet
";

const TREE: &str = "\
kit tree CARD [SHEET] [--svg | --dot] [-o FILE] [--names FILE] [--json]

Draws the way of doing the job as an indented tree: what is needed, the entry used for it, and
below it the entry's conditions; both, either way and lends; the sides chosen of menus and of one
ofs. It is the plan's way, or that of a sheet that is accepted.

    --dot         a graph for Graphviz
    --svg         a picture
    -o FILE       writes to the file
    --names FILE  words for numbers
    --json        nested objects
";

const CARD: &str = "\
kit card TEXT [-o CARD] [--as-is] [--names FILE] [--json]

Writes the bytes of a text card. One statement a line; # begins a comment:

    name seal 101                   # a word for a name's number, 0 to 999
    name body 102
    name pump 103
    limits nesting 4 steps 8        # how deep uses may nest, and how many steps there may be
    goal (pump both rest)           # what is to come out
    rule ((2 of seal) gives pump)   # may be used any number of times
    must seal                       # a line of the tray that is used, or a rest takes it
    must seal times 3               # three such lines
    may (body gives pump)           # a line of the tray that may be used

Formulas: a word or a number (a name), rest, done, never, (G both H), (G either way H),
(G one of H), (lend D to G), (G gives D), (D menu E), and (3 of G) for so many. Whatever has parts
has parentheses.

A mistake is told as FILE:LINE:COLUMN with the line and a caret (status 2), and nothing is written.
Statements \"node ..\" (as kit text --nodes writes them) and \"bytes ..\" (kit text --bytes) are read too.

    -o CARD       writes the file; else the bytes go to standard output, if that is no terminal
    --as-is       writes bytes that the check refuses, too
    --names FILE  more words
    --json        tells what was written; without -o it tells the bytes, and writes none
";

const TEXT: &str = "\
kit text CARD [-o TEXT] [--nodes | --bytes] [--names FILE] [--json]

Writes a sound card as a text card, with formulas: the same goal, rules, lines and limits.

    --nodes       one line a node: kit card makes the very card of it
    --bytes       one line a field, for any bytes, also a broken card: likewise
    -o TEXT       writes the file
    --names FILE  words for numbers
    --json        an object
";

/// The page of a command.
pub fn page(command: Option<Command>) -> &'static str {
    match command {
        None => MAIN,
        Some(Command::Plan) => PLAN,
        Some(Command::Read) => READ,
        Some(Command::Check) => CHECK,
        Some(Command::Show) => SHOW,
        Some(Command::Tree) => TREE,
        Some(Command::Card) => CARD,
        Some(Command::Text) => TEXT,
    }
}
