//! Mistakes in text cards: where and what, status 2, nothing written.
use desk::names::Names;
use desk::text::parse;
use std::io::Write;
use std::process::{Command, Stdio};
use std::{env, process};

const FRONT: &str = "name seal 101\nname body 102\nlimits nesting 4 steps 8\ngoal seal\n";

/// A line behind FRONT, the columns of the carets, and what is wrong there.
const LINES: [(&str, (usize, usize), &str); 50] = [
    ("must bodi", (6, 4), "\"bodi\" is no name"),
    ("must (seal gives bodi)", (18, 4), "\"bodi\" is no name"),
    ("rule (seal gives 1000)", (18, 4), "1000 is too much: a name goes to 999"),
    (
        "rule (seal gives 99999999999999999999)",
        (18, 20),
        "99999999999999999999 is too much: a name goes to 999",
    ),
    ("rule (seal gives 1a)", (18, 2), "\"1a\" is no number: a name is expected here"),
    ("must", (5, 1), "a formula is missing"),
    ("must (", (7, 1), "a formula is missing"),
    ("must ()", (7, 1), "a formula is missing before \")\""),
    ("must (seal gives body", (22, 1), "\")\" is missing"),
    ("must (seal", (11, 1), "\")\" is missing"),
    ("must (seal gives body))", (23, 1), "\")\" is not expected here: the statement ends before it"),
    ("must seal body", (11, 4), "\"body\" is not expected here: the statement ends before it"),
    ("must seal gives body", (11, 5), "\"gives\" is not expected here: the statement ends before it"),
    ("must (seal with body)", (12, 4), "\"with\" is not expected here: both, either way, one of, gives, menu or \")\" is"),
    ("must (seal either body)", (19, 4), "\"body\" is not expected here, but \"way\" is"),
    ("must (lend seal body)", (17, 4), "\"body\" is not expected here, but \"to\" is"),
    ("must (seal one body)", (16, 4), "\"body\" is not expected here, but \"of\" is"),
    ("must (one of seal)", (7, 3), "\"one\" is no number: how many is expected here"),
    ("must (seal menu)", (16, 1), "a formula is missing before \")\""),
    ("must never", (6, 5), "a line cannot be this, which is no clause: a name, rest, a recipe (\"gives\") or a menu is one"),
    (
        "must (seal menu (seal one of body))",
        (17, 18),
        "the right side cannot be this, which is no clause: a name, rest, a recipe (\"gives\") or a menu is one",
    ),
    (
        "rule ((seal menu body) gives seal)",
        (7, 16),
        "the condition cannot be this, which is no goal: a recipe (\"gives\") or a menu is none",
    ),
    (
        "rule (((seal gives body) one of seal) gives seal)",
        (8, 17),
        "the left side cannot be this, which is no goal: a recipe (\"gives\") or a menu is none",
    ),
    ("name menu 7", (6, 4), "\"menu\" cannot be a name's word: it begins with no letter, or the format keeps it"),
    ("must both", (6, 4), "\"both\" is no name"),
    ("must seal times 65", (17, 2), "65 is too much: the number of lines goes to 64"),
    (
        "must (seal both body)",
        (6, 16),
        "a line cannot be this, which is no clause: a name, rest, a recipe (\"gives\") or a menu is one",
    ),
    (
        "rule done",
        (6, 4),
        "a rule cannot be this, which is no clause: a name, rest, a recipe (\"gives\") or a menu is one",
    ),
    (
        "may (done gives (seal both body))",
        (17, 16),
        "what it gives cannot be this, which is no clause: a name, rest, a recipe (\"gives\") or a menu is one",
    ),
    (
        "rule ((seal gives body) gives seal)",
        (7, 17),
        "the condition cannot be this, which is no goal: a recipe (\"gives\") or a menu is none",
    ),
    (
        "rule ((2 of (seal gives body)) gives seal)",
        (13, 17),
        "a quantity cannot be this, which is no goal: a recipe (\"gives\") or a menu is none",
    ),
    ("rule ((0 of seal) gives body)", (8, 1), "0 of something is no formula: \"done\" asks for nothing"),
    ("goal seal", (1, 4), "the goal is told twice"),
    ("limits nesting 1 steps 1", (1, 6), "the limits are told twice"),
    ("name cup 1000", (10, 4), "1000 is too much: a name's number goes to 999"),
    ("name seal 102", (11, 3), "\"seal\" is already name 101"),
    ("name cup 101", (10, 3), "name 101 is already \"seal\""),
    (
        "name both 7",
        (6, 4),
        "\"both\" cannot be a name's word: it begins with no letter, or the format keeps it",
    ),
    (
        "name 7up 7",
        (6, 3),
        "\"7up\" cannot be a name's word: it begins with no letter, or the format keeps it",
    ),
    ("name cup", (9, 1), "a name's number is missing"),
    (
        "muss seal",
        (1, 4),
        "\"muss\" begins no statement: name, limits, goal, rule, must, may, node, bytes do",
    ),
    ("must seal!", (10, 1), "\"!\" cannot stand here"),
    ("must seal\u{1b}[1m", (10, 1), "U+001B cannot stand here"),
    ("must seal times 0", (17, 1), "0 times something is no line"),
    ("\tmust\tbodi", (7, 4), "\"bodi\" is no name"),
    ("node 5 rest", (6, 1), "node 1 is expected here"),
    ("node 1 both 0 1", (15, 1), "there is no node 1 yet"),
    ("must node 7", (11, 1), "there is no node 7 yet"),
    ("bytes 00", (1, 5), "a card is written by \"bytes\" alone, or without"),
    ("rule (body gives (ü gives seal)) # ü", (19, 1), "\"ü\" is no name"),
];

#[test]
fn a_mistake_is_told_where_it_is() {
    for (line, (column, width), words) in LINES {
        let text = format!("{FRONT}{line}\nmay body\n");
        let Err(mistake) = parse(&text, &Names::default()) else { panic!("{line:?} passes") };
        let under: String =
            line.chars().take(column - 1).map(|c| if c == '\t' { '\t' } else { ' ' }).collect();
        let line = line.replace('\u{1b}', "\u{fffd}");
        let told = format!("desk.txt:5:{column}: {words}\n{line}\n{under}{}\n", "^".repeat(width));
        assert_eq!(mistake.told("desk.txt", &text), told);
    }
}

/// Whole texts past a limit of the format, or without what a card needs.
fn past_limits() -> Vec<(String, String)> {
    let front = "limits nesting 16 steps 255\ngoal 1\n";
    let tall = |n: usize| (0..n).fold("1".to_string(), |formula, _| format!("({formula} both 2)"));
    let many =
        |n: usize| (0..n).map(|i| format!("rule ({} gives {})\n", i % 999, i / 999)).collect::<String>();
    let nodes = |n: usize| (1..n).map(|i| format!("node {i} name {i}\n")).collect::<String>();
    vec![
        (format!("{front}{}", many(65)), "67:1: a card has at most 64 rules".into()),
        (format!("{front}{}", "may 1\n".repeat(65)), "67:1: a card has at most 64 lines".into()),
        (format!("{front}may 1\nmust 2 times 64\n"), "4:1: a card has at most 64 lines".into()),
        (
            format!("{front}rule ({} gives 1)\n", tall(8)),
            "3:7: this has height 9; at most 8 fit a card".into(),
        ),
        (
            format!("{front}rule ({} gives 1)\n", tall(7)),
            "3:6: this has height 9; at most 8 fit a card".into(),
        ),
        (
            format!("{front}rule ((255 of 3) gives 1)\n"),
            "3:7: this has height 9; at most 8 fit a card".into(),
        ),
        (format!("{front}{}", nodes(513)), "514:10: this is node 512; a card has at most 512".into()),
        (format!("{front}{}may 999\n", nodes(512)), "514:5: this is node 512; a card has at most 512".into()),
        ("limits nesting 17 steps 1\n".into(), "1:16: 17 is too much: the nesting limit goes to 16".into()),
        ("limits nesting 1 steps 256\n".into(), "1:24: 256 is too much: the step limit goes to 255".into()),
        ("limits nesting 1 steps 1\n".into(), "1:1: the card has no \"goal\" statement".into()),
        ("# nothing\n\ngoal 1\n# end\n".into(), "4:1: the card has no \"limits\" statement".into()),
        (String::new(), "1:1: the card has no \"goal\" statement".into()),
        (format!("{front}must {}1\n", "(".repeat(100_000)), "3:70: parentheses are nested too deep".into()),
        ("bytes 0\n".into(), "1:7: \"0\" is no byte: two hex digits are".into()),
        ("bytes 00 0G\n".into(), "1:10: \"0G\" is no byte: two hex digits are".into()),
        (
            "limits nesting 1 steps 1\nbytes 00\n".into(),
            "2:1: a card is written by \"bytes\" alone, or without".into(),
        ),
        (
            "limits nesting 17 steps 1\nname 5\n".into(),
            "1:16: 17 is too much: the nesting limit goes to 16".into(),
        ),
        (
            "goal cup\nname 5\nname cup 7\n$".into(),
            "2:6: \"5\" cannot be a name's word: it begins with no letter, or the format keeps it".into(),
        ),
        ("bytes 00\ngoal 1\n".into(), "2:1: a card is written by \"bytes\" alone, or without".into()),
        (
            "node 0 name 1\nnode 1 0 gives 0\nnode 2 both 0 1\n".into(),
            "3:8: node 1 is no goal, which both asks for there".into(),
        ),
        (
            "node 0 name 1\nnode 1 never\nnode 2 menu 0 1\n".into(),
            "3:8: node 1 is no clause, which menu asks for there".into(),
        ),
        (
            "node 0 name 1\nnode 1 menu 0 0\nnode 2 one of 1 0\n".into(),
            "3:8: node 1 is no goal, which one of asks for there".into(),
        ),
        ("node 0 one 0 0\n".into(), "1:12: \"0\" is not expected here, but \"of\" is".into()),
        ("node 0 fly 1\n".into(), "1:8: \"fly\" is no number: a node's number is expected here".into()),
    ]
}

#[test]
fn limits_are_told_before_a_byte_is_written() {
    let file = env::temp_dir().join(format!("kit-mistakes-{}.card", process::id()));
    for (text, words) in past_limits() {
        let mut kit = Command::new(env!("CARGO_BIN_EXE_kit"));
        let kit = kit.args(["card", "-", "-o"]).arg(&file);
        let mut kit =
            kit.stdin(Stdio::piped()).stdout(Stdio::piped()).stderr(Stdio::piped()).spawn().unwrap();
        kit.stdin.take().unwrap().write_all(text.as_bytes()).unwrap();
        let output = kit.wait_with_output().unwrap();
        let told = String::from_utf8(output.stderr).unwrap();
        assert_eq!(told.lines().next(), Some(format!("-:{words}").as_str()));
        assert_eq!((output.status.code(), output.stdout.is_empty()), (Some(2), true), "{words}");
        assert!(!file.exists(), "{words}");
    }
}

#[test]
fn the_limits_themselves_are_kept() {
    let rules: String = (0..64).map(|i| format!("rule ({i} gives {})\n", i + 1)).collect();
    let tall = (0..7).fold("1".to_string(), |formula, _| format!("({formula} both 999)"));
    let text = format!("limits nesting 16 steps 255\ngoal {tall}\n{rules}may 0 times 64\n");
    let bytes = parse(&text, &Names::default()).expect("all of it fits").bytes;
    assert_eq!(kit_planner::check(&bytes), Ok(()));
    let quantity = "limits nesting 0 steps 0\ngoal (128 of 0)\n";
    let bytes = parse(quantity, &Names::default()).expect("it has height 8").bytes;
    assert_eq!(bytes.len(), 11 + 5 * 8);
}

#[test]
fn of_a_long_line_the_part_around_the_mistake_is_shown() {
    let line = format!("must {}bodi {}", " ".repeat(1000), "x".repeat(1000));
    let mistake = parse(&line, &Names::default()).err().expect("there is no such name");
    let told = mistake.told("desk.txt", &line);
    let lines: Vec<&str> = told.lines().collect();
    assert_eq!(lines[0], "desk.txt:1:1006: \"bodi\" is no name");
    assert_eq!(lines[1], format!("{}bodi {}", " ".repeat(80), "x".repeat(35)));
    assert_eq!(lines[2], format!("{}^^^^", " ".repeat(80)));
}
