//! Any bytes are drawn, each in its turn.
#[path = "../../tests/cards/mod.rs"]
mod cards;

use cards::{any_card, any_step, Draft, Random};
use desk::card::{Card, Sound};
use desk::fields::{card_fields, sheet_fields, Field};
use desk::names::Names;
use desk::picture::{svg, Drawn};
use desk::way::walk;
use kit_planner::Mark;

/// Every byte stands in just one field, and the fields in order.
fn whole(bytes: &[u8], fields: &[Field]) {
    let mut at = 0;
    for field in fields {
        assert!(field.at == at && field.len > 0, "{}", field.about());
        at += field.len;
    }
    assert_eq!(at, bytes.len());
}

#[test]
fn every_byte_of_a_card_is_drawn() {
    let r = &mut Random::new(7);
    let names = Names::default();
    for i in 0..30_000 {
        let bytes = match i % 3 {
            0 => {
                let n = r.below(80);
                r.bytes(n)
            }
            _ => any_card(r),
        };
        let fields = card_fields(Card::new(&bytes), &names);
        whole(&bytes, &fields);
        if i % 50 == 0 {
            let boxes = fields.len();
            let drawn = Drawn { title: String::new(), refusal: None, bytes: &bytes, fields, wrong: None };
            assert_eq!(svg("", &[drawn]).matches("<rect x=").count(), boxes);
        }
    }
}

#[test]
fn every_byte_of_a_sheet_is_drawn() {
    let r = &mut Random::new(8);
    let names = Names::default();
    for _ in 0..10_000 {
        let bytes = Draft::sound(r, 4, 6).bytes();
        let card = Sound::checked(&bytes).expect("it is sound");
        let n = r.below(24);
        let mut sheet = r.bytes(n);
        if n > 4 && r.once_in(2) {
            sheet[3] = r.below(n) as u8;
            sheet[4] = card.lines() as u8;
        }
        for step in sheet.iter_mut().skip(5) {
            *step = if r.once_in(2) { any_step(r, 8) } else { *step };
        }
        let steps = sheet.get(5..).unwrap_or_default();
        whole(&sheet, &sheet_fields(*card, &sheet, &walk(card, steps).taken, &names));
    }
}

/// Marks are drawn in the library's words for them, and what is none as unknown.
#[test]
fn every_mark_is_drawn_in_words() {
    let mut draft = Draft::limits(1, 1);
    let name = draft.name(1);
    draft.may(&[name; 5]);
    let bytes = draft.bytes();
    let card = Sound::checked(&bytes).expect("it is sound");
    let sheet = [0, 10, 1, 0, 5, 0, 1, 2, 3, 4];
    let fields = sheet_fields(*card, &sheet, &walk(card, &[]).taken, &Names::default());
    let told: Vec<_> = fields[4..].iter().map(|field| field.value.clone()).collect();
    let marks = [Mark::Left, Mark::Used, Mark::Covered, Mark::OneWay];
    for (i, mark) in marks.into_iter().enumerate() {
        assert_eq!(told[mark as usize], format!("{i}, line {i} is {mark}"));
    }
    assert_eq!(told[4], "4, line 4 is unknown");
}

#[test]
fn a_card_that_doubles_at_every_node_is_drawn() {
    let mut draft = Draft::limits(1, 1);
    draft.name(1);
    for i in 0..511 {
        draft.add(4, i, i);
    }
    draft.goal = 511;
    let bytes = draft.bytes();
    let fields = card_fields(Card::new(&bytes), &Names::default());
    whole(&bytes, &fields);
    assert_eq!(kit_planner::check(&bytes).unwrap_err().number, 6);
}
