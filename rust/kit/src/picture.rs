//! The drawing as a picture for the wall: a box for each field, as wide as it has bytes, coloured by part.
use crate::fields::{Field, Part};
use crate::svg::{wrapped, Svg, LINE};

/// Width of a byte, height of a row with one line of words, and the most height of a column of the picture.
const BYTE: f64 = 30.0;
const ROW: f64 = 24.0;
const COLUMN: f64 = 48.0 * ROW;
const TOP: f64 = 20.0;
const LEFT: f64 = 12.0;
const OFFSET: f64 = 42.0;
const GAP: f64 = 8.0;
const LETTERS: usize = 64;

fn colour(part: Part) -> &'static str {
    match part {
        Part::Front => "#dfe7f5",
        Part::Node(_) => "#d8f0e4",
        Part::Rule(_) | Part::Step(_) => "#f3def0",
        Part::Line(_) | Part::Mark(_) => "#fbeecb",
        Part::Behind => "#f6cfcf",
    }
}

/// What stands above the rows of a part.
fn heading(part: Part) -> &'static str {
    match part {
        Part::Front => "front",
        Part::Node(_) => "nodes, 5 bytes each: kind, left, right",
        Part::Rule(_) => "rules, 2 bytes each: node",
        Part::Line(_) => "lines, 3 bytes each: node, must or may",
        Part::Step(_) => "steps, 1 byte each: entry, or 254 left, 255 right",
        Part::Mark(_) => "marks, 1 byte each",
        Part::Behind => "behind the end",
    }
}

/// A card or sheet to be drawn: its title, its refusal in words, its bytes and fields, and the bytes that are wrong.
pub struct Drawn<'a> {
    pub title: String,
    pub refusal: Option<String>,
    pub bytes: &'a [u8],
    pub fields: Vec<Field>,
    pub wrong: Option<(usize, usize)>,
}

/// A row of the picture: the fields of a record, none for a heading, and its words.
struct Row<'a> {
    record: &'a [Field],
    words: Vec<String>,
}

impl Row<'_> {
    fn height(&self) -> f64 {
        ROW + LINE * (self.words.len() - 1) as f64
    }
}

impl Drawn<'_> {
    /// Whether the field holds wrong bytes.
    pub fn is_wrong(&self, field: &Field) -> bool {
        self.wrong.is_some_and(|(at, len)| at < field.at + field.len && field.at < at + len)
    }

    /// Each field of the front has a row of its own, and each record behind it; a heading stands above each part.
    fn rows(&self) -> Vec<Row<'_>> {
        let mut rows = Vec::new();
        let mut before = "";
        for record in self.fields.chunk_by(|a, b| a.part == b.part && a.part.index().is_some()) {
            let part = record[0].part;
            if part.word() != before {
                rows.push(Row { record: &[], words: vec![heading(part).to_string()] });
                before = part.word();
            }
            rows.push(Row { record, words: wrapped(&row_words(record), LETTERS) });
        }
        rows
    }

    /// The rows divided into columns of about the same height.
    fn columns(&self) -> Vec<Vec<Row<'_>>> {
        let rows = self.rows();
        let height: f64 = rows.iter().map(Row::height).sum();
        let most = height / (height / COLUMN).ceil().max(1.0);
        let mut columns = vec![Vec::new()];
        let mut filled = 0.0;
        for row in rows {
            if filled >= most {
                columns.push(Vec::new());
                filled = 0.0;
            }
            filled += row.height();
            columns.last_mut().expect("there is one").push(row);
        }
        columns
    }
}

/// The picture of a card, and of a sheet beside it.
pub fn svg(title: &str, drawn: &[Drawn]) -> String {
    let mut svg = Svg::default();
    let mut left = LEFT;
    for one in drawn {
        for (i, column) in one.columns().iter().enumerate() {
            let title = if i == 0 { one.title.clone() } else { format!("{}, continued", one.title) };
            let mut reach = svg.words((left, TOP), "head", &wrapped(&title, LETTERS));
            let mut top = reach.1 + 12.0 - LINE;
            if let Some(refusal) = one.refusal.as_ref().filter(|_| i == 0) {
                let told = svg.words((left, top + LINE), "bad", &wrapped(refusal, LETTERS));
                (reach.0, top) = (reach.0.max(told.0), told.1 + 12.0 - LINE);
            }
            for row in column {
                reach.0 = reach.0.max(draw_row(&mut svg, one, row, left, top));
                top += row.height();
            }
            left = reach.0 + 4.0 * GAP;
        }
    }
    svg.done(title)
}

/// Draws a row and tells how far it reaches.
fn draw_row(svg: &mut Svg, drawn: &Drawn, row: &Row, left: f64, top: f64) -> f64 {
    let mut x = left + OFFSET;
    let Some(first) = row.record.first() else {
        return svg.words((x, top + 16.0), "dim", &row.words).0;
    };
    svg.words((left, top + 16.0), "dim", &[first.at.to_string()]);
    for field in row.record {
        let width = BYTE * field.len as f64;
        let fill = if drawn.is_wrong(field) { "#ff9d94" } else { colour(field.part) };
        svg.block((x, top), (width, ROW - 4.0), fill, &field.hex(drawn.bytes), &field.about());
        x += width;
    }
    svg.words((x + GAP, top + 16.0), "", &row.words).0
}

/// What a row says: of a node its formula, of a rule or line its entry and formula, of others their field and value.
fn row_words(record: &[Field]) -> String {
    let (first, last) = (&record[0], &record[record.len() - 1]);
    match (last.part, record.len()) {
        (Part::Node(_), 3) => last.note.clone(),
        (Part::Rule(_), 1) => format!("{}, {}: {}", last.part, last.note, last.value),
        (Part::Line(_), 2) => {
            let must = last.value.split_once(", ").map_or("", |(_, word)| word);
            format!("{}, {}, {must}: {}", last.part, last.note, first.value)
        }
        _ => last.about(),
    }
}
