//! Two cards on one bench: the joined card from the fields of both, and which card holds a line.
use super::decode::{self, word, Card, Goal, LEFT};
use super::refused;
use kit_planner::{BenchRefusal, Place, Refusal, Which};

/// A sound card's fields. A node is kind, left and right; a line is its node and its must/may byte.
struct Fields {
    goal: usize,
    d: u8,
    s: u8,
    nodes: Vec<(u8, usize, usize)>,
    rules: Vec<usize>,
    lines: Vec<(usize, u8)>,
}

impl Fields {
    fn read(bytes: &[u8]) -> Fields {
        let (nodes, behind) = bytes[11..].split_at(5 * word(bytes, 5));
        let (rules, lines) = behind.split_at(2 * usize::from(bytes[3]));
        Fields {
            goal: word(bytes, 7),
            d: bytes[9],
            s: bytes[10],
            nodes: nodes.chunks(5).map(|b| (b[0], word(b, 1), word(b, 3))).collect(),
            rules: rules.chunks(2).map(|b| word(b, 0)).collect(),
            lines: lines.chunks(3).map(|b| (word(b, 0), b[2])).collect(),
        }
    }

    /// Every node's number raised by n. What kinds 1 to 3 and 9 hold are no nodes' numbers.
    fn moved(mut self, n: usize) -> Fields {
        for (_, left, right) in self.nodes.iter_mut().filter(|node| ![1, 2, 3, 9].contains(&node.0)) {
            *left += n;
            *right += n;
        }
        self.rules.iter_mut().for_each(|rule| *rule += n);
        self.lines.iter_mut().for_each(|line| line.0 += n);
        self.goal += n;
        self
    }

    /// Both cards, and the new goal behind their nodes.
    fn joined(self, second: Fields) -> Fields {
        let second = second.moved(self.nodes.len());
        let new = (4, self.goal, second.goal);
        let nodes = [self.nodes, second.nodes, vec![new]].concat();
        Fields {
            goal: nodes.len() - 1,
            d: self.d.max(second.d),
            s: self.s.saturating_add(second.s),
            nodes,
            rules: [self.rules, second.rules].concat(),
            lines: [self.lines, second.lines].concat(),
        }
    }

    /// All but the length, which stands first.
    fn tail(&self) -> Vec<u8> {
        let two = |n: usize| [(n / 256) as u8, (n % 256) as u8];
        let mut bytes = vec![1, self.rules.len() as u8, self.lines.len() as u8];
        bytes.extend([two(self.nodes.len()), two(self.goal)].concat());
        bytes.extend([self.d, self.s]);
        for &(kind, left, right) in &self.nodes {
            bytes.push(kind);
            bytes.extend([two(left), two(right)].concat());
        }
        self.rules.iter().for_each(|&rule| bytes.extend(two(rule)));
        for &(node, must) in &self.lines {
            bytes.extend(two(node));
            bytes.push(must);
        }
        bytes
    }

    fn bytes(&self) -> Vec<u8> {
        let tail = self.tail();
        let size = tail.len() + 2;
        [vec![(size / 256) as u8, (size % 256) as u8], tail].concat()
    }
}

/// A goal's height.
pub fn height(goal: &Goal) -> usize {
    match goal {
        Goal::Name(_) | Goal::Rest | Goal::Done | Goal::Never => 1,
        Goal::Both(a, b) | Goal::Either(a, b) | Goal::OneOf(a, b) => 1 + height(a).max(height(b)),
        Goal::Lend(d, g) => 1 + d.height.max(height(g)),
    }
}

/// The most rules, lines and nodes of a card, and the greatest height.
pub const LIMITS: [usize; 4] = [64, 64, 512, 8];

/// The same of the joined card, its goal's height for the height, whether or not it can be.
pub fn sizes(first: (&[u8], &Card), second: (&[u8], &Card)) -> [usize; 4] {
    let (a, b) = (first.1, second.1);
    let rules = a.rules.len() + b.rules.len();
    let lines = a.lines.len() + b.lines.len();
    let nodes = word(first.0, 5) + word(second.0, 5) + 1;
    [rules, lines, nodes, 1 + height(&a.goal).max(height(&b.goal))]
}

fn neither<T>(number: u8, place: Place) -> Result<T, BenchRefusal> {
    refused(number, place).map_err(|refusal| BenchRefusal { card: None, refusal })
}

/// The two cards, or the first of the refusals that asking and joining share.
fn checked(first: &[u8], second: &[u8]) -> Result<(Card, Card), BenchRefusal> {
    let own = |card| move |refusal: Refusal| BenchRefusal { card: Some(card), refusal };
    let a = decode::card(first).map_err(own(Which::First))?;
    let b = decode::card(second).map_err(own(Which::Second))?;
    let sizes = sizes((first, &a), (second, &b));
    if sizes.iter().zip(LIMITS).any(|(&size, limit)| size > limit) {
        return neither(15, Place::Card);
    }
    Ok((a, b))
}

/// What joining two cards into a buffer of so many bytes answers: the joined card or a refusal.
pub fn join(first: &[u8], second: &[u8], size: usize) -> Result<Vec<u8>, BenchRefusal> {
    checked(first, second)?;
    let joined = Fields::read(first).joined(Fields::read(second)).bytes();
    if size < joined.len() {
        return neither(10, Place::Sheet);
    }
    Ok(joined)
}

/// Which card holds the joined card's line i, and where it begins there. The lines are a card's last bytes.
pub fn source(first: &[u8], second: &[u8], i: u16) -> Result<(Which, usize), BenchRefusal> {
    let (a, b) = checked(first, second)?;
    let lines = |card, bytes: &[u8], t: usize| {
        let begin = bytes.len() - 3 * t;
        (0..t).map(move |j| (card, begin + 3 * j))
    };
    let of_first = lines(Which::First, first, a.lines.len());
    let mut all = of_first.chain(lines(Which::Second, second, b.lines.len()));
    all.nth(usize::from(i)).map_or_else(|| neither(16, Place::Line(i)), Ok)
}

/// The list of the joined card that does what one of its two cards' lists does. Choices stay what they are.
pub fn renumbered(list: &[u8], which: Which, first: &Card, second: &Card) -> Vec<u8> {
    let own = which.of(first, second);
    let other = which.of(second, first);
    let (p, t) = (own.rules.len(), own.lines.len());
    let (q, u) = (other.rules.len(), other.lines.len());
    // the second's rules and lines stand behind the first's; the rules before all lines, lines before what is lent
    let more = |e: usize| match which {
        Which::First if e < p => 0,
        Which::First if e < p + t => q,
        Which::Second if e < p => q,
        _ => q + u,
    };
    let moved = |e: u8| e + more(usize::from(e)) as u8;
    list.iter().map(|&step| if step < LEFT { moved(step) } else { step }).collect()
}
