//! Cards and damage from a fixed seed.
#![allow(dead_code)]

/// xorshift64*
pub struct Random(u64);

impl Random {
    pub fn new(seed: u64) -> Random {
        Random(seed * 2 + 1)
    }

    pub fn next(&mut self) -> u64 {
        self.0 ^= self.0 >> 12;
        self.0 ^= self.0 << 25;
        self.0 ^= self.0 >> 27;
        self.0.wrapping_mul(0x2545_f491_4f6c_dd1d) >> 16
    }

    /// Below n.
    pub fn below(&mut self, n: usize) -> usize {
        self.next() as usize % n
    }

    /// Once in n.
    pub fn once_in(&mut self, n: usize) -> bool {
        self.below(n) == 0
    }

    pub fn pick<T: Copy>(&mut self, from: &[T]) -> T {
        from[self.below(from.len())]
    }

    pub fn bytes(&mut self, n: usize) -> Vec<u8> {
        (0..n).map(|_| self.next() as u8).collect()
    }

    pub fn shuffle<T>(&mut self, these: &mut [T]) {
        (1..these.len()).for_each(|i| these.swap(i, self.below(i + 1)));
    }
}

/// Kinds with parts, by how often a card grows one: the first seven kinds alone, or all.
pub const SEVEN: &[u8] = &[4, 4, 4, 5, 5, 6, 6, 7, 7, 7];
pub const ALL: &[u8] = &[4, 4, 4, 5, 5, 6, 6, 7, 7, 7, 8, 8, 10, 10];

/// A card on the way, with what each node reads as and its height.
#[derive(Clone, Default)]
pub struct Draft {
    pub nodes: Vec<(u8, usize, usize)>,
    goals: Vec<usize>,
    clauses: Vec<usize>,
    heights: Vec<usize>,
    pub goal: usize,
    pub rules: Vec<usize>,
    pub lines: Vec<(usize, u8)>,
    pub d: u8,
    pub s: u8,
}

fn push(bytes: &mut Vec<u8>, n: usize) {
    bytes.extend([(n / 256) as u8, n as u8]);
}

impl Draft {
    /// An empty card.
    pub fn limits(d: u8, s: u8) -> Draft {
        Draft { d, s, ..Draft::default() }
    }

    /// A node that holds lower ones, or a leaf.
    pub fn add(&mut self, kind: u8, left: usize, right: usize) -> usize {
        let i = self.nodes.len();
        let leaf = matches!(kind, 1..=3 | 9);
        let height = if leaf { 1 } else { 1 + self.heights[left].max(self.heights[right]) };
        self.nodes.push((kind, left, right));
        self.heights.push(height);
        if !matches!(kind, 7 | 10) {
            self.goals.push(i);
        }
        if matches!(kind, 1 | 2 | 7 | 10) {
            self.clauses.push(i);
        }
        i
    }

    pub fn name(&mut self, name: usize) -> usize {
        self.add(1, name, 0)
    }

    /// The balanced "both" of the goals.
    pub fn both(&mut self, goals: &[usize]) -> usize {
        self.balanced(4, goals)
    }

    /// The balanced "one of" of the goals.
    pub fn one_of(&mut self, goals: &[usize]) -> usize {
        self.balanced(8, goals)
    }

    /// The balanced menu of the clauses.
    pub fn menu(&mut self, clauses: &[usize]) -> usize {
        self.balanced(10, clauses)
    }

    fn balanced(&mut self, kind: u8, parts: &[usize]) -> usize {
        if let [one] = parts {
            return *one;
        }
        let (left, right) = parts.split_at(parts.len() / 2);
        let (left, right) = (self.balanced(kind, left), self.balanced(kind, right));
        self.add(kind, left, right)
    }

    /// The recipe with these conditions, the nearest to the head first.
    pub fn gives(&mut self, conditions: &[usize], head: usize) -> usize {
        conditions.iter().fold(head, |clause, &g| self.add(7, g, clause))
    }

    /// The same as a rule of the card.
    pub fn rule(&mut self, conditions: &[usize], head: usize) {
        let rule = self.gives(conditions, head);
        self.rules.push(rule);
    }

    pub fn must(&mut self, clauses: &[usize]) {
        self.lines.extend(clauses.iter().map(|&c| (c, 1)));
    }

    pub fn may(&mut self, clauses: &[usize]) {
        self.lines.extend(clauses.iter().map(|&c| (c, 0)));
    }

    pub fn bytes(&self) -> Vec<u8> {
        let size = 11 + 5 * self.nodes.len() + 2 * self.rules.len() + 3 * self.lines.len();
        let mut bytes = Vec::new();
        push(&mut bytes, size);
        bytes.extend([1, self.rules.len() as u8, self.lines.len() as u8]);
        push(&mut bytes, self.nodes.len());
        push(&mut bytes, self.goal);
        bytes.extend([self.d, self.s]);
        for &(kind, left, right) in &self.nodes {
            bytes.push(kind);
            push(&mut bytes, left);
            push(&mut bytes, right);
        }
        self.rules.iter().for_each(|&r| push(&mut bytes, r));
        for &(node, must) in &self.lines {
            push(&mut bytes, node);
            bytes.push(must);
        }
        bytes
    }

    fn low(&self, from: &[usize]) -> Vec<usize> {
        from.iter().copied().filter(|&i| self.heights[i] < 8).collect()
    }

    fn grow(&mut self, r: &mut Random, kinds: &[u8]) {
        let kind = r.pick(kinds);
        let (goals, clauses) = (self.low(&self.goals), self.low(&self.clauses));
        let left = if matches!(kind, 6 | 10) { r.pick(&clauses) } else { r.pick(&goals) };
        let right = if matches!(kind, 7 | 10) { r.pick(&clauses) } else { r.pick(&goals) };
        self.add(kind, left, right);
    }

    /// A clause: most often a name.
    fn clause(&self, r: &mut Random, names: usize) -> usize {
        if r.once_in(3) {
            r.pick(&self.clauses)
        } else {
            r.below(names)
        }
    }

    /// A sound card of at most so many rules and lines, as often as not with choices.
    pub fn sound(r: &mut Random, rules: usize, lines: usize) -> Draft {
        let kinds = r.pick(&[SEVEN, ALL]);
        Draft::sound_of(kinds, r, rules, lines)
    }

    /// The same of these kinds.
    pub fn sound_of(kinds: &[u8], r: &mut Random, rules: usize, lines: usize) -> Draft {
        let mut c = Draft::default();
        let names = 1 + r.below(3);
        for i in 0..names {
            c.name(i * 499 + 1);
        }
        for kind in [2, 3] {
            if r.once_in(2) {
                c.add(kind, 0, 0);
            }
        }
        if kinds.contains(&8) && r.once_in(6) {
            c.add(9, 0, 0);
        }
        for _ in 0..r.below(12) {
            c.grow(r, kinds);
        }
        let late = c.goals.len().saturating_sub(4);
        c.goal = r.pick(&c.goals[late..]);
        c.rules = (0..r.below(rules + 1)).map(|_| c.clause(r, names)).collect();
        let must = r.pick(&[1, 2, 4]);
        c.lines = (0..r.below(lines + 1)).map(|_| (c.clause(r, names), u8::from(r.once_in(must)))).collect();
        c.d = r.pick(&[0, 1, 2, 3, 3, 4, 5]);
        c.s = r.pick(&[0, 1, 2, 3, 4, 5, 6, 7, 8, 9, 10, 12]);
        c
    }

    /// A sound card of just so many rules, lines and nodes, at least 8, and a goal of this height.
    pub fn sized(r: &mut Random, rules: usize, lines: usize, nodes: usize, height: usize) -> Draft {
        let mut c = Draft::limits(r.below(17) as u8, r.next() as u8);
        let mut goal = c.name(r.below(1000));
        for _ in 1..height {
            let kind = r.pick(&[4, 5, 6, 8]);
            goal = if kind != 6 && r.once_in(2) { c.add(kind, goal, 0) } else { c.add(kind, 0, goal) };
        }
        c.goal = goal;
        while c.nodes.len() < nodes {
            match r.below(4) {
                0 => drop(c.name(r.below(1000))),
                1 => drop(c.add(r.pick(&[2, 3, 9]), 0, 0)),
                _ => c.grow(r, ALL),
            }
        }
        c.rules = (0..rules).map(|_| r.pick(&c.clauses)).collect();
        c.lines = (0..lines).map(|_| (r.pick(&c.clauses), r.below(2) as u8)).collect();
        c
    }
}

/// A formula's node. Names are letters; T is rest, 1 done, 0 never; the others stand before their two parts: * both,
/// & either way, - lend, > recipe, + one of, | menu.
fn formula(c: &mut Draft, text: &mut std::str::Chars) -> usize {
    let kind = match text.next().expect("a formula") {
        name @ 'a'..='z' => return c.name(name as usize - 'a' as usize + 1),
        'T' => return c.add(2, 0, 0),
        '1' => return c.add(3, 0, 0),
        '0' => return c.add(9, 0, 0),
        '*' => 4,
        '&' => 5,
        '-' => 6,
        '>' => 7,
        '+' => 8,
        '|' => 10,
        other => panic!("{other} is no formula"),
    };
    let left = formula(c, text);
    let right = formula(c, text);
    c.add(kind, left, right)
}

/// A card: its limits, its goal, its rules and lines with spaces between, a may line behind a question mark.
pub fn written(d: u8, s: u8, goal: &str, rules: &str, lines: &str) -> Vec<u8> {
    let mut c = Draft::limits(d, s);
    c.goal = formula(&mut c, &mut goal.chars());
    for rule in rules.split_whitespace() {
        let node = formula(&mut c, &mut rule.chars());
        c.rules.push(node);
    }
    for line in lines.split_whitespace() {
        let node = formula(&mut c, &mut line.trim_start_matches('?').chars());
        c.lines.push((node, u8::from(!line.starts_with('?'))));
    }
    c.bytes()
}

fn put_length(bytes: &mut [u8]) {
    let n = bytes.len();
    if n >= 2 {
        bytes[0] = (n / 256) as u8;
        bytes[1] = n as u8;
    }
}

/// A fault, or none, in the front.
fn damage_front(r: &mut Random, front: &mut [u8]) {
    if r.once_in(2) {
        front[r.below(10)] = r.next() as u8;
        return;
    }
    let edges = [(3, 64), (3, 65), (4, 64), (4, 65), (5, 2), (6, 0), (9, 16), (9, 17), (8, 1), (8, 255)];
    let (at, value) = r.pick(&edges);
    front[at] = value;
}

/// A fault, or none, behind the front: anywhere, in a node's kind, or near the end.
fn damage_body(r: &mut Random, body: &mut [u8]) {
    let n = body.len();
    let at = match r.below(3) {
        0 => r.below(n),
        1 => 5 * r.below(n.div_ceil(5)),
        _ => n - 1 - r.below(n.min(12)),
    };
    body[at] = r.pick(&[0, 1, 2, 3, 4, 5, 6, 7, 8, 9, 10, 11, 255]);
}

/// One fault, or none, anywhere in a card.
pub fn damage(r: &mut Random, bytes: &mut Vec<u8>) {
    let n = bytes.len();
    match r.below(8) {
        0 => bytes.truncate(r.below(n + 1)),
        1 => {
            let more = 1 + r.below(6);
            bytes.extend(r.bytes(more));
        }
        2 | 3 if n > 10 => damage_front(r, bytes),
        4..=6 if n > 11 => damage_body(r, &mut bytes[11..]),
        _ if n > 0 => bytes[r.below(n)] ^= 1 << r.below(8),
        _ => {}
    }
    if r.once_in(2) {
        put_length(bytes);
    }
}

/// A card of any kind: sound, with one fault, or with several.
pub fn any_card(r: &mut Random) -> Vec<u8> {
    let kinds = r.pick(&[SEVEN, ALL]);
    any_card_of(kinds, r)
}

/// The same, sound or not, of a card of these kinds.
pub fn any_card_of(kinds: &[u8], r: &mut Random) -> Vec<u8> {
    let mut bytes = Draft::sound_of(kinds, r, 5, 7).bytes();
    let faults = r.pick(&[0, 0, 0, 1, 1, 2, 3]);
    for _ in 0..faults {
        damage(r, &mut bytes);
    }
    bytes
}

/// A step: most often an entry's number, else a choice.
pub fn any_step(r: &mut Random, entries: usize) -> u8 {
    match r.below(5) {
        0 => r.pick(&[254, 255]),
        _ => r.below(entries) as u8,
    }
}

/// Another mark, or the same, for some line, where the sheet has lines: 0 to 3, or 4, which is none.
pub fn damage_mark(r: &mut Random, sheet: &mut [u8]) {
    let (n, t) = (sheet.len(), usize::from(sheet[4]));
    if t > 0 && t <= n - 5 {
        sheet[n - 1 - r.below(t)] = r.below(5) as u8;
    }
}
