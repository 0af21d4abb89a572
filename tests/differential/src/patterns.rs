//! Patterns behind a sheet's declarations: all kinds, constructors and types that are declared in every way and
//! that are not, lines outside the pattern, and now and then a wrong count of parts.

use crate::random::Random;
use reference::line::Line;

/// What patterns can speak of.
struct Owners {
    names: usize,
    /// Constructors, records among them, with how many fields each has.
    ctors: Vec<(u32, usize)>,
    /// Types with the names of their fields.
    types: Vec<(u32, Vec<u32>)>,
}

/// Reads the declarations of lines that are in order.
fn owners(lines: &[Line]) -> Owners {
    let mut all = Owners { names: 0, ctors: vec![], types: vec![] };
    for line in lines {
        let n = line.numbers;
        match line.letter {
            b'N' => all.names += 1,
            b'D' | b'I' => {
                all.types.push((n[0], vec![]));
                if n[2] == 2 {
                    all.ctors.push((n[0], n[4] as usize));
                }
            }
            b'C' => all.ctors.push((n[0], n[1] as usize)),
            b'F' => all.types.last_mut().unwrap().1.push(n[0]),
            _ => {}
        }
    }
    all
}

/// A node: kind, number and field of its line, and its parts.
struct Node {
    kind: u32,
    number: u32,
    field: u32,
    parts: Vec<usize>,
}

struct Draft<'a> {
    owners: &'a Owners,
    nodes: Vec<Node>,
    room: usize,
    /// In percent: a wrong count of parts, a field named twice.
    miscounts: usize,
    repeats: usize,
    variables: usize,
}

/// A pattern's Q lines for the sheet of these lines, which has a name at least.
pub fn pattern(random: &mut Random, lines: &[Line]) -> Vec<Line> {
    let owners = owners(lines);
    let room = match random.below(100) {
        0 => random.between(200, 256),
        1..=10 => random.between(20, 80),
        _ => random.between(1, 24),
    };
    let mut draft = Draft {
        owners: &owners,
        nodes: vec![],
        room,
        miscounts: *random.pick(&[0, 0, 0, 10, 40]),
        repeats: *random.pick(&[0, 0, 10, 40]),
        variables: random.between(1, 6),
    };
    let depth = random.between(2, 9);
    let whole = draft.node(random, depth);
    // lists that are part of nothing
    let mut lists = vec![vec![whole]];
    while draft.room > 0 && random.percent(20) {
        let field = random.percent(30);
        let count = random.between(1, 3);
        let list = draft.parts(random, count, 2);
        for &part in &list {
            draft.nodes[part].field = if field { 1 + random.below(owners.names) as u32 } else { 0 };
        }
        lists.push(list);
    }
    draft.lines(random, lists)
}

impl Draft<'_> {
    fn any_name(&self, random: &mut Random) -> u32 {
        random.below(self.owners.names) as u32
    }

    /// So many parts, as far as there is room.
    fn parts(&mut self, random: &mut Random, count: usize, depth: usize) -> Vec<usize> {
        let mut parts = Vec::new();
        for _ in 0..count {
            if self.room > 0 {
                parts.push(self.node(random, depth));
            }
        }
        parts
    }

    /// A node with what is in it; there is room for one.
    fn node(&mut self, random: &mut Random, depth: usize) -> usize {
        self.room -= 1;
        let weights: &[usize] = match depth {
            0 => &[20, 70, 10],
            1..=3 => &[6, 24, 6, 34, 20, 5, 5],
            _ => &[1, 4, 1, 50, 30, 7, 7],
        };
        let kind = random.weighted(weights);
        let (number, parts) = match kind {
            1 => (random.below(self.variables.min(self.owners.names)) as u32, vec![]),
            2 => (*random.pick(&[0, 7, 255, 65_535, 999_999]), vec![]),
            3 => self.ctor(random, depth - 1),
            4 => self.record(random, depth - 1),
            5 | 6 => {
                let count = random.weighted(&[5, 15, 50, 20, 10]);
                (0, self.parts(random, count, depth - 1))
            }
            _ => (0, vec![]),
        };
        self.nodes.push(Node { kind: kind as u32, number, field: 0, parts });
        self.nodes.len() - 1
    }

    /// A constructor with a part for each field, or with another count; or a name that is none.
    fn ctor(&mut self, random: &mut Random, depth: usize) -> (u32, Vec<usize>) {
        // of one that is declared there must be room for its fields
        let fits: Vec<(u32, usize)> = self.owners.ctors.iter().copied().filter(|c| c.1 <= self.room).collect();
        if fits.is_empty() || random.percent(12) {
            let count = random.weighted(&[30, 40, 20, 10]);
            let declared: Vec<u32> = self.owners.ctors.iter().map(|c| c.0).collect();
            let name = self.any_name(random);
            if declared.contains(&name) && self.miscounts == 0 {
                return (name, self.exactly(random, self.owners.ctors.iter().find(|c| c.0 == name).unwrap().1, depth));
            }
            return (name, self.parts(random, count, depth));
        }
        let (name, fields) = *random.pick(&fits);
        if random.percent(self.miscounts) {
            let count = if random.percent(50) { fields + 1 } else { fields.saturating_sub(1) };
            return (name, self.parts(random, count, depth));
        }
        (name, self.exactly(random, fields, depth))
    }

    /// Just so many parts, the last ones small where there is little room; past the room where there is none.
    fn exactly(&mut self, random: &mut Random, count: usize, depth: usize) -> Vec<usize> {
        let mut parts = Vec::new();
        for i in 0..count {
            let later = count - i - 1;
            let spare = self.room.saturating_sub(later);
            let held = self.room - spare;
            self.room = spare.max(1);
            parts.push(if spare > 1 { self.node(random, depth) } else { self.node(random, 0) });
            self.room += held;
        }
        parts
    }

    /// A record by some of its type's fields, and now and then by one that it has not.
    fn record(&mut self, random: &mut Random, depth: usize) -> (u32, Vec<usize>) {
        let with: Vec<(u32, Vec<u32>)> = self.owners.types.iter().filter(|t| !t.1.is_empty()).cloned().collect();
        let (name, fields) = if !with.is_empty() && random.percent(75) {
            random.pick(&with).clone()
        } else if !self.owners.types.is_empty() && random.percent(60) {
            random.pick(&self.owners.types).clone()
        } else {
            (self.any_name(random), vec![])
        };
        let mut named: Vec<u32> = fields.iter().copied().filter(|_| random.percent(75)).collect();
        while random.percent(25) {
            named.push(self.any_name(random));
        }
        if !named.is_empty() && random.percent(self.repeats) {
            let again = *random.pick(&named);
            named.push(again);
        }
        random.shuffle(&mut named);
        let parts = self.parts(random, named.len(), depth);
        for (&part, field) in parts.iter().zip(named) {
            self.nodes[part].field = field + 1;
        }
        (name, parts)
    }

    /// The lines: mostly parts left to right, each in full, then what holds them; else in any order that leaves a
    /// part lower than its owner and than the part behind it. The whole, the only one of the first list, is last.
    fn lines(&self, random: &mut Random, lists: Vec<Vec<usize>>) -> Vec<Line> {
        let whole = lists[0][0];
        // what must be lower: the last part, and the part before
        let mut last = vec![None; self.nodes.len()];
        let mut previous = vec![None; self.nodes.len()];
        let mut lists_of: Vec<&Vec<usize>> = lists.iter().collect();
        lists_of.extend(self.nodes.iter().map(|node| &node.parts));
        for list in lists_of {
            for two in list.windows(2) {
                previous[two[1]] = Some(two[0]);
            }
        }
        for (i, node) in self.nodes.iter().enumerate() {
            last[i] = node.parts.last().copied();
        }
        let mut order: Vec<usize> = (0..self.nodes.len()).filter(|&i| i != whole).collect();
        if random.percent(30) {
            order = mixed(random, order, &last, &previous);
        }
        order.push(whole);
        let mut number = vec![0; self.nodes.len()];
        for (q, &i) in order.iter().enumerate() {
            number[i] = q as u32 + 1;
        }
        let link = |to: Option<usize>| to.map_or(0, |i| number[i]);
        let line = |&i: &usize| {
            let node = &self.nodes[i];
            Line::row(b'Q', [node.kind, node.number, link(last[i]), link(previous[i]), node.field])
        };
        order.iter().map(line).collect()
    }
}

/// Another order in which what a node names stands before it.
fn mixed(random: &mut Random, nodes: Vec<usize>, last: &[Option<usize>], previous: &[Option<usize>]) -> Vec<usize> {
    let mut rest = nodes;
    let mut done = vec![false; last.len()];
    let mut order = Vec::new();
    while !rest.is_empty() {
        let ready = |i: usize| [last[i], previous[i]].iter().flatten().all(|&j| done[j]);
        let can: Vec<usize> = (0..rest.len()).filter(|&k| ready(rest[k])).collect();
        let i = rest.remove(*random.pick(&can));
        done[i] = true;
        order.push(i);
    }
    order
}
