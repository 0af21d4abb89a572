//! Rings: names each of which holds the next one, and the last the first. They are constructors with one field and
//! abbreviations, local and imported, and among them some that the guard does not go on through. The next name stands
//! at any depth, in arguments too; there are ways across, and ways from later rings to earlier ones.

use crate::family::Draft;
use crate::random::Random;
use reference::line::Line;
use std::ops::Range;

/// What is declared in a ring: letter, body kind, flags, and an import's layout.
const STEPS: &[(u8, u32, u32, u32)] = &[
    // constructors with one field: candidates, whatever `Realized` and `NoUnfold` say
    (b'D', 3, 0, 0),
    (b'D', 2, 0, 0),
    (b'D', 3, 10, 0),
    // abbreviations that are unfolded, also where an import's flag says what its layout does not
    (b'D', 1, 0, 0),
    (b'I', 1, 0, 3),
    (b'I', 1, 1, 3),
    (b'D', 1, 20, 0),
    // imported newtypes
    (b'I', 3, 0, 1),
    (b'I', 2, 14, 1),
    // abbreviations that are not unfolded
    (b'D', 1, 1, 0),
    (b'I', 1, 0, 0),
    (b'D', 1, 2, 0),
    (b'I', 1, 2, 3),
    (b'D', 1, 8, 0),
    (b'I', 1, 8, 3),
    // structs, and a type that is erased
    (b'D', 3, 4, 0),
    (b'I', 3, 0, 2),
    (b'I', 3, 0, 0),
];

/// How often a style is taken, and in it each step: candidates, with local abbreviations, with imported ones, with
/// imported newtypes, with what ends a search, abbreviations alone, all.
const STYLES: &[(usize, [usize; 18])] = &[
    (2, [6, 3, 1, 0, 0, 0, 0, 0, 0, 0, 0, 0, 0, 0, 0, 0, 0, 0]),
    (6, [6, 3, 1, 8, 0, 0, 1, 0, 0, 0, 0, 0, 0, 0, 0, 0, 0, 0]),
    (6, [6, 3, 1, 2, 6, 2, 0, 0, 0, 0, 0, 0, 0, 0, 0, 0, 0, 0]),
    (2, [6, 3, 1, 4, 3, 0, 0, 5, 2, 0, 0, 0, 0, 0, 0, 0, 0, 0]),
    (8, [9, 4, 1, 6, 3, 1, 0, 0, 0, 3, 3, 2, 2, 2, 2, 1, 1, 1]),
    (1, [0, 0, 0, 8, 4, 1, 1, 0, 0, 0, 0, 0, 0, 0, 0, 0, 0, 0]),
    (2, [4, 2, 2, 4, 3, 1, 1, 2, 1, 1, 1, 1, 1, 1, 1, 1, 1, 1]),
];

/// The names that every sheet of rings has, before those of its rings.
const A: u32 = 0;
const B: u32 = 1;
const FOREIGN: u32 = 2;
const ERASED: u32 = 3;
const DROPS: u32 = 4;
const KEPT: u32 = 5;
const OTHER: u32 = 6;
const USER: u32 = 7;
const FIRST: u32 = 8;

/// Types that everything is made of.
struct Leaves {
    params: [u32; 2],
    int: u32,
    unit: u32,
}

/// What is known of all names before one is declared.
struct Plan {
    /// How many parameters each name of a ring has.
    params: Vec<usize>,
    /// In percent: a wrong count of arguments, a way across.
    miscounts: usize,
    ways: usize,
}

/// The lines of some rings.
pub fn rings(random: &mut Random) -> Vec<Line> {
    let count = match random.below(100) {
        0..=4 => random.between(65, 90),
        5..=19 => random.between(8, 30),
        _ => random.between(1, 7),
    };
    let plan = Plan {
        params: (0..count).map(|_| random.weighted(&[70, 22, 8])).collect(),
        miscounts: *random.pick(&[0, 0, 0, 0, 10]),
        ways: *random.pick(if count > 30 { &[0, 3] } else { &[0, 10, 35] }),
    };
    let mut d = Draft::default();
    let leaves = Leaves {
        params: [A, B].map(|p| d.ty([3, p, 0, 0, 0])),
        int: d.ty([4, 0, 32, 0, 0]),
        unit: d.ty([0, 0, 0, 0, 0]),
    };
    let mut decls: Vec<Vec<Line>> = Vec::new();
    for ring in cut_up(random, count) {
        let mut these = members(random, &mut d, &plan, &leaves, ring);
        random.shuffle(&mut these);
        decls.extend(these);
    }
    if random.percent(30) {
        random.shuffle(&mut decls);
    }
    let zeros = Line::row(b'V', [0; 5]);
    d.decls.extend([Line::row(b'D', [ERASED, 1, 0, 0, 0]), zeros.clone()]);
    let drops = [Line::row(b'D', [DROPS, 0, 1, 1, leaves.int]), Line::row(b'P', [A, 0, 0, 0, 0])];
    d.decls.extend(drops.into_iter().chain([zeros.clone()]));
    d.decls.extend(decls.concat());
    // what uses them
    let mut used = || random.below(count);
    let uses = [used(), used()].map(|i| call(random, &mut d, &plan, &leaves, i));
    d.decls.push(Line::row(b'D', [USER, 0, 2, 0, 2]));
    d.decls.extend(uses.iter().zip([KEPT, OTHER]).map(|(&ty, field)| Line::row(b'F', [field, ty, 0, 0, 0])));
    d.decls.push(zeros);
    d.lines(FIRST + 2 * count as u32)
}

/// Rings of so many names together.
fn cut_up(random: &mut Random, count: usize) -> Vec<Range<usize>> {
    let mut rings = Vec::new();
    let mut from = 0;
    while from < count {
        let rest = count - from;
        let length = if random.percent(25) { rest } else { random.between(1, 5).min(rest) };
        rings.push(from..from + length);
        from += length;
    }
    rings
}

/// The declarations of one ring.
fn members(random: &mut Random, d: &mut Draft, plan: &Plan, leaves: &Leaves, ring: Range<usize>) -> Vec<Vec<Line>> {
    let often: Vec<usize> = STYLES.iter().map(|style| style.0).collect();
    let style = &STYLES[random.weighted(&often)].1;
    let closed = random.percent(92);
    let mut all = Vec::new();
    for i in ring.clone() {
        let next = if i + 1 < ring.end { i + 1 } else { ring.start };
        let mut body = if next > i || closed {
            let next = call(random, d, plan, leaves, next);
            around(random, d, leaves, next)
        } else {
            leaves.int
        };
        while random.percent(plan.ways) {
            // to itself, or to any name up to this ring
            let to = if random.percent(30) { i } else { random.below(ring.end) };
            let across = call(random, d, plan, leaves, to);
            let across = around(random, d, leaves, across);
            body = d.tuple(&if random.percent(50) { [body, across] } else { [across, body] });
        }
        // a ring that can have a candidate has one
        let step = if i == ring.start && style[0] > 0 { random.below(3) } else { random.weighted(style) };
        all.push(declare(random, plan, leaves, i, STEPS[step], body));
    }
    all
}

/// A name with as many arguments as it has parameters, or now and then another count; a few of them name it or one
/// before it.
fn call(random: &mut Random, d: &mut Draft, plan: &Plan, leaves: &Leaves, name: usize) -> u32 {
    let mut count = plan.params[name];
    if random.percent(plan.miscounts) {
        count = random.below(3);
    } else if random.percent(2) {
        count += 1;
    }
    let mut args = Vec::new();
    for _ in 0..count {
        args.push(match random.weighted(&[30, 30, 30, 10]) {
            0 => leaves.int,
            1 => leaves.params[0],
            2 => leaves.params[1],
            _ => d.app(FIRST + random.below(name + 1) as u32, &[]),
        });
    }
    d.app(FIRST + name as u32, &args)
}

/// A type that holds this one.
fn around(random: &mut Random, d: &mut Draft, leaves: &Leaves, t: u32) -> u32 {
    match random.weighted(&[40, 10, 10, 5, 5, 8, 6, 6, 4, 3, 2, 1]) {
        0 => t,
        1 => d.tuple(&[t, leaves.int]),
        2 => d.tuple(&[leaves.unit, t]),
        3 => d.ty([10, t, 0, 0, 0]),
        4 => d.ty([12, t, 0, 0, 0]),
        5 => d.app(FOREIGN, &[t]),
        6 => {
            // an argument of what is erased, beside what is not
            let gone = d.app(ERASED, &[t]);
            d.tuple(&[leaves.int, gone])
        }
        7 => d.app(DROPS, &[t]),
        8 => d.ty([7, t, random.below(3) as u32, leaves.int, 0]),
        9 => d.ty([7, leaves.int, 2, t, 0]),
        10 => d.ty([11, 0, t, 0, 0]),
        _ => d.app(ERASED, &[t]),
    }
}

/// The lines of one declaration. A constructor may have a second field, which is mostly not kept.
fn declare(
    random: &mut Random,
    plan: &Plan,
    leaves: &Leaves,
    i: usize,
    (letter, body, flags, layout): (u8, u32, u32, u32),
    ty: u32,
) -> Vec<Line> {
    let name = FIRST + i as u32;
    let import = letter == b'I';
    let second = match random.weighted(&[80, 14, 6]) {
        0 => None,
        1 => Some(leaves.unit),
        _ => Some(leaves.int),
    };
    let mut fields = vec![Line::row(b'F', [KEPT, ty, u32::from(import), 0, 0])];
    fields.extend(second.map(|ty| Line::row(b'F', [OTHER, ty, 0, 0, 0])));
    if random.percent(50) {
        fields.reverse();
    }
    let params = [A, B].into_iter().take(plan.params[i]);
    let count = fields.len() as u32;
    let last = [0, ty, count, 1][body as usize];
    let mut lines = vec![Line::row(letter, [name, flags, body, plan.params[i] as u32, last])];
    lines.extend(params.map(|p| Line::row(b'P', [p, 0, 0, 0, 0])));
    if body == 3 {
        lines.push(Line::row(b'C', [name + plan.params.len() as u32, count, 0, 0, 0]));
    }
    if body >= 2 {
        lines.extend(fields);
    }
    let verdict = if import { [u32::from(layout == 0), layout, 0, 0, 0] } else { [0; 5] };
    lines.push(Line::row(b'V', verdict));
    lines
}
