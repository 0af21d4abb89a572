//! Families: chains of names each of which stands for something made of the one before, so that
//! resolution goes deep, types double, arguments are dropped and surpluses travel. Sizes end up on
//! both sides of the limit, and rows 9 and 10 meet in one declaration. And names that are called with
//! arguments of many sizes.

use crate::random::Random;
use reference::line::Line;

/// A sheet that is being made.
#[derive(Default)]
pub struct Draft {
    args: Vec<u32>,
    types: Vec<[u32; 5]>,
    pub decls: Vec<Line>,
}

impl Draft {
    pub fn ty(&mut self, numbers: [u32; 5]) -> u32 {
        self.types.push(numbers);
        self.types.len() as u32 - 1
    }

    fn list(&mut self, members: &[u32]) -> (u32, u32) {
        let first = if members.is_empty() { 0 } else { self.args.len() as u32 };
        self.args.extend(members);
        (first, members.len() as u32)
    }

    pub fn app(&mut self, name: u32, members: &[u32]) -> u32 {
        let (first, count) = self.list(members);
        self.ty([8, name, first, count, 0])
    }

    pub fn tuple(&mut self, members: &[u32]) -> u32 {
        let (first, count) = self.list(members);
        self.ty([9, first, count, 0, 0])
    }

    /// Whether there is room for a few more A and Y lines.
    pub fn room(&self) -> bool {
        self.args.len() < 500 && self.types.len() < 1_000
    }

    /// The sheet's lines, with names up to the last.
    pub fn lines(self, last: u32) -> Vec<Line> {
        let name = |i: u32| Line { letter: b'N', numbers: [i, 0, 0, 0, 0], text: format!("n{i}").into_bytes() };
        let mut all: Vec<Line> = (0..=last).map(name).collect();
        all.extend(self.args.iter().map(|&t| Line::row(b'A', [t, 0, 0, 0, 0])));
        all.extend(self.types.iter().map(|&t| Line::row(b'Y', t)));
        all.extend(self.decls);
        all
    }
}

/// Types that everything is made of: one or two parameters, and an integer.
struct Leaves {
    a: u32,
    b: u32,
    leaf: u32,
    two: bool,
}

/// The names that every family has, before those of its chain.
const A: u32 = 0;
const B: u32 = 1;
const FOREIGN: u32 = 2;
const ERASED: u32 = 3;
const FIELD: u32 = 4;
const CTORS: u32 = 6;

/// How often each form of `body` is taken: mixed with faults, without, mostly doubling.
const STYLES: &[[usize; 10]] = &[
    [25, 12, 12, 6, 4, 6, 6, 8, 8, 3],
    [20, 15, 15, 3, 4, 0, 8, 10, 10, 0],
    [60, 25, 3, 0, 0, 0, 6, 0, 6, 0],
    [70, 20, 0, 0, 0, 1, 5, 0, 4, 1],
];

/// The lines of a family.
pub fn family(random: &mut Random) -> Vec<Line> {
    let style = random.pick(STYLES);
    let depth = random.between(2, 14);
    let two = random.percent(40);
    let chain = CTORS + depth as u32 + 1;
    let mut d = Draft::default();
    let a = d.ty([3, A, 0, 0, 0]);
    let b = d.ty([3, if two { B } else { A }, 0, 0, 0]);
    let leaf = d.ty([4, 0, 32, 0, 0]);
    let leaves = Leaves { a, b, leaf, two };
    let params: &[u32] = if two { &[A, B] } else { &[A] };
    d.decls.extend([Line::row(b'D', [ERASED, 1, 0, 0, 0]), Line::row(b'V', [0; 5])]);
    for k in 0..depth {
        let before = k.checked_sub(1).map(|k| chain + k as u32);
        let body = body(random, &mut d, style, before, &leaves);
        declare(random, &mut d, chain + k as u32, CTORS + k as u32, params, body);
    }
    // what uses the chain, before it or after it
    let mut fields = Vec::new();
    for _ in 0..random.between(1, 3) {
        let argument = [leaf, a][random.below(2)];
        let arguments = vec![argument; params.len() + usize::from(random.percent(10))];
        let name = chain + random.below(depth) as u32;
        let mut ty = d.app(name, &arguments);
        if random.percent(40) {
            let wrong = d.app(name, &[]);
            ty = if random.percent(20) { d.tuple(&[ty, wrong]) } else { d.tuple(&[ty, ty]) };
        }
        fields.push(ty);
    }
    let user = chain + depth as u32;
    let mut lines =
        vec![Line::row(b'D', [user, 0, 3, 0, 1]), Line::row(b'C', [FIELD + 1, fields.len() as u32, 0, 0, 0])];
    lines.extend(fields.iter().enumerate().map(|(i, &ty)| Line::row(b'F', [i as u32, ty, 0, 0, 0])));
    lines.push(Line::row(b'V', [0; 5]));
    if random.percent(50) {
        d.decls.extend(lines);
    } else {
        d.decls.splice(0..0, lines);
    }
    d.lines(user)
}

/// The lines of a type of about 1,024 nodes, made of calls of a few names with arguments of many sizes:
/// a call that is taken for another one changes its size, and so whether it is refused.
pub fn sizes(random: &mut Random) -> Vec<Line> {
    let names = random.between(1, 5);
    // calls are told apart by their names' numbers, too
    let step = random.between(1, 40);
    let name = |k: usize| CTORS + (names + k * step) as u32;
    let two = random.percent(40);
    let params: &[u32] = if two { &[A, B] } else { &[A] };
    let mut d = Draft::default();
    let variables: Vec<u32> = params.iter().map(|&p| d.ty([3, p, 0, 0, 0])).collect();
    // a tuple for each name, and how often it has each parameter
    let mut times = Vec::new();
    for k in 0..names {
        let often: Vec<usize> = params.iter().map(|_| random.between(1, 3)).collect();
        let members: Vec<u32> = variables.iter().zip(&often).flat_map(|(&v, &n)| vec![v; n]).collect();
        let body = d.tuple(&members);
        declare(random, &mut d, name(k), CTORS + k as u32, params, body);
        times.push(often);
    }
    // types of 1 node, of 2 nodes and so on
    let mut towers = vec![d.ty([4, 0, 32, 0, 0])];
    for i in 0..random.between(8, 40) {
        towers.push(d.ty([10, towers[i], 0, 0, 0]));
    }
    // a tuple of calls, and of what is then missing
    let end = random.between(1_004, 1_044);
    let mut size = 1;
    let mut members = Vec::new();
    loop {
        let k = random.below(names);
        let at: Vec<usize> = params.iter().map(|_| random.below(towers.len())).collect();
        let more: usize = 1 + at.iter().zip(&times[k]).map(|(i, n)| (i + 1) * n).sum::<usize>();
        if size + more > end {
            break;
        }
        size += more;
        members.push(d.app(name(k), &at.iter().map(|&i| towers[i]).collect::<Vec<u32>>()));
    }
    while size < end {
        let more = (end - size).min(towers.len());
        size += more;
        members.push(towers[more - 1]);
    }
    let all = d.tuple(&members);
    let user = name(names);
    d.decls.extend([Line::row(b'D', [user, 0, 1, 0, all]), Line::row(b'V', [0; 5])]);
    d.lines(user)
}

/// What one name of the chain stands for.
fn body(random: &mut Random, d: &mut Draft, style: &[usize], before: Option<u32>, leaves: &Leaves) -> u32 {
    let &Leaves { a, b, leaf, two } = leaves;
    let Some(before) = before else {
        return match random.weighted(&[4, 4, 3, 1, 2]) {
            0 => a,
            1 => d.tuple(&[a, b]),
            2 => d.app(FOREIGN, &[a]),
            3 => d.app(ERASED, &[a]),
            _ => leaf,
        };
    };
    let call = |d: &mut Draft, x: u32, y: u32| {
        let members = if two { vec![x, y] } else { vec![x] };
        d.app(before, &members)
    };
    match random.weighted(style) {
        0 => {
            let x = call(d, a, b);
            d.tuple(&[x, x])
        }
        1 => {
            let x = d.tuple(&[a, b]);
            call(d, x, b)
        }
        2 => {
            let x = call(d, b, a);
            call(d, x, b)
        }
        3 => leaf,
        4 => a,
        5 => {
            // a surplus
            let members = if two { vec![a, b, leaf] } else { vec![a, leaf] };
            d.app(before, &members)
        }
        6 => {
            let x = call(d, a, b);
            d.ty([*random.pick(&[10, 12]), x, 0, 0, 0])
        }
        7 => {
            // both dropped by an erased name, but resolved all the same
            let (x, y) = (d.app(FOREIGN, &[a]), d.tuple(&[b]));
            let (x, y) = (call(d, x, b), call(d, y, a));
            d.app(ERASED, &[x, y])
        }
        8 => {
            let x = call(d, leaf, b);
            let y = call(d, a, leaf);
            d.ty([7, x, random.below(3) as u32, y, 0])
        }
        _ => d.app(before, &[]),
    }
}

/// An abbreviation, or a constructor with one field; sometimes with a flag.
fn declare(random: &mut Random, d: &mut Draft, name: u32, ctor: u32, params: &[u32], body: u32) {
    let flags = if random.percent(95) { 0 } else { *random.pick(&[2, 4, 8, 1]) };
    let count = params.len() as u32;
    let lines = params.iter().map(|&p| Line::row(b'P', [p, 0, 0, 0, 0]));
    if random.percent(70) {
        d.decls.push(Line::row(b'D', [name, flags, 1, count, body]));
        d.decls.extend(lines);
    } else {
        d.decls.push(Line::row(b'D', [name, flags, 3, count, 1]));
        d.decls.extend(lines);
        d.decls.extend([Line::row(b'C', [ctor, 1, 0, 0, 0]), Line::row(b'F', [FIELD, body, 0, 0, 0])]);
    }
    d.decls.push(Line::row(b'V', [0; 5]));
}
