//! Sheets for the reach index: chains, rings, trees and other ways from declaration to declaration, so many that a set
//! ends near the end of a word or of all words. A declaration is named in any field of a body, kept or not, at any
//! depth, in arguments of foreign names too; by imports as well. Most sheets are accepted.

use crate::family::Draft;
use crate::random::Random;
use crate::tags;
use reference::line::Line;

/// The names that every sheet has, before those of its declarations.
const FOREIGN: u32 = 0;
const FIELDS: u32 = 1;
const FIRST: u32 = 5;

/// Types that name nothing.
struct Leaves {
    int: u32,
    unit: u32,
}

/// The lines of a sheet.
pub fn reaching(random: &mut Random) -> Vec<Line> {
    let count = match random.below(10) {
        0..=4 => random.between(1, 8),
        5 => random.between(9, 40),
        _ => *random.pick(&[62, 63, 64, 65, 66, 95, 96]),
    };
    let named = ways(random, count);
    // the declarations' places, so that ways go up and down
    let mut order: Vec<usize> = (0..count).collect();
    match random.below(3) {
        0 => {}
        1 => order.reverse(),
        _ => random.shuffle(&mut order),
    }
    let mut d = Draft::default();
    let leaves = Leaves { int: d.ty([4, 0, 32, 0, 0]), unit: d.ty([0, 0, 0, 0, 0]) };
    let types: Vec<u32> = (0..count).map(|i| d.ty([8, FIRST + i as u32, 0, 0, 0])).collect();
    let mut last = FIRST + count as u32;
    for i in order {
        let held: Vec<u32> = named[i].iter().map(|&j| around(random, &mut d, &leaves, types[j])).collect();
        declare(random, &mut d, &leaves, FIRST + i as u32, held, &mut last);
    }
    let mut lines = d.lines(last);
    tags::put(&mut lines);
    lines
}

/// Which declarations each one names.
fn ways(random: &mut Random, count: usize) -> Vec<Vec<usize>> {
    let shape = random.below(5);
    let ring = random.between(1, 7);
    // places that are none are left out
    let of = |i: usize| match shape {
        // a chain, a ring, a tree
        0 => vec![i + 1],
        1 => vec![(i + 1) % count],
        2 => vec![2 * i + 1, 2 * i + 2],
        // rings, each of which leads to the one before
        3 if i % ring == 0 => vec![(i + ring).min(count) - 1, i.wrapping_sub(1)],
        3 => vec![i - 1],
        // nothing but ways across
        _ => vec![],
    };
    let mut all: Vec<Vec<usize>> = (0..count).map(|i| of(i).into_iter().filter(|&j| j < count).collect()).collect();
    let across = if shape == 4 { count } else { *random.pick(&[0, 0, 1, 3]) };
    for _ in 0..across {
        all[random.below(count)].push(random.below(count));
    }
    all
}

/// A type that holds this one, now and then one that is erased.
fn around(random: &mut Random, d: &mut Draft, leaves: &Leaves, t: u32) -> u32 {
    if !d.room() {
        return t;
    }
    let held = match random.weighted(&[50, 8, 8, 8, 4, 4, 4, 4, 10]) {
        0 => return t,
        1 => d.tuple(&[t, leaves.int]),
        2 => d.tuple(&[leaves.unit, t]),
        3 => d.app(FOREIGN, &[t]),
        4 => d.app(FOREIGN, &[leaves.int, t]),
        5 => d.ty([10, t, 0, 0, 0]),
        6 => d.ty([11, 1, t, 0, 0]),
        7 => d.ty([7, leaves.int, 2, t, 0]),
        _ => d.ty([7, t, 1, leaves.unit, 0]),
    };
    if random.percent(20) {
        around(random, d, leaves, held)
    } else {
        held
    }
}

/// A declaration with these types in its body, and some that name nothing. Few are unfolded, as long chains of such
/// names are long types. A variant's first constructor has its name, and `last` is the last name that is taken.
fn declare(random: &mut Random, d: &mut Draft, leaves: &Leaves, name: u32, mut types: Vec<u32>, last: &mut u32) {
    let import = random.percent(25);
    (0..random.weighted(&[60, 30, 10])).for_each(|_| types.push(*random.pick(&[leaves.int, leaves.unit])));
    random.shuffle(&mut types);
    let body = match types.len() {
        0 => 0,
        1 => random.between(1, 3),
        // a constructor has a name for each field
        2..=4 => random.between(2, 3),
        _ => 3,
    };
    let flags = if random.percent(8) { 0 } else { [0, *random.pick(&[2, 8]), 4, 4][body] };
    let mut ctors: Vec<&[u32]> = match body {
        0 | 1 => vec![],
        2 => vec![&types],
        _ => types.chunks(random.between(1, 4)).collect(),
    };
    if body == 3 && random.percent(30) {
        ctors.insert(random.below(ctors.len() + 1), &[]);
    }
    let number = [0, types.first().copied().unwrap_or(0), types.len() as u32, ctors.len() as u32][body];
    d.decls.push(Line::row(if import { b'I' } else { b'D' }, [name, flags, body as u32, 0, number]));
    for (k, fields) in ctors.into_iter().enumerate() {
        if body == 3 {
            *last += u32::from(k > 0);
            let ctor = if k == 0 { name } else { *last };
            d.decls.push(Line::row(b'C', [ctor, fields.len() as u32, 0, 0, 0]));
        }
        for (&ty, field) in fields.iter().zip(FIELDS..) {
            let keep = import && random.percent(50);
            d.decls.push(Line::row(b'F', [field, ty, u32::from(keep), 0, 0]));
        }
    }
    let layout = if random.percent(15) { 0 } else { [4, 3, 2, 2][body] };
    let verdict = if import { [u32::from(layout == 0), layout, 0, 0, 0] } else { [0; 5] };
    d.decls.push(Line::row(b'V', verdict));
}
