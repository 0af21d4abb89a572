//! Sheets for tags: local and imported variants of no, one, several and many constructors, some of them erased, and
//! other declarations between them. In most the tags are right. In the others they are missing or wrong in each of the
//! ways in which one would get them wrong, at one line or at all, now and then beside a keep or a V line that cannot be.

use crate::family::Draft;
use crate::random::Random;
use reference::line::Line;

/// The names that every sheet has, before those of its declarations.
const FIELDS: u32 = 0;
const FIRST: u32 = 3;

/// A C line: its place, whether its declaration is an import, which of its constructors it is, and how many there are.
#[derive(Clone, Copy)]
pub struct Ctor {
    pub at: usize,
    pub import: bool,
    pub k: u32,
    pub count: u32,
}

impl Ctor {
    /// The number that row 7 wants.
    pub fn tag(&self) -> u32 {
        if self.import {
            self.stored()
        } else {
            0
        }
    }

    /// The number in the verdict sheet.
    pub fn stored(&self) -> u32 {
        if self.count == 1 {
            0
        } else {
            self.k + 1
        }
    }
}

/// The C lines of lines that are in order.
pub fn ctors(lines: &[Line]) -> Vec<Ctor> {
    let mut all = Vec::new();
    let (mut import, mut k, mut count) = (false, 0, 0);
    for (at, line) in lines.iter().enumerate() {
        match line.letter {
            b'D' | b'I' => (import, k, count) = (line.letter == b'I', 0, line.numbers[4]),
            b'C' => {
                all.push(Ctor { at, import, k, count });
                k += 1;
            }
            _ => {}
        }
    }
    all
}

/// Puts the right tag in every C line.
pub fn put(lines: &mut [Line]) {
    ctors(lines).iter().for_each(|c| lines[c.at].numbers[2] = c.tag());
}

/// The lines of a sheet.
pub fn tagging(random: &mut Random) -> Vec<Line> {
    let count = random.between(1, 6) as u32;
    let mut d = Draft::default();
    let mut types = vec![d.ty([4, 0, 32, 0, 0]), d.ty([0, 0, 0, 0, 0])];
    let mut last = FIRST + count - 1;
    let imports = *random.pick(&[0, 50, 50, 100]);
    for name in FIRST..FIRST + count {
        declare(random, &mut d, name, imports, &types, &mut last);
        types.push(d.ty([8, name, 0, 0, 0]));
    }
    let mut lines = d.lines(last);
    put(&mut lines);
    if random.percent(40) {
        slip(random, &mut lines);
        if random.percent(40) {
            other_slip(random, &mut lines);
        }
    }
    lines
}

/// A declaration whose fields have these types; `last` is the last name that is taken.
fn declare(random: &mut Random, d: &mut Draft, name: u32, imports: usize, types: &[u32], last: &mut u32) {
    let import = random.percent(imports);
    let body = random.weighted(&[3, 6, 6, 85]) as u32;
    let count = match random.weighted(&[8, 30, 30, 15, 14, 3]) {
        5 => random.between(60, 250),
        4 => random.between(4, 12),
        few => few,
    };
    // a name for each, of 256
    let count = count.min(255 - *last as usize);
    let mut inner = Vec::new();
    let mut kept = 0;
    for k in 0..[0, 0, 1, count][body as usize] {
        let fields = if count > 20 { 0 } else { random.below(4) } as u32;
        if body == 3 {
            // the first may have the type's name
            let own = k == 0 && random.percent(20);
            *last += u32::from(!own);
            inner.push(Line::row(b'C', [if own { name } else { *last }, fields, 0, 0, 0]));
        }
        for field in FIELDS..FIELDS + fields {
            let keep = u32::from(import && random.percent(50));
            kept += keep;
            inner.push(Line::row(b'F', [field, *random.pick(types), keep, 0, 0]));
        }
    }
    let number = [0, *random.pick(types), inner.len() as u32, count as u32][body as usize];
    let flags = *random.pick(&[0, 0, 0, 0, 1, 2, 4]);
    d.decls.push(Line::row(if import { b'I' } else { b'D' }, [name, flags, body, 0, number]));
    d.decls.extend(inner);
    let one = kept == 1 && (body == 2 || (body == 3 && count == 1));
    let layout = match body {
        _ if random.percent(25) => 0,
        0 => 4,
        1 => 3,
        _ if one && random.percent(70) => 1,
        _ => 2,
    };
    let verdict = if import { [u32::from(layout == 0), layout, 0, 0, 0] } else { [0; 5] };
    d.decls.push(Line::row(b'V', verdict));
}

/// Tags that are not right.
fn slip(random: &mut Random, lines: &mut [Line]) {
    let all = ctors(lines);
    let Some(one) = (!all.is_empty()).then(|| *random.pick(&all)) else { return };
    let tag = one.tag();
    let slip = random.below(9);
    for (i, c) in all.iter().enumerate() {
        let right = c.tag();
        let this = c.at == one.at;
        lines[c.at].numbers[2] = match slip {
            // missing, as in verdict sheets that had no tags
            0 => 0,
            1 if this => 0,
            // from 0, from 2, on a single constructor, counted over the sheet
            2 if c.import => c.k,
            3 if right > 0 => right + 1,
            4 if c.import => c.k + 1,
            5 if c.import => i as u32 + 1,
            // in a local declaration
            6 => c.k + 1,
            // another's, another number
            7 if this => tag ^ 1,
            8 if this => *random.pick(&[1, 2, 255, 256, 257, 65_536 + tag, 999_999]),
            _ => right,
        };
    }
}

/// Another number that cannot be: a keep, one of V, or an unused one of a C line.
fn other_slip(random: &mut Random, lines: &mut [Line]) {
    let these: Vec<usize> = (0..lines.len()).filter(|&i| matches!(lines[i].letter, b'C' | b'F' | b'V')).collect();
    let at = *random.pick(&these);
    match lines[at].letter {
        b'C' if random.percent(30) => lines[at].numbers[random.between(3, 4)] = 1,
        b'C' => {}
        b'F' => lines[at].numbers[2] += 2,
        _ => lines[at].numbers[random.below(3)] += 1,
    }
}
