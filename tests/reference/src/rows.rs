//! Rows 1 to 7, one function each: FORMAT, section 5. Each answers the place of the first offending
//! line, and may rely on the rows before it.

use crate::layout::{tag, tag_number};
use crate::line::{read_line, Line, LINE};
use crate::pattern::q_lines;
use std::collections::HashSet;

/// The limits of FORMAT, section 2.
pub const BYTES: usize = 65_536;
const NAMES: usize = 256;
const ARGS: usize = 512;
const TYPES: usize = 1_024;
pub const DECLS: usize = 96;
const PARAMS: usize = 8;
const CTORS: usize = 256;
const FIELDS: usize = 512;
const PATTERN: usize = 256;

/// Row 1: too long, or not whole lines.
pub fn row1(sheet: &[u8]) -> bool {
    sheet.len() > BYTES || sheet.len() % LINE != 0
}

/// Row 2: the lines, or the place of the first that is none.
pub fn row2(sheet: &[u8]) -> Result<Vec<Line>, usize> {
    sheet.chunks_exact(LINE).enumerate().map(|(i, bytes)| read_line(bytes).ok_or(i)).collect()
}

/// What row 3 waits for.
enum Due {
    /// N, A, Y lines, a declaration or Q lines; what came last: 0 N, 1 A, 2 Y, 3 a declaration, 4 Q.
    Header(u8),
    /// Within a declaration: so many P lines, then F lines, then constructors, then V.
    Within { params: u32, fields: u32, ctors: u32 },
}

/// Row 3: order and counts; the count of lines where the sheet ends within a declaration.
pub fn row3(lines: &[Line]) -> Option<usize> {
    let mut due = Due::Header(0);
    for (i, line) in lines.iter().enumerate() {
        match due_after(&due, line) {
            Some(next) => due = next,
            None => return Some(i),
        }
    }
    matches!(due, Due::Within { .. }).then_some(lines.len())
}

fn due_after(due: &Due, line: &Line) -> Option<Due> {
    match (due, line.letter) {
        (Due::Header(0), b'N') => Some(Due::Header(0)),
        (Due::Header(0..=1), b'A') => Some(Due::Header(1)),
        (Due::Header(0..=2), b'Y') => Some(Due::Header(2)),
        (Due::Header(_), b'Q') => Some(Due::Header(4)),
        (Due::Header(0..=3), b'D' | b'I') => {
            let [_, _, kind, params, last] = line.numbers;
            match kind {
                0 | 1 => Some(Due::Within { params, fields: 0, ctors: 0 }),
                2 => Some(Due::Within { params, fields: last, ctors: 0 }),
                3 => Some(Due::Within { params, fields: 0, ctors: last }),
                _ => None,
            }
        }
        (&Due::Within { params: p @ 1.., fields, ctors }, b'P') => Some(Due::Within { params: p - 1, fields, ctors }),
        (&Due::Within { params: 0, fields: f @ 1.., ctors }, b'F') => {
            Some(Due::Within { params: 0, fields: f - 1, ctors })
        }
        (&Due::Within { params: 0, fields: 0, ctors: c @ 1.. }, b'C') => {
            Some(Due::Within { params: 0, fields: line.numbers[1], ctors: c - 1 })
        }
        (Due::Within { params: 0, fields: 0, ctors: 0 }, b'V') => Some(Due::Header(3)),
        _ => None,
    }
}

/// Row 4: the first line past a limit.
pub fn row4(lines: &[Line]) -> Option<usize> {
    let (mut names, mut args, mut types, mut decls) = (0, 0, 0, 0);
    let (mut params, mut ctors, mut fields, mut pattern) = (0, 0, 0, 0);
    lines.iter().position(|line| {
        let (count, limit) = match line.letter {
            b'N' => (&mut names, NAMES),
            b'A' => (&mut args, ARGS),
            b'Y' => (&mut types, TYPES),
            b'D' | b'I' => {
                params = 0;
                (&mut decls, DECLS)
            }
            b'P' => (&mut params, PARAMS),
            b'C' => (&mut ctors, CTORS),
            b'F' => (&mut fields, FIELDS),
            b'Q' => (&mut pattern, PATTERN),
            _ => return false,
        };
        *count += 1;
        *count > limit
    })
}

/// Row 5: a number out of its range.
pub fn row5(lines: &[Line]) -> Option<usize> {
    let args: Vec<u32> = lines.iter().filter(|l| l.letter == b'A').map(|l| l.numbers[0]).collect();
    let names = lines.iter().filter(|l| l.letter == b'N').count() as u32;
    let types = lines.iter().filter(|l| l.letter == b'Y').count() as u32;
    let (mut name, mut ty) = (0, 0);
    let qs = q_lines(lines);
    let mut linked = HashSet::new();
    let mut q = 0;
    lines.iter().position(|line| {
        let n = &line.numbers;
        let unused = |from: usize| n[from..].iter().all(|&x| x == 0);
        let good = match line.letter {
            b'N' => {
                name += 1;
                n[0] == name - 1
            }
            b'A' => n[0] < types && unused(1),
            b'Y' => {
                ty += 1;
                good_type(n, ty - 1, names, &args)
            }
            b'D' | b'I' => {
                let last = match n[2] {
                    0 => n[4] == 0,
                    1 => n[4] < types,
                    _ => true,
                };
                n[0] < names && n[1] <= 31 && last
            }
            b'P' => n[0] < names && unused(1),
            b'C' => n[0] < names && unused(3),
            b'F' => n[0] < names && n[1] < types && unused(3),
            b'Q' => {
                q += 1;
                good_node(&qs, q - 1, names) && linked_once(&mut linked, n)
            }
            _ => unused(3),
        };
        !good
    })
}

/// The numbers of Y line `y`.
fn good_type(n: &[u32; 5], y: u32, names: u32, args: &[u32]) -> bool {
    let unused = |from: usize| n[from..].iter().all(|&x| x == 0);
    match n[0] {
        0..=2 => unused(1),
        3 => n[1] < names && unused(2),
        4 => n[1] <= 1 && matches!(n[2], 1 | 8 | 16 | 32 | 64 | 128) && unused(3),
        5 => n[1] <= 3 && unused(2),
        6 => unused(2),
        7 => n[1] < y && n[2] <= 2 && n[3] < y && unused(4),
        8 => n[1] < names && good_list(n[2], n[3], y, args) && unused(4),
        9 => good_list(n[1], n[2], y, args) && unused(3),
        10 | 12 => n[1] < y && unused(2),
        11 => n[1] <= 1 && n[2] < y && unused(3),
        _ => false,
    }
}

/// A list of `count` A lines from `first` on, used by Y line `y`.
fn good_list(first: u32, count: u32, y: u32, args: &[u32]) -> bool {
    if count == 0 {
        return first == 0;
    }
    match args.get(first as usize..(first + count) as usize) {
        Some(members) => members.iter().all(|&member| member < y),
        None => false,
    }
}

/// The numbers of Q line `q`, but for whether a line that it names was named before.
fn good_node(qs: &[[u32; 5]], q: usize, names: u32) -> bool {
    let [kind, number, last, previous, field] = qs[q];
    let number_fits = match kind {
        2 => true,
        1 | 3 | 4 => number < names,
        _ => number == 0,
    };
    // links first: the lines that they name are then there
    let lower = last as usize <= q && previous as usize <= q && (kind > 2 || last == 0);
    let has_field = |link: u32| qs[link as usize - 1][4] != 0;
    let whole = q + 1 == qs.len();
    kind <= 6
        && number_fits
        && lower
        && field <= names
        && (previous == 0 || has_field(previous) == (field != 0))
        && (last == 0 || has_field(last) == (kind == 4))
        && (!whole || (previous == 0 && field == 0))
}

/// Whether the lines that a Q line names were not named before; they are from now on.
fn linked_once(linked: &mut HashSet<u32>, n: &[u32; 5]) -> bool {
    n[2..4].iter().all(|&link| link == 0 || linked.insert(link))
}

/// Row 6: the first line that repeats an earlier one.
pub fn row6(lines: &[Line]) -> Option<usize> {
    let mut spellings = HashSet::new();
    let mut declared = HashSet::new();
    let mut ctors = HashSet::new();
    let mut params = HashSet::new();
    let mut fields = HashSet::new();
    lines.iter().position(|line| {
        let name = line.numbers[0];
        match line.letter {
            b'N' => !spellings.insert(&line.text),
            b'D' | b'I' => {
                params.clear();
                fields.clear();
                let record = line.numbers[2] == 2;
                !declared.insert(name) || (record && !ctors.insert(name))
            }
            b'P' => !params.insert(name),
            b'C' => {
                fields.clear();
                !ctors.insert(name)
            }
            b'F' => !fields.insert(name),
            _ => false,
        }
    })
}

/// Row 7: a tag number, a keep number or a verdict that cannot be.
pub fn row7(lines: &[Line]) -> Option<usize> {
    let mut head = None;
    let (mut ctors, mut kept) = (0, 0);
    lines.iter().position(|line| {
        let n = &line.numbers;
        match line.letter {
            b'D' | b'I' => {
                head = Some(line);
                (ctors, kept) = (0, 0);
                false
            }
            b'C' => {
                ctors += 1;
                n[2] != good_tag(head.unwrap(), ctors - 1)
            }
            b'F' => {
                kept += usize::from(n[2] != 0);
                n[2] > u32::from(head.unwrap().letter == b'I')
            }
            b'V' => {
                let head = head.unwrap();
                if head.letter == b'D' {
                    n[..3] != [0, 0, 0]
                } else {
                    !good_verdict(n, head, kept)
                }
            }
            _ => false,
        }
    })
}

/// The tag number of the k-th C line of a declaration, by its D or I line.
fn good_tag(head: &Line, k: u32) -> u32 {
    match head.letter {
        b'I' => tag_number(tag(k, head.numbers[4])),
        _ => 0,
    }
}

/// An import's V line, by its D or I line and its count of kept fields.
fn good_verdict(v: &[u32; 5], head: &Line, kept: usize) -> bool {
    let [erased, layout, record, ..] = *v;
    let (body, last) = (head.numbers[2], head.numbers[4]);
    let one_ctor = body == 2 || (body == 3 && last == 1);
    let fits = match layout {
        0 => true,
        1 => one_ctor && kept == 1,
        2 => body == 2 || body == 3,
        3 => body == 1,
        4 => body == 0,
        _ => false,
    };
    record <= 1 && erased == u32::from(layout == 0) && fits
}
