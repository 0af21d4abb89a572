//! The smallest sheet that still shows a difference, as far as dropping lines finds it.

use reference::line::LINE;

/// Drops declarations, then runs of lines, then single lines with the count that they belong to or with the
/// lines that name them, and puts numbers to 0, as long as `fails` holds; over again until nothing can be dropped.
pub fn shrink(sheet: &[u8], fails: &dyn Fn(&[u8]) -> bool) -> Vec<u8> {
    let mut best = sheet.to_vec();
    loop {
        let before = best.clone();
        best = drop_declarations(best, fails);
        best = drop_runs(best, fails);
        best = drop_counted(best, fails);
        best = drop_nodes(best, fails);
        best = drop_names_and_types(best, fails);
        best = zero_numbers(best, fails);
        if best == before {
            return best;
        }
    }
}

fn try_one(best: &mut Vec<u8>, candidate: Vec<u8>, fails: &dyn Fn(&[u8]) -> bool) -> bool {
    let better = candidate != *best && fails(&candidate);
    if better {
        *best = candidate;
    }
    better
}

fn letter(sheet: &[u8], line: usize) -> u8 {
    sheet[line * LINE]
}

fn without(sheet: &[u8], from: usize, to: usize) -> Vec<u8> {
    let mut sheet = sheet.to_vec();
    sheet.drain(from * LINE..to * LINE);
    sheet
}

/// Each declaration, from its D or I line to the next.
fn drop_declarations(mut best: Vec<u8>, fails: &dyn Fn(&[u8]) -> bool) -> Vec<u8> {
    let mut at = best.len() / LINE;
    while at > 0 && letter(&best, at - 1) == b'Q' {
        at -= 1;
    }
    let mut end = at;
    while at > 0 {
        at -= 1;
        if matches!(letter(&best, at), b'D' | b'I') {
            let candidate = without(&best, at, end);
            try_one(&mut best, candidate, fails);
            end = at;
        }
    }
    best
}

/// Runs of lines, from long to short.
fn drop_runs(mut best: Vec<u8>, fails: &dyn Fn(&[u8]) -> bool) -> Vec<u8> {
    let mut run = (best.len() / LINE).next_power_of_two();
    while run > 0 {
        let mut at = 0;
        while (at + run) * LINE <= best.len() {
            let candidate = without(&best, at, at + run);
            if !try_one(&mut best, candidate, fails) {
                at += run;
            }
        }
        run /= 2;
    }
    best
}

fn number(sheet: &[u8], line: usize, k: usize) -> Option<u32> {
    reference::line::read_number(&sheet[line * LINE + 1 + 6 * k..][..6])
}

fn set_number(sheet: &mut [u8], line: usize, k: usize, n: u32) {
    sheet[line * LINE + 1 + 6 * k..][..6].copy_from_slice(&reference::line::write_number(n));
}

/// A P, F or C line (with its F lines) and one less in the count that it belongs to.
fn drop_counted(mut best: Vec<u8>, fails: &dyn Fn(&[u8]) -> bool) -> Vec<u8> {
    let mut line = best.len() / LINE;
    while line > 0 {
        line -= 1;
        let what = letter(&best, line);
        let Some(head) = (0..line).rev().find(|&i| matches!(letter(&best, i), b'D' | b'I')) else { continue };
        let ctor = (head..line).rev().find(|&i| letter(&best, i) == b'C');
        let (owner, k) = match (what, ctor) {
            (b'P', _) => (head, 3),
            (b'F', Some(ctor)) => (ctor, 1),
            (b'F', None) => (head, 4),
            (b'C', _) => (head, 4),
            _ => continue,
        };
        let fields = if what == b'C' { number(&best, line, 1).unwrap_or(0) as usize } else { 0 };
        let Some(count @ 1..) = number(&best, owner, k) else { continue };
        if (line + 1 + fields) * LINE > best.len() {
            continue;
        }
        let mut candidate = without(&best, line, line + 1 + fields);
        set_number(&mut candidate, owner, k, count - 1);
        try_one(&mut best, candidate, fails);
    }
    best
}

/// One Q line, what named it naming the part before it; every number that told a later one lowered by one.
fn drop_nodes(mut best: Vec<u8>, fails: &dyn Fn(&[u8]) -> bool) -> Vec<u8> {
    let mut which = (0..best.len() / LINE).filter(|&i| letter(&best, i) == b'Q').count();
    while which > 0 {
        which -= 1;
        let Some(line) = (0..best.len() / LINE).filter(|&i| letter(&best, i) == b'Q').nth(which) else { continue };
        let Some(previous) = number(&best, line, 3) else { continue };
        let mut candidate = without(&best, line, line + 1);
        for i in line..candidate.len() / LINE {
            for k in [2, 3] {
                match number(&candidate, i, k) {
                    _ if letter(&candidate, i) != b'Q' => {}
                    Some(n) if n as usize == which + 1 => set_number(&mut candidate, i, k, previous),
                    Some(n) if n as usize > which + 1 => set_number(&mut candidate, i, k, n - 1),
                    _ => {}
                }
            }
        }
        try_one(&mut best, candidate, fails);
    }
    best
}

/// One N, A or Y line, and every number that told a later line of that letter lowered by one.
fn drop_names_and_types(mut best: Vec<u8>, fails: &dyn Fn(&[u8]) -> bool) -> Vec<u8> {
    for what in [b'Y', b'A', b'N'] {
        let mut which = (0..best.len() / LINE).filter(|&i| letter(&best, i) == what).count();
        while which > 0 {
            which -= 1;
            let Some(line) = (0..best.len() / LINE).filter(|&i| letter(&best, i) == what).nth(which) else { continue };
            let mut candidate = without(&best, line, line + 1);
            for i in 0..candidate.len() / LINE {
                // a field is told by its name's number plus one
                if what == b'N' && letter(&candidate, i) == b'Q' {
                    match number(&candidate, i, 4) {
                        Some(n) if n as usize > which + 1 => set_number(&mut candidate, i, 4, n - 1),
                        _ => {}
                    }
                }
                for k in told(&candidate, i, what) {
                    match number(&candidate, i, k) {
                        Some(n) if n as usize > which => set_number(&mut candidate, i, k, n - 1),
                        _ => {}
                    }
                }
            }
            try_one(&mut best, candidate, fails);
        }
    }
    best
}

/// Which numbers of a line tell lines of the letter `what`.
fn told(sheet: &[u8], line: usize, what: u8) -> Vec<usize> {
    let kind = number(sheet, line, 0);
    let body = number(sheet, line, 2);
    match (what, letter(sheet, line)) {
        (b'N', b'N' | b'P' | b'C' | b'F' | b'D' | b'I') => vec![0],
        (b'N', b'Y') if matches!(kind, Some(3 | 8)) => vec![1],
        (b'N', b'Q') if matches!(kind, Some(1 | 3 | 4)) => vec![1],
        (b'A', b'Y') if kind == Some(8) => vec![2],
        (b'A', b'Y') if kind == Some(9) => vec![1],
        (b'Y', b'A') => vec![0],
        (b'Y', b'F') => vec![1],
        (b'Y', b'D' | b'I') if body == Some(1) => vec![4],
        (b'Y', b'Y') => match kind {
            Some(7) => vec![1, 3],
            Some(10 | 12) => vec![1],
            Some(11) => vec![2],
            _ => vec![],
        },
        _ => vec![],
    }
}

/// Each number as 0.
fn zero_numbers(mut best: Vec<u8>, fails: &dyn Fn(&[u8]) -> bool) -> Vec<u8> {
    for line in 0..best.len() / LINE {
        let numbers = if letter(&best, line) == b'N' { 0 } else { 5 };
        for k in 0..numbers {
            let mut candidate = best.clone();
            set_number(&mut candidate, line, k, 0);
            try_one(&mut best, candidate, fails);
        }
    }
    best
}
