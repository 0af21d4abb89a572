//! Sheets that are damaged, and bytes that are no sheets.

use crate::random::Random;
use reference::line::LINE;

const LETTERS: &[u8] = b"NAYDIPCFVQUR n\0";

/// One damage, somewhere.
pub fn damage(random: &mut Random, sheet: &mut Vec<u8>) {
    let lines = sheet.len() / LINE;
    if lines == 0 {
        sheet.extend_from_slice(b"V     0     0     0     0     0\n");
        return;
    }
    let mut at = random.below(lines) * LINE;
    if random.percent(30) {
        // constructors, fields, verdicts and patterns more often
        let these: Vec<usize> =
            (0..lines).map(|i| i * LINE).filter(|&i| matches!(sheet[i], b'C' | b'F' | b'V' | b'Q')).collect();
        if !these.is_empty() {
            at = *random.pick(&these);
        }
    }
    let other = random.below(lines) * LINE;
    match random.weighted(&[6, 6, 6, 12, 8, 8, 4, 6, 34, 10]) {
        0 => {
            let i = random.below(sheet.len());
            sheet[i] ^= 1 << random.below(8);
        }
        1 => {
            let i = random.below(sheet.len());
            sheet[i] = *random.pick(b" 0123456789\n!~\x7f\xff");
        }
        2 => {
            for k in 0..LINE {
                sheet.swap(at + k, other + k);
            }
        }
        3 => {
            sheet.drain(at..at + LINE);
        }
        4 => {
            let line = sheet[at..at + LINE].to_vec();
            sheet.splice(other..other, line);
        }
        5 => sheet[at] = *random.pick(LETTERS),
        6 => {
            let cut = random.below(LINE);
            let length = if random.percent(50) { sheet.len().saturating_sub(cut) } else { sheet.len() + cut };
            sheet.resize(length, b' ');
        }
        7 => {
            // a line of names or of the same letter, its content that of another
            if let Some(same) = other_of_letter(random, sheet, at) {
                for k in 7..LINE {
                    sheet[at + k] = sheet[same + k];
                }
            }
        }
        8 => change_number(random, sheet, at),
        9 if sheet[at] == b'Q' => change_link(random, sheet, at),
        _ => {
            // the first number of another line of the letter: a name that stands twice
            if let Some(same) = other_of_letter(random, sheet, at) {
                for k in 1..7 {
                    sheet[at + k] = sheet[same + k];
                }
            }
        }
    }
}

/// Another line of the letter of the line at `at`.
fn other_of_letter(random: &mut Random, sheet: &[u8], at: usize) -> Option<usize> {
    let same: Vec<usize> =
        (0..sheet.len() / LINE).map(|i| i * LINE).filter(|&i| i != at && sheet[i] == sheet[at]).collect();
    if same.is_empty() {
        None
    } else {
        Some(*random.pick(&same))
    }
}

/// Another number in one of a line's columns.
fn change_number(random: &mut Random, sheet: &mut [u8], at: usize) {
    // an N line has one number
    let weights: &[usize] = match sheet[at] {
        b'N' => &[1],
        b'Q' => &[1, 1, 1, 1, 1],
        _ => &[3, 3, 3, 1, 1],
    };
    let columns = at + 1 + 6 * random.weighted(weights);
    let old: usize =
        std::str::from_utf8(&sheet[columns..columns + 6]).ok().and_then(|s| s.trim().parse().ok()).unwrap_or(0);
    let new = match random.below(6) {
        0 => old + 1,
        1 => old.saturating_sub(1),
        2 => random.below(5),
        3 => random.below(40),
        4 => *random.pick(&[0, 1, 8, 9, 12, 13, 31, 32, 96, 97, 128, 256, 512, 513, 1024, 1025, 999_999]),
        _ => random.below(1_000_000),
    };
    sheet[columns..columns + 6].copy_from_slice(format!("{new:6}").as_bytes()[..6].as_ref());
}

/// Another line in a Q line's last or previous: one that it could name, or one that another line names.
fn change_link(random: &mut Random, sheet: &mut [u8], at: usize) {
    let before = sheet[..at].chunks_exact(LINE).filter(|line| line[0] == b'Q').count();
    let link = |random: &mut Random| 13 + 6 * random.below(2);
    let to = at + link(random);
    match other_of_letter(random, sheet, at) {
        Some(other) if random.percent(40) => {
            let from = other + link(random);
            sheet.copy_within(from..from + 6, to);
        }
        _ => sheet[to..to + 6].copy_from_slice(format!("{:6}", random.below(before + 2)).as_bytes()),
    }
}

/// Bytes of any kind, mostly no sheet at all.
pub fn noise(random: &mut Random) -> Vec<u8> {
    let length = if random.percent(50) { random.below(200) } else { LINE * random.below(9) };
    let mut bytes: Vec<u8> = (0..length).map(|_| random.number() as u8).collect();
    match random.below(3) {
        0 => {}
        1 => bytes.iter_mut().for_each(|b| *b = b" 0123456789NAYDIPCFVQ\n"[*b as usize % 22]),
        _ => {
            for line in bytes.chunks_exact_mut(LINE) {
                line.fill(b' ');
                line[0] = *random.pick(b"NAYDIPCFVQ");
                (6..31).step_by(6).for_each(|k| line[k] = b'0' + random.below(10) as u8);
                line[31] = b'\n';
            }
        }
    }
    bytes
}

/// A sheet of a length near the limit: N lines, then others, then what is over; with Q lines it can be accepted.
pub fn long(random: &mut Random) -> Vec<u8> {
    let lines = random.between(2_040, 2_050);
    let pattern = random.percent(50);
    let mut sheet = Vec::new();
    for i in 0..lines {
        let line = match i {
            0..=255 => format!("N{i:6}n{i:<23}\n"),
            256..=767 => format!("A{:6}     0     0     0     0\n", i - 256),
            768..=1791 => "Y     0     0     0     0     0\n".to_string(),
            1984.. if pattern => "Q     0     0     0     0     0\n".to_string(),
            _ if i % 2 == 0 => format!("D{:6}     0     0     0     0\n", (i - 1792) / 2),
            _ => "V     0     0     0     0     0\n".to_string(),
        };
        sheet.extend(line.into_bytes());
    }
    let over = *random.pick(&[0, 0, 0, 1, 31, 32, 33]);
    sheet.resize(sheet.len() + over, b' ');
    sheet
}

/// A sheet at one of the limits, or one line past it.
pub fn limit(random: &mut Random) -> Vec<u8> {
    let row = |letter: char, n: [usize; 5]| format!("{letter}{:6}{:6}{:6}{:6}{:6}\n", n[0], n[1], n[2], n[3], n[4]);
    let names = |count: usize| (0..count).map(|i| format!("N{i:6}{:<24}\n", format!("n{i}"))).collect::<Vec<String>>();
    let over = random.below(2);
    let mut lines = Vec::new();
    match random.below(10) {
        0 => lines.extend(names(256 + over)),
        1 => {
            lines.extend((0..512 + over).map(|_| row('A', [0; 5])));
            lines.push(row('Y', [0; 5]));
        }
        2 => lines.extend((0..1024 + over).map(|_| row('Y', [1, 0, 0, 0, 0]))),
        3 => {
            lines.extend(names(100));
            for i in 0..96 + over {
                let (letter, layout) = if i % 3 == 0 { ('I', 4) } else { ('D', 0) };
                lines.extend([row(letter, [i, 0, 0, 0, 0]), row('V', [0, layout, 0, 0, 0])]);
            }
        }
        4 => {
            lines.extend(names(12));
            lines.push(row('D', [0, 0, 0, 8 + over, 0]));
            lines.extend((0..8 + over).map(|i| row('P', [i, 0, 0, 0, 0])));
            lines.push(row('V', [0; 5]));
        }
        5 => {
            lines.extend(names(256));
            // the largest tag, in an import
            let import = random.below(2);
            lines.push(row(['D', 'I'][import], [0, 0, 3, 0, 256 + over]));
            lines.extend((0..256 + over).map(|i| row('C', [i, 0, import * (i + 1), 0, 0])));
            lines.push(row('V', [0, import * 2, 0, 0, 0]));
        }
        6 => {
            // as deep, or as wide, as can be
            lines.extend(names(2));
            let (count, deep) = (256 + over, random.percent(50));
            let kind = *random.pick(&[3, 5, 6]);
            let name = usize::from(kind == 3);
            lines.push(row('Q', [1, 0, 0, 0, 0]));
            for q in 1..count - 1 {
                lines.push(row('Q', if deep { [kind, name, q, 0, 0] } else { [1, 0, 0, q, 0] }));
            }
            lines.push(row('Q', [kind, name, count - 1, 0, 0]));
        }
        7 => {
            // Q lines at the end or not quite, and within a declaration
            lines.extend(names(3));
            let declaration = [row('D', [0, 0, 3, 0, 1]), row('C', [1, 0, 0, 0, 0]), row('V', [0; 5])];
            lines.extend(declaration);
            let at = random.between(3, 6);
            lines.insert(at, row('Q', [3, 1, 0, 0, 0]));
            if random.percent(50) {
                lines.push(row('Q', [random.below(8), 2, over, 0, 0]));
            }
        }
        8 => {
            // an erased type, whose pattern frees as many names as can be
            lines.extend(names(255));
            lines.push(row('Y', [0; 5]));
            lines.extend([row('D', [0, 0, 3, 0, 1]), row('C', [1, 254 + over, 0, 0, 0])]);
            lines.extend((0..254 + over).map(|i| row('F', [i, 0, 0, 0, 0])));
            lines.push(row('V', [0; 5]));
            lines.extend((0..254 + over).map(|q| row('Q', [1, q % 7, 0, q, 0])));
            lines.push(row('Q', [3, 1, 254 + over, 0, 0]));
        }
        _ => {
            lines.extend(names(256));
            lines.push(row('Y', [0; 5]));
            lines.push(row('D', [0, 0, 3, 0, 3]));
            for (ctor, fields) in [(1, 256), (2, 256), (3, over)] {
                lines.push(row('C', [ctor, fields, 0, 0, 0]));
                lines.extend((0..fields).map(|i| row('F', [i, 0, 0, 0, 0])));
            }
            lines.push(row('V', [0; 5]));
        }
    }
    lines.concat().into_bytes()
}
