//! The reach index, on sheets whose sets can be told by looking at them.

use reference::line::{Line, LINE};
use reference::output::bytes;
use reference::pass::Way;
use reference::program::NO_NEWTYPE;
use reference::reach::{reach_index, WORDS};
use reference::{reach_program, Refusal};

/// So many N lines.
fn names(count: u32) -> Vec<Line> {
    let name = |i: u32| Line { letter: b'N', numbers: [i, 0, 0, 0, 0], text: format!("n{i}").into_bytes() };
    (0..count).map(name).collect()
}

/// A declaration for each list of those that it names: a record with a field for each, in an argument of a foreign name,
/// or an abstract type. None is a newtype, or a long chain would be a long left sheet.
fn sheet(named: &[&[u32]]) -> Vec<u8> {
    let count = named.len() as u32;
    let mut lines = names(count + 1);
    lines.extend((0..count).map(|j| Line::row(b'A', [j, 0, 0, 0, 0])));
    lines.extend((0..count).map(|j| Line::row(b'Y', [8, j, 0, 0, 0])));
    lines.extend((0..count).map(|j| Line::row(b'Y', [8, count, j, 1, 0])));
    for (i, js) in named.iter().enumerate() {
        let (kind, fields) = if js.is_empty() { (0, 0) } else { (2, js.len() as u32) };
        lines.push(Line::row(b'D', [i as u32, NO_NEWTYPE, kind, 0, fields]));
        lines.extend(js.iter().zip(0..).map(|(j, field)| Line::row(b'F', [field, count + j, 0, 0, 0])));
        lines.push(Line::row(b'V', [0; 5]));
    }
    bytes(&lines)
}

/// The counts that the program prints, behind line R.
fn counts(sheet: &[u8]) -> Vec<u32> {
    let printed = String::from_utf8(reach_program(sheet)).unwrap();
    assert!(printed.starts_with("R     0     0     1     0     0\n"), "{printed}");
    printed.lines().skip(1).map(|l| l[7..13].trim().parse().unwrap()).collect()
}

#[test]
fn chains_and_rings() {
    for count in [1, 2, 63, 64, 65, 95, 96] {
        let next: Vec<[u32; 1]> = (1..count).map(|j| [j]).collect();
        let chain: Vec<&[u32]> = next.iter().map(|j| &j[..]).chain([&[][..]]).collect();
        assert_eq!(counts(&sheet(&chain)), (0..count).rev().collect::<Vec<u32>>());
        let ring: Vec<&[u32]> = next.iter().map(|j| &j[..]).chain([&[0][..]]).collect();
        assert_eq!(counts(&sheet(&ring)), vec![count; count as usize]);
    }
}

#[test]
fn bits_on_both_sides_of_a_word() {
    let mut named: Vec<&[u32]> = vec![&[]; 66];
    named[0] = &[63, 64];
    named[64] = &[1, 64];
    named[65] = &[0];
    let mut words = [0; WORDS];
    words[0] = 1 << 63 | 1 << 1;
    words[1] = 1;
    words[128] = 1 << 1;
    words[129] = 1;
    words[130] = words[0] | 1;
    words[131] = words[1];
    assert_eq!(reach_index(&sheet(&named), Way::Outcomes), Ok(words));
}

#[test]
fn the_race() {
    let sheet = std::fs::read(concat!(env!("CARGO_MANIFEST_DIR"), "/../race.sheet")).unwrap();
    let printed = reach_program(&sheet);
    let expected = [
        "R     0     0     2     0     0\n",
        "X     0     2     0     0     0\n",
        "X     4     0     0     0     0\n",
        "X     7     0     0     0     0\n",
        "X     8     0     0     0     0\n",
        "X    11     4     0     0     0\n",
    ];
    assert_eq!(String::from_utf8(printed).unwrap(), expected.concat());
}

#[test]
fn refusals() {
    assert_eq!(reach_program(&[]), b"R     0     0     1     0     0\n");
    let x = b"X     0     0     0     0     0\n";
    assert_eq!(reach_index(x, Way::Outcomes), Err(Refusal { code: 2, place: 0 }));
    assert_eq!(reach_program(x), b"R     2     0     0     0     0\n");
    let one = sheet(&[&[]]);
    let twice = [&one[..], &one[one.len() - 2 * LINE..]].concat();
    assert_eq!(reach_index(&twice, Way::Outcomes), Err(Refusal { code: 6, place: 7 }));
}

/// The program has the build's outputs, and the call has none: three fields of 1,023 nodes each do not fit.
#[test]
fn a_left_sheet_that_is_too_long() {
    let mut lines = names(4);
    lines.extend((0..18).map(|a| Line::row(b'A', [a / 2, 0, 0, 0, 0])));
    lines.push(Line::row(b'Y', [1, 0, 0, 0, 0]));
    lines.extend((0..9).map(|t| Line::row(b'Y', [9, 2 * t, 2, 0, 0])));
    lines.push(Line::row(b'Y', [8, 0, 0, 0, 0]));
    lines.push(Line::row(b'D', [0, 0, 2, 0, 4]));
    lines.extend((0..4).map(|f| Line::row(b'F', [f, if f == 3 { 10 } else { 9 }, 0, 0, 0])));
    lines.push(Line::row(b'V', [0; 5]));
    let sheet = bytes(&lines);
    let mut words = [0; WORDS];
    words[0] = 1;
    assert_eq!(reach_index(&sheet, Way::Outcomes), Ok(words));
    let printed = reach_program(&sheet);
    assert!(printed.len() == LINE && printed.starts_with(b"R    12"));
}
