//! Sheets for tags: what the reference makes of them has the properties that are claimed of the product. Types of every
//! count of constructors are among them, local and imported, and tags that are wrong in each way and beside other faults.

use differential::generate::bytes;
use differential::random::Random;
use differential::sheet;
use differential::tags::{ctors, put, tagging, Ctor};
use reference::line::Line;
use reference::pass::{Pass, Way};
use reference::rows;
use std::collections::BTreeMap;

fn read(sheet: &[u8]) -> Vec<Line> {
    rows::row2(sheet).unwrap()
}

/// What is claimed of an accepted sheet, if it is one.
fn properties(sheet: &[u8], words: &str) -> bool {
    let sheets = |sheet: &[u8]| reference::sheets(sheet, usize::MAX, usize::MAX, Way::Outcomes);
    let Ok(built) = sheets(sheet) else { return false };
    // a number by its place in its declaration, in every declaration
    let verdict = read(&built.verdict);
    let all = ctors(&verdict);
    let tag = |c: &Ctor| verdict[c.at].numbers[2];
    assert!(all.iter().all(|c| c.import && tag(c) == c.stored()), "{words}");
    // each larger than the one before
    let together = all.windows(2).filter(|two| two[1].k > 0);
    assert!(together.into_iter().all(|two| 0 < tag(&two[0]) && tag(&two[0]) < tag(&two[1])), "{words}");
    // an import's lines stay
    let lines = read(sheet);
    assert!(ctors(&lines).iter().all(|c| !c.import || lines[c.at] == verdict[c.at]), "{words}");
    // none in the left sheet
    let left = built.left.chunks_exact(32).filter(|l| l[0] == b'C');
    assert!(left.into_iter().all(|l| l[13..].iter().all(|b| b" 0\n".contains(b))), "{words}");
    // built again
    let again = sheets(&built.verdict).unwrap();
    assert!(again.verdict == built.verdict && again.left == built.left, "{words}");
    true
}

/// How many constructors, in words.
fn many(count: u32) -> &'static str {
    match count {
        0 => "none",
        1 => "one",
        2..=9 => "several",
        10..=99 => "ten and more",
        _ => "a hundred and more",
    }
}

#[test]
fn what_tags_are_given_and_refused() {
    let mut counts: BTreeMap<String, usize> = BTreeMap::new();
    for index in 0..6_000 {
        let lines = tagging(&mut Random::new(index));
        let words = format!("sheet {index}");
        let mut right = read(&bytes(&lines));
        put(&mut right);
        for row in [rows::row3, rows::row4, rows::row6] {
            assert_eq!(row(&lines), None, "{words}");
        }
        let mut seen = Vec::new();
        let wrong: Vec<Ctor> = ctors(&lines).into_iter().filter(|c| lines[c.at].numbers[2] != c.tag()).collect();
        let first = wrong.first().map(|c| c.at);
        // a keep or a V line that cannot be
        let other = rows::row7(&right);
        let place = [first, other].into_iter().flatten().min();
        if rows::row5(&lines).is_some() {
            assert_eq!(rows::row5(&lines), rows::row5(&right), "{words}");
            seen.push("unused number".to_string());
        } else {
            assert_eq!(rows::row7(&lines), place, "{words}");
            let owner = |c: &Ctor| if c.import { "imported" } else { "local" };
            seen.extend(wrong.first().filter(|_| place == first).map(|c| {
                let none = if lines[c.at].numbers[2] == 0 { "no tag" } else { "a wrong tag" };
                format!("{none}: {}, of {}", owner(c), if c.count == 1 { "one" } else { "several" })
            }));
            match (first, other) {
                (Some(tag), Some(other)) if tag < other => seen.push("a wrong tag before another fault".to_string()),
                (Some(_), Some(_)) => seen.push("a wrong tag behind another fault".to_string()),
                _ => {}
            }
            seen.extend(first.filter(|_| wrong.len() == 1 && wrong[0].k > 0).map(|_| "only a later tag".to_string()));
        }
        if place.is_none() && rows::row5(&lines).is_none() {
            assert!(properties(&bytes(&lines), &words), "{words}");
            let pass = Pass::new(&lines);
            for (d, layout) in
                pass.program.decls.iter().zip(&pass.layouts).filter(|(d, _)| lines[d.line].numbers[2] == 3)
            {
                let import = if d.import.is_some() { "imported" } else { "local" };
                let erased = if layout.number() == 0 { "erased " } else { "" };
                seen.push(format!("{import} {erased}type of {}", many(lines[d.line].numbers[4])));
            }
        }
        seen.sort();
        seen.dedup();
        seen.into_iter().for_each(|words| *counts.entry(words).or_default() += 1);
    }
    counts.iter().for_each(|(words, count)| println!("{count:6} {words}"));
    // none is missing where none is wanted
    assert!(counts.len() == 4 * 5 + 5 + 4 && counts.values().all(|&count| count > 20));
}

#[test]
fn what_tags_generated_sheets_have() {
    let accepted = (0..3_000).filter(|&index| properties(&sheet(2026, index), &format!("sheet {index}"))).count();
    assert!(accepted > 1_500);
}
