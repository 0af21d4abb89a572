//! The examples of docs/FORMAT.md, read from the page itself.

use reference::line::{write_number, LINE};

/// The blocks of lines of a section of the page, each line filled up to 32 bytes.
fn blocks(section: usize) -> Vec<Vec<u8>> {
    let page = std::fs::read_to_string(concat!(env!("CARGO_MANIFEST_DIR"), "/../../docs/FORMAT.md")).unwrap();
    let example = page.split("\n## ").find(|s| s.starts_with(&format!("{section}."))).expect("the section");
    let block = |text: &str| text.lines().skip(1).flat_map(|l| format!("{l:31}\n").into_bytes()).collect();
    example.split("```").skip(1).step_by(2).map(block).collect()
}

#[test]
fn the_example_of_the_page() {
    let [sheet, verdict, left] = &blocks(11)[..] else { panic!("three blocks") };
    let names: Vec<u8> = sheet.chunks(LINE).filter(|l| l[0] == b'N').flatten().copied().collect();
    let header = sheet.chunks(LINE).take_while(|l| l[0] != b'D').count() * LINE;
    let expected = [&b"R     0     0     2     0     0\n"[..], &sheet[..header], verdict, &names, left].concat();
    let printed = reference::program(sheet);
    assert_eq!(String::from_utf8(printed).unwrap(), String::from_utf8(expected).unwrap());
}

#[test]
fn the_example_is_a_file_too() {
    let file = std::fs::read(concat!(env!("CARGO_MANIFEST_DIR"), "/../race.sheet")).unwrap();
    assert!(blocks(11)[0] == file, "tests/race.sheet is not the sheet of the page");
}

#[test]
fn the_tags_of_the_page() {
    let [sheet, verdict] = &blocks(8)[..] else { panic!("two blocks") };
    let header = sheet.chunks(LINE).take_while(|l| l[0] != b'D').count() * LINE;
    let stored = [&sheet[..header], verdict].concat();
    // what is left is the sheet itself
    let printed = [&b"R     0     0     1     0     0\n"[..], &stored, sheet].concat();
    assert_eq!(String::from_utf8(reference::program(sheet)).unwrap(), String::from_utf8(printed.clone()).unwrap());
    assert_eq!(reference::program(&stored), printed);
    let with = |sheet: &[u8], tags: [u32; 2]| {
        let mut sheet = sheet.to_vec();
        let ctors: Vec<usize> = (0..sheet.len()).step_by(LINE).filter(|&at| sheet[at] == b'C').collect();
        ctors.iter().zip(tags).for_each(|(at, tag)| sheet[at + 13..][..6].copy_from_slice(&write_number(tag)));
        String::from_utf8(reference::program(&sheet)).unwrap()
    };
    for other in [0, 1, 3, 256, 999_999] {
        assert_eq!(with(&stored, [1, other]), "R     7     7     0     0     0\n");
    }
    assert_eq!(with(&stored, [0, 0]), "R     7     6     0     0     0\n");
    assert_eq!(with(sheet, [1, 2]), "R     7     6     0     0     0\n");
}

#[test]
fn the_pattern_of_the_page() {
    let [sheet, tail] = &blocks(12)[..] else { panic!("two blocks") };
    let printed = reference::program(sheet);
    assert!(printed.starts_with(b"R     0     0     2     0     0\n"));
    let left = &printed[LINE + sheet.len()..];
    assert!(left.ends_with(&[&b"V     0     0     0     0     0\n"[..], tail].concat()), "the left sheet's end");
    let q_lines = |sheet: &[u8]| sheet.chunks(LINE).filter(|l| l[0] == b'Q').flatten().copied().collect::<Vec<u8>>();
    assert!(q_lines(&printed[LINE..][..sheet.len()]) == q_lines(sheet), "the verdict sheet's Q lines");
    let tags = |l: &[u8]| (l[0] == b'C').then_some(l[18]);
    assert_eq!(printed[LINE..][..sheet.len()].chunks(LINE).filter_map(tags).collect::<Vec<u8>>(), b"0012");
    let cross = String::from_utf8(sheet.clone()).unwrap().replace("Q     3     8 ", "Q     3    10 ");
    assert_eq!(reference::program(cross.as_bytes()), b"R    13    42     0     0     0\n");
    let file = std::fs::read(concat!(env!("CARGO_MANIFEST_DIR"), "/../pattern.sheet")).unwrap();
    assert!(*sheet == file, "tests/pattern.sheet is not the sheet of the page");
}

#[test]
fn the_index_of_the_page() {
    let [printed] = &blocks(13)[..] else { panic!("one block") };
    assert_eq!(reference::reach_program(&blocks(11)[0]), *printed);
}
