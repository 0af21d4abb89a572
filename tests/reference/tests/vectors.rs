//! Sheets with their expected output: X.sheet and X.out in the crates' folders `data`, and in the
//! folders that the variable VECTORS names (colons between them); of a sheet that stands in several the
//! last output counts. Where a sheet has no X.out, the two ways of resolving types are compared. X.units
//! has the units' counts of lines, the first with the N, A and Y lines, the last with the Q lines: built
//! in turn they are to give what the whole gives. X.words has the words of the reach index, a line for
//! each declaration; X.out is then what the program `reach` prints.

use reference::line::LINE;
use reference::pass::Way;
use reference::reach::{reach_index, WORDS};
use reference::Sheets;
use std::collections::BTreeMap;
use std::fs;
use std::path::{Path, PathBuf};

fn folders() -> Vec<PathBuf> {
    let crates = Path::new(env!("CARGO_MANIFEST_DIR")).join("../../crates");
    let data = fs::read_dir(crates).unwrap().map(|e| e.unwrap().path().join("data")).filter(|p| p.is_dir());
    let more = std::env::var("VECTORS").unwrap_or_default();
    data.chain(more.split(':').filter(|p| !p.is_empty()).map(PathBuf::from)).collect()
}

fn sheets(sheet: &[u8], way: Way) -> Result<Sheets, reference::Refusal> {
    reference::sheets(sheet, 65_536, 65_536, way)
}

/// What the last unit gives, if every unit is accepted.
fn in_turn(sheet: &[u8], counts: &[usize]) -> Option<Sheets> {
    let (mut before, mut at) = (Vec::new(), 0);
    let mut last = None;
    for count in counts {
        let unit = [&before[..], &sheet[at * LINE..][..count * LINE]].concat();
        at += count;
        let built = sheets(&unit, Way::Steps(reference::STEPS)).ok()?;
        before = built.verdict.clone();
        last = Some(built);
    }
    assert_eq!(at * LINE, sheet.len(), "the units are not the whole");
    last
}

/// The words that a file's numbers are, and 0 for those that it has not.
fn words(numbers: &str) -> [u64; WORDS] {
    let mut words = [0; WORDS];
    words.iter_mut().zip(numbers.split_whitespace()).for_each(|(word, n)| *word = n.parse().unwrap());
    words
}

#[test]
fn every_vector() {
    let mut vectors: BTreeMap<(Vec<u8>, String), PathBuf> = BTreeMap::new();
    for folder in folders() {
        for entry in fs::read_dir(&folder).unwrap() {
            let path = entry.unwrap().path();
            if path.extension().is_some_and(|e| e == "sheet") {
                let name = path.file_stem().unwrap().to_string_lossy().into_owned();
                vectors.insert((fs::read(&path).unwrap(), name), path);
            }
        }
    }
    let (mut outputs, mut cut, mut indexes) = (0, 0, 0);
    for ((sheet, _), path) in &vectors {
        let both = [Way::Steps(reference::STEPS), Way::Outcomes].map(|way| sheets(sheet, way));
        assert!(both[0] == both[1], "{path:?}: the two ways differ");
        let index = fs::read_to_string(path.with_extension("words")).ok();
        if let Ok(expected) = fs::read(path.with_extension("out")) {
            outputs += 1;
            // of a refused sheet both programs print the same
            if index.is_none() {
                assert!(reference::program(sheet) == expected, "{path:?}");
            }
            if index.is_some() || both[0].is_err() {
                assert!(reference::reach_program(sheet) == expected, "{path:?}: reach");
            }
        }
        if let Some(numbers) = index {
            indexes += 1;
            assert!(reach_index(sheet, Way::Outcomes) == Ok(words(&numbers)), "{path:?}: words");
        }
        if let Ok(units) = fs::read_to_string(path.with_extension("units")) {
            cut += 1;
            let counts: Vec<usize> = units.lines().map(|l| l.trim().parse().unwrap()).collect();
            let whole = both[0].as_ref().ok().map(|s| (&s.verdict, &s.left));
            let last = in_turn(sheet, &counts);
            assert!(whole == last.as_ref().map(|s| (&s.verdict, &s.left)), "{path:?}: units");
        }
    }
    println!("{} sheets, {outputs} with expected output, {cut} with units, {indexes} with words", vectors.len());
}
