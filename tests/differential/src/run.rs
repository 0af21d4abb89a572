//! One generated sheet, built and compared.

use crate::random::Random;
use crate::{call, cut, expected, sheet, shrink, Build, Call};
use std::io::{Read, Write};
use std::path::Path;
use std::process::{Command, Stdio};
use std::sync::atomic::{AtomicU64, Ordering};

/// What was counted: sheets by code, sheets that end in a Q line, sheets in which one declaration reaches another or
/// itself, sheets with a tag in their verdict sheet, sheets refused at a C line by row 7, and sheets that were cut.
#[derive(Default)]
pub struct Counts {
    pub codes: [AtomicU64; 14],
    pub patterns: AtomicU64,
    pub reaching: AtomicU64,
    pub tags: AtomicU64,
    pub wrong_tags: AtomicU64,
    pub cut: AtomicU64,
    pub units: AtomicU64,
}

impl Counts {
    pub fn print(&self) {
        let sheets = |what: &str, count: &AtomicU64| println!("{what:8} {:8} sheets", count.load(Ordering::Relaxed));
        for (code, count) in self.codes.iter().enumerate() {
            sheets(&format!("code {code:2}"), count);
        }
        sheets("pattern", &self.patterns);
        sheets("reach", &self.reaching);
        sheets("tags", &self.tags);
        sheets("bad tags", &self.wrong_tags);
        sheets("cut", &self.cut);
        println!("units    {:8}", self.units.load(Ordering::Relaxed));
    }
}

/// A difference found.
pub struct Found {
    pub index: u64,
    pub words: String,
    /// The sheet shrunk, and how many bytes it had.
    pub small: Vec<u8>,
    pub bytes: usize,
}

/// The smallest sheet found that still shows a difference, from that of a call that does.
fn smaller(build: &dyn Build, seed: u64, index: u64, one: &Call) -> Vec<u8> {
    let fails = |sheet: &[u8]| {
        let said = expected(sheet);
        let verdict_length = (sheet.len() + one.verdict_length).saturating_sub(one.sheet.len());
        Call { sheet: sheet.to_vec(), verdict_length, ..one.clone() }.difference(build, &said).is_some()
            || call(seed, index, sheet.to_vec(), &said).difference(build, &said).is_some()
    };
    shrink::shrink(&one.sheet, &fails)
}

/// Sheet number `index`, built and compared.
pub fn compare(build: &dyn Build, seed: u64, index: u64, counts: &Counts) -> Option<Found> {
    let bytes = sheet(seed, index);
    let said = expected(&bytes);
    let one = call(seed, index, bytes, &said);
    counts.codes[one.owed(&said).said.answer.code as usize].fetch_add(1, Ordering::Relaxed);
    let ends = one.sheet.len().checked_sub(32).is_some_and(|at| one.sheet[at] == b'Q');
    counts.patterns.fetch_add(u64::from(ends), Ordering::Relaxed);
    let reaching = said.as_ref().is_ok_and(|given| given.index.iter().any(|&word| word != 0));
    counts.reaching.fetch_add(u64::from(reaching), Ordering::Relaxed);
    let (tags, wrong_tags) = match &said {
        Ok(given) => (given.sheets.verdict.chunks_exact(32).any(|l| l[0] == b'C' && l[13..19] != *b"     0"), false),
        Err(refusal) => (false, refusal.code == 7 && one.sheet[refusal.place as usize * 32] == b'C'),
    };
    counts.tags.fetch_add(u64::from(tags), Ordering::Relaxed);
    counts.wrong_tags.fetch_add(u64::from(wrong_tags), Ordering::Relaxed);
    if let Some(words) = one.difference(build, &said) {
        return Some(Found { index, words, small: smaller(build, seed, index, &one), bytes: one.sheet.len() });
    }
    if index % 5 != 0 {
        return None;
    }
    let cuts = cut::cuts(&one.sheet)?;
    let mut random = Random::new(seed ^ !index);
    let chosen = cut::some_cuts(&mut random, &cuts);
    let lengths = cut::Lengths { verdict: one.verdict_length, left: one.left_length };
    counts.cut.fetch_add(1, Ordering::Relaxed);
    counts.units.fetch_add(chosen.len() as u64 - 1, Ordering::Relaxed);
    let difference = cut::difference(build, &one.sheet, &chosen, lengths)?;
    let small = match &difference.call {
        Some(unit) => smaller(build, seed, index, unit),
        // the reference does the same: the sheet as it is
        None => one.sheet.clone(),
    };
    let words = format!("cut at lines {chosen:?}: {}", difference.words);
    Some(Found { index, words, small, bytes: one.sheet.len() })
}

/// What a program prints of a sheet on its standard input. It reads no more than a sheet may have.
fn printed(program: &Path, sheet: &[u8]) -> Vec<u8> {
    let mut child = Command::new(program).stdin(Stdio::piped()).stdout(Stdio::piped()).spawn().expect("the program");
    let _ = child.stdin.take().unwrap().write_all(sheet);
    let mut out = Vec::new();
    child.stdout.take().unwrap().read_to_end(&mut out).expect("what it prints");
    child.wait().expect("its end");
    out
}

/// Sheet number `index`, given to the program `layout` or `reach`, and what it prints compared.
pub fn compare_program(program: &Path, seed: u64, index: u64) -> Option<Found> {
    let owed = if program.ends_with("reach") { reference::reach_program } else { reference::program };
    let fails = |sheet: &[u8]| printed(program, sheet) != owed(sheet);
    let bytes = sheet(seed, index);
    if !fails(&bytes) {
        return None;
    }
    let words = format!("{} prints something else", program.display());
    Some(Found { index, words, small: shrink::shrink(&bytes, &fails), bytes: bytes.len() })
}
