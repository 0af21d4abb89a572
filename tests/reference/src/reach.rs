//! What declarations reach, and the reach index: FORMAT, section 13.

use crate::cty::Ty;
use crate::line::Line;
use crate::output::bytes;
use crate::pass::Way;
use crate::program::{Decl, Program};
use crate::{judged, rows, Refusal};
use std::collections::BTreeSet;

/// Words of one declaration's set, and of all sets.
pub const SET_WORDS: usize = rows::DECLS.div_ceil(64);
pub const WORDS: usize = rows::DECLS * SET_WORDS;

/// What is reached from `start` in one step or more.
pub fn search(next: impl Fn(usize) -> BTreeSet<usize>, start: usize) -> BTreeSet<usize> {
    let mut seen = BTreeSet::new();
    let mut work = vec![start];
    while let Some(i) = work.pop() {
        work.extend(next(i).into_iter().filter(|&j| seen.insert(j)));
    }
    seen
}

/// The declarations that each declaration names in its body.
pub fn named(program: &Program) -> Vec<BTreeSet<usize>> {
    let of = |types: Vec<Ty>| types.into_iter().flat_map(|t| program.declared_in(t)).collect();
    program.decls.iter().map(|d| of(d.body.types())).collect()
}

/// What each of them reaches, by what each one names.
pub fn search_all(named: &[BTreeSet<usize>]) -> Vec<BTreeSet<usize>> {
    (0..named.len()).map(|i| search(|j| named[j].clone(), i)).collect()
}

/// The declarations that each declaration reaches.
pub fn reach_sets(program: &Program) -> Vec<BTreeSet<usize>> {
    search_all(&named(program))
}

/// The sets as bits in words.
pub fn words(sets: &[BTreeSet<usize>]) -> [u64; WORDS] {
    let mut words = [0; WORDS];
    for (i, set) in sets.iter().enumerate() {
        for j in set {
            words[SET_WORDS * i + j / 64] |= 1 << (j % 64);
        }
    }
    words
}

/// The index of a sheet, or why it has none.
pub fn reach_index(sheet: &[u8], way: Way) -> Result<[u64; WORDS], Refusal> {
    judged(sheet, way).map(|judged| words(&reach_sets(&judged.pass.program)))
}

/// A call: code and place; on a refusal the words are as they were.
pub fn reach_in(way: Way, sheet: &[u8], sets: &mut [u64; WORDS]) -> [u64; 2] {
    match reach_index(sheet, way) {
        Ok(index) => {
            *sets = index;
            [0, 0]
        }
        Err(Refusal { code, place }) => [code, place],
    }
}

/// An X line for each declaration.
pub fn x_lines(program: &Program) -> Vec<u8> {
    let line = |(d, set): (&Decl, BTreeSet<usize>)| Line::row(b'X', [d.name, set.len() as u32, 0, 0, 0]);
    bytes(&program.decls.iter().zip(reach_sets(program)).map(line).collect::<Vec<Line>>())
}
