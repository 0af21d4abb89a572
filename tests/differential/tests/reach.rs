//! Sheets for the reach index: they are well formed, and what the reference makes of them has the properties that are
//! claimed of the product. They have each place where a declaration can be named, and sets of each length that matters.

use differential::generate::bytes;
use differential::random::Random;
use differential::reach::reaching;
use differential::sheet;
use reference::cty::{Cty, Ty};
use reference::pass::{Pass, Way};
use reference::program::{Decl, Program};
use reference::reach::{named, reach_sets, search_all, words, SET_WORDS, WORDS};
use reference::rows;
use std::collections::{BTreeMap, BTreeSet};

type Sets = Vec<BTreeSet<usize>>;

/// The sets by another computation: for each declaration in turn, whoever reaches it reaches what it reaches.
fn closed(mut sets: Sets) -> Sets {
    for k in 0..sets.len() {
        let through = sets[k].clone();
        sets.iter_mut().filter(|set| set.contains(&k)).for_each(|set| set.extend(&through));
    }
    sets
}

/// What is claimed of every index.
fn properties(program: &Program, index: u64) -> Sets {
    let sets = reach_sets(program);
    assert_eq!(sets, closed(named(program)), "sheet {index}");
    // transitive
    for set in &sets {
        assert!(set.iter().all(|&j| sets[j].is_subset(set)), "sheet {index}");
    }
    // a bit for each, and no other; as many ones as declarations that are reached
    let words = words(&sets);
    for i in 0..WORDS / SET_WORDS {
        let bit = |j: usize| words[SET_WORDS * i + j / 64] >> (j % 64) & 1 == 1;
        assert!((0..64 * SET_WORDS).all(|j| bit(j) == sets.get(i).is_some_and(|set| set.contains(&j))));
    }
    let ones = |i: usize| words[SET_WORDS * i..][..SET_WORDS].iter().map(|word| word.count_ones() as usize).sum();
    assert_eq!(sets.iter().map(BTreeSet::len).collect::<Vec<_>>(), (0..sets.len()).map(ones).collect::<Vec<usize>>());
    sets
}

/// The declarations that a type names outside the arguments of foreign names.
fn outside_foreign(program: &Program, t: Ty) -> BTreeSet<usize> {
    let c = program.types.get(t);
    let own = match c {
        Cty::App(name, _) => match program.find(*name) {
            None => return BTreeSet::new(),
            own => own,
        },
        _ => None,
    };
    own.into_iter().chain(c.parts().into_iter().flat_map(|part| outside_foreign(program, part))).collect()
}

/// The sets, where a step goes to what `next` says of a declaration.
fn sets_by(program: &Program, next: impl Fn(usize, &Decl) -> BTreeSet<usize>) -> Sets {
    search_all(&program.decls.iter().enumerate().map(|(i, d)| next(i, d)).collect::<Sets>())
}

#[test]
fn what_reaching_declarations_reach() {
    let mut counts: BTreeMap<String, usize> = BTreeMap::new();
    for index in 0..3_000 {
        let mut random = Random::new(index);
        let lines = reaching(&mut random);
        let lines_read = rows::row2(&bytes(&lines)).unwrap();
        for row in [rows::row3, rows::row4, rows::row5, rows::row6, rows::row7] {
            assert_eq!(row(&lines_read), None, "sheet {index}");
        }
        let pass = Pass::new(&lines);
        let program = &pass.program;
        let count = program.decls.len();
        let sets = properties(program, index);

        let mut seen = Vec::new();
        let refusal = reference::judged(&bytes(&lines), Way::Outcomes).err().map_or(0, |refusal| refusal.code);
        seen.push(format!("code {refusal}"));
        if [63, 64, 65, 96].contains(&count) {
            seen.push(format!("{count} declarations"));
        }
        let mut see = |words: &str, seen_it: bool| seen.extend(seen_it.then(|| words.to_string()));
        let across = |from: usize, to: usize| sets.get(from).is_some_and(|set| set.contains(&to));
        see("the last bit of a word", (0..count).any(|i| across(i, 63)));
        see("the first bit of the second word", (0..count).any(|i| across(i, 64)));
        see("the last bit", (0..count).any(|i| across(i, 95)));
        see("a set of the last declaration", across(95, 0));
        see("a chain of 96", (0..96).all(|n| sets.iter().any(|set| set.len() == n)));
        see("a ring of 96", count == 96 && sets.iter().all(|set| set.len() == 96));
        see("a declaration that reaches itself beside one that does not", {
            let own = (0..count).filter(|&i| across(i, i)).count();
            0 < own && own < count
        });
        // what would be missing by other steps
        let in_types = |types: &[Ty]| types.iter().flat_map(|&t| program.declared_in(t)).collect::<BTreeSet<usize>>();
        let all = |d: &Decl| in_types(&d.body.types());
        let only = |test: bool, d: &Decl| if test { all(d) } else { BTreeSet::new() };
        see("through a type behind a body's first", {
            sets_by(program, |_, d| in_types(&d.body.types()[..d.body.types().len().min(1)])) != sets
        });
        see("through a field that is not kept", {
            let kept = |i: usize, d: &Decl| match d.ctors().is_empty() {
                true => d.body.types(),
                false => reference::layout::kept_fields(d, &pass.kept[i]).concat().iter().map(|f| f.ty).collect(),
            };
            sets_by(program, |i, d| in_types(&kept(i, d))) != sets
        });
        see("through a constructor behind the first", {
            let first = |d: &Decl| d.ctors().first().map(|c| c.fields.iter().map(|f| f.ty).collect::<Vec<Ty>>());
            sets_by(program, |_, d| in_types(&first(d).unwrap_or(d.body.types()))) != sets
        });
        see("through an argument of a foreign name", {
            sets_by(program, |_, d| d.body.types().iter().flat_map(|&t| outside_foreign(program, t)).collect()) != sets
        });
        see("through an import", sets_by(program, |_, d| only(d.import.is_none(), d)) != sets);
        see("through a type that is erased", sets_by(program, |i, d| only(!pass.erasure.decls[i], d)) != sets);
        see("through an abbreviation", sets_by(program, |_, d| only(!d.ctors().is_empty(), d)) != sets);
        seen.into_iter().for_each(|words| *counts.entry(words).or_default() += 1);
    }
    counts.iter().for_each(|(words, count)| println!("{count:6} {words}"));
    assert!(counts["code 0"] > 2_500);
    let classes = counts.iter().filter(|(words, _)| !words.starts_with("code"));
    assert!(classes.clone().count() == 18 && classes.into_iter().all(|(_, &count)| count > 20));
}

#[test]
fn what_generated_declarations_reach() {
    for index in 0..3_000 {
        let sheet = sheet(2026, index);
        if reference::judged(&sheet, Way::Outcomes).is_ok() {
            properties(&Program::read(&rows::row2(&sheet).unwrap()), index);
        }
    }
}
