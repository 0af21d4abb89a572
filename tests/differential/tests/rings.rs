//! Generated rings: they are well formed, and what the reference makes of them has the properties that are claimed of the
//! guard. Candidates are dropped in each of the ways in which one can be, and the search ends at each name that ends it.

use differential::generate::bytes;
use differential::random::Random;
use differential::ring::rings;
use reference::cty::Ty;
use reference::layout::{acyclic_candidates, candidates, passes, reached, returns, Layout};
use reference::pass::Pass;
use reference::program::{Body, NO_UNFOLD, REALIZED};
use reference::rows;
use std::collections::BTreeMap;

/// The table without some of its entries.
fn without(table: &[Option<Ty>], gone: &dyn Fn(usize) -> bool) -> Vec<Option<Ty>> {
    table.iter().enumerate().map(|(i, &t)| t.filter(|_| !gone(i))).collect()
}

#[test]
fn what_the_guard_makes_of_rings() {
    let mut counts: BTreeMap<&str, usize> = BTreeMap::new();
    for index in 0..6_000 {
        let mut random = Random::new(index);
        let lines = rings(&mut random);
        let lines_read = rows::row2(&bytes(&lines)).unwrap();
        for row in [rows::row3, rows::row5, rows::row6, rows::row7] {
            assert_eq!(row(&lines_read), None, "sheet {index}");
        }
        if rows::row4(&lines).is_some() {
            continue;
        }
        let Pass { program, erasure, kept, layouts, unfolded } = Pass::new(&lines);
        let all = 0..program.decls.len();
        let imported = |i: usize| program.decls[i].import.is_some();
        let is_abbrev = |i: usize| matches!(program.decls[i].body, Body::Abbrev(_));
        let candidates = candidates(&program, &erasure, &kept);
        let passes = passes(&program, &erasure, &candidates);
        let by_payloads = acyclic_candidates(&program, &candidates, &candidates);
        let by_all = acyclic_candidates(&program, &candidates, &passes);
        let loops = |table: &[Option<Ty>], i: usize| reached(&program, table, i).contains(&i);

        let mut seen = Vec::new();
        for i in all.clone().filter(|&i| candidates[i].is_some()) {
            // guard_more
            assert!(by_payloads[i].is_some() || by_all[i].is_none(), "sheet {index}");
            let local = without(&passes, &|j| is_abbrev(j) && imported(j));
            let foreign = without(&passes, &|j| is_abbrev(j) && !imported(j));
            let kept_on = without(&passes, &|j| candidates[j].is_some() && by_payloads[j].is_none());
            seen.push(match (by_payloads[i], by_all[i]) {
                (None, _) => "dropped by payloads",
                (_, None) if loops(&local, i) => "dropped by local abbreviations",
                (_, None) if loops(&foreign, i) => "dropped by imported abbreviations",
                (_, None) => "dropped by local and imported abbreviations together",
                _ => "stays",
            });
            if by_payloads[i].is_some() && by_all[i].is_none() && !loops(&kept_on, i) {
                seen.push("dropped by abbreviations and a candidate that is dropped");
            }
            // what ends a search that would else come back
            let ends = |gone_on: &dyn Fn(usize) -> Option<Ty>| {
                let table: Vec<Option<Ty>> = all.clone().map(|j| passes[j].or_else(|| gone_on(j))).collect();
                by_all[i].is_some() && loops(&table, i)
            };
            let body = |j: usize, test: bool| match program.decls[j].body {
                Body::Abbrev(t) if test => Some(t),
                _ => None,
            };
            let has = |j: usize, flag: u32| !erasure.decls[j] && program.decls[j].has(flag);
            let leaves: [(&str, &dyn Fn(usize) -> Option<Ty>); 5] = [
                ("ends at an erased abbreviation", &|j| body(j, erasure.decls[j] && !imported(j))),
                ("ends at an imported erased abbreviation", &|j| body(j, erasure.decls[j] && imported(j))),
                ("ends at an abbreviation with `Realized`", &|j| body(j, has(j, REALIZED))),
                ("ends at an abbreviation with `NoUnfold`", &|j| body(j, has(j, NO_UNFOLD))),
                ("ends at an imported newtype", &|j| unfolded[j].filter(|_| matches!(layouts[j], Layout::Newtype(_)))),
            ];
            seen.extend(leaves.iter().filter(|(_, gone_on)| ends(*gone_on)).map(|(words, _)| words));
        }
        // guard_here
        if !all.clone().any(|i| is_abbrev(i) && passes[i].is_some()) {
            assert_eq!(by_payloads, by_all, "sheet {index}");
        }
        // loops_left
        let ours = without(&unfolded, &|j| imported(j) && !is_abbrev(j));
        for i in all.clone().filter(|&i| returns(&program, &unfolded, i)) {
            assert!(is_abbrev(i) || imported(i) || !loops(&ours, i), "sheet {index}");
            seen.push(if loops(&ours, i) { "loop of abbreviations" } else { "loop through an imported newtype" });
        }
        seen.sort();
        seen.dedup();
        seen.into_iter().for_each(|words| *counts.entry(words).or_default() += 1);
    }
    counts.iter().for_each(|(words, count)| println!("{count:6} {words}"));
    assert!(counts.len() == 13 && counts.values().all(|&count| count > 20));
}
