//! Generated patterns: they are well formed, and what the reference makes of them has the properties that are claimed
//! of the product: lines, names and fields are accounted for, and what is written can be read back.

use differential::generate::{generate, Plan};
use differential::patterns::pattern;
use differential::random::Random;
use reference::cty::Name;
use reference::line::Line;
use reference::pass::Pass;
use reference::pattern::{pat_vars, q_lines, row13, rw_pat, written, Pat};
use reference::rows;
use std::collections::BTreeMap;

fn parts(p: &Pat) -> Vec<&Pat> {
    match p {
        Pat::Wild | Pat::Var(_) | Pat::Const(_) => vec![],
        Pat::Ctor(_, parts) | Pat::Tuple(parts) | Pat::Or(parts) => parts.iter().collect(),
        Pat::Record(_, parts) => parts.iter().map(|(_, part)| part).collect(),
    }
}

/// No `PRecord` names a field twice.
fn once(p: &Pat) -> bool {
    let own = match p {
        Pat::Record(_, parts) => {
            let mut fields: Vec<Name> = parts.iter().map(|(field, _)| *field).collect();
            fields.sort();
            fields.windows(2).all(|two| two[0] != two[1])
        }
        _ => true,
    };
    own && parts(p).into_iter().all(once)
}

/// What a `PCtor` or `PRecord` finds: D or I, the layout's number, and of a struct whether it has one constructor.
fn found(pass: &Pass, p: &Pat) -> Option<String> {
    let decls = &pass.program.decls;
    let (kind, place) = match p {
        Pat::Ctor(name, _) => ("PCtor", decls.iter().position(|d| d.ctors().iter().any(|c| c.name == *name))),
        Pat::Record(name, _) => ("PRecord", decls.iter().position(|d| d.name == *name)),
        _ => return None,
    };
    let Some(i) = place else { return Some(format!("{kind} of nothing")) };
    let import = if decls[i].import.is_some() { "I" } else { "D" };
    let one = if decls[i].ctors().len() == 1 { "one" } else { "not one" };
    Some(format!("{kind} of {import}, layout {}, {one} constructor", pass.layouts[i].number()))
}

/// How often each is found in a pattern.
fn tally(pass: &Pass, p: &Pat, counts: &mut BTreeMap<String, usize>) {
    if let Some(class) = found(pass, p) {
        *counts.entry(class).or_default() += 1;
    }
    parts(p).into_iter().for_each(|part| tally(pass, part, counts));
}

fn counted(names: impl IntoIterator<Item = Name>) -> BTreeMap<Name, usize> {
    let mut counts = BTreeMap::new();
    names.into_iter().for_each(|name| *counts.entry(name).or_default() += 1);
    counts
}

#[test]
fn what_becomes_of_generated_patterns() {
    let (mut accepted, mut freed_some, mut wrong) = (0, 0, 0);
    let mut counts = BTreeMap::new();
    for index in 0..3_000 {
        let mut random = Random::new(index);
        let plan = Plan::any(&mut random);
        let mut lines = generate(&mut random, plan);
        let qs = pattern(&mut random, &lines);
        lines.extend(qs);
        assert_eq!(rows::row3(&lines), None);
        if rows::row4(&lines).is_some() {
            continue;
        }
        assert_eq!(rows::row5(&lines), None, "sheet {index}");
        let pass = Pass::new(&lines);
        if row13(&lines, &pass).is_some() {
            wrong += 1;
            continue;
        }
        accepted += 1;
        let whole = reference::pattern::pattern(&lines).unwrap();
        tally(&pass, &whole, &mut counts);
        let rewritten = rw_pat(&pass, &whole);
        let (new, freed) = &rewritten;
        freed_some += usize::from(!freed.is_empty());

        // lines_bounded
        let written = written(&rewritten);
        assert!(written.len() <= q_lines(&lines).len(), "sheet {index}");
        // read_back
        let names: Vec<Line> = lines.iter().filter(|l| l.letter == b'N').cloned().collect();
        let left = [names, written.into_iter().filter(|l| l.letter == b'Q').collect()].concat();
        assert_eq!((rows::row3(&left), rows::row5(&left)), (None, None), "sheet {index}");
        assert_eq!(reference::pattern::pattern(&left).as_ref(), Some(new), "sheet {index}");
        // names_accounted
        if once(&whole) {
            let after = counted(pat_vars(new).into_iter().chain(freed.iter().copied()));
            assert_eq!(counted(pat_vars(&whole)), after, "sheet {index}");
        }
    }
    println!("{accepted} patterns, {freed_some} with freed names, {wrong} with a wrong count");
    counts.iter().for_each(|(class, count)| println!("{count:6} {class}"));
    assert!(freed_some > 700 && wrong > 100);
    // erased, newtype and struct, of one constructor and of others; a record also an abbreviation or abstract
    assert!(counts.len() == 2 * 5 + 2 * 7 + 2 && counts.values().all(|&count| count > 5));
}
