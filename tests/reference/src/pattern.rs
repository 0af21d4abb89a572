//! The pattern that a sheet may end in: FORMAT, section 12, with row 13.

use crate::cty::Name;
use crate::layout::{kept_fields, Layout};
use crate::line::Line;
use crate::pass::Pass;

#[derive(Clone, Debug, PartialEq, Eq)]
pub enum Pat {
    Wild,
    Var(Name),
    Const(u32),
    Ctor(Name, Vec<Pat>),
    /// The parts with their fields' names.
    Record(Name, Vec<(Name, Pat)>),
    Tuple(Vec<Pat>),
    Or(Vec<Pat>),
}

/// The numbers of the Q lines.
pub fn q_lines(lines: &[Line]) -> Vec<[u32; 5]> {
    lines.iter().filter(|l| l.letter == b'Q').map(|l| l.numbers).collect()
}

/// The parts of Q line `q`, from left to right, by their lines.
fn part_lines(qs: &[[u32; 5]], q: usize) -> Vec<usize> {
    let mut parts = Vec::new();
    let mut link = qs[q][2];
    while link != 0 {
        parts.push(link as usize - 1);
        link = qs[link as usize - 1][3];
    }
    parts.reverse();
    parts
}

/// The pattern that Q line `q` stands for.
fn read(qs: &[[u32; 5]], q: usize) -> Pat {
    let [kind, number, ..] = qs[q];
    let lines = part_lines(qs, q);
    let parts = || lines.iter().map(|&p| read(qs, p)).collect();
    match kind {
        0 => Pat::Wild,
        1 => Pat::Var(number),
        2 => Pat::Const(number),
        3 => Pat::Ctor(number, parts()),
        4 => Pat::Record(number, lines.iter().map(|&p| (qs[p][4] - 1, read(qs, p))).collect()),
        5 => Pat::Tuple(parts()),
        6 => Pat::Or(parts()),
        _ => unreachable!("row 5"),
    }
}

/// The whole pattern, if there is one.
pub fn pattern(lines: &[Line]) -> Option<Pat> {
    let qs = q_lines(lines);
    qs.len().checked_sub(1).map(|whole| read(&qs, whole))
}

/// The declaration of a constructor and its place there: of C lines and of records.
fn ctor_owner(pass: &Pass, name: Name) -> Option<(usize, usize)> {
    let place = |i: usize| pass.program.decls[i].ctors().iter().position(|c| c.name == name).map(|c| (i, c));
    (0..pass.program.decls.len()).find_map(place)
}

/// Row 13: the first Q line of a declared constructor with another count of parts.
pub fn row13(lines: &[Line], pass: &Pass) -> Option<usize> {
    let qs = q_lines(lines);
    let declared = |name: Name| ctor_owner(pass, name).map(|(i, c)| pass.program.decls[i].ctors()[c].fields.len());
    let bad = |q: usize| qs[q][0] == 3 && declared(qs[q][1]).is_some_and(|n| n != part_lines(&qs, q).len());
    (0..qs.len()).find(|&q| bad(q)).map(|q| lines.len() - qs.len() + q)
}

/// `pat_vars`.
pub fn pat_vars(p: &Pat) -> Vec<Name> {
    match p {
        Pat::Wild | Pat::Const(_) => vec![],
        Pat::Var(v) => vec![*v],
        Pat::Ctor(_, parts) | Pat::Tuple(parts) | Pat::Or(parts) => parts.iter().flat_map(pat_vars).collect(),
        Pat::Record(_, parts) => parts.iter().flat_map(|(_, part)| pat_vars(part)).collect(),
    }
}

/// `rw_pat` over one sheet's layouts: the new pattern, while freed names go to a list.
struct Rewriting<'a> {
    pass: &'a Pass,
    freed: Vec<Name>,
}

/// The new pattern and the freed names.
pub fn rw_pat(pass: &Pass, p: &Pat) -> (Pat, Vec<Name>) {
    let mut rewriting = Rewriting { pass, freed: vec![] };
    let new = rewriting.pat(p);
    (new, rewriting.freed)
}

impl Rewriting<'_> {
    fn pat(&mut self, p: &Pat) -> Pat {
        match p {
            Pat::Wild | Pat::Var(_) | Pat::Const(_) => p.clone(),
            Pat::Tuple(parts) => Pat::Tuple(self.pats(parts)),
            Pat::Or(parts) => Pat::Or(self.pats(parts)),
            Pat::Ctor(name, parts) => {
                let parts = self.pats(parts);
                self.ctor(*name, parts)
            }
            Pat::Record(name, parts) => {
                let parts = parts.iter().map(|(field, part)| (*field, self.pat(part))).collect();
                self.record(*name, parts)
            }
        }
    }

    fn pats(&mut self, parts: &[Pat]) -> Vec<Pat> {
        parts.iter().map(|part| self.pat(part)).collect()
    }

    /// The parts that `keep` holds of, by place and field; the others are dropped.
    fn keep<T>(&mut self, parts: Vec<(T, Pat)>, keep: impl Fn(usize, &T) -> bool) -> Vec<(T, Pat)> {
        let mut kept = Vec::new();
        for (i, (field, part)) in parts.into_iter().enumerate() {
            if keep(i, &field) {
                kept.push((field, part));
            } else {
                self.freed.extend(pat_vars(&part));
            }
        }
        kept
    }

    /// `PCtor` over parts that are rewritten.
    fn ctor(&mut self, name: Name, parts: Vec<Pat>) -> Pat {
        let Some((i, c)) = ctor_owner(self.pass, name) else { return Pat::Ctor(name, parts) };
        let keeps = self.pass.kept[i][c].clone();
        let parts = parts.into_iter().map(|part| ((), part)).collect();
        match self.pass.layouts[i] {
            Layout::Erased => {
                self.keep(parts, |_, _| false);
                Pat::Wild
            }
            Layout::Newtype(_) => self.keep(parts, |k, _| keeps[k]).remove(0).1,
            Layout::Struct => {
                Pat::Ctor(name, self.keep(parts, |k, _| keeps[k]).into_iter().map(|(_, part)| part).collect())
            }
            Layout::Abbrev(_) | Layout::Opaque => unreachable!("no constructors"),
        }
    }

    /// `PRecord` over parts that are rewritten.
    fn record(&mut self, name: Name, parts: Vec<(Name, Pat)>) -> Pat {
        let Some(i) = self.pass.program.find(name) else { return Pat::Record(name, parts) };
        let fields = kept_fields(&self.pass.program.decls[i], &self.pass.kept[i]);
        match (self.pass.layouts[i], &fields[..]) {
            (Layout::Erased, _) => {
                self.keep(parts, |_, _| false);
                Pat::Wild
            }
            (Layout::Newtype(_), [kept]) => {
                // a second part of the kept field vanishes
                let parts = self.keep(parts, |_, field| *field == kept[0].name);
                parts.into_iter().next().map_or(Pat::Wild, |(_, part)| part)
            }
            (Layout::Struct, [kept]) => {
                Pat::Record(name, self.keep(parts, |_, field| kept.iter().any(|f| f.name == *field)))
            }
            _ => Pat::Record(name, parts),
        }
    }
}

/// The Q lines of a pattern, and the U lines of the freed names.
pub fn written((p, freed): &(Pat, Vec<Name>)) -> Vec<Line> {
    let mut lines = Vec::new();
    write(p, 0, 0, &mut lines);
    lines.extend(freed.iter().map(|&name| Line::row(b'U', [name, 0, 0, 0, 0])));
    lines
}

/// Writes a pattern's parts, then its own line; answers its line plus one.
fn write(p: &Pat, previous: u32, field: u32, lines: &mut Vec<Line>) -> u32 {
    let (kind, number, parts): (u32, u32, Vec<(u32, &Pat)>) = match p {
        Pat::Wild => (0, 0, vec![]),
        Pat::Var(v) => (1, *v, vec![]),
        Pat::Const(c) => (2, *c, vec![]),
        Pat::Ctor(name, parts) => (3, *name, parts.iter().map(|part| (0, part)).collect()),
        Pat::Record(name, parts) => (4, *name, parts.iter().map(|(field, part)| (field + 1, part)).collect()),
        Pat::Tuple(parts) => (5, 0, parts.iter().map(|part| (0, part)).collect()),
        Pat::Or(parts) => (6, 0, parts.iter().map(|part| (0, part)).collect()),
    };
    let mut last = 0;
    for (field, part) in parts {
        last = write(part, last, field, lines);
    }
    lines.push(Line::row(b'Q', [kind, number, last, previous, field]));
    lines.len() as u32
}
