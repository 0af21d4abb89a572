//! Kept fields, newtypes and layouts: FORMAT, sections 6.3 to 6.6, and row 8.

use crate::cty::Ty;
use crate::erasure::Erasure;
use crate::program::{Body, Decl, Field, Program, NO_NEWTYPE, NO_UNFOLD, REALIZED};
use crate::reach::search;
use std::collections::BTreeSet;

#[derive(Clone, Copy, Debug, PartialEq, Eq)]
pub enum Layout {
    Erased,
    /// With its payload.
    Newtype(Ty),
    Struct,
    Abbrev(Ty),
    Opaque,
}

impl Layout {
    /// Its number in a V line.
    pub fn number(self) -> u32 {
        match self {
            Layout::Erased => 0,
            Layout::Newtype(_) => 1,
            Layout::Struct => 2,
            Layout::Abbrev(_) => 3,
            Layout::Opaque => 4,
        }
    }
}

/// For each constructor of a declaration and each of its fields, whether it is kept.
pub type Kept = Vec<Vec<bool>>;

/// `cl_tag`: none of a single constructor, else its place among the constructors of its type.
pub fn tag(k: u32, ctors: u32) -> Option<u32> {
    (ctors != 1).then_some(k)
}

/// A tag as a number in a C line.
pub fn tag_number(tag: Option<u32>) -> u32 {
    tag.map_or(0, |tag| tag + 1)
}

/// `ctor_layouts`, without the tags.
pub fn ctor_layouts(d: &Decl, erasure: &Erasure) -> Kept {
    let keep = |f: &Field| if d.import.is_some() { f.keep } else { !erasure.types[f.ty] };
    d.ctors().iter().map(|c| c.fields.iter().map(keep).collect()).collect()
}

/// The kept fields of a declaration, by constructor.
pub fn kept_fields(d: &Decl, kept: &Kept) -> Vec<Vec<Field>> {
    let of = |(ctor, keeps): (crate::program::Ctor, &Vec<bool>)| {
        ctor.fields.into_iter().zip(keeps).filter(|(_, &keep)| keep).map(|(f, _)| f).collect()
    };
    d.ctors().into_iter().zip(kept).map(of).collect()
}

/// The payload that one constructor with one kept field gives.
fn payload(program: &Program, d: &Decl, kept: &Kept) -> Option<Ty> {
    match &kept_fields(d, kept)[..] {
        [fields] => match &fields[..] {
            [field] => Some(program.types.uninline(field.ty)),
            _ => None,
        },
        _ => None,
    }
}

/// What is reached from `start` in one step or more; a step goes from a declaration that stands for
/// a type to the declarations which that type names.
pub fn reached(program: &Program, stands_for: &[Option<Ty>], start: usize) -> BTreeSet<usize> {
    search(|i| stands_for[i].map_or(BTreeSet::new(), |t| program.declared_in(t)), start)
}

/// The candidates, with their payloads.
pub fn candidates(program: &Program, erasure: &Erasure, kept: &[Kept]) -> Vec<Option<Ty>> {
    let candidate = |(i, d): (usize, &Decl)| {
        let may = d.import.is_none() && !erasure.decls[i] && !d.has(NO_NEWTYPE);
        if may {
            payload(program, d, &kept[i])
        } else {
            None
        }
    };
    program.decls.iter().enumerate().map(candidate).collect()
}

/// What the guard goes on through: payloads of candidates, and bodies of unfolded abbreviations.
pub fn passes(program: &Program, erasure: &Erasure, candidates: &[Option<Ty>]) -> Vec<Option<Ty>> {
    let body = |(i, d): (usize, &Decl)| match d.body {
        Body::Abbrev(t) if !erasure.decls[i] && !d.has(REALIZED) && !d.has(NO_UNFOLD) => Some(t),
        _ => None,
    };
    program.decls.iter().enumerate().zip(candidates).map(|(d, payload)| payload.or(body(d))).collect()
}

/// `acyclic_candidates`: the candidates that are not dropped.
pub fn acyclic_candidates(program: &Program, candidates: &[Option<Ty>], passes: &[Option<Ty>]) -> Vec<Option<Ty>> {
    let stays = |i: usize| candidates[i].filter(|_| !reached(program, passes, i).contains(&i));
    (0..candidates.len()).map(stays).collect()
}

/// `compute_layouts`.
pub fn compute_layouts(program: &Program, erasure: &Erasure, kept: &[Kept]) -> Vec<Layout> {
    let candidates = candidates(program, erasure, kept);
    let newtypes = acyclic_candidates(program, &candidates, &passes(program, erasure, &candidates));
    let layout = |(i, d): (usize, &Decl)| match d.import {
        Some(verdict) => imported_layout(program, d, &kept[i], verdict.layout),
        None if erasure.decls[i] => Layout::Erased,
        None => match (&d.body, newtypes[i]) {
            (Body::Abstract, _) => Layout::Opaque,
            (Body::Abbrev(t), _) => Layout::Abbrev(*t),
            (_, Some(payload)) => Layout::Newtype(payload),
            (_, None) => Layout::Struct,
        },
    };
    program.decls.iter().enumerate().map(layout).collect()
}

/// The layout that an import's V line says.
fn imported_layout(program: &Program, d: &Decl, kept: &Kept, number: u32) -> Layout {
    match (number, &d.body) {
        (0, _) => Layout::Erased,
        (1, _) => Layout::Newtype(payload(program, d, kept).expect("row 7")),
        (2, _) => Layout::Struct,
        (3, Body::Abbrev(t)) => Layout::Abbrev(*t),
        (4, _) => Layout::Opaque,
        _ => unreachable!("row 7"),
    }
}

/// What each unfolded declaration stands for; nothing for the others.
pub fn unfolded(program: &Program, layouts: &[Layout]) -> Vec<Option<Ty>> {
    let stands_for = |(d, layout): (&Decl, &Layout)| match *layout {
        Layout::Newtype(payload) => Some(payload),
        Layout::Abbrev(t) if !d.has(REALIZED) && !d.has(NO_UNFOLD) => Some(t),
        _ => None,
    };
    program.decls.iter().zip(layouts).map(stands_for).collect()
}

/// Whether an unfolded declaration reaches itself.
pub fn returns(program: &Program, unfolded: &[Option<Ty>], i: usize) -> bool {
    reached(program, unfolded, i).contains(&i)
}

/// Row 8: the first such declaration.
pub fn row8(program: &Program, unfolded: &[Option<Ty>]) -> Option<usize> {
    (0..unfolded.len()).find(|&i| returns(program, unfolded, i))
}
