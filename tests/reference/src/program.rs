//! From the lines of a sheet that passed rows 1 to 7 to its declarations: FORMAT, sections 2, 3 and
//! 6.1. Types are closed here, so that everything after speaks of closed types.

use crate::cty::{Cty, Name, Ty, Types};
use crate::line::Line;
use std::collections::{BTreeSet, HashMap};

#[derive(Clone, Debug, PartialEq, Eq)]
pub struct Field {
    pub name: Name,
    pub ty: Ty,
    /// The F line's number, which is an import's answer; a local one's is in `Kept`.
    pub keep: bool,
}

#[derive(Clone, Debug, PartialEq, Eq)]
pub struct Ctor {
    pub name: Name,
    pub fields: Vec<Field>,
}

#[derive(Clone, Debug, PartialEq, Eq)]
pub enum Body {
    Abstract,
    Abbrev(Ty),
    Record(Vec<Field>),
    Variant(Vec<Ctor>),
}

impl Body {
    /// Its types: the one that is abbreviated, or those of all fields, kept or not.
    pub fn types(&self) -> Vec<Ty> {
        let of = |fields: &[Field]| fields.iter().map(|f| f.ty).collect::<Vec<Ty>>();
        match self {
            Body::Abstract => vec![],
            Body::Abbrev(t) => vec![*t],
            Body::Record(fields) => of(fields),
            Body::Variant(ctors) => ctors.iter().flat_map(|c| of(&c.fields)).collect(),
        }
    }
}

/// Flags, as their numbers in the sum.
pub const ERASED: u32 = 1;
pub const REALIZED: u32 = 2;
pub const NO_NEWTYPE: u32 = 4;
pub const NO_UNFOLD: u32 = 8;
pub const SOURCE_RECORD: u32 = 16;

/// The numbers of an import's V line.
#[derive(Clone, Copy, Debug, PartialEq, Eq)]
pub struct Verdict {
    pub erased: bool,
    pub layout: u32,
    pub record: bool,
}

#[derive(Clone, Debug, PartialEq, Eq)]
pub struct Decl {
    /// The place of its D or I line.
    pub line: usize,
    pub name: Name,
    pub flags: u32,
    pub params: Vec<Name>,
    pub body: Body,
    /// The verdict of an import, nothing for a local declaration.
    pub import: Option<Verdict>,
}

impl Decl {
    pub fn has(&self, flag: u32) -> bool {
        self.flags & flag != 0
    }

    /// `ctors_of_tydef`: a record has one constructor, with the name of the type.
    pub fn ctors(&self) -> Vec<Ctor> {
        match &self.body {
            Body::Record(fields) => vec![Ctor { name: self.name, fields: fields.clone() }],
            Body::Variant(ctors) => ctors.clone(),
            Body::Abstract | Body::Abbrev(_) => vec![],
        }
    }
}

/// The declarations in sheet order; a name without one is foreign.
pub struct Program {
    pub types: Types,
    pub decls: Vec<Decl>,
    places: HashMap<Name, usize>,
}

impl Program {
    /// The place of a name's declaration among the declarations.
    pub fn find(&self, name: Name) -> Option<usize> {
        self.places.get(&name).copied()
    }

    /// The declared names in a type, by declaration.
    pub fn declared_in(&self, t: Ty) -> BTreeSet<usize> {
        self.types.names_of_cty(t).into_iter().filter_map(|n| self.find(n)).collect()
    }

    pub fn read(lines: &[Line]) -> Program {
        let mut types = Types::default();
        let ys = read_types(&mut types, lines);
        let at = lines.iter().position(Line::is_head).unwrap_or(lines.len());
        let mut reader = Reader { types, ys, lines, at };
        let mut decls = Vec::new();
        while lines.get(reader.at).is_some_and(Line::is_head) {
            decls.push(reader.decl());
        }
        let places = decls.iter().enumerate().map(|(i, d)| (d.name, i)).collect();
        Program { types: reader.types, decls, places }
    }
}

/// The type of each Y line.
fn read_types(types: &mut Types, lines: &[Line]) -> Vec<Ty> {
    let args: Vec<usize> = lines.iter().filter(|l| l.letter == b'A').map(|l| l.numbers[0] as usize).collect();
    let mut ys: Vec<Ty> = Vec::new();
    for line in lines.iter().filter(|l| l.letter == b'Y') {
        let [kind, a, b, c, _] = line.numbers;
        let list = |first: u32, count: u32| args[first as usize..][..count as usize].iter().map(|&y| ys[y]).collect();
        let part = |y: u32| ys[y as usize];
        let cty = match kind {
            0 => Cty::Unit,
            1 => Cty::Any,
            2 => Cty::Exn,
            3 => Cty::Var(a),
            4 => Cty::Int(a, b),
            5 => Cty::Float(a),
            6 => Cty::Const(a),
            7 => Cty::Arrow(part(a), b, part(c)),
            8 => Cty::App(a, list(b, c)),
            9 => Cty::Tuple(list(a, b)),
            10 => Cty::Buf(part(a)),
            11 => Cty::Ref(a, part(b)),
            12 => Cty::Inline(part(a)),
            _ => unreachable!("row 5"),
        };
        ys.push(types.put(cty));
    }
    ys
}

/// Reads declarations from line `at` on.
struct Reader<'a> {
    types: Types,
    ys: Vec<Ty>,
    lines: &'a [Line],
    at: usize,
}

impl Reader<'_> {
    fn next(&mut self) -> [u32; 5] {
        self.at += 1;
        self.lines[self.at - 1].numbers
    }

    fn decl(&mut self) -> Decl {
        let line = self.at;
        let [name, flags, kind, count, last] = self.next();
        let params: Vec<Name> = (0..count).map(|_| self.next()[0]).collect();
        let body = match kind {
            0 => Body::Abstract,
            1 => Body::Abbrev(self.closed(&params, last)),
            2 => Body::Record(self.fields(&params, last)),
            3 => Body::Variant((0..last).map(|_| self.ctor(&params)).collect()),
            _ => unreachable!("row 3"),
        };
        let [erased, layout, record, ..] = self.next();
        let verdict = Verdict { erased: erased == 1, layout, record: record == 1 };
        let import = (self.lines[line].letter == b'I').then_some(verdict);
        Decl { line, name, flags, params, body, import }
    }

    fn ctor(&mut self, params: &[Name]) -> Ctor {
        let [name, count, ..] = self.next();
        Ctor { name, fields: self.fields(params, count) }
    }

    fn fields(&mut self, params: &[Name], count: u32) -> Vec<Field> {
        (0..count).map(|_| self.field(params)).collect()
    }

    fn field(&mut self, params: &[Name]) -> Field {
        let [name, y, keep, ..] = self.next();
        Field { name, ty: self.closed(params, y), keep: keep == 1 }
    }

    /// `close_fields`, of one type.
    fn closed(&mut self, params: &[Name], y: u32) -> Ty {
        self.types.close(params, self.ys[y as usize])
    }
}
