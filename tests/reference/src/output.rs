//! The two sheets: FORMAT, section 8.

use crate::cty::{Cty, Name, Ty, Types};
use crate::layout::{tag, tag_number, Kept, Layout};
use crate::line::{write_line, Line};
use crate::pattern::{written, Pat};
use crate::program::{Body, Decl, Field};

pub fn bytes(lines: &[Line]) -> Vec<u8> {
    lines.iter().map(write_line).collect::<Vec<_>>().concat()
}

/// The verdict sheet.
pub fn verdict_sheet(lines: &[Line], decls: &[Decl], layouts: &[Layout], kept: &[Kept], records: &[bool]) -> Vec<u8> {
    let mut lines = lines.to_vec();
    for (i, d) in decls.iter().enumerate() {
        if d.import.is_some() {
            continue;
        }
        lines[d.line].letter = b'I';
        let mut keeps = kept[i].iter().flatten();
        let ctors = kept[i].len() as u32;
        let mut tags = (0..ctors).map(|k| tag_number(tag(k, ctors)));
        for line in &mut lines[d.line..] {
            match line.letter {
                b'C' => line.numbers[2] = tags.next().unwrap(),
                b'F' => line.numbers[2] = u32::from(*keeps.next().unwrap()),
                b'V' => {
                    let erased = u32::from(layouts[i] == Layout::Erased);
                    line.numbers = [erased, layouts[i].number(), u32::from(records[i]), 0, 0];
                    break;
                }
                _ => {}
            }
        }
    }
    bytes(&lines)
}

/// The left sheet, with the new pattern and the freed names if there is a pattern.
pub fn left_sheet(lines: &[Line], types: &Types, left: &[Decl], pattern: Option<&(Pat, Vec<Name>)>) -> Vec<u8> {
    let mut sheet = LeftSheet { types, args: vec![], ys: vec![], decls: vec![] };
    for d in left {
        sheet.decl(d);
    }
    let names: Vec<Line> = lines.iter().filter(|l| l.letter == b'N').cloned().collect();
    bytes(&[names, sheet.args, sheet.ys, sheet.decls, pattern.map_or(vec![], written)].concat())
}

/// A left sheet's lines so far.
struct LeftSheet<'a> {
    types: &'a Types,
    args: Vec<Line>,
    ys: Vec<Line>,
    decls: Vec<Line>,
}

impl LeftSheet<'_> {
    /// Writes a type, its parts first, and answers its number.
    fn ty(&mut self, t: Ty) -> u32 {
        let c = self.types.get(t);
        let parts: Vec<u32> = c.parts().into_iter().map(|part| self.ty(part)).collect();
        let numbers = match c {
            Cty::Unit => [0, 0, 0, 0, 0],
            Cty::Any => [1, 0, 0, 0, 0],
            Cty::Exn => [2, 0, 0, 0, 0],
            Cty::Var(v) => [3, *v, 0, 0, 0],
            Cty::Int(sign, width) => [4, *sign, *width, 0, 0],
            Cty::Float(f) => [5, *f, 0, 0, 0],
            Cty::Const(c) => [6, *c, 0, 0, 0],
            Cty::Arrow(_, effect, _) => [7, parts[0], *effect, parts[1], 0],
            Cty::App(name, _) => [8, *name, self.list(&parts), parts.len() as u32, 0],
            Cty::Tuple(_) => [9, self.list(&parts), parts.len() as u32, 0, 0],
            Cty::Buf(_) => [10, parts[0], 0, 0, 0],
            Cty::Ref(kind, _) => [11, *kind, parts[0], 0, 0],
            Cty::Inline(_) => [12, parts[0], 0, 0, 0],
        };
        self.ys.push(Line::row(b'Y', numbers));
        self.ys.len() as u32 - 1
    }

    /// Writes a list's A lines, and answers the first; 0 for an empty list.
    fn list(&mut self, members: &[u32]) -> u32 {
        let first = if members.is_empty() { 0 } else { self.args.len() as u32 };
        self.args.extend(members.iter().map(|&m| Line::row(b'A', [m, 0, 0, 0, 0])));
        first
    }

    fn fields(&mut self, fields: &[Field]) -> Vec<Line> {
        fields.iter().map(|f| Line::row(b'F', [f.name, self.ty(f.ty), 0, 0, 0])).collect()
    }

    fn decl(&mut self, d: &Decl) {
        let (kind, last, body) = match &d.body {
            Body::Abstract => (0, 0, vec![]),
            Body::Abbrev(t) => (1, self.ty(*t), vec![]),
            Body::Record(fields) => (2, fields.len() as u32, self.fields(fields)),
            Body::Variant(ctors) => {
                let mut body = Vec::new();
                for c in ctors {
                    body.push(Line::row(b'C', [c.name, c.fields.len() as u32, 0, 0, 0]));
                    body.extend(self.fields(&c.fields));
                }
                (3, ctors.len() as u32, body)
            }
        };
        self.decls.push(Line::row(b'D', [d.name, d.flags, kind, d.params.len() as u32, last]));
        self.decls.extend(d.params.iter().map(|&p| Line::row(b'P', [p, 0, 0, 0, 0])));
        self.decls.extend(body);
        self.decls.push(Line::row(b'V', [0; 5]));
    }
}
