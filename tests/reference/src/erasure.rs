//! Erasure: FORMAT, section 6.2.

use crate::cty::Cty;
use crate::program::{Body, Decl, Field, Program, ERASED, REALIZED};

/// What the rounds end in.
pub struct Erasure {
    /// By declaration.
    pub decls: Vec<bool>,
    /// By type.
    pub types: Vec<bool>,
    pub rounds: u64,
}

/// `cty_erased`, of every type: the parts of a type have lower numbers, so they are there before it.
pub fn cty_erased(program: &Program, decls: &[bool]) -> Vec<bool> {
    let mut erased: Vec<bool> = Vec::new();
    for t in 0..program.types.len() {
        let answer = match program.types.get(t) {
            Cty::Unit => true,
            Cty::Tuple(members) => members.iter().all(|&m| erased[m]),
            Cty::Inline(part) => erased[*part],
            Cty::Arrow(_, effect, result) => is_pure(*effect) && erased[*result],
            Cty::App(name, _) => program.find(*name).is_some_and(|d| decls[d]),
            Cty::Any
            | Cty::Exn
            | Cty::Var(_)
            | Cty::Int(..)
            | Cty::Float(_)
            | Cty::Const(_)
            | Cty::Buf(_)
            | Cty::Ref(..) => false,
        };
        erased.push(answer);
    }
    erased
}

/// Ghost or pure, not impure.
fn is_pure(effect: u32) -> bool {
    effect != 2
}

/// `dtype_erased`, given which types are.
pub fn dtype_erased(d: &Decl, types: &[bool]) -> bool {
    let all = |fields: &[Field]| fields.iter().all(|f| types[f.ty]);
    if d.has(ERASED) {
        return true;
    }
    if d.has(REALIZED) {
        return false;
    }
    match &d.body {
        Body::Abbrev(t) => types[*t],
        Body::Record(fields) => all(fields),
        Body::Variant(ctors) => match &ctors[..] {
            [] => true,
            [one] => all(&one.fields),
            _ => false,
        },
        Body::Abstract => false,
    }
}

/// `erasure_fixpoint`.
pub fn erasure_fixpoint(program: &Program) -> Erasure {
    let mut decls: Vec<bool> = program.decls.iter().map(|d| d.import.is_some_and(|v| v.erased)).collect();
    let mut types = cty_erased(program, &decls);
    let mut rounds = 0;
    loop {
        rounds += 1;
        let mut changed = false;
        for (i, d) in program.decls.iter().enumerate() {
            if d.import.is_none() && !decls[i] && dtype_erased(d, &types) {
                decls[i] = true;
                types = cty_erased(program, &decls);
                changed = true;
            }
        }
        if !changed {
            return Erasure { decls, types, rounds };
        }
    }
}
