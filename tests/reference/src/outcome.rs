//! Resolution in another way, for sheets on which section 6.7 taken step by step meets too many
//! different types. Two things are used:
//!
//! - A fault depends on types only through how many nodes they have and whether they are a `TApp`.
//!   `Outcomes` computes these two alone, and remembers each call by the outcomes of its arguments.
//! - Where no fault is met, a name applied to arguments resolves to the name's own resolved body with
//!   the resolved arguments put in, a surplus behind it. `Normal` makes types so, and looks only at
//!   arguments that are used.

use crate::cty::{Cty, Name, Ty, Types};
use crate::layout::Layout;
use crate::program::{Decl, Program};
use crate::resolve::{unfold, Unfold, NODES};
use std::collections::HashMap;

/// What a resolved type is, as far as faults go.
#[derive(Clone, Copy, Debug, PartialEq, Eq, Hash)]
pub struct Outcome {
    pub size: u64,
    pub is_app: bool,
}

/// An outcome, or the fault.
pub type Met = Result<Outcome, u64>;

const ONE: Outcome = Outcome { size: 1, is_app: false };

/// Rows 9 and 10 by outcomes.
pub struct Outcomes<'a> {
    pub program: &'a Program,
    pub layouts: &'a [Layout],
    pub unfolded: &'a [Option<Ty>],
    calls: HashMap<(Name, Vec<Outcome>), Met>,
}

impl<'a> Outcomes<'a> {
    pub fn new(program: &'a Program, layouts: &'a [Layout], unfolded: &'a [Option<Ty>]) -> Outcomes<'a> {
        Outcomes { program, layouts, unfolded, calls: HashMap::new() }
    }

    /// A type of a declaration; its parameters stand for themselves.
    pub fn resolve(&mut self, d: &Decl, t: Ty) -> Met {
        if self.program.types.size(t) > NODES {
            return Err(10);
        }
        self.node(t, &d.params, &vec![ONE; d.params.len()])
    }

    /// A type of at most 1,024 nodes, arguments of these outcomes put in.
    fn node(&mut self, t: Ty, params: &[Name], args: &[Outcome]) -> Met {
        let program = self.program;
        let c = program.types.get(t);
        if let Cty::Var(v) = c {
            return Ok(argument(*v, params, args).unwrap_or(ONE));
        }
        let parts = c.parts().into_iter().map(|part| self.node(part, params, args)).collect::<Result<Vec<_>, u64>>()?;
        match c {
            Cty::App(name, _) => self.apply(*name, parts),
            _ => measured(&parts, false),
        }
    }

    /// A name with the outcomes of its arguments.
    fn apply(&mut self, name: Name, args: Vec<Outcome>) -> Met {
        match unfold(self.program, self.layouts, self.unfolded, name) {
            Unfold::Gone => Ok(ONE),
            Unfold::Stays => measured(&args, true),
            Unfold::Newtype(d, _) if args.len() != d.params.len() => Err(9),
            Unfold::Abbrev(d, _) if args.len() < d.params.len() => Err(9),
            Unfold::Newtype(d, body) | Unfold::Abbrev(d, body) => {
                let call = (name, args);
                if let Some(&met) = self.calls.get(&call) {
                    return met;
                }
                let (first, surplus) = call.1.split_at(d.params.len());
                let met = self.instance(body, &d.params, first, surplus);
                self.calls.insert(call, met);
                met
            }
        }
    }

    /// A body with arguments put in and a surplus behind it.
    fn instance(&mut self, body: Ty, params: &[Name], args: &[Outcome], surplus: &[Outcome]) -> Met {
        let program = self.program;
        let c = program.types.get(body);
        let head = match c {
            Cty::Var(v) => argument(*v, params, args),
            _ => None,
        };
        let is_app = matches!(c, Cty::App(..)) || head.is_some_and(|a| a.is_app);
        if !surplus.is_empty() && !is_app {
            return Err(9);
        }
        let behind: u64 = surplus.iter().map(|a| a.size).sum();
        if instance_size(&program.types, body, params, args).saturating_add(behind) > NODES {
            return Err(10);
        }
        match (c, head) {
            _ if surplus.is_empty() => self.node(body, params, args),
            (Cty::App(name, parts), _) => {
                let mut all =
                    parts.iter().map(|&part| self.node(part, params, args)).collect::<Result<Vec<_>, u64>>()?;
                all.extend(surplus);
                self.apply(*name, all)
            }
            // a resolved `TApp` has a name that stays, and takes any number of arguments
            (_, Some(head)) => Ok(Outcome { size: head.size + behind, is_app: true }),
            _ => unreachable!("a surplus behind a TApp"),
        }
    }
}

fn argument(v: Name, params: &[Name], args: &[Outcome]) -> Option<Outcome> {
    params.iter().position(|&p| p == v).map(|i| args[i])
}

/// One node over these parts.
fn measured(parts: &[Outcome], is_app: bool) -> Met {
    let size = 1 + parts.iter().map(|p| p.size).sum::<u64>();
    if size > NODES {
        Err(10)
    } else {
        Ok(Outcome { size, is_app })
    }
}

/// Nodes of a body with arguments put in.
fn instance_size(types: &Types, t: Ty, params: &[Name], args: &[Outcome]) -> u64 {
    if types.size(t) > NODES {
        return types.size(t);
    }
    match types.get(t) {
        Cty::Var(v) => argument(*v, params, args).map_or(1, |a| a.size),
        c => c.parts().into_iter().fold(1u64, |n, part| n.saturating_add(instance_size(types, part, params, args))),
    }
}

/// Resolved types of a program that meets no fault.
pub struct Normal<'a> {
    pub program: &'a Program,
    pub layouts: &'a [Layout],
    pub unfolded: &'a [Option<Ty>],
    pub types: Types,
    done: HashMap<Ty, Ty>,
}

impl<'a> Normal<'a> {
    pub fn new(program: &'a Program, layouts: &'a [Layout], unfolded: &'a [Option<Ty>]) -> Normal<'a> {
        Normal { program, layouts, unfolded, types: program.types.clone(), done: HashMap::new() }
    }

    pub fn resolve(&mut self, t: Ty) -> Ty {
        if let Some(&r) = self.done.get(&t) {
            return r;
        }
        let c = self.types.get(t).clone();
        let r = match c {
            Cty::App(name, args) => self.apply(name, args),
            _ => {
                let parts = c.parts().into_iter().map(|part| self.resolve(part)).collect();
                self.types.put(c.with_parts(parts))
            }
        };
        self.done.insert(t, r);
        r
    }

    fn apply(&mut self, name: Name, args: Vec<Ty>) -> Ty {
        match unfold(self.program, self.layouts, self.unfolded, name) {
            Unfold::Gone => self.types.put(Cty::Unit),
            Unfold::Stays => {
                let args = args.into_iter().map(|a| self.resolve(a)).collect();
                self.types.put(Cty::App(name, args))
            }
            Unfold::Newtype(d, body) | Unfold::Abbrev(d, body) => {
                let normal = self.resolve(body);
                let used = self.types.cty_vars(normal);
                let (first, surplus) = args.split_at(d.params.len());
                let put_in = |(p, &a): (&Name, &Ty)| if used.contains(p) { self.resolve(a) } else { a };
                let first: Vec<Ty> = d.params.iter().zip(first).map(put_in).collect();
                let r = self.types.subst_cty(&d.params, &first, normal);
                match self.types.get(r).clone() {
                    // not a `TApp` where an erased name took the surplus
                    Cty::App(name, args) if !surplus.is_empty() => {
                        let surplus: Vec<Ty> = surplus.iter().map(|&a| self.resolve(a)).collect();
                        self.types.put(Cty::App(name, [args, surplus].concat()))
                    }
                    _ => r,
                }
            }
        }
    }
}
