//! Resolution, step by step as FORMAT, section 6.7 has it. Types are shared and each is resolved
//! once, but a sheet can be made on which even so very many different types are met. `Steps` counts
//! them, and where they run out `outcome.rs` answers in another way.

use crate::cty::{Cty, Ty, Types};
use crate::layout::Layout;
use crate::program::{Decl, Program};
use std::collections::HashMap;

/// The limit on nodes.
pub const NODES: u64 = 1_024;

/// Why a type is not resolved.
#[derive(Clone, Copy, Debug, PartialEq, Eq)]
pub enum Stop {
    /// Row 9 or 10.
    Fault(u64),
    /// No more steps; no answer of the build.
    Steps,
}

/// What becomes of a name.
#[derive(Clone, Copy)]
pub enum Unfold<'a> {
    Gone,
    Newtype(&'a Decl, Ty),
    Abbrev(&'a Decl, Ty),
    Stays,
}

/// By name: erased, unfolded, or neither.
pub fn unfold<'a>(program: &'a Program, layouts: &[Layout], unfolded: &[Option<Ty>], name: u32) -> Unfold<'a> {
    let Some(i) = program.find(name) else { return Unfold::Stays };
    let d = &program.decls[i];
    match (layouts[i], unfolded[i]) {
        (Layout::Erased, _) => Unfold::Gone,
        (Layout::Newtype(_), Some(payload)) => Unfold::Newtype(d, payload),
        (_, Some(body)) => Unfold::Abbrev(d, body),
        (_, None) => Unfold::Stays,
    }
}

/// The resolution of one program.
pub struct Resolver<'a> {
    pub program: &'a Program,
    pub layouts: &'a [Layout],
    pub unfolded: &'a [Option<Ty>],
    /// The program's types, and those that are made on the way.
    pub types: Types,
    pub steps: u64,
    done: HashMap<Ty, Result<Ty, Stop>>,
}

impl<'a> Resolver<'a> {
    pub fn new(program: &'a Program, layouts: &'a [Layout], unfolded: &'a [Option<Ty>], steps: u64) -> Resolver<'a> {
        Resolver { program, layouts, unfolded, types: program.types.clone(), steps, done: HashMap::new() }
    }

    /// `resolve`: steps 1 to 5.
    pub fn resolve(&mut self, t: Ty) -> Result<Ty, Stop> {
        if let Some(&r) = self.done.get(&t) {
            return r;
        }
        self.steps = self.steps.checked_sub(1).ok_or(Stop::Steps)?;
        let r = self.resolve_anew(t);
        self.done.insert(t, r);
        r
    }

    fn resolve_anew(&mut self, t: Ty) -> Result<Ty, Stop> {
        self.measure(t)?;
        let c = self.types.get(t).clone();
        let parts = c.parts().into_iter().map(|part| self.resolve(part)).collect::<Result<Vec<Ty>, Stop>>()?;
        let r = match c {
            Cty::App(name, _) => self.apply(name, parts)?,
            _ => self.types.put(c.with_parts(parts)),
        };
        self.measure(r)?;
        Ok(r)
    }

    /// Steps 1 and 5.
    fn measure(&self, t: Ty) -> Result<(), Stop> {
        if self.types.size(t) > NODES {
            Err(Stop::Fault(10))
        } else {
            Ok(())
        }
    }

    /// Step 4: a name with its resolved arguments.
    fn apply(&mut self, name: u32, args: Vec<Ty>) -> Result<Ty, Stop> {
        match unfold(self.program, self.layouts, self.unfolded, name) {
            Unfold::Gone => Ok(self.types.put(Cty::Unit)),
            Unfold::Newtype(d, payload) => {
                if args.len() != d.params.len() {
                    return Err(Stop::Fault(9));
                }
                let instance = self.types.subst_cty(&d.params, &args, payload);
                self.resolve(instance)
            }
            Unfold::Abbrev(d, body) => {
                if args.len() < d.params.len() {
                    return Err(Stop::Fault(9));
                }
                let (first, surplus) = args.split_at(d.params.len());
                let instance = self.types.subst_cty(&d.params, first, body);
                let instance = self.attach(instance, surplus)?;
                self.resolve(instance)
            }
            Unfold::Stays => Ok(self.types.put(Cty::App(name, args))),
        }
    }

    /// A surplus goes to the end of a `TApp`'s arguments.
    fn attach(&mut self, t: Ty, surplus: &[Ty]) -> Result<Ty, Stop> {
        match self.types.get(t).clone() {
            _ if surplus.is_empty() => Ok(t),
            Cty::App(name, args) => Ok(self.types.put(Cty::App(name, [&args, surplus].concat()))),
            _ => Err(Stop::Fault(9)),
        }
    }
}
