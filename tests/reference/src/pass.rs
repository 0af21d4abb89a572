//! The pass over a sheet that passed rows 1 to 7, and rows 8 to 10.

use crate::cty::{Ty, Types};
use crate::erasure::{erasure_fixpoint, Erasure};
use crate::layout::{compute_layouts, ctor_layouts, row8, unfolded, Kept, Layout};
use crate::left::resolves;
use crate::line::Line;
use crate::outcome::{Normal, Outcomes};
use crate::program::Program;
use crate::resolve::{Resolver, Stop};
use crate::Refusal;

/// How types are resolved.
#[derive(Clone, Copy, Debug, PartialEq, Eq)]
pub enum Way {
    /// Step by step, and by outcomes where so many steps are not enough.
    Steps(u64),
    /// By outcomes.
    Outcomes,
}

/// What is known of each declaration before types are resolved.
pub struct Pass {
    pub program: Program,
    pub erasure: Erasure,
    pub kept: Vec<Kept>,
    pub layouts: Vec<Layout>,
    pub unfolded: Vec<Option<Ty>>,
}

/// The types that each declaration needs, resolved.
pub struct Resolved {
    pub types: Types,
    pub decls: Vec<Vec<Ty>>,
}

impl Pass {
    pub fn new(lines: &[Line]) -> Pass {
        let program = Program::read(lines);
        let erasure = erasure_fixpoint(&program);
        let kept: Vec<Kept> = program.decls.iter().map(|d| ctor_layouts(d, &erasure)).collect();
        let layouts = compute_layouts(&program, &erasure, &kept);
        let unfolded = unfolded(&program, &layouts);
        Pass { program, erasure, kept, layouts, unfolded }
    }

    /// Row 8.
    pub fn row8(&self) -> Option<Refusal> {
        row8(&self.program, &self.unfolded).map(|i| self.refusal(8, i))
    }

    /// Rows 9 and 10, or all resolved types.
    pub fn rows9and10(&self, way: Way) -> Result<Resolved, Refusal> {
        if let Way::Steps(steps) = way {
            match self.step_by_step(steps) {
                Ok(resolved) => return Ok(resolved),
                Err((Stop::Fault(code), i)) => return Err(self.refusal(code, i)),
                Err((Stop::Steps, _)) => {}
            }
        }
        self.by_outcomes().map_err(|(code, i)| self.refusal(code, i))
    }

    fn refusal(&self, code: u64, i: usize) -> Refusal {
        Refusal { code, place: self.program.decls[i].line as u64 }
    }

    /// The types that declaration `i` needs resolved.
    pub fn resolves(&self, i: usize) -> Vec<Ty> {
        resolves(&self.program.decls[i], self.layouts[i], &self.kept[i])
    }

    fn step_by_step(&self, steps: u64) -> Result<Resolved, (Stop, usize)> {
        let mut resolver = Resolver::new(&self.program, &self.layouts, &self.unfolded, steps);
        let mut decls = Vec::new();
        for i in 0..self.program.decls.len() {
            let resolved = self.resolves(i).into_iter().map(|t| resolver.resolve(t)).collect::<Result<Vec<Ty>, Stop>>();
            decls.push(resolved.map_err(|stop| (stop, i))?);
        }
        Ok(Resolved { types: resolver.types, decls })
    }

    fn by_outcomes(&self) -> Result<Resolved, (u64, usize)> {
        let mut outcomes = Outcomes::new(&self.program, &self.layouts, &self.unfolded);
        for (i, d) in self.program.decls.iter().enumerate() {
            for t in self.resolves(i) {
                outcomes.resolve(d, t).map_err(|code| (code, i))?;
            }
        }
        let mut normal = Normal::new(&self.program, &self.layouts, &self.unfolded);
        let mut decls = Vec::new();
        for i in 0..self.program.decls.len() {
            decls.push(self.resolves(i).into_iter().map(|t| normal.resolve(t)).collect());
        }
        Ok(Resolved { types: normal.types, decls })
    }

    /// Rows 9 and 10 at declaration `i` alone: the code, or 0.
    pub fn fault(&self, i: usize) -> u64 {
        let mut outcomes = Outcomes::new(&self.program, &self.layouts, &self.unfolded);
        let d = &self.program.decls[i];
        self.resolves(i).into_iter().find_map(|t| outcomes.resolve(d, t).err()).unwrap_or(0)
    }
}
