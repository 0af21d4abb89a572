//! Types: FORMAT, section 3, and the walks over them. A type is kept once and told by a number, so
//! that a tree of very many nodes costs no more than its different parts; the parts of a type have
//! lower numbers than the type.

use std::collections::{BTreeSet, HashMap};

/// A type, by its number in `Types`.
pub type Ty = usize;
/// A name, by the number of its N line.
pub type Name = u32;

#[derive(Clone, Debug, PartialEq, Eq, Hash)]
pub enum Cty {
    Unit,
    Any,
    Exn,
    Var(Name),
    Int(u32, u32),
    Float(u32),
    Const(u32),
    Arrow(Ty, u32, Ty),
    App(Name, Vec<Ty>),
    Tuple(Vec<Ty>),
    Buf(Ty),
    Ref(u32, Ty),
    Inline(Ty),
}

impl Cty {
    /// The parts, left to right.
    pub fn parts(&self) -> Vec<Ty> {
        match self {
            Cty::Arrow(argument, _, result) => vec![*argument, *result],
            Cty::App(_, parts) | Cty::Tuple(parts) => parts.clone(),
            Cty::Buf(part) | Cty::Ref(_, part) | Cty::Inline(part) => vec![*part],
            _ => vec![],
        }
    }

    /// The same with other parts.
    pub fn with_parts(&self, parts: Vec<Ty>) -> Cty {
        match self {
            Cty::Arrow(_, effect, _) => Cty::Arrow(parts[0], *effect, parts[1]),
            Cty::App(name, _) => Cty::App(*name, parts),
            Cty::Tuple(_) => Cty::Tuple(parts),
            Cty::Buf(_) => Cty::Buf(parts[0]),
            Cty::Ref(kind, _) => Cty::Ref(*kind, parts[0]),
            Cty::Inline(_) => Cty::Inline(parts[0]),
            leaf => leaf.clone(),
        }
    }
}

/// All types met so far.
#[derive(Clone, Default)]
pub struct Types {
    all: Vec<Cty>,
    numbers: HashMap<Cty, Ty>,
    sizes: Vec<u64>,
}

impl Types {
    pub fn len(&self) -> usize {
        self.all.len()
    }

    pub fn is_empty(&self) -> bool {
        self.all.is_empty()
    }

    pub fn get(&self, t: Ty) -> &Cty {
        &self.all[t]
    }

    pub fn put(&mut self, c: Cty) -> Ty {
        if let Some(&t) = self.numbers.get(&c) {
            return t;
        }
        let size = c.parts().iter().fold(1u64, |n, &part| n.saturating_add(self.sizes[part]));
        self.all.push(c.clone());
        self.sizes.push(size);
        self.numbers.insert(c, self.all.len() - 1);
        self.all.len() - 1
    }

    /// Nodes of the type written out.
    pub fn size(&self, t: Ty) -> u64 {
        self.sizes[t]
    }

    pub fn is_app(&self, t: Ty) -> bool {
        matches!(self.get(t), Cty::App(..))
    }

    /// The type with each variable replaced, all else kept. `done` has what was walked before.
    fn walk(&mut self, t: Ty, var: &dyn Fn(Name) -> Option<Ty>, done: &mut HashMap<Ty, Ty>) -> Ty {
        if let Some(&r) = done.get(&t) {
            return r;
        }
        let c = self.get(t).clone();
        let r = match c {
            Cty::Var(v) => var(v).unwrap_or(t),
            _ => {
                let parts = c.parts().into_iter().map(|part| self.walk(part, var, done)).collect();
                self.put(c.with_parts(parts))
            }
        };
        done.insert(t, r);
        r
    }

    /// `close_fields`, of one type: a variable that is no parameter becomes `TAny`.
    pub fn close(&mut self, params: &[Name], t: Ty) -> Ty {
        let any = self.put(Cty::Any);
        self.walk(t, &|v| (!params.contains(&v)).then_some(any), &mut HashMap::new())
    }

    /// `subst_cty`: each parameter's argument put in, all at once.
    pub fn subst_cty(&mut self, params: &[Name], args: &[Ty], t: Ty) -> Ty {
        self.walk(t, &|v| params.iter().position(|&p| p == v).map(|i| args[i]), &mut HashMap::new())
    }

    /// `uninline`: the type less one outer `TInline`.
    pub fn uninline(&self, t: Ty) -> Ty {
        match *self.get(t) {
            Cty::Inline(part) => part,
            _ => t,
        }
    }

    /// The type and all its parts, at any depth, each once.
    fn within(&self, t: Ty) -> BTreeSet<Ty> {
        let mut seen = BTreeSet::from([t]);
        let mut work = vec![t];
        while let Some(t) = work.pop() {
            work.extend(self.get(t).parts().into_iter().filter(|&part| seen.insert(part)));
        }
        seen
    }

    /// `names_of_cty`: the names of all `TApp` nodes.
    pub fn names_of_cty(&self, t: Ty) -> BTreeSet<Name> {
        self.within(t)
            .into_iter()
            .filter_map(|t| if let Cty::App(n, _) = self.get(t) { Some(*n) } else { None })
            .collect()
    }

    /// `cty_vars`: the names of all `TVar` nodes.
    pub fn cty_vars(&self, t: Ty) -> BTreeSet<Name> {
        self.within(t).into_iter().filter_map(|t| if let Cty::Var(v) = self.get(t) { Some(*v) } else { None }).collect()
    }
}
