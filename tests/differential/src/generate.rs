//! Sheets that are well formed, most of them accepted: all kinds of type, flags, imports, parameters,
//! surplus arguments, types near the limit, and now and then a wrong count or a loop.

use crate::random::Random;
use crate::tags;
use reference::line::Line;
pub use reference::output::bytes;

/// What kind of sheet is made.
#[derive(Clone, Copy)]
pub struct Plan {
    pub decls: usize,
    pub types: usize,
    /// In percent: a type that may lead back to its declaration, a wrong count of arguments, an import.
    pub loops: usize,
    pub miscounts: usize,
    pub imports: usize,
    /// In percent: parts are taken from the latest types, so that types grow.
    pub growth: usize,
    /// Tuples of one type twice, each of the one before: 9 of them make 1,023 nodes.
    pub doublings: usize,
    /// Declarations name only earlier ones and themselves, so that the sheet can be cut anywhere.
    pub ordered: bool,
    /// Mostly abbreviations and newtypes, few of them erased, so that unfolding goes deep.
    pub deep: bool,
}

impl Plan {
    pub fn any(random: &mut Random) -> Plan {
        let decls = match random.below(1000) {
            0..=3 => random.between(60, 96),
            4..=80 => random.between(10, 30),
            _ => random.between(0, 12),
        };
        let types = if random.percent(1) { random.between(100, 1000) } else { random.between(1, 8) };
        Plan {
            decls,
            types: types.min(1024),
            loops: *random.pick(&[0, 0, 0, 5, 30]),
            miscounts: *random.pick(&[0, 0, 0, 3, 20]),
            imports: *random.pick(&[0, 0, 20, 60, 100]),
            growth: *random.pick(&[10, 10, 40, 95]),
            doublings: if random.percent(4) { random.between(7, 10) } else { 0 },
            ordered: random.percent(30),
            deep: random.percent(25),
        }
    }
}

/// A type that is written: which declarations it names, as the highest of their ranks and one; 0 for none.
struct Written {
    names_up_to: usize,
}

struct Decl {
    name: usize,
    /// Types made for it.
    own: Vec<usize>,
    /// Declarations mostly name those of lower rank, which keeps loops rare.
    rank: usize,
    params: Vec<usize>,
    body: u32,
}

struct Draft {
    plan: Plan,
    names: usize,
    args: Vec<u32>,
    ys: Vec<[u32; 5]>,
    written: Vec<Written>,
    decls: Vec<Decl>,
    /// The declaration's place by name, if the name has one.
    declared: Vec<Option<usize>>,
    params: Vec<usize>,
    /// The declaration that types are made for.
    current: Option<usize>,
}

/// The lines of a sheet.
pub fn generate(random: &mut Random, plan: Plan) -> Vec<Line> {
    let mut draft = draft(random, plan);
    draft.put([0, 0, 0, 0, 0]);
    for _ in 1..plan.types {
        let y = draft.any_type(random);
        draft.put(y);
    }
    draft.double(random);
    draft.own_types(random);
    let decls = draft.declarations(random);
    let mut lines = names(random, draft.names);
    lines.extend(draft.args.iter().map(|&t| Line::row(b'A', [t, 0, 0, 0, 0])));
    lines.extend(draft.ys.iter().map(|&y| Line::row(b'Y', y)));
    lines.extend(decls);
    tags::put(&mut lines);
    lines
}

/// N lines with different texts.
fn names(random: &mut Random, count: usize) -> Vec<Line> {
    let style = random.below(4);
    let name = |i: usize| {
        let text = match style {
            0 => format!("n{i}"),
            1 => format!("{i}!~#"),
            2 => format!("{:x>24}", i),
            _ => format!("Race.Box.{}", char::from(33 + (i % 94) as u8).to_string().repeat(1 + i / 94)),
        };
        Line { letter: b'N', numbers: [i as u32, 0, 0, 0, 0], text: text.into_bytes() }
    };
    (0..count).map(name).collect()
}

/// Names, declarations without bodies, and no types yet.
fn draft(random: &mut Random, plan: Plan) -> Draft {
    let names = (plan.decls + random.between(6, 24)).min(256);
    let mut all: Vec<usize> = (0..names).collect();
    random.shuffle(&mut all);
    let params: Vec<usize> = (0..random.between(1, 8)).map(|_| random.below(names)).collect();
    let mut ranks: Vec<usize> = (0..plan.decls).collect();
    if !plan.ordered && random.percent(60) {
        random.shuffle(&mut ranks);
    }
    let mut decls = Vec::new();
    let mut declared = vec![None; names];
    for i in 0..plan.decls {
        let mut bound: Vec<usize> =
            (0..random.weighted(&[55, 25, 12, 4, 1, 1, 0, 1, 1])).map(|_| *random.pick(&params)).collect();
        bound.sort();
        bound.dedup();
        random.shuffle(&mut bound);
        let body = random.weighted(if plan.deep { &[1, 60, 4, 35] } else { &[8, 40, 22, 30] }) as u32;
        decls.push(Decl { name: all[i], own: vec![], rank: ranks[i], params: bound, body });
        declared[all[i]] = Some(i);
    }
    Draft { plan, names, args: vec![], ys: vec![], written: vec![], decls, declared, params, current: None }
}

impl Draft {
    fn put(&mut self, y: [u32; 5]) {
        let rank = |name: u32| self.declared[name as usize].map_or(0, |i| self.decls[i].rank + 1);
        let mut up_to = if y[0] == 8 { rank(y[1]) } else { 0 };
        for part in self.parts(&y) {
            up_to = up_to.max(self.written[part].names_up_to);
        }
        self.written.push(Written { names_up_to: up_to });
        self.ys.push(y);
    }

    /// Tuples that double.
    fn double(&mut self, random: &mut Random) {
        for _ in 0..self.plan.doublings {
            if self.ys.len() < 1024 && self.args.len() + 2 <= 512 {
                let (last, first) = (self.ys.len() as u32 - 1, self.args.len() as u32);
                self.args.extend([last, last]);
                self.put([9, first, 2, 0, 0]);
            }
        }
        if self.plan.doublings > 0 && self.ys.len() < 1024 {
            let last = self.ys.len() as u32 - 1;
            self.put(*random.pick(&[[10, last, 0, 0, 0], [12, last, 0, 0, 0], [0, 0, 0, 0, 0]]));
        }
    }

    /// A few types for each declaration, with its parameters and mostly names of lower rank.
    fn own_types(&mut self, random: &mut Random) {
        let mut order: Vec<usize> = (0..self.decls.len()).collect();
        order.sort_by_key(|&i| self.decls[i].rank);
        for i in order {
            self.current = Some(i);
            for _ in 0..random.weighted(&[5, 25, 30, 20, 10, 10]) {
                if self.ys.len() < 1000 {
                    let y = self.any_type(random);
                    self.put(y);
                    self.decls[i].own.push(self.ys.len() - 1);
                }
            }
        }
        self.current = None;
    }

    fn parts(&self, y: &[u32; 5]) -> Vec<usize> {
        let list = |first: u32, count: u32| {
            self.args[first as usize..][..count as usize].iter().map(|&t| t as usize).collect()
        };
        match y[0] {
            7 => vec![y[1] as usize, y[3] as usize],
            8 => list(y[2], y[3]),
            9 => list(y[1], y[2]),
            10 | 12 => vec![y[1] as usize],
            11 => vec![y[2] as usize],
            _ => vec![],
        }
    }

    /// An earlier type.
    fn part(&self, random: &mut Random) -> u32 {
        let count = self.ys.len();
        let own = self.current.map_or(&[][..], |i| &self.decls[i].own);
        if !own.is_empty() && random.percent(60) {
            return *random.pick(own) as u32;
        }
        if random.percent(self.plan.growth) {
            (count - 1 - random.below(count.min(2))) as u32
        } else {
            random.below(count) as u32
        }
    }

    /// A list of so many earlier types, if there is room for its A lines.
    fn list(&mut self, random: &mut Random, count: usize) -> Option<(u32, u32)> {
        if count == 0 {
            return Some((0, 0));
        }
        if self.args.len() >= count && random.percent(15) {
            // a list that shares its A lines with others
            let first = random.below(self.args.len() - count + 1);
            return Some((first as u32, count as u32));
        }
        if self.ys.is_empty() || self.args.len() + count > 512 {
            return None;
        }
        let first = self.args.len() as u32;
        for _ in 0..count {
            let part = self.part(random);
            self.args.push(part);
        }
        Some((first, count as u32))
    }

    fn leaf(&self, random: &mut Random) -> [u32; 5] {
        match random.weighted(&[if self.plan.deep { 4 } else { 25 }, 5, 5, 35, 20, 5, 5]) {
            0 => [0, 0, 0, 0, 0],
            1 => [1, 0, 0, 0, 0],
            2 => [2, 0, 0, 0, 0],
            3 => [3, self.variable(random) as u32, 0, 0, 0],
            4 => [4, random.below(2) as u32, *random.pick(&[1, 8, 16, 32, 64, 128]), 0, 0],
            5 => [5, random.below(4) as u32, 0, 0, 0],
            _ => [6, *random.pick(&[0, 7, 65_535, 999_999]), 0, 0, 0],
        }
    }

    /// A parameter's name, mostly one of the current declaration's.
    fn variable(&self, random: &mut Random) -> usize {
        let own = self.current.map_or(&[][..], |i| &self.decls[i].params);
        if own.is_empty() || random.percent(10) {
            *random.pick(&self.params)
        } else {
            *random.pick(own)
        }
    }

    /// A declared name, mostly of lower rank than the current declaration.
    fn declared_name(&self, random: &mut Random) -> usize {
        let rank = self.current.map_or(self.decls.len(), |i| self.decls[i].rank);
        let mut choice = random.below(self.decls.len());
        for _ in 0..8 {
            if self.decls[choice].rank < rank || random.percent(3) {
                break;
            }
            choice = random.below(self.decls.len());
        }
        self.decls[choice].name
    }

    fn any_type(&mut self, random: &mut Random) -> [u32; 5] {
        if self.ys.is_empty() {
            return self.leaf(random);
        }
        let weights = if self.current.is_some() { [12, 6, 64, 10, 2, 2, 4] } else { [25, 10, 40, 12, 4, 4, 5] };
        match random.weighted(&weights) {
            1 => [7, self.part(random), random.below(3) as u32, self.part(random), 0],
            2 => self.application(random),
            3 => {
                let count = random.weighted(&[10, 20, 40, 20, 5, 5]);
                match self.list(random, count) {
                    Some((first, count)) => [9, first, count, 0, 0],
                    None => self.leaf(random),
                }
            }
            4 => [10, self.part(random), 0, 0, 0],
            5 => [11, random.below(2) as u32, self.part(random), 0, 0],
            6 => [12, self.part(random), 0, 0, 0],
            _ => self.leaf(random),
        }
    }

    /// A name with as many arguments as it binds, or a surplus, or now and then too few.
    fn application(&mut self, random: &mut Random) -> [u32; 5] {
        let name = if self.decls.is_empty() || random.percent(15) {
            random.below(self.names)
        } else {
            self.declared_name(random)
        };
        let mut count = match self.declared[name] {
            Some(i) => self.decls[i].params.len(),
            None => random.weighted(&[50, 30, 15, 5]),
        };
        if random.percent(self.plan.miscounts) {
            count = random.below(4);
        } else if random.percent(8) {
            count += 1;
        }
        match self.list(random, count) {
            Some((first, count)) => [8, name as u32, first, count, 0],
            None => self.leaf(random),
        }
    }

    /// A type for a declaration, mostly one that names declarations of lower rank.
    fn type_for(&self, random: &mut Random, i: usize, may_return: bool) -> u32 {
        let limit = if may_return { self.decls[i].rank + 1 } else { self.decls[i].rank };
        let wild = !self.plan.ordered && (random.percent(self.plan.loops) || (may_return && random.percent(30)));
        for _ in 0..12 {
            let own = &self.decls[i].own;
            let t = match own.last() {
                Some(&last) if random.percent(60) => last,
                Some(_) if random.percent(50) => *random.pick(own),
                _ => self.part(random) as usize,
            };
            if wild || self.written[t].names_up_to <= limit {
                return t as u32;
            }
        }
        // type 0 names nothing
        0
    }

    fn declarations(&mut self, random: &mut Random) -> Vec<Line> {
        let mut lines = Vec::new();
        let mut ctor_names: Vec<usize> = (0..self.names).collect();
        random.shuffle(&mut ctor_names);
        let (mut ctors, mut fields) = (0, 0);
        let deep = self.plan.deep;
        for i in 0..self.decls.len() {
            let import = random.percent(self.plan.imports) && (!self.plan.ordered || random.percent(50));
            let flags = if random.percent(if self.plan.deep { 93 } else { 60 }) {
                0
            } else {
                *random.pick(&[1, 2, 4, 8, 16, 18, 2 + 4, 10, 31, 12])
            };
            let mut body = self.decls[i].body;
            let name = self.decls[i].name;
            let record_free = ctor_names.contains(&name);
            if body == 2 && !record_free {
                body = 1;
            }
            let mut keeps = Vec::new();
            let mut inner = Vec::new();
            let last = match body {
                0 => 0,
                1 => self.type_for(random, i, false),
                2 => {
                    ctor_names.retain(|&n| n != name);
                    let count =
                        random.weighted(if deep { &[0, 90, 5, 5, 0] } else { &[5, 40, 30, 20, 5] }).min(512 - fields);
                    fields += count;
                    self.fields(random, i, count, import, &mut inner, &mut keeps);
                    count as u32
                }
                _ => {
                    let count = random.weighted(if deep { &[0, 96, 2, 2] } else { &[8, 62, 20, 10] });
                    let count = count.min(256 - ctors).min(ctor_names.len());
                    ctors += count;
                    for _ in 0..count {
                        let ctor = ctor_names.pop().unwrap();
                        let these =
                            random.weighted(if deep { &[0, 90, 5, 5] } else { &[8, 52, 25, 15] }).min(512 - fields);
                        fields += these;
                        inner.push(Line::row(b'C', [ctor as u32, these as u32, 0, 0, 0]));
                        self.fields(random, i, these, import, &mut inner, &mut keeps);
                    }
                    count as u32
                }
            };
            let params = &self.decls[i].params;
            let head = [name as u32, flags, body, params.len() as u32, last];
            lines.push(Line::row(if import { b'I' } else { b'D' }, head));
            lines.extend(params.iter().map(|&p| Line::row(b'P', [p as u32, 0, 0, 0, 0])));
            let verdict = if import { verdict(random, body, last, &keeps) } else { [0; 5] };
            lines.extend(inner);
            lines.push(Line::row(b'V', verdict));
        }
        lines
    }

    fn fields(
        &mut self,
        random: &mut Random,
        i: usize,
        count: usize,
        import: bool,
        lines: &mut Vec<Line>,
        keeps: &mut Vec<bool>,
    ) {
        let mut names: Vec<usize> = (0..self.names.min(24)).collect();
        random.shuffle(&mut names);
        for name in names.into_iter().take(count) {
            let ty = self.type_for(random, i, count != 1);
            let keep = import && random.percent(60);
            keeps.push(keep);
            lines.push(Line::row(b'F', [name as u32, ty, u32::from(keep), 0, 0]));
        }
    }
}

/// A verdict that row 7 allows.
fn verdict(random: &mut Random, body: u32, last: u32, keeps: &[bool]) -> [u32; 5] {
    let record = random.below(2) as u32;
    let one = (body == 2 || (body == 3 && last == 1)) && keeps.iter().filter(|&&k| k).count() == 1;
    let layout = match body {
        _ if random.percent(15) => 0,
        0 => 4,
        1 => 3,
        _ if one && random.percent(80) => 1,
        _ => 2,
    };
    [u32::from(layout == 0), layout, record, 0, 0]
}
