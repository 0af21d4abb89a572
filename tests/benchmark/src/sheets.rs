//! The sheets that are measured.

use reference::line::{write_line, Line};
use reference::pass::Way;

/// A sheet that is being put together, by its sections.
#[derive(Default, Clone)]
struct Draft {
    names: Vec<String>,
    args: Vec<[u32; 5]>,
    types: Vec<[u32; 5]>,
    decls: Vec<Line>,
}

impl Draft {
    fn name(&mut self, text: String) -> u32 {
        self.names.push(text);
        self.names.len() as u32 - 1
    }

    fn ty(&mut self, numbers: [u32; 5]) -> u32 {
        self.types.push(numbers);
        self.types.len() as u32 - 1
    }

    /// A name with these arguments, or a tuple where there is no name.
    fn list(&mut self, name: Option<u32>, members: &[u32]) -> u32 {
        let first = if members.is_empty() { 0 } else { self.args.len() as u32 };
        self.args.extend(members.iter().map(|&m| [m, 0, 0, 0, 0]));
        let count = members.len() as u32;
        self.ty(name.map_or([9, first, count, 0, 0], |n| [8, n, first, count, 0]))
    }

    fn line(&mut self, letter: u8, numbers: [u32; 5]) {
        self.decls.push(Line::row(letter, numbers));
    }

    fn abbreviation(&mut self, name: u32, params: &[u32], ty: u32) {
        self.line(b'D', [name, 0, 1, params.len() as u32, ty]);
        params.iter().for_each(|&p| self.line(b'P', [p, 0, 0, 0, 0]));
        self.line(b'V', [0; 5]);
    }

    /// A record, or with a constructor's name a variant of that one.
    fn product(&mut self, name: u32, ctor: Option<u32>, fields: &[(u32, u32)]) {
        let count = fields.len() as u32;
        match ctor {
            None => self.line(b'D', [name, 0, 2, 0, count]),
            Some(ctor) => {
                self.line(b'D', [name, 0, 3, 0, 1]);
                self.line(b'C', [ctor, count, 0, 0, 0]);
            }
        }
        fields.iter().for_each(|&(field, ty)| self.line(b'F', [field, ty, 0, 0, 0]));
        self.line(b'V', [0; 5]);
    }

    fn lines(&self) -> usize {
        self.names.len() + self.args.len() + self.types.len() + self.decls.len()
    }

    fn bytes(&self) -> Vec<u8> {
        let name = |(i, text): (usize, &String)| Line {
            letter: b'N',
            numbers: [i as u32, 0, 0, 0, 0],
            text: text.clone().into_bytes(),
        };
        let names = self.names.iter().enumerate().map(name);
        let args = self.args.iter().map(|&n| Line::row(b'A', n));
        let types = self.types.iter().map(|&n| Line::row(b'Y', n));
        names.chain(args).chain(types).chain(self.decls.iter().cloned()).flat_map(|l| write_line(&l)).collect()
    }
}

/// The types of a race's box, so many times over; each time the five declarations of FORMAT's example.
fn race(times: usize) -> Draft {
    let mut d = Draft::default();
    let shared = ["at", "antenna", "sealed", "raw", "splits", "gun", "'a", "list"];
    let [at, antenna, sealed, raw, splits, gun, a, list] = shared.map(|n| d.name(n.to_string()));
    let [u8, u32, unit] = [[4, 0, 8, 0, 0], [4, 0, 32, 0, 0], [0; 5]].map(|t| d.ty(t));
    let var = d.ty([3, a, 0, 0, 0]);
    let list_a = d.list(Some(list), &[var]);
    for i in 0..times {
        let [split, ms, ms_ctor, seal, series, lap, lap_ctor] =
            ["split", "ms", "Ms", "seal", "series", "lap", "Lap"].map(|n| d.name(format!("Box{i}.{n}")));
        let [ms_type, seal_type, split_type] = [ms, seal, split].map(|n| d.list(Some(n), &[]));
        let series_type = d.list(Some(series), &[split_type]);
        d.product(split, None, &[(at, ms_type), (antenna, u8), (sealed, seal_type)]);
        d.product(ms, Some(ms_ctor), &[(raw, u32)]);
        d.abbreviation(seal, &[], unit);
        d.abbreviation(series, &[a], list_a);
        d.product(lap, Some(lap_ctor), &[(splits, series_type), (gun, ms_type)]);
    }
    d
}

/// One constructor and one record.
fn tiny() -> Draft {
    let mut d = Draft::default();
    let [ms, ctor, raw, split, at, antenna, sealed] =
        ["ms", "Ms", "raw", "split", "at", "antenna", "sealed"].map(|n| d.name(n.to_string()));
    let [u8, u32, unit] = [[4, 0, 8, 0, 0], [4, 0, 32, 0, 0], [0; 5]].map(|t| d.ty(t));
    let ms_type = d.list(Some(ms), &[]);
    d.product(ms, Some(ctor), &[(raw, u32)]);
    d.product(split, None, &[(at, ms_type), (antenna, u8), (sealed, unit)]);
    d
}

/// 2,048 lines: 256 names, 512 A lines, 1,024 types, and declarations to the end.
fn full() -> Draft {
    let mut d = race(8);
    while d.args.len() + 2 <= 512 && d.types.len() < 1024 {
        let last = d.types.len() as u32 - 1;
        d.list(None, &[last % 7, last % 11]);
    }
    while d.types.len() < 1024 {
        let last = d.types.len() as u32 - 1;
        d.ty([10, last / 2, 0, 0, 0]);
    }
    while d.names.len() < 256 {
        d.name(format!("more.{}", d.names.len()));
    }
    let mut next = 200;
    while d.lines() + 6 <= 2048 {
        d.product(next, None, &[(8, 300), (9, 301), (10, 302), (11, 0)]);
        next += 1;
    }
    let rest = 2048 - d.lines();
    if rest >= 2 {
        d.product(next, None, &[(8, 300), (9, 301), (10, 302)][..rest - 2]);
    }
    d
}

/// Abbreviations each of the next: erasure goes back one a round if the last is unit; resolution goes
/// 96 deep if it is not.
fn chain(end: [u32; 5]) -> Draft {
    let mut d = Draft::default();
    let names: Vec<u32> = (0..96).map(|i| d.name(format!("t{i}"))).collect();
    for i in 0..96 {
        let ty = if i + 1 < 96 { d.list(Some(names[i + 1]), &[]) } else { d.ty(end) };
        d.abbreviation(names[i], &[], ty);
    }
    d
}

/// Eight fields of 1,024 nodes.
fn large() -> Draft {
    let mut d = Draft::default();
    let name = d.name("large".to_string());
    let fields: Vec<u32> = (0..8).map(|i| d.name(format!("f{i}"))).collect();
    let mut ty = d.ty([4, 0, 32, 0, 0]);
    for _ in 0..9 {
        ty = d.list(None, &[ty, ty]);
    }
    let ty = d.ty([10, ty, 0, 0, 0]);
    d.product(name, None, &fields.iter().map(|&f| (f, ty)).collect::<Vec<_>>());
    d
}

/// The full sheet with its last declaration named as its first.
fn late_6() -> Draft {
    let mut d = full();
    let first = d.decls.iter().find(|l| l.is_head()).unwrap().numbers[0];
    d.decls.iter_mut().rev().find(|l| l.is_head()).unwrap().numbers[0] = first;
    d
}

/// The full sheet with a loop of abbreviations at its end.
fn late_8() -> Draft {
    let mut d = full();
    let last = d.decls.iter().rposition(|l| l.is_head()).unwrap();
    let name = d.decls[last].numbers[0];
    d.types[1023] = [8, name, 0, 0, 0];
    d.decls.truncate(last);
    d.abbreviation(name, &[], 1023);
    d
}

/// Every sheet, by name.
pub fn all() -> Vec<(String, Vec<u8>)> {
    let imports = reference::sheets(&full().bytes(), usize::MAX, usize::MAX, Way::Outcomes).expect("accepted").verdict;
    let named = |name: &str, d: Draft| (name.to_string(), d.bytes());
    vec![
        named("tiny", tiny()),
        named("typical", race(5)),
        named("full", full()),
        named("erasure", chain([0; 5])),
        named("chain", chain([4, 0, 32, 0, 0])),
        named("large", large()),
        named("late_6", late_6()),
        named("late_8", late_8()),
        ("imports".to_string(), imports),
    ]
}
