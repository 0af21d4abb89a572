//! The layout pass written a second time, for tests: from docs/FORMAT.md, not from the proved
//! code, and to be read rather than to be fast. One function for each row and for each function of
//! the source.

pub mod cty;
pub mod erasure;
pub mod layout;
pub mod left;
pub mod line;
pub mod outcome;
pub mod output;
pub mod pass;
pub mod pattern;
pub mod program;
pub mod reach;
pub mod resolve;
pub mod rows;
pub mod table;

use line::{write_line, Line, LINE};
use pass::{Pass, Resolved, Way};
use program::Decl;

/// What a call returns: FORMAT, section 4.
#[derive(Clone, Copy, Debug, PartialEq, Eq)]
pub struct Answer {
    pub code: u64,
    pub place: u64,
    pub rounds: u64,
}

/// A code that is not 0, and its place.
#[derive(Clone, Copy, Debug, PartialEq, Eq)]
pub struct Refusal {
    pub code: u64,
    pub place: u64,
}

/// What an accepted sheet gives.
#[derive(Clone, Debug, PartialEq, Eq)]
pub struct Sheets {
    pub rounds: u64,
    pub verdict: Vec<u8>,
    pub left: Vec<u8>,
}

/// Steps of resolution that are tried before types are resolved by outcomes.
pub const STEPS: u64 = 200_000;

fn refuse<T>(code: u64, place: usize) -> Result<T, Refusal> {
    Err(Refusal { code, place: place as u64 })
}

/// A sheet that no row refuses, but those which look at the outputs.
pub struct Judged {
    pub lines: Vec<Line>,
    pub pass: Pass,
    pub resolved: Resolved,
}

/// The rows in their order, 11 and 12 left out.
pub fn judged(sheet: &[u8], way: Way) -> Result<Judged, Refusal> {
    if rows::row1(sheet) {
        return refuse(1, 0);
    }
    let lines = match rows::row2(sheet) {
        Ok(lines) => lines,
        Err(place) => return refuse(2, place),
    };
    let line_rows = [rows::row3, rows::row4, rows::row5, rows::row6, rows::row7];
    for (row, code) in line_rows.iter().zip(3..) {
        if let Some(place) = row(&lines) {
            return refuse(code, place);
        }
    }
    let pass = Pass::new(&lines);
    if let Some(refusal) = pass.row8() {
        return Err(refusal);
    }
    let resolved = pass.rows9and10(way)?;
    if let Some(place) = pattern::row13(&lines, &pass) {
        return refuse(13, place);
    }
    Ok(Judged { lines, pass, resolved })
}

impl Judged {
    /// Rows 11 and 12, and the two sheets.
    pub fn sheets(&self, verdict_length: usize, left_length: usize) -> Result<Sheets, Refusal> {
        let Judged { lines, pass, resolved } = self;
        let Pass { program, erasure, kept, layouts, .. } = pass;
        let left_of =
            |i: usize| left::rw_decl(&resolved.types, &program.decls[i], layouts[i], &kept[i], &resolved.decls[i]);
        let left: Vec<Option<Decl>> = (0..program.decls.len()).map(left_of).collect();
        let records: Vec<bool> = left.iter().map(|d| left::record_verdict(d.as_ref())).collect();
        let needed = lines.len() * LINE;
        if verdict_length < needed {
            return refuse(11, needed);
        }
        let left: Vec<Decl> = left.into_iter().flatten().collect();
        let rewritten = pattern::pattern(lines).map(|p| pattern::rw_pat(pass, &p));
        let left = output::left_sheet(lines, &resolved.types, &left, rewritten.as_ref());
        if left_length < left.len() {
            return refuse(12, left.len());
        }
        let verdict = output::verdict_sheet(lines, &program.decls, layouts, kept, &records);
        Ok(Sheets { rounds: erasure.rounds, verdict, left })
    }
}

/// All rows in their order, and the two sheets.
pub fn sheets(sheet: &[u8], verdict_length: usize, left_length: usize, way: Way) -> Result<Sheets, Refusal> {
    judged(sheet, way)?.sheets(verdict_length, left_length)
}

/// A call: FORMAT, section 9.
pub fn build(sheet: &[u8], verdict: &mut [u8], left: &mut [u8]) -> Answer {
    build_in(Way::Steps(STEPS), sheet, verdict, left)
}

/// A call, types resolved in one way or the other.
pub fn build_in(way: Way, sheet: &[u8], verdict: &mut [u8], left: &mut [u8]) -> Answer {
    match sheets(sheet, verdict.len(), left.len(), way) {
        Ok(written) => {
            verdict[..written.verdict.len()].copy_from_slice(&written.verdict);
            left[..written.left.len()].copy_from_slice(&written.left);
            Answer { code: 0, place: 0, rounds: written.rounds }
        }
        Err(Refusal { code, place }) => Answer { code, place, rounds: 0 },
    }
}

/// What a program prints: line R of a build with outputs of 65,536 bytes and, on code 0, what `behind` gives.
fn printed(sheet: &[u8], behind: impl FnOnce(Judged, Sheets) -> Vec<u8>) -> Vec<u8> {
    let built = judged(sheet, Way::Steps(STEPS)).and_then(|judged| {
        let written = judged.sheets(rows::BYTES, rows::BYTES)?;
        Ok((written.rounds, behind(judged, written)))
    });
    let (code, place, rounds, behind) = match built {
        Ok((rounds, behind)) => (0, 0, rounds, behind),
        Err(refusal) => (refusal.code, refusal.place, 0, vec![]),
    };
    let numbers = [code as u32, place.min(999_999) as u32, rounds as u32, 0, 0];
    [&write_line(&Line::row(b'R', numbers))[..], &behind].concat()
}

/// What the program prints: FORMAT, section 9.
pub fn program(sheet: &[u8]) -> Vec<u8> {
    printed(sheet, |_, written| [written.verdict, written.left].concat())
}

/// What the program `reach` prints: FORMAT, section 13.
pub fn reach_program(sheet: &[u8]) -> Vec<u8> {
    printed(sheet, |judged, _| reach::x_lines(&judged.pass.program))
}
