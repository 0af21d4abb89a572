//! Units: FORMAT, section 10. A sheet is cut where it may be, its units are built in turn, the last with the
//! pattern, and its sheets are compared with those of the whole, and every unit with the reference.

use crate::random::Random;
use crate::{expected, After, Build, Call};
use reference::cty::Name;
use reference::line::LINE;
use reference::program::Program;
use reference::rows;
use std::collections::HashMap;

/// The lines at which a sheet that passes rows 1, 2, 3 and 5 may be cut, from the first declaration to
/// the pattern or the end. (Of others the rule speaks as well, but says little: they are refused, and so is a unit.)
pub fn cuts(sheet: &[u8]) -> Option<Vec<usize>> {
    if rows::row1(sheet) {
        return None;
    }
    let lines = rows::row2(sheet).ok()?;
    if rows::row3(&lines).is_some() || rows::row5(&lines).is_some() {
        return None;
    }
    let program = Program::read(&lines);
    // a name that is declared twice is there from its first declaration on
    let place: HashMap<Name, usize> = program.decls.iter().enumerate().rev().map(|(i, d)| (d.name, i)).collect();
    let end = lines.iter().position(|l| l.letter == b'Q').unwrap_or(lines.len());
    let start = |i: usize| program.decls.get(i).map_or(end, |d| d.line);
    // the last declaration that one of the first i names
    let mut furthest = 0;
    let mut cuts = vec![start(0)];
    for (i, d) in program.decls.iter().enumerate() {
        for name in d.body.types().into_iter().flat_map(|t| program.types.names_of_cty(t)) {
            furthest = furthest.max(place.get(&name).copied().unwrap_or(0));
        }
        if furthest <= i {
            cuts.push(start(i + 1));
        }
    }
    Some(cuts)
}

/// Some of the lines at which a sheet may be cut, in order; a line that stands twice gives an empty unit.
pub fn some_cuts(random: &mut Random, cuts: &[usize]) -> Vec<usize> {
    let mut chosen = vec![cuts[0]];
    for &cut in cuts {
        if random.percent(40) {
            chosen.push(cut);
        }
    }
    chosen.push(*cuts.last().unwrap());
    chosen
}

/// Output lengths, the same for every build of a cut.
#[derive(Clone, Copy)]
pub struct Lengths {
    pub verdict: usize,
    pub left: usize,
}

/// A difference in words, with the call that shows it where it is one from the reference.
pub struct Difference {
    pub words: String,
    pub call: Option<Call>,
}

/// What an accepted build hands on: the verdict sheet, and the whole left output.
type Two = Option<(Vec<u8>, Vec<u8>)>;

/// One build, compared with the reference: what it hands on, or where it differs.
fn two(build: &dyn Build, sheet: &[u8], lengths: Lengths) -> Result<Two, Difference> {
    let call = Call { sheet: sheet.to_vec(), verdict_length: lengths.verdict, left_length: lengths.left, old: 7 };
    if let Some(words) = call.difference(build, &expected(sheet)) {
        return Err(Difference { words, call: Some(call) });
    }
    let After { said, mut verdict, left } = call.made(build);
    verdict.truncate(sheet.len());
    Ok((said.answer.code == 0).then_some((verdict, left)))
}

/// Builds the units between two cuts or more in turn; what the last one hands on, or nothing where one is refused.
fn in_turn(build: &dyn Build, sheet: &[u8], chosen: &[usize], lengths: Lengths) -> Result<Two, Difference> {
    let mut before = sheet[..chosen[0] * LINE].to_vec();
    let mut last = None;
    for (i, unit) in chosen.windows(2).enumerate() {
        let tail = if i + 2 == chosen.len() { &sheet[unit[1] * LINE..] } else { &[] };
        let sheet = [&before[..], &sheet[unit[0] * LINE..unit[1] * LINE], tail].concat();
        let Some((verdict, left)) = two(build, &sheet, lengths)? else { return Ok(None) };
        before = verdict.clone();
        last = Some((verdict, left));
    }
    Ok(last)
}

/// Where a unit differs from the reference, or the units from the whole.
pub fn difference(build: &dyn Build, sheet: &[u8], chosen: &[usize], lengths: Lengths) -> Option<Difference> {
    let both = two(build, sheet, lengths).and_then(|whole| Ok((whole, in_turn(build, sheet, chosen, lengths)?)));
    let words = match both {
        Err(difference) => return Some(difference),
        Ok((whole, units)) if whole == units => return None,
        Ok((Some(_), None)) => "the whole is accepted, a unit is refused",
        Ok((None, _)) => "the whole is refused, every unit is accepted",
        Ok((Some(_), Some(_))) => "the last unit's sheets are not those of the whole",
    };
    Some(Difference { words: words.to_string(), call: None })
}
