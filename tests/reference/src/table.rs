//! A table of what the pass knows of each declaration, for whoever works on one of its parts.

use crate::layout::{reached, returns};
use crate::line::{spelling, LINE};
use crate::pass::Pass;
use crate::rows;

/// One line for each declaration: its line, D or I, name, whether it is erased, its layout, the keep
/// numbers by constructor, whether it is unfolded, how many unfolded declarations it reaches (rank),
/// whether it reaches itself (row 8), and what rows 9 and 10 say of it alone. Nothing is said of rows
/// 9 and 10 where row 8 applies. A sheet that rows 1 to 7 refuse has no table.
pub fn table(sheet: &[u8]) -> Option<String> {
    if rows::row1(sheet) {
        return None;
    }
    let lines = rows::row2(sheet).ok()?;
    let line_rows = [rows::row3, rows::row4, rows::row5, rows::row6, rows::row7];
    if line_rows.iter().any(|row| row(&lines).is_some()) {
        return None;
    }
    let pass = Pass::new(&lines);
    let loops = pass.row8().is_some();
    let mut out = format!(
        "rounds {}\n{:>5} {:<1} {:<24} {:>6} {:>7} {:<12} {:>8} {:>4} {:>4} {:>5}\n",
        pass.erasure.rounds, "line", "", "name", "erased", "layout", "keeps", "unfolded", "rank", "row8", "row9"
    );
    for (i, d) in pass.program.decls.iter().enumerate() {
        let keeps: Vec<String> =
            pass.kept[i].iter().map(|c| c.iter().map(|&k| if k { '1' } else { '0' }).collect()).collect();
        let rank =
            reached(&pass.program, &pass.unfolded, i).into_iter().filter(|&j| pass.unfolded[j].is_some()).count();
        out += &format!(
            "{:>5} {:<1} {:<24} {:>6} {:>7} {:<12} {:>8} {:>4} {:>4} {:>5}\n",
            d.line,
            sheet[d.line * LINE] as char,
            String::from_utf8_lossy(spelling(sheet, d.name as usize)),
            u8::from(pass.erasure.decls[i]),
            pass.layouts[i].number(),
            keeps.join("|"),
            u8::from(pass.unfolded[i].is_some()),
            rank,
            if returns(&pass.program, &pass.unfolded, i) { "8" } else { "0" },
            if loops { "-".to_string() } else { pass.fault(i).to_string() },
        );
    }
    Some(out)
}
