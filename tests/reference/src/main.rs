//! reference < SHEET: the program of FORMAT, section 9.
//! reference --reach < SHEET: the program `reach` of FORMAT, section 13.
//! reference --table < SHEET: line R, and then what the pass knows of each declaration.

use reference::line::LINE;
use std::io::{Read, Write};

fn main() -> std::io::Result<()> {
    let mut sheet = Vec::new();
    std::io::stdin().read_to_end(&mut sheet)?;
    let has = |word: &str| std::env::args().any(|w| w == word);
    let mut out = if has("--reach") { reference::reach_program(&sheet) } else { reference::program(&sheet) };
    if has("--table") {
        out.truncate(LINE);
        let table = reference::table::table(&sheet).unwrap_or("no table: rows 1 to 7 refuse the sheet\n".to_string());
        out.extend(table.into_bytes());
    }
    std::io::stdout().write_all(&out)
}
