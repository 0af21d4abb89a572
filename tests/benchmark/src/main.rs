//! benchmark [SHEET..]: a table of what one build costs, on the sheets of `sheets.rs` or on those in
//! files: the median time of many batches, and instructions by callgrind where valgrind is there. The
//! outputs are lent once, the verdict output of the sheet's length and a left output of 1 MiB, and not
//! cleared between calls.
//!
//! benchmark --calls N WHO FILE: N calls and nothing else, for callgrind.

mod sheets;

use std::hint::black_box;
use std::path::Path;
use std::process::{Command, Stdio};
use std::time::Instant;

const LEFT: usize = 1 << 20;
const BATCHES: usize = 101;

/// A build by its name.
struct Who {
    name: &'static str,
    build: fn(&[u8], &mut [u8], &mut [u8]) -> u64,
}

const WHO: &[Who] = &[
    #[cfg(feature = "product")]
    Who { name: "product", build: |s, v, l| layout::call(s, v, l)[0] },
    Who { name: "reference", build: |s, v, l| reference::build(s, v, l).code },
    Who {
        name: "memcpy",
        build: |s, v, _| {
            v[..s.len()].copy_from_slice(s);
            0
        },
    },
];

/// Makes n calls.
fn calls(who: &Who, sheet: &[u8], n: usize) -> u64 {
    let (mut verdict, mut left) = (vec![0; sheet.len()], vec![0; LEFT]);
    (0..n).fold(0, |_, _| (who.build)(black_box(sheet), black_box(&mut verdict), black_box(&mut left)))
}

/// The median time of a call, in nanoseconds.
fn time(who: &Who, sheet: &[u8]) -> u128 {
    let (mut verdict, mut left) = (vec![0; sheet.len()], vec![0; LEFT]);
    let mut batch = |n: u128| {
        let start = Instant::now();
        for _ in 0..n {
            black_box((who.build)(black_box(sheet), black_box(&mut verdict), black_box(&mut left)));
        }
        start.elapsed().as_nanos()
    };
    // batches of about a millisecond
    let n = (1_000_000 / batch(1).max(1)).clamp(1, 10_000);
    let mut times: Vec<u128> = (0..BATCHES).map(|_| batch(n) / n).collect();
    times.sort();
    times[BATCHES / 2]
}

/// Instructions of a call: callgrind's count for five calls less that for one, by four.
fn instructions(who: &Who, sheet: &Path) -> Option<u64> {
    let count = |n: &str| -> Option<u64> {
        let exe = std::env::current_exe().ok()?;
        let out = Command::new("valgrind")
            .args(["--tool=callgrind", "--callgrind-out-file=/dev/null"])
            .arg(exe)
            .args(["--calls", n, who.name])
            .arg(sheet)
            .stdout(Stdio::null())
            .output()
            .ok()?;
        let text = String::from_utf8_lossy(&out.stderr).into_owned();
        text.lines().find_map(|l| l.split("Collected :").nth(1)).and_then(|n| n.trim().parse().ok())
    };
    Some((count("5")?.checked_sub(count("1")?)?) / 4)
}

fn find(name: &str) -> Vec<u8> {
    match sheets::all().into_iter().find(|(n, _)| n == name) {
        Some((_, sheet)) => sheet,
        None => std::fs::read(name).unwrap_or_else(|e| panic!("{name}: {e}")),
    }
}

fn main() {
    let words: Vec<String> = std::env::args().skip(1).collect();
    if let [calls_word, n, who, sheet] = &words[..] {
        if calls_word == "--calls" {
            let who = WHO.iter().find(|w| w.name == who).expect("a build's name");
            let sheet = std::fs::read(sheet).expect("a sheet's file");
            calls(who, &sheet, n.parse().expect("a number"));
            return;
        }
    }
    let names = if words.is_empty() { sheets::all().into_iter().map(|(n, _)| n).collect() } else { words };
    print!("| sheet | bytes | code |");
    WHO.iter().for_each(|w| print!(" {0}, ns | {0}, instructions |", w.name));
    println!("\n|---|---|---|{}", "---|---|".repeat(WHO.len()));
    for name in names {
        let sheet = find(&name);
        let file = std::env::temp_dir().join(format!("benchmark-{}.sheet", std::process::id()));
        std::fs::write(&file, &sheet).expect("a temporary file");
        let code = calls(&WHO[0], &sheet, 1);
        print!("| {} | {} | {code} |", name.rsplit('/').next().unwrap(), sheet.len());
        for who in WHO {
            let count = instructions(who, &file).map_or("-".to_string(), |n| n.to_string());
            print!(" {} | {count} |", time(who, &sheet));
        }
        println!();
        std::fs::remove_file(&file).ok();
    }
}
