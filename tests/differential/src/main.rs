//! differential [--sheets N] [--seed S] [--only I] [--print I] [--planted FAULT] [--program PATH]
//!
//! Builds N generated sheets (100,000 if not said) with the product, or, where this program is built
//! without it, with the reference's second way of resolving types, and compares every answer and every
//! byte with the reference, and every word of the reach index. Every fifth sheet that can be cut is built in
//! units too. Prints how many sheets met each code. At a difference it prints the smallest sheet that it
//! finds by dropping lines, and ends with 1. With --planted the build has a fault that is to be found;
//! --print writes sheet I. With --program the sheets are given to the program `layout` or `reach` at that path, and what
//! it prints is compared instead.

use differential::planted::{Planted, FAULTS};
use differential::run::{compare, compare_program, Counts, Found};
use differential::{sheet, Build};
use std::io::Write;
use std::path::PathBuf;
use std::sync::atomic::{AtomicBool, AtomicU64, Ordering};

struct Words {
    sheets: u64,
    seed: u64,
    only: Option<u64>,
    print: Option<u64>,
    planted: Option<String>,
    program: Option<PathBuf>,
}

fn words() -> Result<Words, String> {
    let mut words = Words { sheets: 100_000, seed: 2026, only: None, print: None, planted: None, program: None };
    let mut args = std::env::args().skip(1);
    while let Some(word) = args.next() {
        let mut value = || args.next().ok_or(format!("{word} wants a value"));
        let number = |s: String| s.parse::<u64>().map_err(|_| format!("{s} is no number"));
        match word.as_str() {
            "--sheets" => words.sheets = number(value()?)?,
            "--seed" => words.seed = number(value()?)?,
            "--only" => words.only = Some(number(value()?)?),
            "--print" => words.print = Some(number(value()?)?),
            "--planted" => words.planted = Some(value()?),
            "--program" => words.program = Some(PathBuf::from(value()?)),
            _ => return Err(format!("{word} is not known; faults to plant: {}", FAULTS.join(" "))),
        }
    }
    Ok(words)
}

fn subject(planted: &Option<String>) -> Box<dyn Build> {
    if let Some(fault) = planted {
        return Box::new(Planted { fault: fault.clone() });
    }
    #[cfg(feature = "product")]
    return Box::new(differential::Product);
    #[cfg(not(feature = "product"))]
    return Box::new(differential::Reference(reference::pass::Way::Outcomes));
}

fn main() {
    let words = words().unwrap_or_else(|e| {
        eprintln!("{e}");
        std::process::exit(2)
    });
    if let Some(index) = words.print {
        std::io::stdout().write_all(&sheet(words.seed, index)).unwrap();
        return;
    }
    let build = subject(&words.planted);
    let counts = Counts::default();
    let (next, stop) = (AtomicU64::new(0), AtomicBool::new(false));
    let (first, last) = words.only.map_or((0, words.sheets), |i| (i, i + 1));
    next.store(first, Ordering::Relaxed);
    let work = || {
        let mut found = Vec::new();
        while !stop.load(Ordering::Relaxed) {
            let index = next.fetch_add(1, Ordering::Relaxed);
            if index >= last {
                break;
            }
            let other = match &words.program {
                Some(program) => compare_program(program, words.seed, index),
                None => compare(build.as_ref(), words.seed, index, &counts),
            };
            if let Some(f) = other {
                stop.store(true, Ordering::Relaxed);
                found.push(f);
            }
        }
        found
    };
    let jobs = std::thread::available_parallelism().map_or(1, |n| n.get());
    let mut found: Vec<Found> = std::thread::scope(|scope| {
        let threads: Vec<_> = (0..jobs).map(|_| scope.spawn(work)).collect();
        threads.into_iter().flat_map(|t| t.join().unwrap()).collect()
    });
    found.sort_by_key(|f| f.index);
    if words.program.is_none() {
        counts.print();
    }
    let Some(f) = found.first() else {
        println!("no difference");
        return;
    };
    println!("sheet {} of seed {}: {}", f.index, words.seed, f.words);
    println!("of {} bytes, {} are enough:", f.bytes, f.small.len());
    for line in f.small.chunks(32) {
        println!("{}", line.escape_ascii().to_string().trim_end_matches("\\n"));
    }
    std::process::exit(1);
}
