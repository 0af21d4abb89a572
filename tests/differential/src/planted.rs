//! Builds with a fault planted, to see that it is found and shrunk: the reference's answer changed where
//! a slip in the product would change it. This tests the comparison and needs no product; tests/planted
//! plants faults in the product itself.

use crate::tags::ctors;
use crate::{Answer, Build, Said};
use reference::line::{raw_line, write_number, Line};
use reference::pass::Way;
use reference::reach::{reach_in, SET_WORDS, WORDS};

/// The faults, by name.
pub const FAULTS: &[&str] = &[
    "record", "rounds", "keep", "place12", "code10", "spill", "import", "list", "code9", "refusal", "code13", "freed",
    "twice", "field", "node", "itself", "second", "absent", "words", "tags", "single", "over", "left", "code7",
    "place7",
];

pub struct Planted {
    pub fault: String,
}

/// The places of a letter's lines in what was written.
fn written(out: &[u8], old: &[u8], letter: u8) -> Vec<usize> {
    let end = out.iter().zip(old).rposition(|(a, b)| a != b).map_or(0, |i| i + 1);
    (0..end / 32).map(|i| i * 32).filter(|&i| out[i] == letter).collect()
}

/// Another tag number in the line at a place.
fn put_tag(out: &mut [u8], at: usize, number: u32) {
    out[at + 13..][..6].copy_from_slice(&write_number(number));
}

impl Build for Planted {
    fn build(&self, sheet: &[u8], verdict: &mut [u8], left: &mut [u8]) -> Said {
        let (old_verdict, old_left) = (verdict.to_vec(), left.to_vec());
        let mut answer = reference::build_in(Way::Steps(reference::STEPS), sheet, verdict, left);
        let accepted = answer.code == 0;
        let lines = |out: &[u8], letter: u8| -> Vec<usize> {
            (0..sheet.len().min(out.len()) / 32).map(|i| i * 32).filter(|&i| out[i] == letter).collect()
        };
        match self.fault.as_str() {
            // a record number of a type with a `Realized` and a `SourceRecord` flag is forgotten
            "record" if accepted => {
                for head in lines(verdict, b'I') {
                    if sheet[head] == b'D' && verdict[head + 1..][..12].ends_with(b"    18") {
                        if let Some(&v) = lines(verdict, b'V').iter().find(|&&v| v > head) {
                            verdict[v + 18] = b'0';
                        }
                    }
                }
            }
            "rounds" if answer.rounds > 3 => answer.rounds = 3,
            // the keep number of the last field, where there are more than four
            "keep" if accepted => {
                let fields = lines(verdict, b'F');
                if fields.len() > 4 {
                    verdict[fields[fields.len() - 1] + 18] = b'1';
                }
            }
            "place12" if answer.code == 12 => answer.place -= 32,
            "code10" if answer.code == 10 => answer.code = 9,
            // one byte past the left sheet
            "spill" if accepted && answer.rounds > 1 => {
                let at = left.iter().zip(&old_left).rposition(|(a, b)| a != b).map_or(0, |i| i + 1);
                if at < left.len() {
                    left[at] ^= 1;
                }
            }
            // an import's V line is written again
            "import" if accepted => {
                for (head, v) in lines(sheet, b'I').into_iter().zip(lines(sheet, b'V')) {
                    if head < v && sheet[v + 18] == b'1' {
                        verdict[v + 18] = b'0';
                    }
                }
            }
            // an empty list begins where the next A line would
            "list" if accepted => {
                for y in (0..left.len() / 32).map(|i| i * 32) {
                    if left[y] == b'Y' && left[y + 6] == b'9' && left[y + 18] == b'0' {
                        left[y + 12] = b'1';
                        break;
                    }
                }
            }
            "code9" if answer.code == 9 => answer = Answer { code: 0, place: 0, rounds: 1 },
            // row 13 looks at the whole alone
            "code13" if answer.code == 13 => answer.place = (sheet.len() / 32 - 1) as u64,
            // freed names the other way round
            "freed" if accepted => {
                let freed = written(left, &old_left, b'U');
                let names: Vec<Vec<u8>> = freed.iter().map(|&u| left[u..u + 32].to_vec()).collect();
                freed.iter().rev().zip(names).for_each(|(&u, name)| left[u..u + 32].copy_from_slice(&name));
            }
            // a name that was freed a second time is another
            "twice" if accepted => {
                let freed = written(left, &old_left, b'U');
                for two in freed.windows(2) {
                    if left[two[0]..][..32] == left[two[1]..][..32] {
                        left[two[1] + 6] ^= 1;
                    }
                }
            }
            // a part that stands for its owner has no field
            "field" if accepted => {
                let nodes = written(left, &old_left, b'Q');
                if nodes.len() < sheet.chunks_exact(32).filter(|l| l[0] == b'Q').count() {
                    if let Some(&q) = nodes.iter().find(|&&q| &left[q + 25..][..6] != b"     0") {
                        left[q + 25..][..6].copy_from_slice(b"     0");
                    }
                }
            }
            // the verdict sheet's Q lines are the new ones
            "node" if accepted => {
                for (q, new) in lines(verdict, b'Q').into_iter().zip(written(left, &old_left, b'Q')) {
                    verdict[q..q + 32].copy_from_slice(&left[new..new + 32]);
                }
            }
            // in local declarations tags begin at 1, a single constructor has one, they are counted over the sheet
            fault @ ("tags" | "single" | "over") if accepted => {
                let lines: Vec<Line> = sheet.chunks_exact(32).map(raw_line).collect();
                for (i, c) in ctors(&lines).into_iter().enumerate().filter(|(_, c)| !c.import) {
                    let number = match fault {
                        "tags" if c.count > 1 => c.k + 2,
                        "single" => c.k + 1,
                        "over" if c.count > 1 => i as u32 + 1,
                        _ => continue,
                    };
                    put_tag(verdict, c.at * 32, number);
                }
            }
            // the left sheet has them
            "left" if accepted => {
                let end = written(left, &old_left, b'V').last().map_or(0, |v| v + 32);
                let lines: Vec<Line> = left[..end].chunks_exact(32).map(raw_line).collect();
                ctors(&lines).iter().for_each(|c| put_tag(left, c.at * 32, c.stored()));
            }
            // a wrong tag is a number out of its range, or is found at the V line
            "code7" if answer.code == 7 && sheet[answer.place as usize * 32] == b'C' => answer.code = 5,
            "place7" if answer.code == 7 => {
                let place = answer.place as usize * 32;
                answer.place = *lines(sheet, b'V').iter().find(|&&v| v >= place).unwrap() as u64 / 32;
            }
            // outputs are touched before the sheet is refused
            "refusal" if answer.code == 12 && !verdict.is_empty() => {
                verdict.copy_from_slice(&old_verdict);
                verdict[0] ^= 1;
            }
            _ => {}
        }
        Said { answer, written: None }
    }

    fn reach_index(&self, sheet: &[u8], sets: &mut [u64; WORDS]) -> [u64; 2] {
        let old = *sets;
        let answer = reach_in(Way::Steps(reference::STEPS), sheet, sets);
        match self.fault.as_str() {
            // no declaration is in its own set
            "itself" if answer[0] == 0 => {
                (0..WORDS / SET_WORDS).for_each(|i| sets[SET_WORDS * i + i / 64] &= !(1 << (i % 64)))
            }
            // a set's second word is left out
            "second" if answer[0] == 0 => sets.iter_mut().skip(1).step_by(SET_WORDS).for_each(|word| *word = 0),
            // words of declarations that are not there are not written
            "absent" if answer[0] == 0 => sets[WORDS - 1] = old[WORDS - 1],
            // words are touched before the sheet is refused
            "words" if answer[0] == 9 => sets[0] = 0,
            _ => {}
        }
        answer
    }
}
