//! Differential tests: the same calls made of two builds, and every answer and every byte compared.

pub mod cut;
pub mod damage;
pub mod family;
pub mod generate;
pub mod patterns;
pub mod planted;
pub mod random;
pub mod reach;
pub mod ring;
pub mod run;
pub mod shrink;
pub mod tags;

use reference::line::Line;
use reference::pass::Way;
use reference::reach::{reach_in, reach_sets, words, WORDS};
pub use reference::Answer;
use reference::{Refusal, Sheets};

/// What a build says of a call: its answer, and how much it wrote to each output, if it says so.
#[derive(Clone, Copy, Debug, PartialEq, Eq)]
pub struct Said {
    pub answer: Answer,
    pub written: Option<[u64; 2]>,
}

/// A build that can be called: FORMAT, section 9. And its reach index: section 13, with code and place.
pub trait Build: Sync {
    fn build(&self, sheet: &[u8], verdict: &mut [u8], left: &mut [u8]) -> Said;
    fn reach_index(&self, sheet: &[u8], sets: &mut [u64; WORDS]) -> [u64; 2];
}

/// The reference, types resolved in one way or the other.
pub struct Reference(pub Way);

impl Build for Reference {
    fn build(&self, sheet: &[u8], verdict: &mut [u8], left: &mut [u8]) -> Said {
        Said { answer: reference::build_in(self.0, sheet, verdict, left), written: None }
    }

    fn reach_index(&self, sheet: &[u8], sets: &mut [u64; WORDS]) -> [u64; 2] {
        reach_in(self.0, sheet, sets)
    }
}

/// The product, by its static library: both of its builds, which are to do the same, and its reach index.
#[cfg(feature = "product")]
pub struct Product;

#[cfg(feature = "product")]
impl Build for Product {
    fn build(&self, sheet: &[u8], verdict: &mut [u8], left: &mut [u8]) -> Said {
        let (old_verdict, old_left) = (verdict.to_vec(), left.to_vec());
        let other = layout::call(sheet, verdict, left);
        let (other_verdict, other_left) = (verdict.to_vec(), left.to_vec());
        verdict.copy_from_slice(&old_verdict);
        left.copy_from_slice(&old_left);
        let [code, place, rounds, written @ ..] = layout::call_sized(sheet, verdict, left);
        if other != [code, place, rounds] || other_verdict != verdict || other_left != left {
            // no answer of a build, so a difference
            return Said { answer: Answer { code: u64::MAX, place: code, rounds: other[0] }, written: None };
        }
        Said { answer: Answer { code, place, rounds }, written: Some(written) }
    }

    fn reach_index(&self, sheet: &[u8], sets: &mut [u64; WORDS]) -> [u64; 2] {
        layout::call_reach_index(sheet, sets)
    }
}

/// What a sheet gives that is not refused: both sheets, and the words of the reach index.
pub struct Given {
    pub sheets: Sheets,
    pub index: [u64; WORDS],
}

/// What the reference says of a sheet, for outputs of any length: the refusal is then that of the index, too.
pub fn expected(sheet: &[u8]) -> Result<Given, Refusal> {
    let judged = reference::judged(sheet, Way::Steps(reference::STEPS))?;
    let sheets = judged.sheets(usize::MAX, usize::MAX)?;
    Ok(Given { sheets, index: words(&reach_sets(&judged.pass.program)) })
}

/// A call of the build, and one of the reach index: what is given to them.
#[derive(Clone, Debug)]
pub struct Call {
    pub sheet: Vec<u8>,
    pub verdict_length: usize,
    pub left_length: usize,
    /// What the outputs hold before.
    pub old: u8,
}

/// What the build answers, and what the outputs and the bytes behind them hold after it.
#[derive(Clone, Debug)]
pub struct After {
    pub said: Said,
    pub verdict: Vec<u8>,
    pub left: Vec<u8>,
}

/// What the reach index answers, and what its words and the words behind them hold after it.
#[derive(Clone, Debug, PartialEq, Eq)]
struct Indexed {
    answer: [u64; 2],
    sets: Vec<u64>,
}

/// How many bytes or words stand behind each output, so that a write past its end shows.
const BEHIND: usize = 64;

/// Bytes that differ from place to place, so that a copy from a wrong place shows.
fn old_bytes(old: u8, length: usize) -> Vec<u8> {
    (0..length).map(|i| old.wrapping_add((i % 251) as u8)).collect()
}

/// The first place at which two outputs differ.
fn first_other<T: PartialEq>(a: &[T], b: &[T]) -> Option<usize> {
    a.iter().zip(b).position(|(x, y)| x != y)
}

impl Call {
    /// Both outputs before the call, with what stands behind them.
    fn before(&self) -> (Vec<u8>, Vec<u8>) {
        let verdict = old_bytes(self.old, self.verdict_length + BEHIND);
        (verdict, old_bytes(self.old ^ 0x5a, self.left_length + BEHIND))
    }

    /// The words of the reach index before the call, with what stands behind them.
    fn words_before(&self) -> Vec<u64> {
        let bytes = old_bytes(self.old ^ 0xa5, 8 * (WORDS + BEHIND));
        bytes.chunks_exact(8).map(|word| u64::from_le_bytes(word.try_into().unwrap())).collect()
    }

    /// What the build makes of it.
    pub fn made(&self, build: &dyn Build) -> After {
        let (mut verdict, mut left) = self.before();
        let said = build.build(&self.sheet, &mut verdict[..self.verdict_length], &mut left[..self.left_length]);
        After { said, verdict, left }
    }

    /// What is to come of it, by what the reference says of its sheet.
    pub fn owed(&self, said: &Result<Given, Refusal>) -> After {
        let (mut verdict, mut left) = self.before();
        let refused = |code: u64, place: usize| Answer { code, place: place as u64, rounds: 0 };
        let mut written = [0, 0];
        let answer = match said.as_ref().map(|given| &given.sheets) {
            Err(refusal) => Answer { code: refusal.code, place: refusal.place, rounds: 0 },
            Ok(_) if self.verdict_length < self.sheet.len() => refused(11, self.sheet.len()),
            Ok(sheets) if self.left_length < sheets.left.len() => refused(12, sheets.left.len()),
            Ok(sheets) => {
                verdict[..sheets.verdict.len()].copy_from_slice(&sheets.verdict);
                left[..sheets.left.len()].copy_from_slice(&sheets.left);
                written = [sheets.verdict.len() as u64, sheets.left.len() as u64];
                Answer { code: 0, place: 0, rounds: sheets.rounds }
            }
        };
        After { said: Said { answer, written: Some(written) }, verdict, left }
    }

    /// Where the two differ, in words; nothing if they don't.
    pub fn difference(&self, build: &dyn Build, said: &Result<Given, Refusal>) -> Option<String> {
        let (made, owed) = (self.made(build), self.owed(said));
        let same_lengths = made.said.written.is_none() || made.said.written == owed.said.written;
        if made.said.answer == owed.said.answer
            && same_lengths
            && made.verdict == owed.verdict
            && made.left == owed.left
        {
            return self.index_difference(build, said);
        }
        Some(format!(
            "answered {:?}, owed {:?}; first other byte in the verdict output {:?}, in the left output {:?}",
            made.said,
            owed.said,
            first_other(&made.verdict, &owed.verdict),
            first_other(&made.left, &owed.left)
        ))
    }

    /// The same of the reach index.
    fn index_difference(&self, build: &dyn Build, said: &Result<Given, Refusal>) -> Option<String> {
        let old = self.words_before();
        let mut made = Indexed { answer: [0, 0], sets: old.clone() };
        made.answer = build.reach_index(&self.sheet, made.sets.first_chunk_mut().unwrap());
        let mut owed = Indexed { answer: [0, 0], sets: old };
        match said {
            Ok(given) => owed.sets[..WORDS].copy_from_slice(&given.index),
            Err(refusal) => owed.answer = [refusal.code, refusal.place],
        }
        (made != owed).then(|| {
            let word = first_other(&made.sets, &owed.sets);
            format!("the reach index answered {:?}, owed {:?}; first other word {word:?}", made.answer, owed.answer)
        })
    }
}

/// A length near one that just suffices.
pub fn near(random: &mut random::Random, length: usize) -> usize {
    match random.below(30) {
        0 => length.saturating_sub(1),
        1 => 0,
        2 => length.saturating_sub(random.below(100)),
        3..=15 => length,
        _ => length + random.below(100),
    }
}

/// The bytes of a generated sheet's lines, some of them with a pattern at the end.
fn ending(random: &mut random::Random, mut lines: Vec<Line>) -> Vec<u8> {
    if random.percent(27) {
        lines.extend(patterns::pattern(random, &lines));
    }
    generate::bytes(&lines)
}

/// Sheet number `index` of a seed.
pub fn sheet(seed: u64, index: u64) -> Vec<u8> {
    let mut random = random::Random::new(seed ^ index.wrapping_mul(0xd134_2543_de82_ef95));
    match random.below(1000) {
        0..=1 => damage::long(&mut random),
        2..=5 => damage::limit(&mut random),
        6..=21 => damage::noise(&mut random),
        22..=111 => {
            let lines = family::family(&mut random);
            ending(&mut random, lines)
        }
        112..=121 => {
            let lines = family::sizes(&mut random);
            ending(&mut random, lines)
        }
        share @ 122..=371 => {
            let lines = if share > 331 {
                ring::rings(&mut random)
            } else {
                let plan = generate::Plan::any(&mut random);
                generate::generate(&mut random, plan)
            };
            let mut sheet = ending(&mut random, lines);
            for _ in 0..random.between(1, 2) {
                damage::damage(&mut random, &mut sheet);
            }
            sheet
        }
        372..=451 => {
            let lines = ring::rings(&mut random);
            ending(&mut random, lines)
        }
        share @ 452..=481 => {
            let lines = reach::reaching(&mut random);
            let mut sheet = ending(&mut random, lines);
            if share > 476 {
                damage::damage(&mut random, &mut sheet);
            }
            sheet
        }
        482..=511 => {
            let lines = tags::tagging(&mut random);
            ending(&mut random, lines)
        }
        _ => {
            let plan = generate::Plan::any(&mut random);
            let lines = generate::generate(&mut random, plan);
            ending(&mut random, lines)
        }
    }
}

/// The call made with sheet number `index`.
pub fn call(seed: u64, index: u64, sheet: Vec<u8>, said: &Result<Given, Refusal>) -> Call {
    let mut random = random::Random::new(seed.rotate_left(17) ^ index);
    let left = said.as_ref().map_or(200, |given| given.sheets.left.len());
    let verdict_length = near(&mut random, sheet.len());
    let left_length = near(&mut random, left);
    Call { sheet, verdict_length, left_length, old: random.number() as u8 }
}
