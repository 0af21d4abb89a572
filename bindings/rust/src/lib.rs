//! The layout pass for types: a sheet of declarations is refused by code and place, or answered by a
//! verdict sheet and a left sheet. docs/FORMAT.md says what all of these are. The pass itself is proved
//! and linked as a static library; this crate only calls it.
//!
//! ```
//! let lines = [
//!     "N     0ms", "N     1Ms", "N     2raw",
//!     "Y     4     0    32     0     0",
//!     "D     0     0     3     0     1",
//!     "C     1     1     0     0     0",
//!     "F     2     0     0     0     0",
//!     "V     0     0     0     0     0",
//! ];
//! let sheet: String = lines.iter().map(|l| format!("{l:31}\n")).collect();
//!
//! let mut verdict = vec![0; sheet.len()];
//! let mut left = vec![0; layout::SHEET_BYTES];
//! let built = layout::build(sheet.as_bytes(), &mut verdict, &mut left).unwrap();
//! assert_eq!(built.rounds, 1);
//! // a newtype: its one field is kept, and what is left is an abbreviation
//! assert!(verdict.ends_with(b"V     0     1     0     0     0\n"));
//! assert!(left[..built.left].ends_with(b"D     0     0     1     0     0\nV     0     0     0     0     0\n"));
//!
//! let twice = sheet.replace("1Ms", "1ms");
//! let refusal = layout::build(twice.as_bytes(), &mut verdict, &mut left).unwrap_err();
//! assert_eq!(refusal.code(), 6);
//! assert_eq!(refusal.to_string(), "line 1 repeats a name of an earlier line: N     1ms");
//! ```
//!
//! What a declaration hangs on, `reach_index` tells:
//!
//! ```
//! let lines = [
//!     "N     0lap", "N     1ms", "N     2list",
//!     "A     0     0     0     0     0",
//!     "Y     8     1     0     0     0",
//!     "Y     8     2     0     1     0",
//!     "D     0     0     1     0     1",
//!     "V     0     0     0     0     0",
//!     "D     1     0     0     0     0",
//!     "V     0     0     0     0     0",
//! ];
//! let sheet: String = lines.iter().map(|l| format!("{l:31}\n")).collect();
//!
//! // `lap = list ms`, where `list` is not declared
//! let reach = layout::reach_index(sheet.as_bytes()).unwrap();
//! assert!(reach.reaches(0, 1) && !reach.reaches(1, 0));
//! assert_eq!(reach.count(0), 1);
//! ```

use std::fmt;

/// The most bytes that a sheet may have, and the bytes of a line.
pub const SHEET_BYTES: usize = 65_536;
pub const LINE_BYTES: usize = 32;

/// Words of one declaration's set in a reach index, and of the sets of 96 declarations.
pub const SET_WORDS: usize = 2;
pub const REACH_WORDS: usize = 96 * SET_WORDS;

mod calls {
    extern "C" {
        pub fn layout_build(
            sheet: *const u8,
            sheet_len: usize,
            verdict: *mut u8,
            verdict_len: usize,
            left: *mut u8,
            left_len: usize,
            answer: *mut [u64; 3],
        );
        pub fn layout_build_sized(
            sheet: *const u8,
            sheet_len: usize,
            verdict: *mut u8,
            verdict_len: usize,
            left: *mut u8,
            left_len: usize,
            answer: *mut [u64; 5],
        );
        pub fn layout_reach_index(
            sheet: *const u8,
            sheet_len: usize,
            sets: *mut [u64; super::REACH_WORDS],
            answer: *mut [u64; 2],
        );
    }
}

/// An accepted sheet: how many rounds erasure took, and how many bytes of the outputs were written.
#[derive(Clone, Copy, Debug, PartialEq, Eq)]
pub struct Built {
    pub rounds: u64,
    pub verdict: usize,
    pub left: usize,
}

/// What a build answers.
pub type Answer = Result<Built, Refusal>;

/// A line of the sheet, by its number from 0, and its bytes. There are none where the place is the
/// count of lines.
#[derive(Clone, Copy, Debug, PartialEq, Eq)]
pub struct Place {
    pub line: u64,
    pub bytes: Option<[u8; LINE_BYTES]>,
}

impl Place {
    /// Whether it is a C line, and one with tag number 0.
    fn is_ctor(&self) -> bool {
        self.bytes.is_some_and(|line| line[0] == b'C')
    }

    fn has_no_tag(&self) -> bool {
        self.is_ctor() && self.bytes.is_some_and(|line| line[13..19] == *b"     0")
    }
}

/// Why a sheet is refused, one case for each code from 1 to 13.
#[derive(Clone, Copy, Debug, PartialEq, Eq)]
pub enum Refusal {
    /// 1: too long, or not whole lines.
    Length { bytes: usize },
    /// 2: not a line: its letter, a number, a name's text or the last byte.
    Form(Place),
    /// 3: a line out of order, a count that its lines do not keep, or an unknown body kind.
    Order(Place),
    /// 4: one line more than allowed of its letter.
    Limit(Place),
    /// 5: a number out of its range.
    Range(Place),
    /// 6: a name of an earlier line where it may not stand again.
    Repeated(Place),
    /// 7: a tag, keep or verdict number that cannot be. At a C line of an I declaration without a tag the sheet may be a
    /// verdict sheet from before there were tags: the earlier units are to be built again.
    Verdict(Place),
    /// 8: a name whose unfolding leads back to it.
    Loop(Place),
    /// 9: a wrong count of type arguments.
    Arguments(Place),
    /// 10: a type of more than 1,024 nodes.
    Size(Place),
    /// 11: the verdict output is too short.
    VerdictShort { needed: u64 },
    /// 12: the left output is too short.
    LeftShort { needed: u64 },
    /// 13: a pattern of a constructor that has not a part for each of its fields.
    Parts(Place),
}

impl Refusal {
    /// The case of a code from 1 to 13.
    fn new(code: u64, place: u64, sheet: &[u8]) -> Refusal {
        let line = || {
            let bytes = sheet.chunks_exact(LINE_BYTES).nth(place as usize).map(|l| l.try_into().unwrap());
            Place { line: place, bytes }
        };
        match code {
            1 => Refusal::Length { bytes: sheet.len() },
            2 => Refusal::Form(line()),
            3 => Refusal::Order(line()),
            4 => Refusal::Limit(line()),
            5 => Refusal::Range(line()),
            6 => Refusal::Repeated(line()),
            7 => Refusal::Verdict(line()),
            8 => Refusal::Loop(line()),
            9 => Refusal::Arguments(line()),
            10 => Refusal::Size(line()),
            11 => Refusal::VerdictShort { needed: place },
            12 => Refusal::LeftShort { needed: place },
            13 => Refusal::Parts(line()),
            _ => unreachable!("the build has codes 0 to 13"),
        }
    }

    /// Its number.
    pub fn code(&self) -> u64 {
        match self {
            Refusal::Length { .. } => 1,
            Refusal::Form(_) => 2,
            Refusal::Order(_) => 3,
            Refusal::Limit(_) => 4,
            Refusal::Range(_) => 5,
            Refusal::Repeated(_) => 6,
            Refusal::Verdict(_) => 7,
            Refusal::Loop(_) => 8,
            Refusal::Arguments(_) => 9,
            Refusal::Size(_) => 10,
            Refusal::VerdictShort { .. } => 11,
            Refusal::LeftShort { .. } => 12,
            Refusal::Parts(_) => 13,
        }
    }

    /// The line that is at fault, where one is.
    pub fn place(&self) -> Option<Place> {
        match *self {
            Refusal::Form(p) | Refusal::Order(p) | Refusal::Limit(p) | Refusal::Range(p) | Refusal::Repeated(p) => {
                Some(p)
            }
            Refusal::Verdict(p) | Refusal::Loop(p) | Refusal::Arguments(p) | Refusal::Size(p) | Refusal::Parts(p) => {
                Some(p)
            }
            Refusal::Length { .. } | Refusal::VerdictShort { .. } | Refusal::LeftShort { .. } => None,
        }
    }
}

impl fmt::Display for Refusal {
    fn fmt(&self, f: &mut fmt::Formatter<'_>) -> fmt::Result {
        let fault = match self {
            Refusal::Length { bytes } => {
                return write!(f, "a sheet has at most 65,536 bytes, in lines of 32; this one has {bytes}")
            }
            Refusal::VerdictShort { needed } => {
                return write!(f, "the verdict output is too short: it needs {needed} bytes")
            }
            Refusal::LeftShort { needed } => return write!(f, "the left output is too short: it needs {needed} bytes"),
            Refusal::Order(Place { line, bytes: None }) => {
                return write!(f, "the sheet ends within a declaration, after {line} lines")
            }
            Refusal::Form(_) => "is no line: its letter, a number, a name's text or its last byte is wrong",
            Refusal::Order(_) => "does not belong there, or its body kind is over 3",
            Refusal::Limit(_) => "is one more than a sheet may have of its letter",
            Refusal::Range(_) => "has a number out of its range",
            Refusal::Repeated(_) => "repeats a name of an earlier line",
            Refusal::Verdict(p) if p.has_no_tag() => {
                "has no tag, as in verdict sheets from before there were tags: build the earlier units again"
            }
            Refusal::Verdict(p) if p.is_ctor() => "has a tag that its declaration does not allow",
            Refusal::Verdict(_) => "has a keep or verdict number that its declaration does not allow",
            Refusal::Loop(_) => "declares a name that leads back to itself when it is unfolded",
            Refusal::Arguments(_) => "declares a type in which a name has a wrong count of arguments",
            Refusal::Size(_) => "declares a type of more than 1,024 nodes",
            Refusal::Parts(_) => "is a constructor's pattern without a part for each of its fields",
        };
        let place = self.place().expect("all others have a line");
        write!(f, "line {} {fault}", place.line)?;
        match place.bytes {
            Some(bytes) => write!(f, ": {}", bytes.trim_ascii_end().escape_ascii()),
            None => Ok(()),
        }
    }
}

impl std::error::Error for Refusal {}

/// Builds a sheet. On acceptance `verdict` begins with the verdict sheet and `left` with the left
/// sheet, and every byte after those is as it was. On a refusal both outputs are as they were. In the verdict
/// sheet a C line's third number is the constructor's tag plus one, 0 where its type has no other. The left
/// sheet of a sheet with a pattern ends in the new pattern's Q lines and a U line for each freed name.
/// Outputs may have any length: one that is too short is a refusal that says how many bytes it needs.
pub fn build(sheet: &[u8], verdict: &mut [u8], left: &mut [u8]) -> Answer {
    match call_sized(sheet, verdict, left) {
        [0, _, rounds, verdict, left] => Ok(Built { rounds, verdict: verdict as usize, left: left as usize }),
        [code, place, ..] => Err(Refusal::new(code, place, sheet)),
    }
}

/// The same build by the library's `layout_build`: code, place and rounds.
pub fn call(sheet: &[u8], verdict: &mut [u8], left: &mut [u8]) -> [u64; 3] {
    let mut answer = [0; 3];
    // The three slices and the answer are valid for their lengths and, being borrowed so, apart.
    unsafe {
        calls::layout_build(
            sheet.as_ptr(),
            sheet.len(),
            verdict.as_mut_ptr(),
            verdict.len(),
            left.as_mut_ptr(),
            left.len(),
            &mut answer,
        )
    };
    answer
}

/// The same build by the library's `layout_build_sized`: code, place, rounds, and how many bytes of
/// the two outputs were written.
pub fn call_sized(sheet: &[u8], verdict: &mut [u8], left: &mut [u8]) -> [u64; 5] {
    let mut answer = [0; 5];
    // As in `call`.
    unsafe {
        calls::layout_build_sized(
            sheet.as_ptr(),
            sheet.len(),
            verdict.as_mut_ptr(),
            verdict.len(),
            left.as_mut_ptr(),
            left.len(),
            &mut answer,
        )
    };
    answer
}

/// Which declarations each declaration reaches: itself, if its body leads back to it. Declarations are told by their
/// place among the D and I lines, from 0.
#[derive(Clone, Debug, PartialEq, Eq)]
pub struct Reach {
    sets: [u64; REACH_WORDS],
}

impl Reach {
    /// The words of a declaration's set; none where there can be no such declaration.
    fn set(&self, i: usize) -> &[u64] {
        self.sets.chunks_exact(SET_WORDS).nth(i).unwrap_or(&[])
    }

    /// Whether declaration `i` reaches declaration `j`. One that the sheet does not have reaches nothing and is not
    /// reached.
    pub fn reaches(&self, i: usize, j: usize) -> bool {
        self.set(i).get(j / 64).is_some_and(|word| word >> (j % 64) & 1 == 1)
    }

    /// How many declarations declaration `i` reaches.
    pub fn count(&self, i: usize) -> usize {
        self.set(i).iter().map(|word| word.count_ones() as usize).sum()
    }
}

/// The reach index of a sheet. A sheet that no build would accept, whatever its outputs, has none.
pub fn reach_index(sheet: &[u8]) -> Result<Reach, Refusal> {
    let mut sets = [0; REACH_WORDS];
    match call_reach_index(sheet, &mut sets) {
        [0, _] => Ok(Reach { sets }),
        [code, place] => Err(Refusal::new(code, place, sheet)),
    }
}

/// The same index by the library's `layout_reach_index`: code and place. On a refusal the words are as they were.
pub fn call_reach_index(sheet: &[u8], sets: &mut [u64; REACH_WORDS]) -> [u64; 2] {
    let mut answer = [0; 2];
    // As in `call`.
    unsafe { calls::layout_reach_index(sheet.as_ptr(), sheet.len(), sets, &mut answer) };
    answer
}

#[cfg(test)]
mod tests {
    use super::*;

    #[test]
    fn every_code_has_its_case() {
        let sheet = [b'V'; 2 * LINE_BYTES];
        for code in 1..=13 {
            let refusal = Refusal::new(code, 1, &sheet);
            assert_eq!(refusal.code(), code);
            assert_eq!(refusal.place().is_some(), matches!(code, 2..=10 | 13));
            assert!(!refusal.to_string().is_empty());
        }
    }

    #[test]
    fn a_sheet_that_ends_early() {
        let refusal = Refusal::new(3, 2, &[b'V'; 2 * LINE_BYTES]);
        assert_eq!(refusal.to_string(), "the sheet ends within a declaration, after 2 lines");
    }

    #[test]
    fn a_pattern_and_what_it_frees() {
        let sheet = include_bytes!("../../../tests/pattern.sheet");
        let (mut verdict, mut left) = (vec![0; sheet.len()], vec![0; SHEET_BYTES]);
        let built = build(sheet, &mut verdict, &mut left).unwrap();
        let lines: Vec<&[u8]> = left[..built.left].chunks(LINE_BYTES).collect();
        let count = |letter: u8| lines.iter().filter(|l| l[0] == letter).count();
        assert_eq!((count(b'Q'), count(b'U')), (6, 2));
        assert_eq!(lines[lines.len() - 3], b"Q     6     0     5     0     0\n");
        assert_eq!(lines[lines.len() - 1], b"U    15     0     0     0     0\n");

        let short = String::from_utf8(sheet.to_vec()).unwrap().replace("Q     3     8 ", "Q     3    10 ");
        let refusal = build(short.as_bytes(), &mut verdict, &mut left).unwrap_err();
        let words = "line 42 is a constructor's pattern without a part for each of its fields: ";
        assert_eq!(refusal.to_string(), format!("{words}Q     3    10     4     0     0"));
    }

    #[test]
    fn tags_and_verdict_sheets_without() {
        let sheet = include_bytes!("../../../tests/pattern.sheet");
        let (mut verdict, mut left) = (vec![0; sheet.len()], vec![0; SHEET_BYTES]);
        let built = build(sheet, &mut verdict, &mut left).unwrap();
        let tags = |out: &[u8]| -> Vec<u8> { out.chunks(LINE_BYTES).filter(|l| l[0] == b'C').map(|l| l[18]).collect() };
        // `Proof` and `Ms` alone, `Start` and `Cross` together
        assert_eq!((&tags(&verdict)[..], &tags(&left[..built.left])[..]), (&b"0012"[..], &b"00"[..]));

        let verdict = String::from_utf8(verdict).unwrap();
        let refused = |sheet: String| build(sheet.as_bytes(), &mut [], &mut []).unwrap_err();
        let older = refused(verdict.replace("C     8     1     1 ", "C     8     1     0 "));
        let words =
            "line 31 has no tag, as in verdict sheets from before there were tags: build the earlier units again";
        assert_eq!(older.to_string(), format!("{words}: C     8     1     0     0     0"));
        let other = refused(verdict.replace("C    10     3     2 ", "C    10     3     3 "));
        let words = "line 33 has a tag that its declaration does not allow";
        assert_eq!(other.to_string(), format!("{words}: C    10     3     3     0     0"));
        assert_eq!((older.code(), other.code()), (7, 7));
    }

    #[test]
    fn what_a_race_hangs_on() {
        let sheet = include_bytes!("../../../tests/race.sheet");
        let reach = reach_index(sheet).unwrap();
        // split, ms, seal, series, lap: `lap` names all but `seal`, which it reaches by `split`
        let reached = |i: usize| (0..7).filter(|&j| reach.reaches(i, j)).collect::<Vec<usize>>();
        assert_eq!([0, 1, 2, 3, 4, 5].map(reached), [vec![1, 2], vec![], vec![], vec![], vec![0, 1, 2, 3], vec![]]);
        assert_eq!([0, 1, 2, 3, 4, 5, 96, usize::MAX].map(|i| reach.count(i)), [2, 0, 0, 0, 4, 0, 0, 0]);
        assert!(!reach.reaches(4, 128) && !reach.reaches(4, usize::MAX) && !reach.reaches(usize::MAX, 0));

        let mut sets = [7; REACH_WORDS];
        assert_eq!(call_reach_index(&sheet[1..], &mut sets), [1, 0]);
        assert_eq!(sets, [7; REACH_WORDS]);
        let refusal = reach_index(&sheet[LINE_BYTES..]).unwrap_err();
        assert_eq!(refusal.to_string(), "line 0 has a number out of its range: N     1at");
    }

    #[test]
    fn outputs_of_any_length() {
        let (mut verdict, mut left) = ([7; 3], [8; 3]);
        assert_eq!(build(&[], &mut [], &mut []), Ok(Built { rounds: 1, verdict: 0, left: 0 }));
        let abstract_type = [
            format!("{:31}\n", "N     0box"),
            "D     0     0     0     0     0\n".into(),
            "V     0     0     0     0     0\n".into(),
        ]
        .concat();
        let needed = abstract_type.len() as u64;
        assert_eq!(build(abstract_type.as_bytes(), &mut verdict, &mut left), Err(Refusal::VerdictShort { needed }));
        let mut room = [9; 96];
        assert_eq!(build(abstract_type.as_bytes(), &mut room, &mut left), Err(Refusal::LeftShort { needed }));
        assert_eq!((verdict, room, left), ([7; 3], [9; 96], [8; 3]));
        assert_eq!(call(abstract_type.as_bytes(), &mut room, &mut left), [12, needed, 0]);
        assert_eq!(call_sized(abstract_type.as_bytes(), &mut room, &mut left), [12, needed, 0, 0, 0]);
    }
}
