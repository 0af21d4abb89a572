//! Lines, numbers and texts: FORMAT, section 1.

/// Bytes of a line, columns of a number, bytes of a name's text.
pub const LINE: usize = 32;
pub const COLUMNS: usize = 6;
pub const TEXT: usize = 24;

/// One line. An N line has one number and a text, every other line five numbers.
#[derive(Clone, Debug, PartialEq, Eq)]
pub struct Line {
    pub letter: u8,
    pub numbers: [u32; 5],
    pub text: Vec<u8>,
}

impl Line {
    pub fn row(letter: u8, numbers: [u32; 5]) -> Line {
        Line { letter, numbers, text: Vec::new() }
    }

    pub fn is_head(&self) -> bool {
        self.letter == b'D' || self.letter == b'I'
    }
}

/// The number that six columns hold.
pub fn read_number(columns: &[u8]) -> Option<u32> {
    let digits = &columns[columns.iter().take_while(|&&b| b == b' ').count()..];
    let canonical =
        !digits.is_empty() && digits.iter().all(u8::is_ascii_digit) && (digits[0] != b'0' || digits.len() == 1);
    canonical.then(|| digits.iter().fold(0, |n, d| n * 10 + u32::from(d - b'0')))
}

/// The six columns of a number.
pub fn write_number(n: u32) -> [u8; COLUMNS] {
    let mut columns = [b' '; COLUMNS];
    let mut rest = n;
    for column in columns.iter_mut().rev() {
        *column = b'0' + (rest % 10) as u8;
        rest /= 10;
        if rest == 0 {
            return columns;
        }
    }
    panic!("{n} has more than six digits")
}

/// A text without the spaces after it.
pub fn read_text(bytes: &[u8]) -> Option<&[u8]> {
    let length = bytes.iter().take_while(|&&b| (33..=126).contains(&b)).count();
    let proper = length > 0 && bytes[length..].iter().all(|&b| b == b' ');
    proper.then(|| &bytes[..length])
}

/// The columns of number `k` of a line.
fn columns(line: &[u8], k: usize) -> &[u8] {
    &line[1 + k * COLUMNS..][..COLUMNS]
}

/// The line that 32 bytes hold, if they hold one.
pub fn read_line(bytes: &[u8]) -> Option<Line> {
    if bytes[LINE - 1] != b'\n' {
        return None;
    }
    match bytes[0] {
        b'N' => {
            let number = read_number(columns(bytes, 0))?;
            let text = read_text(&bytes[1 + COLUMNS..][..TEXT])?;
            Some(Line { letter: b'N', numbers: [number, 0, 0, 0, 0], text: text.to_vec() })
        }
        letter @ (b'A' | b'C' | b'D' | b'F' | b'I' | b'P' | b'Q' | b'V' | b'Y') => {
            let mut numbers = [0; 5];
            for (k, number) in numbers.iter_mut().enumerate() {
                *number = read_number(columns(bytes, k))?;
            }
            Some(Line::row(letter, numbers))
        }
        _ => None,
    }
}

/// Letter and numbers of 32 bytes, whatever they hold: columns without a number count as 0.
pub fn raw_line(bytes: &[u8]) -> Line {
    let mut numbers = [0; 5];
    for (k, number) in numbers.iter_mut().enumerate() {
        *number = read_number(columns(bytes, k)).unwrap_or(0);
    }
    Line::row(bytes[0], numbers)
}

/// The 32 bytes of a line.
pub fn write_line(line: &Line) -> [u8; LINE] {
    let mut bytes = [b' '; LINE];
    bytes[0] = line.letter;
    bytes[LINE - 1] = b'\n';
    let numbers = if line.letter == b'N' { 1 } else { 5 };
    for (k, &n) in line.numbers[..numbers].iter().enumerate() {
        bytes[1 + k * COLUMNS..][..COLUMNS].copy_from_slice(&write_number(n));
    }
    if line.letter == b'N' {
        bytes[1 + COLUMNS..][..line.text.len()].copy_from_slice(&line.text);
    }
    bytes
}

/// The spelling of name `n`, asked of any bytes.
pub fn spelling(sheet: &[u8], n: usize) -> &[u8] {
    let Some(bytes) = sheet.chunks_exact(LINE).nth(n) else { return &[] };
    match read_line(bytes) {
        Some(line) if line.letter == b'N' && line.numbers[0] as usize == n => &bytes[1 + COLUMNS..][..line.text.len()],
        _ => &[],
    }
}

#[cfg(test)]
mod tests {
    use super::*;

    #[test]
    fn numbers_have_one_writing() {
        for n in [0, 1, 9, 10, 99_999, 100_000, 999_999] {
            assert_eq!(read_number(&write_number(n)), Some(n));
        }
        for bad in ["      ", "    01", "    1 ", " 1    ", "     +", "    -1", "0     ", "    00", "     a", "   1 1"]
        {
            assert_eq!(read_number(bad.as_bytes()), None, "{bad:?}");
        }
    }

    #[test]
    fn texts_stand_at_the_left() {
        assert_eq!(read_text(b"lap    "), Some(&b"lap"[..]));
        assert_eq!(read_text(b"       "), None);
        assert_eq!(read_text(b" lap   "), None);
        assert_eq!(read_text(b"la p   "), None);
        assert_eq!(read_text(b"lap\x7f   "), None);
    }

    #[test]
    fn spellings_of_any_bytes() {
        let sheet = b"N     0split                   \nN     5at                      \nN     2".to_vec();
        assert_eq!(spelling(&sheet, 0), b"split");
        assert_eq!(spelling(&sheet, 1), b"");
        assert_eq!(spelling(&sheet, 2), b"");
        assert_eq!(spelling(&sheet, 99), b"");
    }
}
