//! Answers questions to the planner, one line for each line of standard input.
//!
//!   ID list SHEET ALLOWANCE BYTES SIZES    ID NUMBER PLACE LISTED OPENED TOTAL BYTES SIZES
//!   ID fold SHEET ROW FIRST MEMBER         ID NUMBER PLACE SIZE FIRST MEMBER
//!
//! On the left is what is asked, on the right what is answered. Words are parted by one space; the ID is whatever stands before the first.
//! SHEET, ROW, BYTES, FIRST and MEMBER are bytes in lower-case hex, SIZES are 64-bit numbers in decimal with commas, and an empty one of
//! either is `-`; every other word is a 64-bit number in decimal. Lent lists are given as they are before the call and answered as they are
//! after it. A line that cannot be read is answered `ID ? reason`. docs/SHEET.md says what the words mean.

// A further call is its line above, a function like `list` below, and its line in `CALLS`.

mod saucewagon;

use std::io::{self, BufRead, Write};

/// Reads the words of a call, makes it, and says its answer; or says why the words cannot be read.
type Call = fn(&mut Words) -> Result<String, String>;

/// The calls, by the names that a line gives them.
const CALLS: [(&str, Call); 2] = [("list", list), ("fold", fold)];

/// Lists the plans of a sheet.
fn list(words: &mut Words) -> Result<String, String> {
    let sheet = words.bytes("SHEET")?;
    let allowance = words.number("ALLOWANCE")?;
    let mut bytes = words.bytes("BYTES")?;
    let mut sizes = words.numbers("SIZES")?;
    words.end()?;
    let answer = saucewagon::list(&sheet, allowance, &mut bytes, &mut sizes);
    let saucewagon::Listing { number, place, listed, opened, total } = answer;
    Ok(format!("{number} {place} {listed} {opened} {total} {} {}", hex(&bytes), decimal(&sizes)))
}

/// Folds a row of a sheet.
fn fold(words: &mut Words) -> Result<String, String> {
    let sheet = words.bytes("SHEET")?;
    let row = words.bytes("ROW")?;
    let mut first = words.bytes("FIRST")?;
    let mut member = words.bytes("MEMBER")?;
    words.end()?;
    let saucewagon::Folding { number, place, size } = saucewagon::fold(&sheet, &row, &mut first, &mut member);
    Ok(format!("{number} {place} {size} {} {}", hex(&first), hex(&member)))
}

/// Answers the lines of standard input, and ends quietly where nobody reads the answers any more.
fn main() -> io::Result<()> {
    match answer_lines() {
        Err(reason) if reason.kind() == io::ErrorKind::BrokenPipe => Ok(()),
        ended => ended,
    }
}

/// Answers line after line. What is answered is written as soon as no further line stands ready.
fn answer_lines() -> io::Result<()> {
    let mut input = io::BufReader::with_capacity(1 << 16, io::stdin().lock());
    let mut output = io::BufWriter::with_capacity(1 << 16, io::stdout().lock());
    let mut line = Vec::new();
    while input.read_until(b'\n', &mut line)? > 0 {
        if line.last() == Some(&b'\n') {
            line.pop();
        }
        answer(&line, &mut output)?;
        if input.buffer().is_empty() {
            output.flush()?;
        }
        line.clear();
    }
    output.flush()
}

/// Answers one line.
fn answer(line: &[u8], output: &mut impl Write) -> io::Result<()> {
    let mut words = Words(line.split(|&byte| byte == b' '));
    let id = words.0.next().unwrap_or_default();
    output.write_all(id)?;
    match called(&mut words) {
        Ok(answer) => writeln!(output, " {answer}"),
        Err(reason) => writeln!(output, " ? {reason}"),
    }
}

/// Makes the call that the words name.
fn called(words: &mut Words) -> Result<String, String> {
    let name = words.next("a call's name")?;
    match CALLS.iter().find(|call| call.0.as_bytes() == name) {
        Some((_, call)) => call(words),
        None => Err("no such call".to_string()),
    }
}

/// The words of a line that are still to be read.
struct Words<'a>(std::slice::Split<'a, u8, fn(&u8) -> bool>);

impl<'a> Words<'a> {
    /// The next word, which stands for `what`.
    fn next(&mut self, what: &str) -> Result<&'a [u8], String> {
        self.0.next().ok_or_else(|| format!("{what} is missing"))
    }

    /// The next word's bytes.
    fn bytes(&mut self, what: &str) -> Result<Vec<u8>, String> {
        bytes_of(self.next(what)?).ok_or_else(|| format!("{what} is not whole bytes in lower-case hex, nor `-`"))
    }

    /// The next word's number.
    fn number(&mut self, what: &str) -> Result<u64, String> {
        number_of(self.next(what)?).ok_or_else(|| format!("{what} is not a decimal number of 64 bits"))
    }

    /// The next word's numbers.
    fn numbers(&mut self, what: &str) -> Result<Vec<u64>, String> {
        numbers_of(self.next(what)?).ok_or_else(|| format!("{what} is not decimal numbers of 64 bits with commas, nor `-`"))
    }

    /// That no word is left.
    fn end(&mut self) -> Result<(), String> {
        self.0.next().map_or(Ok(()), |_| Err("there is a word too many".to_string()))
    }
}

/// The bytes that a word of lower-case hex stands for.
fn bytes_of(word: &[u8]) -> Option<Vec<u8>> {
    if word == b"-" {
        return Some(Vec::new());
    }
    if word.is_empty() || word.len() % 2 != 0 {
        return None;
    }
    word.chunks_exact(2).map(|pair| Some(digit_of(pair[0])? << 4 | digit_of(pair[1])?)).collect()
}

/// What a lower-case hex digit stands for.
fn digit_of(letter: u8) -> Option<u8> {
    match letter {
        b'0'..=b'9' => Some(letter - b'0'),
        b'a'..=b'f' => Some(letter - b'a' + 10),
        _ => None,
    }
}

/// The numbers that a word of decimal digits and commas stands for.
fn numbers_of(word: &[u8]) -> Option<Vec<u64>> {
    if word == b"-" {
        return Some(Vec::new());
    }
    word.split(|&byte| byte == b',').map(number_of).collect()
}

/// The number that a word of decimal digits stands for.
fn number_of(word: &[u8]) -> Option<u64> {
    if word.is_empty() {
        return None;
    }
    word.iter().try_fold(0u64, |number, letter| {
        let digit = letter.is_ascii_digit().then(|| letter - b'0')?;
        number.checked_mul(10)?.checked_add(u64::from(digit))
    })
}

/// Bytes in lower-case hex.
fn hex(bytes: &[u8]) -> String {
    if bytes.is_empty() {
        return "-".to_string();
    }
    let digit = |value: u8| char::from(b"0123456789abcdef"[usize::from(value)]);
    bytes.iter().flat_map(|byte| [digit(byte >> 4), digit(byte & 15)]).collect()
}

/// Numbers in decimal, with commas.
fn decimal(numbers: &[u64]) -> String {
    if numbers.is_empty() {
        return "-".to_string();
    }
    numbers.iter().map(u64::to_string).collect::<Vec<_>>().join(",")
}
