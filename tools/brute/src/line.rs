//! Questions and answers as lines of text. client/ask.rs has the lines and their words; each call reads and says its own.

pub use crate::calls::Question;
use crate::calls::CALLS;
use crate::group::Budget;

/// The name of a question: what stands before the line's first space.
pub fn name(line: &str) -> &str {
    line.split(' ').next().unwrap_or("")
}

/// The question that a line asks, or why it cannot be read.
pub fn question(line: &str) -> Result<Question, String> {
    let words: Vec<&str> = line.split(' ').skip(1).collect();
    let call = words.first().and_then(|name| CALLS.iter().find(|call| call.name == *name));
    call.map_or_else(|| Err("no such call".to_string()), |call| (call.read)(&words[1..]))
}

/// The line that asks a question under a name.
pub fn asked(name: &str, question: &Question) -> String {
    let asked = question.asked();
    format!("{name} {} {}", asked.call().name, asked.words())
}

/// The answer to a line, as a line.
pub fn answered(line: &str, budget: &mut Budget) -> String {
    let name = name(line);
    let answer = question(line).and_then(|question| answer(&question, budget));
    match answer {
        Ok(words) => format!("{name} {words}"),
        Err(reason) => format!("{name} ? {reason}"),
    }
}

/// The words of an answer, or that brute force gave up.
pub fn answer(question: &Question, budget: &mut Budget) -> Result<String, String> {
    question.asked().answer(budget).map_err(|_| "too large for brute force".to_string())
}

/// Bytes in lower-case hex.
pub fn hex(bytes: &[u8]) -> String {
    if bytes.is_empty() {
        return "-".to_string();
    }
    bytes.iter().map(|byte| format!("{byte:02x}")).collect()
}

/// 64-bit numbers in decimal, parted by commas.
pub fn commas(numbers: &[u64]) -> String {
    if numbers.is_empty() {
        return "-".to_string();
    }
    numbers.iter().map(u64::to_string).collect::<Vec<_>>().join(",")
}

/// The bytes that a word of lower-case hex stands for.
pub fn bytes_of(word: &str) -> Result<Vec<u8>, String> {
    if word == "-" {
        return Ok(Vec::new());
    }
    let digits: Option<Vec<u8>> = word.bytes().map(digit).collect();
    match digits {
        Some(digits) if !digits.is_empty() && digits.len() % 2 == 0 => {
            Ok(digits.chunks(2).map(|pair| pair[0] << 4 | pair[1]).collect())
        }
        _ => Err("bytes are not whole lower-case hex".to_string()),
    }
}

/// The value of a lower-case hex digit.
fn digit(letter: u8) -> Option<u8> {
    match letter {
        b'0'..=b'9' => Some(letter - b'0'),
        b'a'..=b'f' => Some(letter - b'a' + 10),
        _ => None,
    }
}

/// The numbers that a word of decimals and commas stands for.
pub fn sizes_of(word: &str) -> Result<Vec<u64>, String> {
    if word == "-" {
        return Ok(Vec::new());
    }
    word.split(',').map(number_of).collect()
}

/// The 64-bit number that a word of decimal digits stands for.
pub fn number_of(word: &str) -> Result<u64, String> {
    let decimal = !word.is_empty() && word.bytes().all(|letter| letter.is_ascii_digit());
    let number = if decimal { word.parse().ok() } else { None };
    number.ok_or_else(|| "a number is not a decimal of 64 bits".to_string())
}
