//! What is read and written as bytes, for speed: each byte of the script is read once, and numbers are written by pairs of digits.
use crate::layer::LONGEST_SPAN;
use crate::lines::{Event, Text, Words, read};
use std::io::{Read, Write};
use std::process::ExitCode;

const LINE_LIMIT: usize = 4096;

/// A place in the input, which ends with a line feed. Between fields it stands on the space before the next, or on the line feed.
pub struct Cursor<'a> {
    pub input: &'a [u8],
    /// Where the line begins.
    line: usize,
    pub at: usize,
}

impl<'a> Cursor<'a> {
    pub fn new(input: &'a [u8]) -> Self {
        Cursor { input, line: 0, at: 0 }
    }

    pub fn is_done(&self) -> bool {
        self.at == self.input.len()
    }

    /// The event that the line says, and on to the next line; `None` where it says none.
    #[inline(always)]
    pub fn event(&mut self) -> Option<Event> {
        let name = self.name();
        let event = read(name, self)?;
        self.at += 1;
        Some(event)
    }

    /// The word that the line begins with.
    #[inline(always)]
    pub fn name(&mut self) -> &'a [u8] {
        let input = self.input;
        self.line = self.at;
        let length = self.rest_of_word().len();
        &input[self.line..self.line + length]
    }

    /// Up to the next space or line feed.
    #[inline(always)]
    fn rest_of_word(&mut self) -> &[u8] {
        let start = self.at;
        while self.at < self.input.len() && self.input[self.at] != b' ' && self.input[self.at] != b'\n' {
            self.at += 1;
        }
        &self.input[start..self.at]
    }

    #[inline(always)]
    fn blank(&mut self) -> Option<()> {
        if self.input.get(self.at) != Some(&b' ') {
            return None;
        }
        self.at += 1;
        Some(())
    }

    /// Digits without a leading zero: their value without its carries, and how many there are.
    #[inline(always)]
    fn digits(&mut self) -> Option<(u64, usize)> {
        let start = self.at;
        let mut value = 0u64;
        while self.at < self.input.len() {
            let digit = self.input[self.at].wrapping_sub(b'0');
            if digit > 9 {
                break;
            }
            value = value.wrapping_mul(10).wrapping_add(u64::from(digit));
            self.at += 1;
        }
        let count = self.at - start;
        if count == 0 || count > 1 && self.input[start] == b'0' {
            return None;
        }
        Some((value, count))
    }

    /// The value of the last digits, so many.
    #[cold]
    #[inline(never)]
    fn long(&self, count: usize) -> Option<u128> {
        let mut value = 0u128;
        for byte in &self.input[self.at - count..self.at] {
            value = value.checked_mul(10)?.checked_add(u128::from(byte - b'0'))?;
        }
        Some(value)
    }
}

impl Words for Cursor<'_> {
    #[inline(always)]
    fn word(&mut self) -> Option<&[u8]> {
        self.blank()?;
        Some(self.rest_of_word())
    }

    fn number(&mut self) -> Option<u64> {
        self.blank()?;
        let (value, count) = self.digits()?;
        if count > 19 {
            return self.long(count)?.try_into().ok();
        }
        Some(value)
    }

    fn span(&mut self) -> Option<u128> {
        self.blank()?;
        let (value, count) = self.digits()?;
        if count > 19 {
            return self.long(count).filter(|span| *span <= LONGEST_SPAN);
        }
        Some(u128::from(value))
    }

    fn largest(&mut self) -> Option<Option<u64>> {
        if self.input.get(self.at + 1) == Some(&b'-') {
            self.blank()?;
            self.at += 1;
            return Some(None);
        }
        self.number().map(Some)
    }

    #[inline(always)]
    fn is_end(&self) -> bool {
        self.input[self.at] == b'\n'
    }

    /// A line that is too long has no end.
    #[inline(always)]
    fn end(&self) -> Option<()> {
        (self.is_end() && self.at - self.line <= LINE_LIMIT).then_some(())
    }
}

pub struct Bytes(pub Vec<u8>);

const PAIRS: &[u8; 200] = b"\
    0001020304050607080910111213141516171819\
    2021222324252627282930313233343536373839\
    4041424344454647484950515253545556575859\
    6061626364656667686970717273747576777879\
    8081828384858687888990919293949596979899";

impl Text for Bytes {
    #[inline(always)]
    fn text(&mut self, text: &str) {
        self.0.extend_from_slice(text.as_bytes());
    }

    fn number(&mut self, mut number: u64) {
        let mut digits = [0; 20];
        let mut at = 20;
        while number >= 100 {
            let pair = (number % 100) as usize * 2;
            number /= 100;
            at -= 2;
            digits[at..at + 2].copy_from_slice(&PAIRS[pair..pair + 2]);
        }
        if number >= 10 {
            let pair = number as usize * 2;
            at -= 2;
            digits[at..at + 2].copy_from_slice(&PAIRS[pair..pair + 2]);
        } else {
            at -= 1;
            digits[at] = b'0' + number as u8;
        }
        self.0.extend_from_slice(&digits[at..]);
    }
}

/// Runs a program from the script on standard input to the answers on standard output. It gives the number of the first line that
/// says no event.
pub fn run(play_all: impl FnOnce(&[u8], &mut Bytes) -> Option<u64>) -> ExitCode {
    let mut input = Vec::new();
    if std::io::stdin().lock().read_to_end(&mut input).is_err() {
        return ExitCode::from(1);
    }
    if input.last().is_some_and(|last| *last != b'\n') {
        input.push(b'\n');
    }
    let mut out = Bytes(Vec::new());
    let bad = play_all(&input, &mut out);
    if std::io::stdout().lock().write_all(&out.0).is_err() {
        return ExitCode::from(1);
    }
    match bad {
        None => ExitCode::SUCCESS,
        Some(number) => {
            eprintln!("line {number}: cannot be read");
            ExitCode::from(2)
        }
    }
}
