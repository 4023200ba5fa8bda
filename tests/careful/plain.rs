//! The program over a script, in plain Rust as it comes: lines, words split at spaces, `parse` and `write!`. It takes no arguments.
mod layer;
mod lines;

use layer::{LONGEST_SPAN, Recovery};
use lines::{Text, Words, apply, read, write};
use std::fmt::Write as _;
use std::io::{BufRead, Write};
use std::process::ExitCode;
use std::str::SplitWhitespace;

struct Split<'a> {
    next: Option<&'a str>,
    rest: SplitWhitespace<'a>,
}

impl Words for Split<'_> {
    fn word(&mut self) -> Option<&[u8]> {
        let word = self.next?;
        self.next = self.rest.next();
        Some(word.as_bytes())
    }

    fn number(&mut self) -> Option<u64> {
        let word = self.next?;
        self.next = self.rest.next();
        word.parse().ok()
    }

    fn span(&mut self) -> Option<u128> {
        let word = self.next?;
        self.next = self.rest.next();
        word.parse().ok().filter(|span| *span <= LONGEST_SPAN)
    }

    fn largest(&mut self) -> Option<Option<u64>> {
        if self.next? == "-" {
            self.next = self.rest.next();
            return Some(None);
        }
        self.number().map(Some)
    }

    fn is_end(&self) -> bool {
        self.next.is_none()
    }
}

struct Answers(String);

impl Text for Answers {
    fn text(&mut self, text: &str) {
        write!(self.0, "{text}").expect("a string takes all");
    }

    fn number(&mut self, number: u64) {
        write!(self.0, "{number}").expect("a string takes all");
    }
}

fn play_line(recovery: &mut Recovery, line: &str, out: &mut Answers) -> Option<()> {
    let mut rest = line.split_whitespace();
    let name = rest.next()?;
    let next = rest.next();
    let event = read(name.as_bytes(), &mut Split { next, rest })?;
    write(apply(recovery, event), out);
    Some(())
}

fn main() -> ExitCode {
    let mut recovery = Recovery::new();
    let mut out = Answers(String::new());
    let mut bad = None;
    for (number, line) in std::io::stdin().lock().lines().enumerate() {
        let Ok(line) = line else {
            return ExitCode::from(1);
        };
        if play_line(&mut recovery, &line, &mut out).is_none() {
            bad = Some(number + 1);
            break;
        }
    }
    if std::io::stdout().lock().write_all(out.0.as_bytes()).is_err() {
        return ExitCode::from(1);
    }
    match bad {
        None => ExitCode::SUCCESS,
        Some(number) => {
            eprintln!("line {number}: cannot be read");
            ExitCode::from(2)
        }
    }
}
