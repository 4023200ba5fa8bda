//! The program over a script, in plain Rust that is written for speed: a line is applied and answered as it is read, and no event
//! and no reply is kept. It takes no arguments.
mod bytes;
#[allow(dead_code)]
mod layer;
mod lines;

use bytes::{Bytes, Cursor};
use layer::Recovery;
use lines::{apply, write};
use std::process::ExitCode;

/// Plays all lines; the number of the first that is no event.
fn play_all(input: &[u8], out: &mut Bytes) -> Option<u64> {
    let mut recovery = Recovery::new();
    let mut cursor = Cursor::new(input);
    let mut number = 0;
    while !cursor.is_done() {
        number += 1;
        let Some(event) = cursor.event() else {
            return Some(number);
        };
        write(apply(&mut recovery, event), out);
    }
    None
}

fn main() -> ExitCode {
    bytes::run(play_all)
}
