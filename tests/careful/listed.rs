//! The program over a script, in plain Rust that is written for speed, with the lists that the proved program keeps: all events are
//! read, then all are applied, then all replies are written. An event and a reply take the room there that they take in the proved
//! program. It takes no arguments.
mod bytes;
mod layer;
mod lines;

use bytes::{Bytes, Cursor};
use layer::Recovery;
use lines::{Event, Reply, apply, write};
use std::process::ExitCode;

const _: () = assert!(size_of::<Event>() == 64 && size_of::<Reply>() == 56);

/// The events of all lines up to the first that is none, and the number of that line.
fn read_all(input: &[u8]) -> (Vec<Event>, Option<u64>) {
    let mut cursor = Cursor::new(input);
    let mut events = Vec::new();
    while !cursor.is_done() {
        match cursor.event() {
            Some(event) => events.push(event),
            None => {
                let bad = events.len() as u64 + 1;
                return (events, Some(bad));
            }
        }
    }
    (events, None)
}

fn apply_all(events: Vec<Event>) -> Vec<Reply> {
    let mut recovery = Recovery::new();
    let mut replies = Vec::with_capacity(events.len());
    replies.extend(events.into_iter().map(|event| apply(&mut recovery, event)));
    replies
}

fn play_all(input: &[u8], out: &mut Bytes) -> Option<u64> {
    let (events, bad) = read_all(input);
    for reply in apply_all(events) {
        write(reply, out);
    }
    bad
}

fn main() -> ExitCode {
    bytes::run(play_all)
}
