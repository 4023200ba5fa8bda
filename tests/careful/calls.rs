//! The calls of the crate's example `calls` on the layer in plain Rust: so many of one kind, each made out of line, as a call of a
//! library is.
#[allow(dead_code)]
mod layer;

use layer::{PathName, Recovery, Space};
use std::hint::black_box;
use std::process::exit;

const SPACE: Space = Space::Data;

/// A call of a kind; whether it was refused, or there is no such kind.
#[inline(never)]
fn call(recovery: &mut Recovery, kind: &str, at: u64) -> bool {
    match kind {
        "received" => black_box(recovery.received(SPACE, at, at, true)).is_ok(),
        "send" => black_box(send(recovery, at)),
        "acked" => black_box(recovery.acked(SPACE, at, false)).is_ok(),
        "lost" => black_box(recovery.lost(SPACE, at)).is_ok(),
        "in_flight" => black_box(recovery.in_flight(PathName::Current)).is_ok(),
        "set_timer" => {
            recovery.set_timer(6, Some(at));
            true
        }
        "next_timeout" => {
            black_box(recovery.next_timeout());
            true
        }
        "sample" => {
            recovery.sample(0, u128::from(at));
            true
        }
        "transmit" => black_box(recovery.transmit(at, 100, true)).is_ok(),
        "pacer_check" => {
            black_box(recovery.pacer_check(at, 100));
            true
        }
        "check_ack" => black_box(recovery.check_ack(SPACE, 0, at)).is_ok(),
        "take_pending" => black_box(recovery.take_pending(SPACE)).is_ok(),
        _ => false,
    }
}

fn send(recovery: &mut Recovery, at: u64) -> bool {
    recovery.send(SPACE, at, 1200, true, None, Vec::new()).is_ok()
}

fn main() {
    let words: Vec<String> = std::env::args().skip(1).collect();
    let (kind, count) = match words.as_slice() {
        [kind, count] => (kind.as_str(), count.parse().unwrap_or(0)),
        _ => ("", 0),
    };
    let mut recovery = Recovery::new();
    for at in 0..count {
        let is_sent = !matches!(kind, "acked" | "lost") || send(&mut recovery, at);
        if !is_sent || !call(&mut recovery, kind, at) {
            exit(1);
        }
    }
    black_box(&recovery);
}
