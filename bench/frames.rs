//! Hostile ACK frames, for counting their instructions:
//!
//!     valgrind --tool=callgrind frames FLIGHT RANGES WIDTH FRAMES
//!
//! A sender has FLIGHT ack-eliciting packets in flight. Then it sends packets that elicit no ACK, until it has forgotten
//! FLIGHT + 1001 of them (RFC 9000, 13.2.1: a peer need not acknowledge these). Their slots are empty, and nearly as many
//! as a sender keeps. Each of FRAMES frames has RANGES ranges of WIDTH forgotten numbers. A frame acknowledges nothing, so
//! the peer may send it again. The cost of one is what twice as many take more than once as many, divided by their count.
use quic_recovery::{
    Ack, Acknowledged, ConnectionId, Instant, RecoveryConfig, Sender, Side, SpaceId,
};
use std::process::exit;

const SPACE: SpaceId = SpaceId::Data;
const TRACKED: u64 = 1001; // of the packets that elicit no ACK, above the last one that does

/// Sends a packet. Returns the number of the one that is forgotten for it, if any.
fn send(sender: &mut Sender, ack_eliciting: bool) -> Option<u64> {
    let size = if ack_eliciting { 1200 } else { 0 };
    sender
        .send(
            SPACE,
            Instant::from_nanos(1_000_000),
            size,
            ack_eliciting,
            None,
            &[],
        )
        .expect("a packet is sent")
        .forgotten
}

/// A sender with so many packets in flight, and the numbers that it forgot, increasing.
fn prepared(flight: u64) -> (Sender, Vec<u64>) {
    let id = ConnectionId::new(&[1; 8]).expect("an id of eight bytes");
    let config = RecoveryConfig::new("192.0.2.1:4433".parse().expect("an address"), id);
    let start = Instant::from_nanos(0);
    let mut sender = Sender::established(Side::Client, &config, start).expect("a sender is made");
    for _ in 0..flight {
        send(&mut sender, true);
    }
    let mut forgotten = Vec::new();
    while (forgotten.len() as u64) < flight + TRACKED {
        forgotten.extend(send(&mut sender, false));
    }
    (sender, forgotten)
}

fn main() {
    let words = std::env::args().skip(1);
    let numbers: Vec<u64> = words.filter_map(|it| it.parse().ok()).collect();
    let &[flight, count, width, frames] = &numbers[..] else {
        eprintln!("usage: frames FLIGHT RANGES WIDTH FRAMES");
        exit(2);
    };
    let (mut sender, forgotten) = prepared(flight);
    let step = width as usize + 1; // one number lies between two ranges (RFC 9000, 19.3.1)
    let firsts: Vec<u64> = forgotten
        .chunks_exact(step)
        .map(|it| it[0])
        .take(count as usize)
        .collect();
    if (firsts.len() as u64) < count {
        eprintln!(
            "frames: {} numbers were forgotten: too few",
            forgotten.len()
        );
        exit(2);
    }
    let ranges: Vec<(u64, u64)> = firsts
        .into_iter()
        .rev()
        .map(|it| (it, it + width - 1))
        .collect();
    let mut acked = Acknowledged::default();
    for _ in 0..frames {
        sender
            .on_ack_into(
                SPACE,
                Instant::from_nanos(2_000_000),
                &Ack::default(),
                &ranges,
                &mut acked,
            )
            .expect("a frame is taken");
        assert!(
            acked.numbers.is_empty() && acked.losses.numbers.is_empty(),
            "it acknowledges nothing"
        );
    }
}
