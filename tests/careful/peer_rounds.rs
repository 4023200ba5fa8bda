//! Makes the rounds of `rust/quic-recovery/examples/rounds.rs` with the careful peer, to count their instructions:
//! `peer_rounds FLIGHT ROUNDS PACKETS`. Each packet carries an item. `transmit` is asked for it first, and it is sent
//! whatever the answer.
#[allow(dead_code)]
mod peer;

use peer::{Outcome, Sender};
use std::hint::black_box;

fn main() {
    let numbers: Vec<u64> = std::env::args()
        .skip(1)
        .filter_map(|it| it.parse().ok())
        .collect();
    let [flight, rounds, packets] = numbers[..] else {
        eprintln!("usage: peer_rounds FLIGHT ROUNDS PACKETS");
        std::process::exit(2);
    };
    let at = |round: u64| 1_000_000 * round;
    let (mut sender, mut out) = (Sender::new(), Outcome::default());
    let send = |sender: &mut Sender, now| {
        _ = black_box(sender.transmit(now, 1200, 2, true)).expect("no space is discarded");
        black_box(sender.send(2, now, 1200, true, None, &[7])).expect("a packet is sent");
    };
    (0..flight).for_each(|_| send(&mut sender, at(0)));
    for round in 0..rounds {
        (0..packets).for_each(|_| send(&mut sender, at(round)));
        let ranges = [(round * packets, (round + 1) * packets - 1)];
        sender
            .on_ack(2, at(round), at(round), 0, false, None, &ranges, &mut out)
            .expect("an ACK is processed");
        assert_eq!(out.words.len() as u64, 3 * packets);
    }
    black_box((out.is_black_hole, out.ecn, out.lost.len()));
}
