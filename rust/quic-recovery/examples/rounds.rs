//! Makes rounds of packets with one ACK per round and FLIGHT packets in flight, to count their instructions:
//!
//!     valgrind --tool=callgrind target/release/examples/rounds reno|cubic FLIGHT ROUNDS PACKETS
//!
//! Each packet carries an item. [`Sender::transmit`] is asked for it first, and it is sent whatever the answer. The cost
//! of a packet that is sent and acknowledged is the difference between runs of 2 × ROUNDS and ROUNDS, divided by the
//! packets of ROUNDS. `tests/careful/peer_rounds.rs` makes the same rounds in plain Rust.
use quic_recovery::*;
use std::hint::black_box;
use std::process::exit;

const SPACE: SpaceId = SpaceId::Data;
const SIZE: u16 = 1200;

fn send(sender: &mut Sender, now: Instant) {
    let sent = sender.transmit(now, SIZE, SPACE, true);
    black_box(sent.expect("no space is discarded"));
    let sent = sender.send(SPACE, now, SIZE, true, None, &[7]);
    black_box(sent.expect("a packet is sent"));
}

fn go(sender: &mut Sender, flight: u64, rounds: u64, packets: u64) {
    let at = |round: u64| Instant::from_nanos(1_000_000 * round);
    let mut acked = Acknowledged::default();
    (0..flight).for_each(|_| send(sender, at(0)));
    for round in 0..rounds {
        (0..packets).for_each(|_| send(sender, at(round)));
        let ranges = [(round * packets, (round + 1) * packets - 1)];
        sender
            .on_ack_into(SPACE, at(round), &Ack::default(), &ranges, &mut acked)
            .expect("an ACK is processed");
        let items = acked.packets().map(|(_, items)| items.len()).sum::<usize>();
        assert_eq!(items as u64, packets);
    }
}

fn main() {
    let words: Vec<String> = std::env::args().skip(1).collect();
    let numbers: Vec<u64> = words
        .iter()
        .skip(1)
        .filter_map(|it| it.parse().ok())
        .collect();
    let (Some("reno" | "cubic"), &[flight, rounds, packets]) =
        (words.first().map(String::as_str), &numbers[..])
    else {
        eprintln!("usage: rounds reno|cubic FLIGHT ROUNDS PACKETS");
        exit(2);
    };
    let id = ConnectionId::new(&[1; 8]).expect("an id of eight bytes");
    let mut config = RecoveryConfig::new("192.0.2.1:4433".parse().expect("an address"), id);
    if words[0] == "cubic" {
        config.transport.congestion = Congestion::Cubic(CubicConfig::default());
    }
    let start = Instant::from_nanos(0);
    let mut sender = Sender::new(Side::Client, &config, start).expect("a sender is made");
    sender.on_handshake_confirmed();
    go(&mut sender, flight, rounds, packets);
}
