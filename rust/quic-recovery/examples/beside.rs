//! Compares a [`Sender`] with a careful peer in plain Rust (`tests/careful/peer.rs`): random transmissions, sends and
//! ACKs, answer by answer. The first difference ends it.
//!
//!     target/release/examples/beside SEED STEPS
use quic_recovery::*;
use std::process::exit;

#[allow(dead_code)]
#[path = "../../../tests/careful/peer.rs"]
mod peer;

const SPACE: SpaceId = SpaceId::Data;

/// A generator of random numbers (xorshift).
struct Draws(u64);

impl Draws {
    fn below(&mut self, end: u64) -> u64 {
        self.0 ^= self.0 << 13;
        self.0 ^= self.0 >> 7;
        self.0 ^= self.0 << 17;
        (self.0 >> 20) % end
    }

    fn one_of(&mut self, count: u64) -> bool {
        self.below(count) == 0
    }
}

/// The ranges of an ACK frame over what was sent, the highest first. Some are invalid, or of numbers never sent.
fn ranges(draws: &mut Draws, sent: u64) -> Vec<(u64, u64)> {
    let mut high = sent - 1 + u64::from(draws.one_of(40));
    high -= draws.below(4).min(high);
    let mut ranges = Vec::new();
    for _ in 0..1 + draws.below(4) {
        let low = high - draws.below(6).min(high);
        ranges.push((low, high));
        if low < 4 {
            break;
        }
        high = low - 2 - draws.below(2) + u64::from(draws.one_of(50));
    }
    ranges
}

struct Pair {
    ours: Sender,
    theirs: peer::Sender,
    acked: Acknowledged,
    out: peer::Outcome,
    sent: u64,
}

impl Pair {
    fn transmit(&mut self, now: u64, bytes: u16, step: u64) {
        let ours = self
            .ours
            .transmit(Instant::from_nanos(now), bytes, SPACE, true);
        let ours = match ours.expect("no space is discarded") {
            Transmission::Transmitted => peer::Permit::Transmitted,
            Transmission::Blocked => peer::Permit::Blocked,
            Transmission::Full { .. } => peer::Permit::Full,
            Transmission::Delayed { until, .. } => peer::Permit::Delayed(until.as_nanos()),
        };
        assert_eq!(
            Ok(ours),
            self.theirs.transmit(now, bytes, 2, true),
            "step {step}"
        );
    }

    fn send(&mut self, draws: &mut Draws, now: u64, step: u64) {
        let elicits = !draws.one_of(8);
        let count = if draws.one_of(3) { draws.below(4) } else { 1 };
        let items: Vec<u64> = (step..step + count).collect();
        let ours = self
            .ours
            .send(SPACE, Instant::from_nanos(now), 1200, elicits, None, &items);
        let ours = ours.expect("a packet is sent");
        let theirs = self.theirs.send(2, now, 1200, elicits, None, &items);
        assert_eq!(Ok((ours.number, ours.forgotten)), theirs, "step {step}");
        self.sent = ours.number + 1;
    }

    fn ack(&mut self, draws: &mut Draws, now: u64, step: u64) {
        let ranges = ranges(draws, self.sent);
        let app_limited = draws.one_of(9);
        let received = now.saturating_sub(draws.below(30_000_000));
        let ack = Ack {
            app_limited,
            received: Some(Instant::from_nanos(received)),
            ..Ack::default()
        };
        let ours = self.ours.on_ack_into(
            SPACE,
            Instant::from_nanos(now),
            &ack,
            &ranges,
            &mut self.acked,
        );
        let theirs = self.theirs.on_ack(
            2,
            now,
            received,
            0,
            app_limited,
            None,
            &ranges,
            &mut self.out,
        );
        assert_eq!(
            ours.is_err(),
            theirs.is_err(),
            "step {step}: {ours:?} {theirs:?}"
        );
        if ours.is_err() {
            return;
        }
        let mut words = Vec::new();
        for (number, items) in self.acked.packets() {
            words.extend([number, items.len() as u64]);
            words.extend_from_slice(items);
        }
        let losses = &self.acked.losses;
        assert_eq!(self.acked.numbers, self.out.numbers, "step {step}");
        assert_eq!(words, self.out.words, "step {step}");
        assert_eq!(losses.numbers, self.out.lost, "step {step}");
        assert_eq!(losses.congestion, self.out.congestion, "step {step}");
        assert_eq!(losses.is_persistent, self.out.is_persistent, "step {step}");
    }
}

fn main() {
    let numbers: Vec<u64> = std::env::args()
        .skip(1)
        .filter_map(|it| it.parse().ok())
        .collect();
    let [seed, steps] = numbers[..] else {
        eprintln!("usage: beside SEED STEPS");
        exit(2);
    };
    let mut draws = Draws(seed.wrapping_mul(2).wrapping_add(1));
    let config = RecoveryConfig::default();
    let ours = Sender::established(Side::Client, &config, Instant::from_nanos(1));
    let mut pair = Pair {
        ours: ours.expect("a sender is made"),
        theirs: peer::Sender::new(),
        acked: Acknowledged::default(),
        out: peer::Outcome::default(),
        sent: 0,
    };
    let mut now = 1_000_000;
    for step in 0..steps {
        now += draws.below(3_000_000);
        match draws.below(5) {
            0 => pair.transmit(now, 1 + draws.below(1500) as u16, step),
            1..=3 => pair.send(&mut draws, now, step),
            _ if pair.sent > 0 => pair.ack(&mut draws, now, step),
            _ => {}
        }
        let timer = pair.ours.timer().map(|it| it.as_nanos());
        assert_eq!(timer, pair.theirs.timer, "step {step}");
        let path = &pair.theirs.path;
        let read = pair.ours.recovery().window_and_flight();
        assert_eq!(read, (path.window(), path.bytes), "step {step}");
    }
    println!("{steps} steps, and no answer differs");
}
