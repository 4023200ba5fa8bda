//! Makes COUNT events of one kind, to count their instructions:
//!
//!     valgrind --tool=callgrind target/release/examples/calls KIND COUNT
//!
//! The cost of one event is the difference between runs of 2 × COUNT and COUNT events, divided by COUNT.
use quic_recovery::*;
use std::process::exit;
use std::time::Duration;

const SPACE: SpaceId = SpaceId::Data;

fn packet(nanos: u64) -> Event<'static> {
    Event::Send {
        space: SPACE,
        now: Instant::from_nanos(nanos),
        size: 1200,
        ack_eliciting: true,
        largest_acked: None,
        queue: &[],
    }
}

/// Returns event `at` of a kind. Events that end the tracking of a packet follow its transmission.
fn event(kind: &str, at: u64) -> Option<Event<'static>> {
    let now = Instant::from_nanos(at);
    let path = PathName::Current;
    Some(match kind {
        "received" => Event::Received {
            space: SPACE,
            now,
            number: at,
            ack_eliciting: true,
        },
        "send" => packet(at),
        "acked" => Event::Acked {
            space: SPACE,
            now,
            number: at,
            app_limited: false,
        },
        "lost" => Event::Lost {
            space: SPACE,
            number: at,
        },
        "in_flight" => Event::InFlight { path },
        "set_timer" => Event::SetTimer {
            timer: Timer::Pacing,
            time: now,
        },
        "next_timeout" => Event::NextTimeout,
        "sample" => Event::Sample {
            delay: Duration::ZERO,
            rtt: Duration::from_nanos(at),
        },
        "transmit" => Event::Transmit {
            now,
            bytes: 100,
            checked: true,
        },
        "pacer_check" => Event::PacerCheck { now, bytes: 100 },
        "check_ack" => Event::CheckAck {
            space: SPACE,
            low: 0,
            high: at,
        },
        "end_acks" => Event::EndAcks {
            now,
            app_limited: false,
            largest: Some(at),
        },
        "take_pending" => Event::TakePending { space: SPACE },
        _ => return None,
    })
}

fn main() -> Result<(), ConfigError> {
    let words: Vec<String> = std::env::args().skip(1).collect();
    let (kind, count) = match words.as_slice() {
        [kind, count] => (kind.as_str(), count.parse().unwrap_or(0)),
        _ => ("", 0),
    };
    let mut recovery = Recovery::new(&RecoveryConfig::default(), Instant::from_nanos(0))?;
    for at in 0..count {
        if matches!(kind, "acked" | "lost") && recovery.apply(packet(at)).is_err() {
            exit(1);
        }
        let Some(event) = event(kind, at) else {
            exit(2);
        };
        if recovery.apply(event).is_err() {
            exit(1);
        }
    }
    Ok(())
}
