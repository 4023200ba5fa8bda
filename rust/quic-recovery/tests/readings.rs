//! Readings of a recovery.
use quic_recovery::*;
use std::net::SocketAddr;
use std::time::Duration;

fn at(nanos: u64) -> Instant {
    Instant::from_nanos(nanos)
}

fn fresh() -> Recovery {
    Recovery::new(&RecoveryConfig::default(), at(0)).unwrap()
}

fn apply(recovery: &mut Recovery, event: Event<'_>) -> Answer {
    recovery.apply(event).unwrap()
}

/// The defaults of RFC 9002: a window of 12,000 bytes, an RTT of 333 ms, and a variance of half of it.
#[test]
fn a_fresh_path() {
    let path = fresh().path(PathName::Current).unwrap();
    assert_eq!(
        (path.window, path.in_flight, path.ack_eliciting),
        (12_000, 0, 0)
    );
    assert_eq!(
        (path.total_sent, path.total_recvd, path.current_mtu),
        (0, 0, 1200)
    );
    let initial = Duration::from_millis(333);
    let rtt = path.rtt;
    assert_eq!(
        (rtt.get, rtt.conservative, rtt.min),
        (initial, initial, initial)
    );
    assert_eq!(
        (rtt.latest, rtt.variance),
        (initial, Duration::from_micros(166_500))
    );
    assert_eq!(rtt.pto_base, Duration::from_millis(333 + 4 * 333 / 2));
    assert_eq!((path.pacer.capacity, path.pacer.tokens), (12_000, 12_000));
    assert!(!path.validated);
    assert_eq!(fresh().path(PathName::Previous), None);
}

#[test]
fn paths() {
    let mut recovery = fresh();
    let delay = Duration::ZERO;
    for millis in [100, 60] {
        let rtt = Duration::from_millis(millis);
        apply(&mut recovery, Event::Sample { delay, rtt });
    }
    let path = recovery.path(PathName::Current).unwrap();
    assert_eq!(path.rtt.get, Duration::from_millis((7 * 100 + 60) / 8));
    assert_eq!(path.rtt.conservative, Duration::from_millis(95));
    assert_eq!(path.rtt.min, Duration::from_millis(60));
    assert_eq!(path.rtt.latest, Duration::from_millis(60));
    // three fourths of 50 ms, and a fourth of 40 ms (RFC 9002, 5.3)
    assert_eq!(path.rtt.variance, Duration::from_micros(47_500));
    let remote: SocketAddr = "[2001:db8::1]:443".parse().unwrap();
    let now = at(1);
    let fresh = true;
    apply(&mut recovery, Event::NewPath { now, remote, fresh });
    let current = recovery.path(PathName::Current).unwrap();
    assert_eq!(current.rtt.get, Duration::from_millis(333));
    assert_eq!(recovery.path(PathName::Previous), Some(path));
}

/// The cheap readings equal the full ones.
#[test]
fn cheap_ones() {
    let mut recovery = fresh();
    assert_eq!(recovery.window_and_flight(), (12_000, 0));
    assert_eq!(recovery.rtt(), Duration::from_millis(333));
    assert_eq!(
        recovery.pto_base(),
        Duration::from_millis(333 + 4 * 333 / 2)
    );
    assert!(!recovery.has_in_flight(SpaceId::Data));
    let (space, now, size) = (SpaceId::Data, at(1), 1200);
    let (ack_eliciting, largest_acked, queue) = (true, None, &[]);
    apply(
        &mut recovery,
        Event::Send {
            space,
            now,
            size,
            ack_eliciting,
            largest_acked,
            queue,
        },
    );
    assert_eq!(recovery.window_and_flight(), (12_000, 1200));
    assert!(recovery.has_in_flight(SpaceId::Data) && !recovery.has_in_flight(SpaceId::Initial));
    assert_eq!(recovery.active_id(), recovery.ids().active);
}

#[test]
fn spaces() {
    let mut recovery = fresh();
    let space = SpaceId::Data;
    for number in [0, 1, 5, 6, 9] {
        let now = at(number);
        let ack_eliciting = true;
        apply(
            &mut recovery,
            Event::Received {
                space,
                now,
                number,
                ack_eliciting,
            },
        );
    }
    let found: Vec<_> = recovery.ranges(space).collect();
    assert_eq!(found, [0..2, 5..7, 9..10]);
    let stats = recovery.space(space).unwrap();
    assert_eq!((stats.largest_received, stats.ranges), (9, 3));
    assert_eq!(
        stats.can_send,
        SendableFrames {
            acks: true,
            other: false
        }
    );
    let space = SpaceId::Initial;
    apply(&mut recovery, Event::DiscardSpace { space });
    assert_eq!(recovery.space(space), None);
    assert_eq!(recovery.ranges(space).count(), 0);
}

#[test]
fn timers() {
    let mut recovery = fresh();
    let timer = Timer::Pacing;
    assert_eq!(recovery.timer(timer), None);
    apply(&mut recovery, Event::SetTimer { timer, time: at(7) });
    for it in Timer::VALUES {
        assert_eq!(recovery.timer(it), (it == timer).then_some(at(7)));
    }
}

#[test]
fn ids() {
    let mut recovery = fresh();
    assert_eq!(recovery.reset_token().bytes(), &[0; 16]);
    for sequence in [1, 2] {
        let frame = NewConnectionId {
            sequence,
            retire_prior_to: 0,
            id: ConnectionId::from([sequence as u8; 8]),
            reset_token: ResetToken::from([sequence as u8; 16]),
        };
        apply(&mut recovery, Event::NewId(frame));
    }
    assert_eq!(
        apply(&mut recovery, Event::NextId),
        Answer::Retire(Some(0..1))
    );
    assert_eq!(recovery.ids().active, 1);
    assert_eq!(recovery.reset_token(), ResetToken::from([1; 16]));
    assert!(recovery.is_reset_token(&[1; 16]));
    assert!(!recovery.is_reset_token(&[2; 16]));
    let ids: Vec<IssuedCid> = (1..=3)
        .map(|it| IssuedCid::new(it, ConnectionId::from([9; 8]), ResetToken::from([9; 16])))
        .collect();
    let now = at(5);
    assert_eq!(
        apply(&mut recovery, Event::IssueIds { now, ids: &ids }),
        Answer::Done
    );
    let stats = recovery.ids();
    assert_eq!((stats.issued, stats.retire_prior_to), (4, 0));
    assert_eq!(stats.max_ack_delay, Duration::from_millis(25));
    assert_eq!(
        recovery.apply(Event::IssueIds { now, ids: &ids }),
        Err(Refusal::BadRange)
    );
}

/// Each fault of the ECN counts (RFC 9000, 13.4.2.1), by counts that have it after the counts (3, 0, 2).
#[test]
fn faults_of_ecn() {
    let rows = [
        ((2, 0, 2), 0, EcnFault::Ect0Falls),
        ((3, 0, 1), 0, EcnFault::CeFalls),
        ((4, 0, 2), 2, EcnFault::Bleached),
        ((4, 1, 2), 1, EcnFault::Corrupted),
    ];
    let space = SpaceId::Data;
    for ((ect0, ect1, ce), newly_acked, fault) in rows {
        let mut recovery = fresh();
        let counts = EcnCounts {
            ect0: 3,
            ect1: 0,
            ce: 2,
        };
        let event = Event::Ecn {
            space,
            newly_acked: 5,
            counts,
        };
        assert_eq!(apply(&mut recovery, event), Answer::Flag(true));
        let counts = EcnCounts { ect0, ect1, ce };
        let event = Event::Ecn {
            space,
            newly_acked,
            counts,
        };
        assert_eq!(recovery.apply(event), Err(Refusal::Ecn(fault)));
    }
}

fn packet(now: Instant) -> Event<'static> {
    Event::Send {
        space: SpaceId::Data,
        now,
        size: 1200,
        ack_eliciting: true,
        largest_acked: None,
        queue: &[],
    }
}

/// A loss halves the window, which is then the slow start threshold (RFC 9002, 7.3.2).
#[test]
fn thresholds() {
    let mut recovery = fresh();
    let path = |it: &Recovery| it.path(PathName::Current).unwrap();
    assert_eq!(path(&recovery).ssthresh, Some(u64::MAX));
    let congestion = Event::Congestion {
        now: at(2),
        sent: at(1),
        persistent: false,
        bytes: 1200,
    };
    apply(&mut recovery, congestion);
    assert_eq!(path(&recovery).ssthresh, Some(6000));
    assert_eq!(path(&recovery).window, 6000);
    let mut config = RecoveryConfig::default();
    config.transport.congestion = Congestion::Fixed(9000);
    let recovery = Recovery::new(&config, at(0)).unwrap();
    assert_eq!(path(&recovery).ssthresh, None);
    assert_eq!(path(&recovery).window, 9000);
}

/// CUBIC falls to 7/10 (RFC 9438, 4.6); a second later it is at 120,000 - 480 (4.217163 - 1)^3 bytes (4.2).
#[test]
fn curve() {
    let mut config = RecoveryConfig::default();
    config.transport.congestion = Congestion::Cubic(CubicConfig {
        initial_window: 120_000,
    });
    let mut recovery = Recovery::new(&config, at(0)).unwrap();
    let path = |it: &Recovery| it.path(PathName::Current).unwrap();
    assert_eq!(path(&recovery).window, 120_000);
    let lost = Event::Congestion {
        now: at(1),
        sent: at(1),
        persistent: false,
        bytes: 1200,
    };
    apply(&mut recovery, lost);
    assert_eq!(path(&recovery).window, 84_000);
    let second = 1_000_000_001;
    let sent = Event::Send {
        space: SpaceId::Data,
        now: at(second),
        size: 60_000,
        ack_eliciting: true,
        largest_acked: None,
        queue: &[],
    };
    apply(&mut recovery, sent);
    let acked = Event::Acked {
        space: SpaceId::Data,
        now: at(second),
        number: 0,
        app_limited: false,
    };
    apply(&mut recovery, acked);
    assert_eq!(path(&recovery).window, 104_017);
}

#[test]
fn packet_numbers() {
    let mut recovery = fresh();
    let space = SpaceId::Data;
    assert_eq!(recovery.next_packet_number(space), Some(0));
    apply(&mut recovery, packet(at(1)));
    assert_eq!(recovery.next_packet_number(space), Some(1));
    assert_eq!(recovery.next_packet_number(SpaceId::Initial), Some(0));
    apply(&mut recovery, Event::DiscardSpace { space });
    assert_eq!(recovery.next_packet_number(space), None);
}

/// How long the largest packet waits for its ACK (RFC 9000, 13.2.5), and the max_ack_delay.
#[test]
fn delays() {
    let mut recovery = fresh();
    let (space, start) = (SpaceId::Data, at(1_000_000));
    assert_eq!(recovery.ack_delay(space, start), Some(Duration::ZERO));
    let received = Event::Received {
        space,
        now: start,
        number: 4,
        ack_eliciting: true,
    };
    apply(&mut recovery, received);
    let wait = Duration::from_millis(7);
    assert_eq!(recovery.ack_delay(space, start + wait), Some(wait));
    assert_eq!(recovery.ids().peer_max_ack_delay, Duration::from_millis(25));
    apply(&mut recovery, Event::DiscardSpace { space });
    assert_eq!(recovery.ack_delay(space, start + wait), None);
}

/// A connection ID that is issued at the start has a lifetime of ten seconds, unless IDs do not expire.
#[test]
fn id_timeouts() {
    let lifetime = RecoveryConfig::default().cid_lifetime.unwrap();
    assert_eq!(fresh().next_id_timeout(), Some(at(0) + lifetime));
    let config = RecoveryConfig {
        cid_lifetime: None,
        ..RecoveryConfig::default()
    };
    let recovery = Recovery::new(&config, at(0)).unwrap();
    assert_eq!(recovery.next_id_timeout(), None);
}

#[test]
fn marks() {
    let mut recovery = fresh();
    let path = PathName::Current;
    assert_eq!(recovery.marks(path), Some(PathMarks::default()));
    assert_eq!(recovery.marks(PathName::Previous), None);
    let firsts = SpaceId::VALUES.map(|it| Some((it, u64::MAX)));
    for first in [None].into_iter().chain(firsts) {
        let marks = PathMarks {
            sending_ecn: false,
            challenge: Some(0),
            challenge_pending: true,
            first_packet_after_rtt_sample: first,
        };
        assert!(recovery.set_marks(path, &marks));
        assert!(!recovery.set_marks(PathName::Previous, &marks));
        apply(&mut recovery, packet(at(1)));
        assert_eq!(recovery.marks(path), Some(marks));
    }
}
