//! The preconditions of the library: the safe types reject values that violate them.
use quic_recovery::*;
use std::time::Duration;

type Row = (fn(&mut RecoveryConfig), Option<ConfigError>);

fn reno(initial_window: u64, denominator: u64) -> Congestion {
    Congestion::NewReno(NewRenoConfig {
        initial_window,
        loss_reduction_factor: (1, denominator),
    })
}

fn cubic(initial_window: u64) -> Congestion {
    Congestion::Cubic(CubicConfig { initial_window })
}

fn made(change: impl FnOnce(&mut RecoveryConfig)) -> Option<ConfigError> {
    let mut config = RecoveryConfig::default();
    change(&mut config);
    Recovery::new(&config, Instant::from_nanos(0)).err()
}

#[test]
fn settings() {
    let rows: [Row; 14] = [
        (|_| {}, None),
        (
            |it| it.issued = (1 << 62) + 1,
            Some(ConfigError::TooManyIssued),
        ),
        (|it| it.skips = Skips::Starting(63, 7), None),
        (
            |it| it.skips = Skips::Starting(64, 7),
            Some(ConfigError::SkipTooLarge),
        ),
        (
            |it| it.transport.initial_mtu = 0,
            Some(ConfigError::ZeroMtu),
        ),
        (|it| it.transport.min_mtu = 0, Some(ConfigError::ZeroMtu)),
        (
            |it| it.transport.congestion = reno(0, 2),
            Some(ConfigError::ZeroWindow),
        ),
        (
            |it| it.transport.congestion = reno(1, 0),
            Some(ConfigError::ZeroDenominator),
        ),
        (
            |it| it.transport.congestion = Congestion::Fixed(0),
            Some(ConfigError::ZeroWindow),
        ),
        (|it| it.transport.congestion = Congestion::Fixed(1), None),
        (
            |it| it.transport.congestion = cubic(0),
            Some(ConfigError::ZeroWindow),
        ),
        (|it| it.transport.congestion = cubic(1), None),
        (|it| it.transport.initial_rtt = Duration::MAX, None),
        (|it| it.transport.mtu_discovery_config = None, None),
    ];
    for (at, (change, wanted)) in rows.into_iter().enumerate() {
        assert_eq!(made(change), wanted, "row {at}");
    }
}

#[test]
fn types() {
    assert!(ConnectionId::new(&[0; 20]).is_some());
    assert!(ConnectionId::new(&[0; 21]).is_none());
    assert!(VarInt::from_u64((1 << 62) - 1).is_some());
    assert!(VarInt::from_u64(1 << 62).is_none());
    assert_eq!(
        ConnectionId::try_from(&[1, 255][..]).unwrap().to_string(),
        "01ff"
    );
    assert_eq!(ConnectionId::try_from(&[0; 21][..]), Err(CidTooLong));
    let spaces = SpaceId::VALUES.map(|it| it.to_string());
    assert_eq!(spaces, ["Initial", "Handshake", "Data"]);
}

#[test]
fn moments() {
    let (second, mut moment) = (Duration::from_secs(1), Instant::from_nanos(5));
    assert_eq!(moment + second, Instant::from_nanos(1_000_000_005));
    moment += second;
    assert_eq!(moment - Instant::from_nanos(5), second);
    assert_eq!(Instant::from_nanos(5) - moment, Duration::ZERO);
    assert_eq!(moment + Duration::MAX, Instant::from_nanos(u64::MAX));
}

/// A request of ACKs that fails stores its sequence number: a frame that is no newer is then ignored.
#[test]
fn what_a_refusal_keeps() {
    let mut recovery = Recovery::new(&RecoveryConfig::default(), Instant::from_nanos(0)).unwrap();
    let frame = |sequence: u32, micros: u32| {
        Event::AckFrequencyIn(AckFrequency {
            sequence: sequence.into(),
            ack_eliciting_threshold: 1.into(),
            request_max_ack_delay: micros.into(),
            reordering_threshold: 1.into(),
        })
    };
    assert_eq!(recovery.apply(frame(7, 999)), Err(Refusal::DelayTooSmall));
    assert_eq!(recovery.apply(frame(7, 5000)), Ok(Answer::Flag(false)));
    assert_eq!(recovery.apply(frame(8, 5000)), Ok(Answer::Flag(true)));
    assert_eq!(recovery.ids().max_ack_delay, Duration::from_millis(5));
}

/// Events are equal if all their fields are.
#[test]
fn equal_events() {
    let ids = |byte| {
        [IssuedCid::new(
            1,
            ConnectionId::from([byte; 8]),
            [0; 16].into(),
        )]
    };
    let now = Instant::from_nanos(1);
    let (one, same, other) = (ids(1), ids(1), ids(2));
    assert_eq!(
        Event::IssueIds { now, ids: &one },
        Event::IssueIds { now, ids: &same }
    );
    assert_ne!(
        Event::IssueIds { now, ids: &one },
        Event::IssueIds { now, ids: &other }
    );
}
