//! MTU discovery and the pacer without a recovery, as a datagram protocol other than QUIC uses them.
use quic_recovery::*;
use std::time::Duration;

const START: Instant = Instant::from_nanos(0);

/// Probes over a link that carries `link` bytes. Returns the sizes that were sent.
fn search(mtu: &mut MtuDiscovery, link: u16, now: Instant, number: &mut u64) -> Vec<u16> {
    let mut sizes = Vec::new();
    while let Some(size) = mtu.poll_transmit(now, *number) {
        assert_eq!(mtu.in_flight_mtu_probe(), Some(*number));
        if size <= link {
            assert!(mtu.on_acked(*number, size));
        } else {
            mtu.on_probe_lost();
        }
        sizes.push(size);
        *number += 1;
    }
    sizes
}

#[test]
fn a_search_halves_its_bounds() {
    let mut mtu = MtuDiscovery::new(&TransportConfig::default(), None).unwrap();
    assert_eq!((mtu.current_mtu(), mtu.is_searching()), (1200, false));
    let mut number = 0;
    assert_eq!(
        search(&mut mtu, 1500, START, &mut number),
        [1326, 1389, 1420, 1452]
    );
    assert_eq!((mtu.current_mtu(), mtu.is_searching()), (1452, false));
    assert_eq!(mtu.in_flight_mtu_probe(), None);
    assert!(format!("{mtu:?}").contains("1452"));
}

#[test]
fn four_bursts_are_a_black_hole() {
    let mut mtu = MtuDiscovery::new(&TransportConfig::default(), None).unwrap();
    let mut number = 0;
    search(&mut mtu, 1500, START, &mut number);
    for burst in 0..4 {
        assert_eq!(mtu.current_mtu(), 1452);
        mtu.on_non_probe_lost(number + 10 * burst, 1452);
        assert_eq!(mtu.black_hole_detected(START), burst == 3);
    }
    assert_eq!(mtu.current_mtu(), 1200);
    // no search before the cooldown of a minute is over
    let before = Instant::from_nanos(59_999_999_999);
    assert_eq!(mtu.poll_transmit(before, 100), None);
    assert_eq!(
        mtu.poll_transmit(Instant::from_nanos(60_000_000_000), 100),
        Some(1326)
    );
    assert_eq!(
        mtu.on_peer_max_udp_payload_size_received(1300),
        Err(InvalidArgument)
    );
    assert!(!mtu.on_acked(99, 1200));
}

#[test]
fn limits_and_resets() {
    let mut mtu = MtuDiscovery::new(&TransportConfig::default(), Some(1300)).unwrap();
    assert_eq!(
        mtu.on_peer_max_udp_payload_size_received(0),
        Err(InvalidArgument)
    );
    assert_eq!(mtu.on_peer_max_udp_payload_size_received(1100), Ok(()));
    assert_eq!(mtu.current_mtu(), 1100);
    assert_eq!(mtu.reset(0, 1200), Err(InvalidArgument));
    assert_eq!(mtu.reset(1200, 0), Err(InvalidArgument));
    assert_eq!(mtu.current_mtu(), 1100);
    assert_eq!(mtu.reset(1000, 1000), Ok(()));
    assert_eq!(mtu.current_mtu(), 1000);
}

#[test]
fn settings_that_no_discovery_has() {
    let zero = TransportConfig {
        min_mtu: 0,
        ..TransportConfig::default()
    };
    assert_eq!(
        MtuDiscovery::new(&zero, None).err(),
        Some(ConfigError::ZeroMtu)
    );
    let never = TransportConfig {
        mtu_discovery_config: None,
        ..TransportConfig::default()
    };
    let mut mtu = MtuDiscovery::new(&never, None).unwrap();
    assert_eq!(mtu.poll_transmit(START, 0), None);
}

#[test]
fn a_burst_is_paced() {
    let rtt = Duration::from_millis(333);
    let mut pacer = Pacer::new(rtt, 12_000, 1200, START).unwrap();
    assert_eq!((pacer.capacity(), pacer.tokens()), (12_000, 12_000));
    for _ in 0..10 {
        assert_eq!(pacer.delay(rtt, 1200, 1200, 12_000, START), Ok(None));
        pacer.on_transmit(1200);
    }
    assert_eq!(pacer.tokens(), 0);
    let later = Instant::from_nanos(266_400_000);
    assert_eq!(pacer.delay(rtt, 1200, 1200, 12_000, START), Ok(Some(later)));
    assert_eq!(pacer.delay(rtt, 1200, 1200, 12_000, later), Ok(None));
    assert_eq!(pacer.tokens(), 12_000);
}

#[test]
fn no_pacer_of_nothing() {
    let rtt = Duration::from_millis(333);
    assert_eq!(Pacer::new(rtt, 0, 1200, START), Err(InvalidArgument));
    assert_eq!(Pacer::new(rtt, 12_000, 0, START), Err(InvalidArgument));
    let mut pacer = Pacer::new(rtt, 12_000, 1200, START).unwrap();
    let before = pacer;
    assert_eq!(
        pacer.delay(rtt, 1200, 0, 12_000, START),
        Err(InvalidArgument)
    );
    assert_eq!(pacer.delay(rtt, 1200, 1200, 0, START), Err(InvalidArgument));
    assert_eq!(pacer, before);
    assert_eq!(InvalidArgument.to_string().split(',').count(), 2);
}
