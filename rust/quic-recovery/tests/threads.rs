//! Recoveries that move between threads, and those that several threads read at once.
use quic_recovery::*;
use std::fmt::Debug;
use std::hint::black_box;
use std::sync::mpsc::channel;
use std::sync::Barrier;
use std::thread;
use std::time::Duration;

const THREADS: u64 = 4;
const EACH: u64 = 50;
const PACKETS: u64 = 200;

fn fresh() -> Recovery {
    Recovery::new(&RecoveryConfig::default(), Instant::from_nanos(0)).unwrap()
}

fn send(recovery: &mut Recovery, number: u64) {
    let packet = Event::Send {
        space: SpaceId::Data,
        now: Instant::from_nanos(number),
        size: 1000,
        ack_eliciting: true,
        largest_acked: None,
        queue: &[number],
    };
    let forgotten = None;
    assert_eq!(
        recovery.apply(packet),
        Ok(Answer::Sent { number, forgotten })
    );
}

fn is_send<T: Send>() {}

fn is_sync<T: Sync>() {}

/// All readings of a recovery.
fn readings(recovery: &Recovery) -> impl PartialEq + Debug {
    let spaces = SpaceId::VALUES.map(|space| {
        (
            recovery.space(space),
            recovery.has_in_flight(space),
            recovery.ack_delay(space, Instant::from_nanos(9_000_000_000)),
            recovery.ranges(space).collect::<Vec<_>>(),
        )
    });
    let paths = [PathName::Current, PathName::Previous];
    (
        spaces,
        paths.map(|path| (recovery.path(path), recovery.marks(path))),
        Timer::VALUES.map(|timer| recovery.timer(timer)),
        (recovery.ids(), recovery.next_id_timeout()),
        (recovery.reset_token(), recovery.is_reset_token(&[2; 16])),
        (recovery.window_and_flight(), recovery.rtt()),
        (recovery.pto_base(), recovery.active_id()),
        recovery.last_items(),
    )
}

/// All readings of a sender.
fn sender_readings(sender: &Sender) -> impl PartialEq + Debug {
    let mut told = Acknowledged::default();
    sender.last_outcome(&mut told).unwrap();
    (
        readings(sender.recovery()),
        SpaceId::VALUES.map(|space| sender.smallest_tracked(space)),
        (sender.timer(), sender.timer_state(), sender.pto_count()),
        (sender.window_room(), sender.amplification_room()),
        sender.pacer_room(Instant::from_nanos(130_000_000)),
        told,
    )
}

/// Each thread reads the value again and again, at the same time as the others. It always reads the same.
fn read_at_once<T: Sync, R: PartialEq + Debug>(value: &T, read: impl Fn(&T) -> R + Sync) {
    let begin = Barrier::new(THREADS as usize);
    thread::scope(|scope| {
        for _ in 0..THREADS {
            scope.spawn(|| {
                let wanted = read(value);
                begin.wait();
                for _ in 0..200 * EACH {
                    assert_eq!(read(black_box(value)), wanted);
                }
            });
        }
    });
}

/// A sender with something to read in each reading: items in flight, lost and taken, an outcome, ranges to be
/// acknowledged, two paths, and a token.
fn used() -> Sender {
    let at = |millis: u64| Instant::from_nanos(millis * 1_000_000);
    let space = SpaceId::Data;
    let config = RecoveryConfig {
        cid_lifetime: Some(Duration::from_secs(10)),
        issued: 1,
        ..RecoveryConfig::default()
    };
    let mut sender = Sender::established(Side::Client, &config, at(1)).unwrap();
    let (id, reset_token) = (ConnectionId::from([1; 8]), ResetToken::from([2; 16]));
    let (sequence, retire_prior_to) = (1, 0);
    let frame = NewConnectionId {
        sequence,
        retire_prior_to,
        id,
        reset_token,
    };
    sender.on_event(Event::NewId(frame)).unwrap();
    sender.on_event(Event::NextId).unwrap();
    for number in [0, 1, 5] {
        let (now, ack_eliciting) = (at(number), true);
        let packet = Event::Received {
            space,
            now,
            number,
            ack_eliciting,
        };
        sender.on_event(packet).unwrap();
    }
    for item in 0..PACKETS {
        let now = at(1 + item / 100);
        sender.send(space, now, 1000, true, None, &[item]).unwrap();
    }
    let ranges = [(150, 160), (20, 100)];
    sender
        .on_ack(space, at(101), &Ack::default(), &ranges)
        .unwrap();
    sender.on_event(Event::TakePending { space }).unwrap();
    sender
}

#[test]
fn readings_are_shared() {
    is_sync::<Recovery>();
    is_sync::<Sender>();
    is_sync::<MtuDiscovery>();
    is_sync::<Pacer>();
    let mut recovery = fresh();
    (0..PACKETS).for_each(|it| send(&mut recovery, it));
    read_at_once(&recovery, readings);
    let sender = used();
    let (window, flight) = sender.recovery().window_and_flight();
    assert!(window > 0 && flight > 0 && sender.recovery().ranges(SpaceId::Data).count() == 2);
    read_at_once(&sender, sender_readings);
    let mut mtu = MtuDiscovery::new(&TransportConfig::default(), None).unwrap();
    mtu.poll_transmit(Instant::from_nanos(1), 0).unwrap();
    let read = |it: &MtuDiscovery| {
        (
            it.current_mtu(),
            it.in_flight_mtu_probe(),
            it.is_searching(),
        )
    };
    read_at_once(&mtu, read);
    let pacer = Pacer::new(
        Duration::from_millis(100),
        12_000,
        1200,
        Instant::from_nanos(1),
    )
    .unwrap();
    read_at_once(&pacer, |it| (it.capacity(), it.tokens()));
}

/// Each recovery visits all threads, sends on each, and is dropped on another one than it was made on.
#[test]
fn recoveries_move() {
    is_send::<Recovery>();
    let (ends, begins): (Vec<_>, Vec<_>) = (0..THREADS).map(|_| channel::<Recovery>()).unzip();
    let mut next = ends.clone();
    next.rotate_left(1);
    drop(ends);
    let threads: Vec<_> = begins
        .into_iter()
        .zip(next)
        .map(|(from, to)| {
            thread::spawn(move || {
                for _ in 0..EACH {
                    let mut recovery = fresh();
                    (0..PACKETS).for_each(|it| send(&mut recovery, it));
                    to.send(recovery).unwrap();
                }
                drop(to);
                for mut recovery in from.iter().take(EACH as usize) {
                    (PACKETS..2 * PACKETS).for_each(|it| send(&mut recovery, it));
                    let path = recovery.path(PathName::Current).unwrap();
                    assert_eq!((path.in_flight, path.ack_eliciting), (400_000, 400));
                }
            })
        })
        .collect();
    for thread in threads {
        thread.join().unwrap();
    }
}
