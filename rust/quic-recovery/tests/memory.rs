//! A call that cannot allocate its answer changes nothing: the same call succeeds once there is memory.
use quic_recovery::*;
use std::alloc::{GlobalAlloc, Layout, System};
use std::cell::Cell;

thread_local! {
    /// Whether allocation fails in this thread.
    static IS_SCARCE: Cell<bool> = const { Cell::new(false) };
}

/// The system's allocator, except that it fails if the thread requests so. The library has its own.
struct Scarce;

// SAFETY: all is passed on to the system's allocator, or fails as an allocator may.
unsafe impl GlobalAlloc for Scarce {
    unsafe fn alloc(&self, layout: Layout) -> *mut u8 {
        if IS_SCARCE.get() {
            return std::ptr::null_mut();
        }
        // SAFETY: as this function's.
        unsafe { System.alloc(layout) }
    }

    unsafe fn dealloc(&self, block: *mut u8, layout: Layout) {
        // SAFETY: as this function's.
        unsafe { System.dealloc(block, layout) }
    }
}

#[global_allocator]
static ALLOCATOR: Scarce = Scarce;

fn at(millis: u64) -> Instant {
    Instant::from_nanos(millis * 1_000_000)
}

/// Returns an established sender with `count` packets in flight, sent a millisecond apart, each with an item.
fn with_packets(count: u64) -> Sender {
    let mut sender = Sender::established(Side::Client, &RecoveryConfig::default(), at(0)).unwrap();
    for number in 0..count {
        let sent = sender.send(SpaceId::Data, at(number), 1000, true, None, &[number]);
        assert!(sent.is_ok());
    }
    sender
}

/// Returns all readings of a sender as text.
fn seen(sender: &Sender) -> String {
    let (recovery, path) = (sender.recovery(), PathName::Current);
    let space = recovery.space(SpaceId::Data);
    format!("{:?} {space:?} {:?}", recovery.path(path), sender.timer())
}

/// A call without memory fails with `NoMemory` and changes nothing; with memory it succeeds.
fn retried<T>(sender: &mut Sender, call: impl Fn(&mut Sender) -> Result<T, SenderError>) -> T {
    let before = seen(sender);
    IS_SCARCE.set(true);
    let refused = call(sender).err();
    IS_SCARCE.set(false);
    assert_eq!(refused, Some(SenderError::Event(Refusal::NoMemory)));
    assert_eq!(seen(sender), before);
    call(sender).unwrap_or_else(|error| panic!("with memory: {error}"))
}

#[test]
fn an_ack_frame() {
    let mut sender = with_packets(40);
    let ack = Ack::default();
    let acked = retried(&mut sender, |it| {
        it.on_ack(SpaceId::Data, at(100), &ack, &[(10, 39)])
    });
    assert_eq!(acked.numbers, (10..40).collect::<Vec<_>>());
    assert_eq!(acked.losses.numbers, (0..10).collect::<Vec<_>>());
    assert_eq!(acked.packets().count(), 30);
}

/// The vectors of the last answer are too small for the next.
#[test]
fn an_ack_frame_into_vectors() {
    let mut sender = with_packets(40);
    let (ack, told) = (Ack::default(), Cell::new(Acknowledged::default()));
    let into = |it: &mut Sender, millis, ranges: &[(u64, u64)]| {
        let mut into = told.take();
        let done = it.on_ack_into(SpaceId::Data, at(millis), &ack, ranges, &mut into);
        told.set(into);
        done
    };
    assert_eq!(into(&mut sender, 100, &[(0, 0)]), Ok(()));
    retried(&mut sender, |it| into(it, 101, &[(4, 39), (1, 1)]));
    let told = told.take();
    assert_eq!(told.numbers.len(), 37);
    assert_eq!(told.losses.numbers, [2, 3]);
}

#[test]
fn a_timeout_with_losses() {
    let mut sender = with_packets(3);
    let acked = sender.on_ack(SpaceId::Data, at(102), &Ack::default(), &[(2, 2)]);
    assert!(acked.is_ok());
    let due = sender.timer().unwrap();
    let Timeout::Lost { losses, .. } = retried(&mut sender, |it| it.on_timeout(due)) else {
        panic!("packet 0 is lost by now");
    };
    assert_eq!((losses.numbers, losses.is_cut), (vec![0], false));
}

/// A timeout that asks for probes allocates nothing.
#[test]
fn a_timeout_with_probes() {
    let mut sender = with_packets(1);
    let due = sender.timer().unwrap();
    IS_SCARCE.set(true);
    let timeout = sender.on_timeout(due);
    IS_SCARCE.set(false);
    let (space, count) = (SpaceId::Data, 2);
    assert_eq!(timeout, Ok(Timeout::Probe { space, count }));
}

#[test]
fn all_packets_of_a_space() {
    let mut sender = with_packets(3);
    let all = retried(&mut sender, |it| it.retransmit_all(SpaceId::Data, at(5)));
    assert_eq!((all.numbers, all.is_cut), (vec![0, 1, 2], false));
}

#[test]
fn the_contents_of_a_probe() {
    let (mut sender, space) = (with_packets(2), SpaceId::Data);
    let due = sender.timer().unwrap();
    assert!(matches!(sender.on_timeout(due), Ok(Timeout::Probe { .. })));
    let items = retried(&mut sender, |it| it.probe(space, false));
    assert_eq!(items, [0]);
}

#[test]
fn what_is_sent_again() {
    let (mut sender, space) = (with_packets(3), SpaceId::Data);
    assert!(sender.retransmit_all(space, at(5)).is_ok());
    let taken = retried(&mut sender, |it| it.on_event(Event::TakePending { space }));
    assert_eq!(taken, Answer::Queue(vec![0, 1, 2]));
}
