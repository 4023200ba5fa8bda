//! The proved NewReno (RFC 9002, 7) and CUBIC (RFC 9438) for quinn's public trait of controllers. quinn itself is
//! unchanged.
//!
//! ```
//! let mut config = quinn_proto::TransportConfig::default();
//! config.congestion_controller_factory(quinn_congestion::NewRenoConfig::default());
//! config.congestion_controller_factory(quinn_congestion::CubicConfig::default());
//! ```
mod cubic;

pub use cubic::{Cubic, CubicConfig};

use quic_recovery::{
    Answer, Congestion, Event, Instant as Moment, PathName, Recovery, RecoveryConfig, SpaceId,
    TransportConfig,
};
use quinn_proto::congestion::{Controller, ControllerFactory};
use quinn_proto::RttEstimator;
use std::any::Any;
use std::time::Instant;

/// The configuration of NewReno, for each new path.
///
/// ```
/// use quinn_proto::congestion::ControllerFactory;
/// use std::time::{Duration, Instant};
///
/// let start = Instant::now();
/// let mut controller = quinn_congestion::NewRenoConfig::default().build(start);
/// assert_eq!(controller.window(), 12_000);
/// // a loss halves the window, once for all that was sent before (RFC 9002, 7.3.2)
/// let (sent, now) = (start + Duration::from_millis(1), start + Duration::from_millis(101));
/// for lost in [sent, sent, now] {
///     controller.on_congestion_event(now, lost, false, 1200);
/// }
/// assert_eq!(controller.window(), 6000);
/// ```
#[derive(Clone, Copy, Debug, PartialEq, Eq)]
pub struct NewRenoConfig {
    /// The initial window, in bytes, above zero (RFC 9002, 7.2).
    pub initial_window: u64,
    /// The datagram size, in bytes, above zero: the window never falls below two datagrams, and grows by one in a round
    /// trip after slow start (RFC 9002, 7.2 and 7.3.3).
    pub max_datagram_size: u16,
}

impl Default for NewRenoConfig {
    /// Returns ten datagrams of 1200 bytes, the minimum that QUIC requires of a path (RFC 9000, 14).
    fn default() -> Self {
        NewRenoConfig {
            initial_window: 12_000,
            max_datagram_size: 1200,
        }
    }
}

/// The controller of a path.
#[derive(Debug)]
pub struct NewReno {
    alone: Alone,
    config: NewRenoConfig,
    /// The time that is the library's nanosecond 0.
    epoch: Instant,
    /// The window and the slow start threshold, as last read.
    window: u64,
    ssthresh: u64,
    /// When the window last fell, and the bytes counted since it last grew: for copies only.
    since: Moment,
    counted: u64,
}

/// The most bytes that a copy counts by acknowledging them. While windows are below it, a copy is exact, and windows are
/// those of quinn's own NewReno. A larger window grows by one datagram at most as this many bytes are acknowledged.
const EXACT: u64 = 1 << 24;

/// Returns a recovery for its controller alone, with datagrams of this size.
fn recovery_for(congestion: Congestion, max_datagram_size: u16) -> Recovery {
    let settings = RecoveryConfig {
        transport: TransportConfig {
            initial_mtu: max_datagram_size,
            min_mtu: max_datagram_size,
            mtu_discovery_config: None,
            congestion,
            ..TransportConfig::default()
        },
        ..RecoveryConfig::default()
    };
    Recovery::new(&settings, Moment::from_nanos(0)).expect("sizes above zero, and memory")
}

/// Returns a time in the library's form, whose nanosecond 0 is the epoch.
fn since(epoch: Instant, moment: Instant) -> Moment {
    let nanos = moment.saturating_duration_since(epoch).as_nanos();
    Moment::from_nanos(u64::try_from(nanos).unwrap_or(u64::MAX))
}

/// A recovery whose controller alone is used. quinn reports no packet numbers, so each packet is passed in when it is
/// acknowledged: as sent at its time, and as acknowledged now.
///
/// A sent packet ends idle time, which CUBIC leaves out (RFC 9438, 5.8). quinn calls `on_sent` also for datagrams that
/// hold ACKs alone, and these do not end it. So the time of a datagram is passed on only once something is known to be
/// in flight.
#[derive(Debug)]
struct Alone {
    recovery: Recovery,
    /// When the last datagram was sent.
    sent: Moment,
    /// The number of a packet that is in flight here while anything is in flight in quinn.
    in_flight: Option<u64>,
}

impl Alone {
    fn new(congestion: Congestion, max_datagram_size: u16) -> Self {
        Alone {
            recovery: recovery_for(congestion, max_datagram_size),
            sent: Moment::from_nanos(0),
            in_flight: None,
        }
    }

    fn send(&mut self, now: Moment, bytes: u64) -> Option<u64> {
        let packet = Event::Send {
            space: SpaceId::Data,
            now,
            size: u16::try_from(bytes).unwrap_or(u16::MAX),
            ack_eliciting: true,
            largest_acked: None,
            queue: &[],
        };
        match self.recovery.apply(packet) {
            Ok(Answer::Sent { number, .. }) => Some(number),
            _ => None,
        }
    }

    fn acknowledge(&mut self, now: Moment, sent: Moment, bytes: u64, app_limited: bool) {
        let space = SpaceId::Data;
        if let Some(number) = self.send(sent, bytes) {
            let _ = self.recovery.apply(Event::Acked {
                space,
                now,
                number,
                app_limited,
            });
        }
    }

    fn end_acks(&mut self, now: Moment, in_flight: u64, app_limited: bool, largest: Option<u64>) {
        let space = SpaceId::Data;
        match (self.in_flight, in_flight) {
            (None, 1..) => self.in_flight = self.send(self.sent.min(now), 1),
            (Some(number), 0) => {
                let _ = self.recovery.apply(Event::Lost { space, number });
                self.in_flight = None;
            }
            _ => {}
        }
        let _ = self.recovery.apply(Event::EndAcks {
            now,
            app_limited,
            largest,
        });
    }

    fn congested(&mut self, now: Moment, sent: Moment, persistent: bool, bytes: u64) {
        let _ = self.recovery.apply(Event::Congestion {
            now,
            sent,
            persistent,
            bytes,
        });
    }
}

impl NewReno {
    fn new(config: NewRenoConfig, epoch: Instant, window: u64) -> Self {
        let congestion = Congestion::NewReno(quic_recovery::NewRenoConfig {
            initial_window: window,
            ..quic_recovery::NewRenoConfig::default()
        });
        let since = Moment::from_nanos(0);
        NewReno {
            alone: Alone::new(congestion, config.max_datagram_size),
            config,
            epoch,
            window,
            ssthresh: u64::MAX,
            since,
            counted: 0,
        }
    }

    fn at(&self, moment: Instant) -> Moment {
        since(self.epoch, moment)
    }

    fn acked(&mut self, now: Moment, sent: Moment, bytes: u64, app_limited: bool) {
        self.alone.acknowledge(now, sent, bytes, app_limited);
        let before = self.window;
        self.read();
        let is_counted = !app_limited && sent > self.since;
        if before < self.ssthresh && self.window >= self.ssthresh {
            self.counted = self.window - self.ssthresh;
        } else if before >= self.ssthresh && is_counted {
            let grown = if self.window > before { before } else { 0 };
            self.counted = (self.counted + bytes).saturating_sub(grown);
        }
    }

    /// Acknowledges this many bytes, in as many packets as they take.
    fn acked_all(&mut self, at: Moment, mut bytes: u64) {
        while bytes > 0 {
            let some = bytes.min(u16::MAX.into());
            self.acked(at, at, some, false);
            bytes -= some;
        }
    }

    fn congested(&mut self, now: Moment, sent: Moment, persistent: bool, bytes: u64) {
        self.alone.congested(now, sent, persistent, bytes);
        self.read();
        if sent > self.since {
            self.since = now;
        }
    }

    fn read(&mut self) {
        if let Some(path) = self.alone.recovery.path(PathName::Current) {
            self.window = path.window;
            self.ssthresh = path.ssthresh.unwrap_or(u64::MAX);
        }
    }

    /// Returns a controller in the same state, reached by events: losses, the bytes counted between them, and what was
    /// acknowledged since. An event takes at most 65,535 bytes, so at most [`EXACT`] bytes are copied in that way: a
    /// larger count is cut, and a restart that has grown further continues in congestion avoidance.
    fn copy(&self) -> Self {
        if self.ssthresh == u64::MAX {
            return NewReno::new(self.config, self.epoch, self.window);
        }
        let least = 2 * u64::from(self.config.max_datagram_size);
        let grown = self.window.saturating_sub(least);
        let restarts = self.window < self.ssthresh && grown <= EXACT;
        let threshold = if restarts { self.ssthresh } else { self.window };
        let mut copy = self.counting(threshold.saturating_mul(2), self.counted.min(EXACT));
        let one = Moment::from_nanos(1);
        copy.congested(self.since, one, restarts, 0);
        if restarts {
            let later = Moment::from_nanos(self.since.as_nanos().saturating_add(1));
            copy.acked_all(later, self.window - copy.window);
        }
        copy
    }

    /// Returns a controller with this window that has counted these bytes since it last grew: they are acknowledged
    /// while the window is larger than they are, and losses then halve it. A window above 2^63 is in slow start and has
    /// counted none, which makes no difference before it is acknowledged.
    fn counting(&self, window: u64, counted: u64) -> Self {
        let (zero, one) = (Moment::from_nanos(0), Moment::from_nanos(1));
        let mut high = window;
        while high <= counted {
            high *= 2;
        }
        let Some(initial) = high.checked_mul(2) else {
            return NewReno::new(self.config, self.epoch, high);
        };
        let mut copy = NewReno::new(self.config, self.epoch, initial);
        copy.congested(zero, one, false, 0);
        copy.acked_all(one, counted);
        while copy.window > window {
            copy.congested(zero, one, false, 0);
        }
        copy
    }
}

impl ControllerFactory for NewRenoConfig {
    fn build(&self, now: Instant) -> Box<dyn Controller> {
        Box::new(NewReno::new(*self, now, self.initial_window))
    }
}

impl Controller for NewReno {
    fn on_sent(&mut self, now: Instant, _: u64, _: u64) {
        self.alone.sent = self.at(now);
    }

    fn on_ack(
        &mut self,
        now: Instant,
        sent: Instant,
        bytes: u64,
        app_limited: bool,
        _: &RttEstimator,
    ) {
        self.acked(self.at(now), self.at(sent), bytes, app_limited);
    }

    fn on_end_acks(
        &mut self,
        now: Instant,
        in_flight: u64,
        app_limited: bool,
        largest: Option<u64>,
    ) {
        let now = self.at(now);
        self.alone.end_acks(now, in_flight, app_limited, largest);
    }

    fn on_congestion_event(&mut self, now: Instant, sent: Instant, persistent: bool, bytes: u64) {
        self.congested(self.at(now), self.at(sent), persistent, bytes);
    }

    fn window(&self) -> u64 {
        self.window
    }

    fn clone_box(&self) -> Box<dyn Controller> {
        Box::new(self.copy())
    }

    fn initial_window(&self) -> u64 {
        self.config.initial_window
    }

    fn into_any(self: Box<Self>) -> Box<dyn Any> {
        self
    }
}

#[cfg(test)]
mod tests {
    use super::*;

    fn at(millis: u64) -> Moment {
        Moment::from_nanos(millis * 1_000_000)
    }

    /// Returns a controller with this initial window, after a loss at 101 ms, or a persistent congestion.
    fn fallen(initial_window: u64, persistent: bool) -> NewReno {
        let config = NewRenoConfig {
            initial_window,
            ..NewRenoConfig::default()
        };
        let mut controller = NewReno::new(config, Instant::now(), initial_window);
        controller.congested(at(101), at(1), persistent, 1200);
        controller
    }

    /// Returns how many packets were passed to make a copy.
    fn steps(copy: &NewReno) -> u64 {
        let next = copy.alone.recovery.next_packet_number(SpaceId::Data);
        next.expect("the space is not discarded")
    }

    /// Acknowledges datagrams of 1200 bytes in both, with losses and persistent congestion, and compares the windows.
    fn continue_alike(controller: &mut NewReno, copy: &mut NewReno, packets: u64) {
        assert_eq!(copy.window, controller.window);
        for packet in 1..=packets {
            let (now, sent) = (at(1000 + 100 * packet), at(990 + 100 * packet));
            for it in [&mut *controller, &mut *copy] {
                match packet % 500 {
                    0 => it.congested(now, sent, packet % 1000 == 0, 1200),
                    _ => it.acked(now, sent, 1200, packet % 7 == 0),
                }
            }
            assert_eq!(copy.window, controller.window, "packet {packet}");
        }
    }

    /// quinn 0.9 asks for `Send` of a controller, and quinn 0.11 for `Sync` too.
    #[test]
    fn controllers_are_send_and_sync() {
        fn is_send_and_sync<T: Send + Sync>() {}
        is_send_and_sync::<NewReno>();
        is_send_and_sync::<Cubic>();
    }

    #[test]
    fn a_copy_continues_alike() {
        for (window, persistent) in [
            (12_000, false),
            (12_000, true),
            (3 << 20, false),
            (3 << 20, true),
        ] {
            let mut controller = fallen(window, persistent);
            for already in [0, 1, 300, 4000] {
                for packet in 0..already {
                    controller.acked(at(200 + packet / 1000), at(199), 1200, false);
                }
                continue_alike(&mut controller.copy(), &mut controller.copy(), 1);
                let mut copy = controller.copy();
                continue_alike(&mut controller, &mut copy, 2000);
            }
        }
    }

    /// A loss halves a window (RFC 9002, 7.3.2), and the copy's is the same, whatever the setting was.
    #[test]
    fn a_copy_takes_bounded_work() {
        for bits in [20, 40, 61, 62, 63, 64] {
            let initial = u64::MAX >> (64 - bits);
            let mut controller = fallen(initial, false);
            assert_eq!(controller.window, initial / 2);
            controller.acked_all(at(200), 3 * EXACT / 2);
            let mut copy = controller.copy();
            assert_eq!(copy.window, controller.window, "2^{bits}");
            assert!(steps(&copy) <= EXACT / 65_535 + 1);
            for it in [&mut controller, &mut copy] {
                it.congested(at(400), at(300), false, 1200);
            }
            assert_eq!(copy.window, controller.window, "2^{bits}");
        }
    }

    /// After persistent congestion the window is the minimum, and slow start leads back (RFC 9002, 7.6.2). A copy that
    /// would have to acknowledge more than 2^24 bytes has the same window, and grows no faster.
    #[test]
    fn a_copy_of_a_long_restart_takes_bounded_work() {
        for (grown, is_exact) in [(EXACT / 2, true), (2 * EXACT, false)] {
            let mut controller = fallen(u64::MAX, true);
            assert_eq!(controller.window, 2400);
            controller.acked_all(at(200), grown);
            assert_eq!(controller.window, 2400 + grown);
            let mut copy = controller.copy();
            assert_eq!(copy.window, controller.window);
            assert!(steps(&copy) <= EXACT / 65_535 + 1);
            for it in [&mut controller, &mut copy] {
                it.acked(at(400), at(300), 1200, false);
            }
            assert_eq!(controller.window, 2400 + grown + 1200);
            assert_eq!(copy.window == controller.window, is_exact);
            assert!(copy.window <= controller.window);
        }
    }
}
