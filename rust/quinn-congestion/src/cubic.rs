//! CUBIC (RFC 9438).
use crate::{since, Alone};
use quic_recovery::{Congestion, Instant as Moment};
use quinn_proto::congestion::{Controller, ControllerFactory};
use quinn_proto::RttEstimator;
use std::any::Any;
use std::time::Instant;

/// The configuration of CUBIC, for each new path.
///
/// ```
/// use quinn_proto::congestion::ControllerFactory;
/// use std::time::{Duration, Instant};
///
/// let start = Instant::now();
/// let mut controller = quinn_congestion::CubicConfig::default().build(start);
/// assert_eq!(controller.window(), 12_000);
/// let (sent, now) = (start + Duration::from_millis(1), start + Duration::from_millis(101));
/// controller.on_congestion_event(now, sent, false, 1200);
/// // a loss leaves 7/10 of the window (RFC 9438, 4.6)
/// assert_eq!(controller.window(), 8400);
/// ```
#[derive(Clone, Copy, Debug, PartialEq, Eq)]
pub struct CubicConfig {
    /// The initial window, in bytes, above zero (RFC 9002, 7.2).
    pub initial_window: u64,
    /// The datagram size, in bytes, above zero: the window never falls below two datagrams.
    pub max_datagram_size: u16,
}

impl Default for CubicConfig {
    /// Returns ten datagrams of 1200 bytes, the minimum that QUIC requires of a path (RFC 9000, 14).
    fn default() -> Self {
        CubicConfig {
            initial_window: 12_000,
            max_datagram_size: 1200,
        }
    }
}

/// The controller of a path. Idle time does not count (RFC 9438, 5.8).
#[derive(Debug)]
pub struct Cubic {
    alone: Alone,
    config: CubicConfig,
    /// The time that is the library's nanosecond 0.
    epoch: Instant,
    /// Whether the window fell, so that slow start is over.
    has_fallen: bool,
}

impl Cubic {
    fn new(config: CubicConfig, epoch: Instant, initial_window: u64) -> Self {
        let cubic = quic_recovery::CubicConfig { initial_window };
        Cubic {
            alone: Alone::new(Congestion::Cubic(cubic), config.max_datagram_size),
            config,
            epoch,
            has_fallen: false,
        }
    }

    fn congested(&mut self, now: Moment, sent: Moment, persistent: bool, bytes: u64) {
        self.alone.congested(now, sent, persistent, bytes);
        self.has_fallen = true;
    }

    /// Returns a controller with the same window: in slow start if it never fell, else as after a reduction to it.
    fn copy(&self) -> Self {
        let window = self.window();
        if !self.has_fallen {
            return Cubic::new(self.config, self.epoch, window);
        }
        let before = (u128::from(window) * 10).div_ceil(7);
        let before = u64::try_from(before).unwrap_or(u64::MAX);
        let mut copy = Cubic::new(self.config, self.epoch, before);
        copy.congested(Moment::from_nanos(0), Moment::from_nanos(1), false, 0);
        copy
    }
}

impl ControllerFactory for CubicConfig {
    fn build(&self, now: Instant) -> Box<dyn Controller> {
        Box::new(Cubic::new(*self, now, self.initial_window))
    }
}

impl Controller for Cubic {
    fn on_sent(&mut self, now: Instant, _: u64, _: u64) {
        self.alone.sent = since(self.epoch, now);
    }

    fn on_ack(
        &mut self,
        now: Instant,
        sent: Instant,
        bytes: u64,
        app_limited: bool,
        _: &RttEstimator,
    ) {
        let (now, sent) = (since(self.epoch, now), since(self.epoch, sent));
        self.alone.acknowledge(now, sent, bytes, app_limited);
    }

    fn on_end_acks(
        &mut self,
        now: Instant,
        in_flight: u64,
        app_limited: bool,
        largest: Option<u64>,
    ) {
        let now = since(self.epoch, now);
        self.alone.end_acks(now, in_flight, app_limited, largest);
    }

    fn on_congestion_event(&mut self, now: Instant, sent: Instant, persistent: bool, bytes: u64) {
        let (now, sent) = (since(self.epoch, now), since(self.epoch, sent));
        self.congested(now, sent, persistent, bytes);
    }

    fn window(&self) -> u64 {
        self.alone.recovery.window_and_flight().0
    }

    fn clone_box(&self) -> Box<dyn Controller> {
        Box::new(self.copy())
    }

    fn initial_window(&self) -> u64 {
        self.config.initial_window
    }

    fn into_any(self: Box<Self>) -> Box<dyn Any> {
        self
    }
}

#[cfg(test)]
mod tests {
    use super::*;

    fn at(millis: u64) -> Moment {
        Moment::from_nanos(millis * 1_000_000)
    }

    /// Returns the window after a reduction at 1 s and 40 packets, one in flight at a time, 100 ms each, of which 20
    /// are sent after a pause. In the pause the endpoint sends ACKs alone.
    fn window_after(pause: u64) -> u64 {
        let epoch = Instant::now();
        let mut cubic = Cubic::new(CubicConfig::default(), epoch, 24_000);
        cubic.congested(at(1000), at(900), false, 1200);
        for packet in 0..40 {
            let sent = at(1000 + 100 * packet + if packet < 20 { 0 } else { pause });
            let heard = Moment::from_nanos(sent.as_nanos() + 100_000_000);
            cubic.alone.sent = sent;
            cubic.alone.acknowledge(heard, sent, 1200, false);
            cubic.alone.end_acks(heard, 0, false, None);
            cubic.alone.sent = heard;
        }
        cubic.window()
    }

    #[test]
    fn idle_time_does_not_count() {
        let wanted = window_after(0);
        assert!(wanted > 24_000, "{wanted}");
        for pause in [1, 1000, 100_000] {
            assert_eq!(window_after(pause), wanted, "a pause of {pause} ms");
        }
    }
}
