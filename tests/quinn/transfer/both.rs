//! quinn's own NewReno and the proved one side by side: each is told what the other is, and windows are compared. Now and
//! then a copy of the proved one goes on in its place.
use quinn::congestion::{Controller, ControllerFactory};
use quinn_proto::RttEstimator;
use std::any::Any;
use std::sync::atomic::{AtomicU64, Ordering::Relaxed};
use std::sync::Arc;
use std::time::Instant;

pub static COMPARED: AtomicU64 = AtomicU64::new(0);
pub static DIFFERED: AtomicU64 = AtomicU64::new(0);

#[derive(Clone)]
pub struct BothConfig {
    pub proved: quinn_congestion::NewRenoConfig,
    pub own: Arc<quinn::congestion::NewRenoConfig>,
}

struct Both {
    proved: Box<dyn Controller>,
    own: Box<dyn Controller>,
}

impl ControllerFactory for BothConfig {
    fn build(&self, now: Instant) -> Box<dyn Controller> {
        Box::new(Both { proved: self.proved.build(now), own: self.own.build(now) })
    }
}

impl Both {
    fn compare(&mut self) {
        if COMPARED.fetch_add(1, Relaxed) % 100 == 0 {
            self.proved = self.proved.clone_box();
        }
        let (proved, own) = (self.proved.window(), self.own.window());
        if proved != own && DIFFERED.fetch_add(1, Relaxed) == 0 {
            eprintln!("window {own} of quinn's own, {proved} of the proved one");
        }
    }
}

impl Controller for Both {
    fn on_sent(&mut self, now: Instant, bytes: u64, last: u64) {
        self.proved.on_sent(now, bytes, last);
        self.own.on_sent(now, bytes, last);
    }

    fn on_end_acks(&mut self, now: Instant, in_flight: u64, app_limited: bool, largest: Option<u64>) {
        self.proved.on_end_acks(now, in_flight, app_limited, largest);
        self.own.on_end_acks(now, in_flight, app_limited, largest);
        self.compare();
    }

    fn on_ack(&mut self, now: Instant, sent: Instant, bytes: u64, app_limited: bool, rtt: &RttEstimator) {
        self.proved.on_ack(now, sent, bytes, app_limited, rtt);
        self.own.on_ack(now, sent, bytes, app_limited, rtt);
        self.compare();
    }

    fn on_congestion_event(&mut self, now: Instant, sent: Instant, persistent: bool, bytes: u64) {
        self.proved.on_congestion_event(now, sent, persistent, bytes);
        self.own.on_congestion_event(now, sent, persistent, bytes);
        self.compare();
    }

    fn window(&self) -> u64 {
        self.proved.window()
    }

    fn clone_box(&self) -> Box<dyn Controller> {
        Box::new(Both { proved: self.proved.clone_box(), own: self.own.clone_box() })
    }

    fn initial_window(&self) -> u64 {
        self.proved.initial_window()
    }

    fn into_any(self: Box<Self>) -> Box<dyn Any> {
        self
    }
}
