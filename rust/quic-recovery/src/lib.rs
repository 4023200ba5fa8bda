//! A proved recovery layer for QUIC (RFC 9000 and RFC 9002). A [`Recovery`] tracks one connection's packets, ACKs,
//! timers, connection IDs and paths, with RTT, congestion control, pacing, amplification limit and MTU. Its caller
//! reports lost packets. A [`Sender`] detects them, sets the timer and decides whether a datagram may be sent.
//!
//! This is a safe interface to a static library written in Rattle, Rust with contracts, which is built only if every
//! function is proved. For each event the library proves that its answer follows from the events before it. The
//! repository's `docs/PROMISES.md` states the promises for a connection, and `docs/RUST.md` what is trusted here.
//!
//! The crate does no I/O, reads no clock and does not panic. A [`Sender`] takes a call for each ACK frame and one for
//! its timer:
//!
//! ```
//! use quic_recovery::{Ack, Instant, RecoveryConfig, Sender, Side, SpaceId, Transmission};
//!
//! // a clock that starts above 0: a packet that is sent at 0 does not change the window
//! let at = |millis: u64| Instant::from_nanos(1 + millis * 1_000_000);
//! let space = SpaceId::Data;
//! let mut sender = Sender::established(Side::Client, &RecoveryConfig::default(), at(0))?;
//! for item in 0..4 {
//!     assert_eq!(sender.transmit(at(1), 1200, space, true)?, Transmission::Transmitted);
//!     sender.send(space, at(1), 1200, true, None, &[item])?;
//! }
//! let acked = sender.on_ack(space, at(101), &Ack::default(), &[(3, 3)])?;
//! // packet 0 is lost: it is three below the largest acknowledged (RFC 9002, 6.1.1)
//! assert_eq!((acked.numbers, acked.losses.numbers), (vec![3], vec![0]));
//! # Ok::<(), Box<dyn std::error::Error>>(())
//! ```
//!
//! A [`Recovery`] takes [`Event`]s and returns [`Answer`]s or [`Refusal`]s:
//!
//! ```
//! use quic_recovery::{Answer, Event, Instant, Recovery, RecoveryConfig, SpaceId};
//!
//! let (space, now) = (SpaceId::Data, Instant::from_nanos(1));
//! let mut recovery = Recovery::new(&RecoveryConfig::default(), now)?;
//! let (size, ack_eliciting, largest_acked, queue) = (1200, true, None, &[7, 8]);
//! let sent = recovery.apply(Event::Send { space, now, size, ack_eliciting, largest_acked, queue })?;
//! assert_eq!(sent, Answer::Sent { number: 0, forgotten: None });
//! recovery.apply(Event::Lost { space, number: 0 })?;
//! // what a lost packet carried is to be sent again (RFC 9000, 13.3)
//! assert_eq!(recovery.apply(Event::TakePending { space })?, Answer::Queue(vec![7, 8]));
//! # Ok::<(), Box<dyn std::error::Error>>(())
//! ```

mod config;
mod event;
// only programs in C need some of these numbers and calls
#[allow(dead_code, missing_docs)]
mod ffi;
mod mtud;
mod pacing;
#[cfg(feature = "qlog")]
mod qlog;
mod recovery;
mod sender;
mod timer;
mod types;

pub use config::{
    ConfigError, Congestion, CubicConfig, MtuDiscoveryConfig, NewRenoConfig, RecoveryConfig, Skips,
    TransportConfig,
};
pub use event::{Answer, EcnFault, Event, Refusal};
pub use mtud::{InvalidArgument, MtuDiscovery};
pub use pacing::Pacer;
#[cfg(feature = "qlog")]
pub use qlog::Qlog;
pub use recovery::{IdStats, PacerStats, PathStats, Recovery, RttEstimate, SpaceStats};
pub use sender::{
    Ack, Acknowledged, EcnOutcome, Losses, MtuProbe, Packets, Retransmitted, Sender, SenderError,
    Sent, Side, Timeout, TimerState, Transmission,
};
pub use timer::Timer;
pub use types::{
    AckFrequency, CidTooLong, ConnectionId, EcnCounts, Instant, IssuedCid, NewConnectionId,
    PathMarks, PathName, ResetToken, SendableFrames, SpaceId, VarInt,
};

/// This crate's version, and the version of the logic with which the library was proved.
pub const VERSION: &str = concat!(
    "quic-recovery ",
    env!("CARGO_PKG_VERSION"),
    ", ",
    env!("QUIC_RECOVERY_PROVED")
);
