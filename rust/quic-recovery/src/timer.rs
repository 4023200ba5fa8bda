//! Timers, and their names. `tests/rust.py --write` writes them from the sources of the library, and its tests
//! compare them.
use crate::ffi;

/// The timers of a connection.
#[derive(Clone, Copy, Debug, PartialEq, Eq, PartialOrd, Ord, Hash)]
#[repr(u8)]
pub enum Timer {
    /// When to declare packets lost or to send a probe (RFC 9002, 6.2 and A.8).
    LossDetection = ffi::TIMER_LOSS_DETECTION,
    /// When to close the connection because it is idle (RFC 9000, 10.1).
    Idle = ffi::TIMER_IDLE,
    /// When a closing or draining connection ends (RFC 9000, 10.2).
    Close = ffi::TIMER_CLOSE,
    /// When keys that an update replaced are dropped (RFC 9001, 6.5).
    KeyDiscard = ffi::TIMER_KEY_DISCARD,
    /// When the validation of a new path has failed (RFC 9000, 8.2.4).
    PathValidation = ffi::TIMER_PATH_VALIDATION,
    /// When to send a PING against the idle timeout (RFC 9000, 10.1.2).
    KeepAlive = ffi::TIMER_KEEP_ALIVE,
    /// When the pacer lets the next packet pass (RFC 9002, 7.7).
    Pacing = ffi::TIMER_PACING,
    /// When to issue new connection IDs (RFC 9000, 5.1.1).
    PushNewCid = ffi::TIMER_PUSH_NEW_CID,
    /// When to send a delayed ACK (RFC 9000, 13.2.1).
    MaxAckDelay = ffi::TIMER_MAX_ACK_DELAY,
}

impl Timer {
    /// All timers, in the order of the enum.
    pub const VALUES: [Timer; 9] = [
        Timer::LossDetection,
        Timer::Idle,
        Timer::Close,
        Timer::KeyDiscard,
        Timer::PathValidation,
        Timer::KeepAlive,
        Timer::Pacing,
        Timer::PushNewCid,
        Timer::MaxAckDelay,
    ];

    /// Returns the timer's name in scripts and logs: small letters with hyphens.
    pub fn name(self) -> &'static str {
        match self {
            Timer::LossDetection => "loss-detection",
            Timer::Idle => "idle",
            Timer::Close => "close",
            Timer::KeyDiscard => "key-discard",
            Timer::PathValidation => "path-validation",
            Timer::KeepAlive => "keep-alive",
            Timer::Pacing => "pacing",
            Timer::PushNewCid => "push-new-cid",
            Timer::MaxAckDelay => "max-ack-delay",
        }
    }

    /// Returns the timer with this name, or `None` if none has it.
    pub fn named(name: &str) -> Option<Self> {
        Timer::VALUES.into_iter().find(|it| it.name() == name)
    }
}
