//! Numbers, names and frames.
use crate::ffi;
use std::error::Error;
use std::fmt;
use std::ops::{Add, AddAssign, Deref, Sub};
use std::time::Duration;

/// A packet number space (RFC 9000, 12.3).
#[derive(Clone, Copy, Debug, PartialEq, Eq, PartialOrd, Ord, Hash)]
#[repr(u8)]
pub enum SpaceId {
    /// The space of Initial packets.
    Initial = ffi::SPACE_INITIAL,
    /// The space of Handshake packets.
    Handshake = ffi::SPACE_HANDSHAKE,
    /// The space of 0-RTT and 1-RTT packets.
    Data = ffi::SPACE_DATA,
}

impl SpaceId {
    /// All spaces.
    pub const VALUES: [SpaceId; 3] = [SpaceId::Initial, SpaceId::Handshake, SpaceId::Data];
}

impl fmt::Display for SpaceId {
    fn fmt(&self, f: &mut fmt::Formatter<'_>) -> fmt::Result {
        f.pad(match self {
            SpaceId::Initial => "Initial",
            SpaceId::Handshake => "Handshake",
            SpaceId::Data => "Data",
        })
    }
}

/// A path of a connection, by its name (RFC 9000, 9).
#[derive(Clone, Copy, Debug, PartialEq, Eq, PartialOrd, Ord, Hash)]
pub enum PathName {
    /// The path in use.
    Current,
    /// The path in use before it, until it is dropped.
    Previous,
}

/// A time: nanoseconds since a start that the caller chooses.
///
/// ```
/// # use quic_recovery::*;
/// # use std::time::Duration;
/// // the times of a stack, from a start of its own; it is above 0, since a packet that is sent at 0 does not change the
/// // congestion window
/// let start = std::time::Instant::now();
/// let now = |it: std::time::Instant| Instant::from_nanos(1) + (it - start);
/// let later = now(start + Duration::from_millis(5));
/// assert_eq!(later, Instant::from_nanos(5_000_001));
/// // how long to wait for a timer that is due at 7 ms
/// assert_eq!(Instant::from_nanos(7_000_001) - later, Duration::from_millis(2));
/// # Ok::<(), Box<dyn std::error::Error>>(())
/// ```
#[derive(Clone, Copy, Debug, PartialEq, Eq, PartialOrd, Ord, Hash)]
pub struct Instant(u64);

impl Instant {
    /// Returns the time this many nanoseconds after the start.
    pub const fn from_nanos(nanos: u64) -> Self {
        Instant(nanos)
    }

    /// Returns the nanoseconds since the start.
    pub const fn as_nanos(self) -> u64 {
        self.0
    }

    /// Returns a later time, at most the last one of the clock.
    pub fn saturating_add(self, span: Duration) -> Self {
        let nanos = u64::try_from(span.as_nanos()).unwrap_or(u64::MAX);
        Instant(self.0.saturating_add(nanos))
    }

    /// Returns the duration since an earlier time, or zero if that is later.
    pub fn saturating_duration_since(self, earlier: Instant) -> Duration {
        Duration::from_nanos(self.0.saturating_sub(earlier.0))
    }
}

/// As [`Instant::saturating_add`]: a sum never panics.
impl Add<Duration> for Instant {
    type Output = Instant;

    fn add(self, span: Duration) -> Instant {
        self.saturating_add(span)
    }
}

/// As [`Instant::saturating_add`].
impl AddAssign<Duration> for Instant {
    fn add_assign(&mut self, span: Duration) {
        *self = *self + span;
    }
}

/// As [`Instant::saturating_duration_since`].
impl Sub for Instant {
    type Output = Duration;

    fn sub(self, earlier: Instant) -> Duration {
        self.saturating_duration_since(earlier)
    }
}

/// A number below 2^62 (RFC 9000, 16).
#[derive(Clone, Copy, Debug, Default, PartialEq, Eq, PartialOrd, Ord, Hash)]
pub struct VarInt(u64);

impl VarInt {
    /// Returns the number, or `None` if it is 2^62 or more.
    pub const fn from_u64(number: u64) -> Option<Self> {
        if number < 1 << 62 {
            Some(VarInt(number))
        } else {
            None
        }
    }

    /// Returns the number.
    pub const fn into_inner(self) -> u64 {
        self.0
    }
}

impl From<u32> for VarInt {
    fn from(number: u32) -> Self {
        VarInt(u64::from(number))
    }
}

/// A connection ID of 0 to 20 bytes (RFC 9000, 5.1).
#[derive(Clone, Copy, Debug, PartialEq, Eq, Hash)]
pub struct ConnectionId {
    len: u8,
    bytes: [u8; 20],
}

impl ConnectionId {
    /// Returns the ID, or `None` if there are more than 20 bytes.
    pub fn new(bytes: &[u8]) -> Option<Self> {
        let mut padded = [0; 20];
        padded.get_mut(..bytes.len())?.copy_from_slice(bytes);
        Some(ConnectionId {
            len: u8::try_from(bytes.len()).ok()?,
            bytes: padded,
        })
    }
}

/// A connection ID has at most 20 bytes (RFC 9000, 17.2).
#[derive(Clone, Copy, Debug, PartialEq, Eq)]
pub struct CidTooLong;

impl fmt::Display for CidTooLong {
    fn fmt(&self, f: &mut fmt::Formatter<'_>) -> fmt::Result {
        f.write_str("a connection ID has more than 20 bytes")
    }
}

impl Error for CidTooLong {}

impl TryFrom<&[u8]> for ConnectionId {
    type Error = CidTooLong;

    fn try_from(bytes: &[u8]) -> Result<Self, CidTooLong> {
        ConnectionId::new(bytes).ok_or(CidTooLong)
    }
}

/// Writes hexadecimal digits, two per byte.
impl fmt::Display for ConnectionId {
    fn fmt(&self, f: &mut fmt::Formatter<'_>) -> fmt::Result {
        self.iter().try_for_each(|byte| write!(f, "{byte:02x}"))
    }
}

impl From<[u8; 8]> for ConnectionId {
    fn from(given: [u8; 8]) -> Self {
        let mut bytes = [0; 20];
        bytes[..8].copy_from_slice(&given);
        ConnectionId { len: 8, bytes }
    }
}

impl Deref for ConnectionId {
    type Target = [u8];

    fn deref(&self) -> &[u8] {
        self.bytes.get(..usize::from(self.len)).unwrap_or(&[])
    }
}

/// A stateless reset token (RFC 9000, 10.3).
#[derive(Clone, Copy, Debug, PartialEq, Eq, Hash)]
pub struct ResetToken([u8; 16]);

impl ResetToken {
    /// Returns its bytes.
    pub fn bytes(&self) -> &[u8; 16] {
        &self.0
    }
}

impl From<[u8; 16]> for ResetToken {
    fn from(bytes: [u8; 16]) -> Self {
        ResetToken(bytes)
    }
}

/// An ACK_FREQUENCY frame (draft-ietf-quic-ack-frequency-04, section 4).
#[derive(Clone, Copy, Debug, PartialEq, Eq)]
pub struct AckFrequency {
    /// Its sequence number.
    pub sequence: VarInt,
    /// How many ack-eliciting packets may be received without an ACK.
    pub ack_eliciting_threshold: VarInt,
    /// The max_ack_delay that it requests, in microseconds.
    pub request_max_ack_delay: VarInt,
    /// The reordering threshold for an immediate ACK.
    pub reordering_threshold: VarInt,
}

/// The ECN counts of an ACK frame (RFC 9000, 19.3.2).
#[derive(Clone, Copy, Debug, Default, PartialEq, Eq)]
pub struct EcnCounts {
    /// Packets received with ECT(0).
    pub ect0: u64,
    /// Packets received with ECT(1).
    pub ect1: u64,
    /// Packets received with ECN-CE.
    pub ce: u64,
}

/// A NEW_CONNECTION_ID frame of the peer (RFC 9000, 19.15).
#[derive(Clone, Copy, Debug, PartialEq, Eq)]
pub struct NewConnectionId {
    /// The sequence number of the connection ID.
    pub sequence: u64,
    /// Connection IDs with smaller sequence numbers are to be retired.
    pub retire_prior_to: u64,
    /// The connection ID.
    pub id: ConnectionId,
    /// The token with which the peer resets a connection that uses the ID.
    pub reset_token: ResetToken,
}

/// A connection ID that the local endpoint issues (RFC 9000, 19.15).
#[derive(Clone, Copy, Debug, PartialEq, Eq)]
#[repr(transparent)]
pub struct IssuedCid(pub(crate) ffi::Id);

impl IssuedCid {
    /// Returns the ID with this sequence number, and the token with which the local endpoint resets a connection that
    /// uses it.
    pub fn new(sequence: u64, id: ConnectionId, reset_token: ResetToken) -> Self {
        IssuedCid(ffi::Id {
            sequence,
            bytes: id.bytes,
            token: reset_token.0,
            len: id.len,
        })
    }

    /// Returns its sequence number.
    pub fn sequence(&self) -> u64 {
        self.0.sequence
    }
}

/// What can be sent.
#[derive(Clone, Copy, Debug, PartialEq, Eq)]
pub struct SendableFrames {
    /// Whether an ACK is required, and some packet number is to be acknowledged (RFC 9000, 13.2).
    pub acks: bool,
    /// Whether there is something else: a retransmission, a PING, or a request for an immediate ACK.
    pub other: bool,
}

/// The caller's marks of a path. No event changes them.
#[derive(Clone, Copy, Debug, PartialEq, Eq)]
pub struct PathMarks {
    /// Whether packets are marked on the path (RFC 9000, 13.4).
    pub sending_ecn: bool,
    /// The data of its PATH_CHALLENGE frame, if one was sent (RFC 9000, 8.2.1).
    pub challenge: Option<u64>,
    /// Whether a PATH_CHALLENGE frame is to be sent.
    pub challenge_pending: bool,
    /// The space and number of the first packet that was sent after an RTT sample (RFC 9002, 7.6.2).
    pub first_packet_after_rtt_sample: Option<(SpaceId, u64)>,
}

impl Default for PathMarks {
    /// Returns the marks of a new path: no challenge, and packets are marked.
    fn default() -> Self {
        PathMarks {
            sending_ecn: true,
            challenge: None,
            challenge_pending: false,
            first_packet_after_rtt_sample: None,
        }
    }
}
