//! The declarations of the proved library. `tests/rust.py --write` writes them from its sources, and its tests
//! compare them.

/// The packet is new.
pub const ANSWER_NEW: u8 = 0;
/// The packet is a duplicate, or so old that it may be one: drop it.
pub const ANSWER_DUPLICATE: u8 = 1;
/// The packet is sent.
pub const ANSWER_SENT: u8 = 2;
/// The packet is acknowledged, and no longer tracked.
pub const ANSWER_ACKED: u8 = 3;
/// The packet is lost, and no longer tracked.
pub const ANSWER_LOST: u8 = 4;
/// Which of the peer's connection IDs to retire.
pub const ANSWER_RETIRE: u8 = 5;
/// Yes or no, as the event asks.
pub const ANSWER_FLAG: u8 = 6;
/// The earliest running timer, if any.
pub const ANSWER_TIMEOUT: u8 = 7;
/// What is in flight on a path.
pub const ANSWER_IN_FLIGHT: u8 = 8;
/// The datagram is transmitted.
pub const ANSWER_TRANSMITTED: u8 = 9;
/// The datagram is not transmitted, by the amplification limit.
pub const ANSWER_BLOCKED: u8 = 10;
/// The pacer delays the bytes.
pub const ANSWER_DELAYED: u8 = 11;
/// The pacer permits the bytes now.
pub const ANSWER_READY: u8 = 12;
/// An MTU probe of the path is sent.
pub const ANSWER_PROBE: u8 = 13;
/// No MTU probe of the path is due.
pub const ANSWER_NO_PROBE: u8 = 14;
/// Whether a black hole was reported.
pub const ANSWER_BLACK_HOLE: u8 = 15;
/// What can be sent.
pub const ANSWER_SENDABLE: u8 = 16;
/// A retransmission queue.
pub const ANSWER_QUEUE: u8 = 17;
/// The event has no other answer.
pub const ANSWER_DONE: u8 = 18;
/// The window has no room for a sender's datagram. The answers of senders alone are above those of events, so that
/// new answers of events do not move them.
pub const ANSWER_FULL: u8 = 128;
/// A sender processed an ACK frame.
pub const ANSWER_ACKNOWLEDGED: u8 = 129;
/// No timer of the sender is due.
pub const ANSWER_NOTHING: u8 = 130;
/// Packets were declared lost, if any. For a timeout, `first` is their space.
pub const ANSWER_LOSSES: u8 = 131;
/// Probes are due.
pub const ANSWER_PROBES: u8 = 132;
/// The caller has too little room for what an ACK frame results in: nothing is done.
pub const ANSWER_NEEDS_ROOM: u8 = 133;
/// The call fails. The number is far from the answers, so that new ones do not move it.
pub const ANSWER_REFUSED: u8 = 255;

/// An allocation failed.
pub const REFUSAL_NO_MEMORY: u8 = 1;
/// A packet number is 2^62 or more (RFC 9000, 12.3).
pub const REFUSAL_NUMBER_TOO_LARGE: u8 = 2;
/// The space has assigned all packet numbers below 2^62 (RFC 9000, 12.3).
pub const REFUSAL_NUMBERS_EXHAUSTED: u8 = 3;
/// The packet is not tracked: it was never sent, or it was acknowledged, lost or forgotten.
pub const REFUSAL_NOT_TRACKED: u8 = 4;
/// The keys of the space were dropped (RFC 9001, 4.9).
pub const REFUSAL_SPACE_DISCARDED: u8 = 5;
/// There is no such path.
pub const REFUSAL_NO_SUCH_PATH: u8 = 6;
/// An MTU search runs on the current path (RFC 8899, 5), or, for an MTU found elsewhere, discovery is enabled.
pub const REFUSAL_SEARCHING: u8 = 7;
/// A size is zero bytes.
pub const REFUSAL_ZERO_MTU: u8 = 8;
/// A counter would exceed the maximum of its type.
pub const REFUSAL_OVERFLOW: u8 = 9;
/// The peer's ID number is below the active one (RFC 9000, 19.15).
pub const REFUSAL_RETIRED: u8 = 10;
/// The peer's ID number exceeds those that can be held (RFC 9000, 5.1.1).
pub const REFUSAL_EXCEEDS_LIMIT: u8 = 11;
/// The frame's retire-prior-to exceeds its own number (RFC 9000, 19.15).
pub const REFUSAL_BAD_RETIRE_PRIOR_TO: u8 = 12;
/// The local endpoint uses zero-length IDs, which cannot be retired (RFC 9000, 19.16).
pub const REFUSAL_CIDS_NOT_IN_USE: u8 = 13;
/// The ID number was not issued (RFC 9000, 19.16).
pub const REFUSAL_UNISSUED_CID: u8 = 14;
/// An ACK_FREQUENCY frame asks for a delay below 1 ms (draft-ietf-quic-ack-frequency-04, section 4). The number of
/// the frame is stored.
pub const REFUSAL_DELAY_TOO_SMALL: u8 = 15;
/// A skipped number, which was never sent, was acknowledged (RFC 9000, 21.4).
pub const REFUSAL_SKIPPED_ACKED: u8 = 16;
/// The peer's ECN counts fail the check of RFC 9000, 13.4.2.1: the text has the reason.
pub const REFUSAL_ECN: u8 = 17;
/// The initial ID is no longer the active one (RFC 9000, 7.2).
pub const REFUSAL_NOT_INITIAL_ID: u8 = 18;
/// Numbers do not continue from the expected one, or a range ends before it begins.
pub const REFUSAL_BAD_RANGE: u8 = 19;
/// The peer's ID number is held with another ID, or with another token (RFC 9000, 19.15).
pub const REFUSAL_CONFLICT: u8 = 20;
/// A number was acknowledged that was never sent (RFC 9000, 13.1): of a sender alone. The errors of senders are
/// above those of events, so that new errors of events do not meet them.
pub const REFUSAL_UNSENT: u8 = 128;
/// The space of 1-RTT packets is never discarded (RFC 9001, 4.9): of a sender alone.
pub const REFUSAL_DATA_SPACE: u8 = 129;
/// Only the sender itself makes this event; a caller cannot.
pub const REFUSAL_DECIDED: u8 = 252;
/// The handle holds a bare recovery, without a sender.
pub const REFUSAL_NO_SENDER: u8 = 253;
/// The handle holds no recovery.
pub const REFUSAL_NO_RECOVERY: u8 = 254;
/// An argument is out of range. A space or timer does not exist, a connection ID has more than 20 bytes, a number of
/// a frame is 2^62 or more, or nanoseconds are 10^9 or more.
pub const REFUSAL_BAD_ARGUMENT: u8 = 255;

/// The count of ECT(0) decreased.
pub const FAULT_ECT0_FALLS: u64 = 0;
/// The count of ECT(1) decreased.
pub const FAULT_ECT1_FALLS: u64 = 1;
/// The count of ECN-CE decreased.
pub const FAULT_CE_FALLS: u64 = 2;
/// The three counts increased by less than the newly acknowledged packets.
pub const FAULT_BLEACHED: u64 = 3;
/// ECT(0) and ECN-CE increased by less than the newly acknowledged packets, or ECT(1) increased.
pub const FAULT_CORRUPTED: u64 = 4;

/// No congestion. If the frame newly acknowledges packets and has no ECN counts, packets are no longer marked on the
/// path.
pub const ECN_QUIET: u8 = 0;
/// More packets were marked with CE: congestion (RFC 9002, 7.1).
pub const ECN_MARKED: u8 = 1;
/// Validation failed: packets are no longer marked on the path.
pub const ECN_FAILED: u8 = 2;

/// Nothing: no ack-eliciting packet is in flight that is probed for, or there is no sender.
pub const AWAITS_NOTHING: u8 = 0;
/// The time at which packets of a space may be lost.
pub const AWAITS_LOSSES: u8 = 1;
/// The probe timeout of a space.
pub const AWAITS_PROBES: u8 = 2;
/// The probe timeout that ends a deadlock of the handshake (RFC 9002, 6.2.2.1).
pub const AWAITS_DEADLOCK_PROBE: u8 = 3;
/// The next datagram from the peer: the amplification limit permits no 1200 bytes (RFC 9000, 8.1).
pub const AWAITS_PEER: u8 = 4;
/// The confirmation of the handshake: only 1-RTT packets are in flight (RFC 9002, 6.2.1).
pub const AWAITS_CONFIRMATION: u8 = 5;

/// A recovery was made.
pub const NEW_MADE: u8 = 0;
/// Allocation failed.
pub const NEW_NO_MEMORY: u8 = 1;
/// The handle holds a recovery already.
pub const NEW_HELD: u8 = 2;
/// The peer's connection ID has more than 20 bytes.
pub const NEW_CID_TOO_LONG: u8 = 3;
/// More than 2^62 connection IDs were issued at the start.
pub const NEW_TOO_MANY_ISSUED: u8 = 4;
/// The first skip is 64 or more.
pub const NEW_SKIP_TOO_LARGE: u8 = 5;
/// An MTU is zero.
pub const NEW_ZERO_MTU: u8 = 6;
/// The initial window is zero.
pub const NEW_ZERO_WINDOW: u8 = 7;
/// The denominator of the loss reduction factor, or of the time threshold, is zero.
pub const NEW_ZERO_DENOMINATOR: u8 = 8;
/// The controller does not exist.
pub const NEW_UNKNOWN_CONTROLLER: u8 = 9;
/// The kind of skips does not exist.
pub const NEW_UNKNOWN_SKIPS: u8 = 10;

/// NewReno (RFC 9002, 7).
pub const CONTROLLER_NEW_RENO: u8 = 0;
/// A fixed window: always the initial one.
pub const CONTROLLER_FIXED: u8 = 1;
/// CUBIC (RFC 9438).
pub const CONTROLLER_CUBIC: u8 = 2;

/// No number is skipped.
pub const SKIPS_DISABLED: u8 = 0;
/// Skips are drawn with the seed.
pub const SKIPS_DRAWN: u8 = 1;
/// The first skip is given, and the following ones are drawn with the seed.
pub const SKIPS_STARTING: u8 = 2;

/// Initial packets.
pub const SPACE_INITIAL: u8 = 0;
/// Handshake packets.
pub const SPACE_HANDSHAKE: u8 = 1;
/// 0-RTT and 1-RTT packets.
pub const SPACE_DATA: u8 = 2;

/// When to declare packets lost or to send a probe (RFC 9002, 6.2 and A.8).
pub const TIMER_LOSS_DETECTION: u8 = 0;
/// When to close the connection because it is idle (RFC 9000, 10.1).
pub const TIMER_IDLE: u8 = 1;
/// When a closing or draining connection ends (RFC 9000, 10.2).
pub const TIMER_CLOSE: u8 = 2;
/// When keys that an update replaced are dropped (RFC 9001, 6.5).
pub const TIMER_KEY_DISCARD: u8 = 3;
/// When the validation of a new path has failed (RFC 9000, 8.2.4).
pub const TIMER_PATH_VALIDATION: u8 = 4;
/// When to send a PING against the idle timeout (RFC 9000, 10.1.2).
pub const TIMER_KEEP_ALIVE: u8 = 5;
/// When the pacer lets the next packet pass (RFC 9002, 7.7).
pub const TIMER_PACING: u8 = 6;
/// When to issue new connection IDs (RFC 9000, 5.1.1).
pub const TIMER_PUSH_NEW_CID: u8 = 7;
/// When to send a delayed ACK (RFC 9000, 13.2.1).
pub const TIMER_MAX_ACK_DELAY: u8 = 8;

/// An address and a port.
#[repr(C)]
#[derive(Clone, Copy, Debug, PartialEq, Eq)]
pub struct Address {
    /// The octets of an IPv6 address; for an IPv4 address, the first four.
    pub octets: [u8; 16],
    /// The flow information of an IPv6 address.
    pub flowinfo: u32,
    /// The scope of an IPv6 address.
    pub scope_id: u32,
    /// The port.
    pub port: u16,
    /// Whether it is an IPv6 address.
    pub v6: bool,
}

/// A connection ID that the local endpoint issues (RFC 9000, 19.15).
#[repr(C)]
#[derive(Clone, Copy, Debug, PartialEq, Eq)]
pub struct Id {
    /// Its sequence number.
    pub sequence: u64,
    /// Its bytes, of which the first `len` count.
    pub bytes: [u8; 20],
    /// Its stateless reset token.
    pub token: [u8; 16],
    /// How many bytes it has, at most 20.
    pub len: u8,
}

/// The congestion window of the path in use, in bytes.
#[repr(C)]
#[derive(Clone, Copy, Debug, PartialEq, Eq)]
pub struct WindowView {
    /// How many bytes may be in flight (RFC 9002, 7); 0 if there is no recovery.
    pub window: u64,
    /// How many bytes are in flight (RFC 9002, B.2).
    pub in_flight: u64,
}

/// The round-trip time of the path in use, in nanoseconds, at most `u64::MAX`.
#[repr(C)]
#[derive(Clone, Copy, Debug, PartialEq, Eq)]
pub struct RttView {
    /// The RTT estimate: the smoothed one, or the initial one before the first sample (RFC 9002, 5.3); 0 if there is no
    /// recovery.
    pub rtt: u64,
    /// The probe timeout without the peer's max_ack_delay (RFC 9002, 6.2.1).
    pub pto_base: u64,
}

/// The tracked packets of a packet number space.
#[repr(C)]
#[derive(Clone, Copy, Debug, PartialEq, Eq)]
pub struct TrackedView {
    /// How many packets; 0 if there is no such space, or if it is discarded.
    pub packets: u64,
    /// When a sender declares the next of them lost by its age, in nanoseconds (RFC 9002, 6.1.2 and A.3); 0 if there is
    /// no such time.
    pub loss_time: u64,
    /// Whether there is such a time.
    pub has_loss_time: bool,
}

/// A packet number, if there is one.
#[repr(C)]
#[derive(Clone, Copy, Debug, PartialEq, Eq)]
pub struct NumberView {
    /// The number; 0 if there is none.
    pub number: u64,
    /// Whether there is one.
    pub is_some: bool,
}

/// The handle of a recovery. It begins as all zeros, which holds none; from then on only the library changes it.
#[repr(C)]
pub struct Handle {
    pub ptr: *mut u8,
    pub holds: bool,
}

/// The caller's marks of a path, except its PATH_RESPONSE frames.
#[repr(C)]
#[derive(Clone, Copy, Debug, PartialEq, Eq)]
pub struct Marks {
    /// The data of its PATH_CHALLENGE frame, if one was sent (RFC 9000, 8.2.1).
    pub challenge: u64,
    /// The number of the first packet that was sent after an RTT sample (RFC 9002, 7.6.2), if any.
    pub first_number: u64,
    /// The space of that packet.
    pub first_space: u8,
    /// Whether a PATH_CHALLENGE frame was sent.
    pub has_challenge: bool,
    /// Whether a packet was sent after an RTT sample.
    pub has_first: bool,
    /// Whether a PATH_CHALLENGE frame is to be sent.
    pub challenge_pending: bool,
    /// Whether packets are marked on the path (RFC 9000, 13.4).
    pub sending_ecn: bool,
    /// Whether there is such a path; if not, all else is 0. Ignored if marks are set.
    pub lives: bool,
}

/// The state of an MTU discovery.
#[repr(C)]
#[derive(Clone, Copy, Debug, PartialEq, Eq)]
pub struct MtuView {
    /// The number of the probe in flight, if any; otherwise 0.
    pub probe: u64,
    /// The MTU in use, in bytes.
    pub mtu: u16,
    /// Whether a probe is in flight.
    pub probes: bool,
    /// Whether a search is running.
    pub searches: bool,
    /// Whether the handle holds a discovery; if not, all else is 0.
    pub some: bool,
}

/// The handle of an MTU discovery. It begins as all zeros, which holds none; from then on only the library changes it.
#[repr(C)]
pub struct MtuHandle {
    pub ptr: *mut u8,
    pub holds: bool,
}

/// A bucket of tokens, one per byte. All zeros is no bucket, and an error.
#[repr(C)]
#[derive(Clone, Copy, Debug, PartialEq, Eq)]
pub struct Bucket {
    /// The most bytes that it holds.
    pub capacity: u64,
    /// The congestion window, in bytes, for which the capacity was computed.
    pub window: u64,
    /// The bytes in it.
    pub tokens: u64,
    /// When it was last refilled, or made, in nanoseconds.
    pub last: u64,
    /// The MTU, in bytes, for which the capacity was computed.
    pub mtu: u16,
}

/// The fields of an ACK frame, except its ranges, and what the caller knows at its arrival.
#[repr(C)]
#[derive(Clone, Copy, Debug, PartialEq, Eq)]
pub struct AckFrame {
    /// The ACK delay that the peer reports, in whole seconds.
    pub delay_secs: u64,
    /// The count of ECT(0), if the frame has counts (RFC 9000, 19.3.2).
    pub ect0: u64,
    /// The count of ECT(1).
    pub ect1: u64,
    /// The count of ECN-CE.
    pub ce: u64,
    /// If `is_limited`: how many words of `recovery_ffi_told_packets` the caller has room for.
    pub packets_room: u64,
    /// If `is_limited`: how many lost numbers of `recovery_ffi_told_numbers` it has room for.
    pub lost_room: u64,
    /// If `has_received`: when the frame was received, in nanoseconds. A later time than that of the call counts as
    /// that.
    pub received: u64,
    /// The rest of the ACK delay in nanoseconds, below 10^9.
    pub delay_nanos: u32,
    /// Whether the frame has ECN counts.
    pub has_ecn: bool,
    /// Whether the sender had too little to send to fill its window (RFC 9002, 7.8).
    pub app_limited: bool,
    /// Whether the frame is processed only if the caller has room for all that it may read of the outcome. If not, the
    /// caller may read the outcome later.
    pub is_limited: bool,
    /// Whether the frame was received earlier than it is processed (RFC 9002, 5.3).
    pub has_received: bool,
}

/// A range of numbers that an ACK frame acknowledges (RFC 9000, 19.3.1).
#[repr(C)]
#[derive(Clone, Copy, Debug, PartialEq, Eq)]
pub struct AckRange {
    /// The first number.
    pub first: u64,
    /// The last number.
    pub last: u64,
}

/// The last outcome: of an ACK frame, of a timeout that made a loss detection pass, or of a space whose packets were
/// all declared lost.
#[repr(C)]
#[derive(Clone, Copy, Debug, PartialEq, Eq)]
pub struct OutcomeView {
    /// How many numbers the frame newly acknowledged; else 0.
    pub acked: u64,
    /// How many numbers were declared lost, without that of the MTU probe.
    pub lost: u64,
    /// The number of the MTU probe, if it was lost: this does not indicate congestion (RFC 9000, 14.4).
    pub probe: u64,
    /// The bytes lost on the path in use, if there was congestion (RFC 9002, 7.3.2).
    pub congestion: u64,
    /// The outcome of the frame's ECN counts (RFC 9000, 13.4.2.1).
    pub ecn: u8,
    /// Whether the MTU probe was lost.
    pub has_probe: bool,
    /// Whether there was congestion.
    pub has_congestion: bool,
    /// Whether it is persistent (RFC 9002, 7.6).
    pub is_persistent: bool,
    /// Whether a black hole was reported (RFC 8899, 4.3).
    pub is_black_hole: bool,
    /// Whether allocation failed for a lost packet, which is then still tracked: the next timeout, or the same call for
    /// the space, declares it lost.
    pub is_cut: bool,
}

/// The settings of a recovery: times are in nanoseconds, and sizes in bytes.
#[repr(C)]
#[derive(Clone, Copy, Debug, PartialEq, Eq)]
pub struct Settings {
    /// The local max_ack_delay (RFC 9000, 18.2).
    pub max_ack_delay: u64,
    /// The lifetime of local connection IDs, if they expire.
    pub cid_lifetime: u64,
    /// How many connection IDs the local endpoint has issued, at most 2^62; memory grows with it, by 16 bytes per ID.
    pub issued: u64,
    /// The seed with which skips are drawn.
    pub seed: u64,
    /// The first number that is skipped, below 64, if it is given.
    pub first_skip: u64,
    /// The RTT before the first sample (RFC 9002, 6.2.2).
    pub initial_rtt: u64,
    /// The time from the end of an MTU search to the next one.
    pub mtu_interval: u64,
    /// The time from the report of a black hole to the next MTU search.
    pub black_hole_cooldown: u64,
    /// The initial congestion window, above zero (RFC 9002, 7.2).
    pub initial_window: u64,
    /// The numerator of the factor by which a loss reduces the window (RFC 9002, 7.3.2).
    pub loss_numerator: u64,
    /// Its denominator, above zero.
    pub loss_denominator: u64,
    /// The numerator of the time threshold, in RTTs: a sender declares a packet lost this long after it was sent, if a
    /// later one is acknowledged. A smaller fraction than 1 counts as 1 (RFC 9002, 6.1.2).
    pub time_numerator: u64,
    /// Its denominator, above zero.
    pub time_denominator: u64,
    /// The packet threshold: a sender declares a packet lost that was sent this many packets before an acknowledged
    /// one; 0 counts as 1 (RFC 9002, 6.1.1).
    pub packet_threshold: u32,
    /// How many probe timeouts persistent congestion lasts, for a sender; 0 counts as 1 (RFC 9002, 7.6.1).
    pub persistent_congestion_threshold: u32,
    /// The size of datagrams before the search, above zero.
    pub initial_mtu: u16,
    /// The datagram size that the path is known to carry, above zero.
    pub min_mtu: u16,
    /// The largest datagram size that is probed.
    pub mtu_upper_bound: u16,
    /// The smallest difference that is worth a probe.
    pub mtu_minimum_change: u16,
    /// The length of local connection IDs.
    pub cid_len: u8,
    /// Which congestion controller paths have: `CONTROLLER_NEW_RENO`, `CONTROLLER_FIXED` or
    /// `CONTROLLER_CUBIC`.
    pub controller: u8,
    /// How numbers are skipped: `SKIPS_DISABLED`, `SKIPS_DRAWN` or `SKIPS_STARTING`.
    pub skips: u8,
    /// Whether local connection IDs expire after `cid_lifetime`.
    pub ids_end: bool,
    /// Whether the peer's address is validated.
    pub validated: bool,
    /// Whether MTU discovery is allowed.
    pub allow_mtud: bool,
    /// Whether an MTU search is configured; if not, there is none.
    pub searches: bool,
}

/// The reply to an event, in numbers.
#[repr(C)]
#[derive(Clone, Copy, Debug, PartialEq, Eq)]
pub struct EncodedReply {
    /// Which answer, or that the call failed.
    pub kind: u8,
    /// The number of the error, or 0. For an ECN error, `first` is the number of the fault.
    pub refusal: u8,
    /// New: whether to start the ACK delay timer. Sent: whether a non-ack-eliciting packet was forgotten for it. Acked,
    /// lost: whether it was the path's MTU probe. Retire: whether any connection IDs are to be retired. Flag: yes or
    /// no. Timeout: whether a timer is running. Black hole: whether one was reported. Sendable: whether an ACK is to be
    /// sent. Full, delayed by a sender: whether an ACK is required in the space. Acknowledged: whether the outcome has
    /// more than the two counts. Otherwise false.
    pub flag: bool,
    /// Sendable: whether there is something else to send. Otherwise false.
    pub other: bool,
    /// Probe: its size in bytes. Otherwise 0.
    pub size: u16,
    /// Sent, probe: the packet number. Retire: the first sequence number. Timeout, delayed: the time, in nanoseconds.
    /// In flight: the bytes. Acknowledged: how many numbers are newly acknowledged. Needs room: how many words of
    /// packets. Losses of a timeout, probes: the space. Otherwise 0.
    pub first: u64,
    /// Sent: the packet number that was forgotten. Retire: one above the last sequence number. In flight: how many
    /// packets are ack-eliciting. Acknowledged: how many numbers are lost. Needs room: how many lost numbers. Probes:
    /// how many are due. Otherwise 0.
    pub second: u64,
}

/// The purpose of a sender's loss detection timer, and the room that is left on the path in use.
#[repr(C)]
#[derive(Clone, Copy, Debug, PartialEq, Eq)]
pub struct SenderView {
    /// How many bytes more fit into the congestion window (RFC 9002, 7). Ask `recovery_ffi_sender_transmit` for what
    /// waits even if there is no room.
    pub window_room: u64,
    /// How many more bytes the amplification limit permits, if `is_limited` (RFC 9000, 8.1); else `u64::MAX`.
    pub amplification_room: u64,
    /// When the loss detection timer expires, in nanoseconds; 0 if it is not set.
    pub timer: u64,
    /// Its purpose, such as `AWAITS_LOSSES`, or why it is not set, such as `AWAITS_PEER`.
    pub awaits: u8,
    /// The space for which it is set; 0 if it is not set.
    pub space: u8,
    /// Whether the amplification limit applies to the path: its address is not validated.
    pub is_limited: bool,
}

/// The state of a path: times in nanoseconds, at most `u64::MAX`, and sizes in bytes.
#[repr(C)]
#[derive(Clone, Copy, Debug, PartialEq, Eq)]
pub struct PathView {
    /// How many bytes may be in flight (RFC 9002, 7).
    pub window: u64,
    /// The bytes in flight (RFC 9002, B.2).
    pub in_flight: u64,
    /// How many packets in flight are ack-eliciting.
    pub ack_eliciting: u64,
    /// The bytes of the datagrams transmitted.
    pub total_sent: u64,
    /// The bytes of the datagrams received.
    pub total_recvd: u64,
    /// The RTT estimate: the smoothed one, or the initial one before the first sample (RFC 9002, 5.3).
    pub rtt: u64,
    /// The larger of that estimate and the last sample, for loss detection (RFC 9002, 6.1.2).
    pub rtt_conservative: u64,
    /// The smallest sample (RFC 9002, 5.2).
    pub rtt_min: u64,
    /// The last sample, or the initial RTT before the first one (RFC 9002, 5.1).
    pub rtt_latest: u64,
    /// The mean deviation of the samples, or half of the initial RTT before the first one (RFC 9002, 5.3).
    pub rtt_variance: u64,
    /// The probe timeout without the peer's max_ack_delay (RFC 9002, 6.2.1).
    pub pto_base: u64,
    /// The most bytes that the pacer's bucket holds (RFC 9002, 7.7).
    pub pacer_capacity: u64,
    /// The bytes in that bucket after the last datagram or check, without those of the time since.
    pub pacer_tokens: u64,
    /// The slow start threshold, if any: `u64::MAX` before the first loss (RFC 9002, 7.3.1).
    pub ssthresh: u64,
    /// The MTU in use (RFC 9000, 14.3).
    pub mtu: u16,
    /// Whether there is a slow start threshold: a fixed window has none.
    pub has_ssthresh: bool,
    /// Whether there is such a path; if not, all else is 0.
    pub lives: bool,
    /// Whether the peer's address is validated (RFC 9000, 8).
    pub validated: bool,
}

/// What a packet number space has to send, and which of its packet numbers are to be acknowledged.
#[repr(C)]
#[derive(Clone, Copy, Debug, PartialEq, Eq)]
pub struct SpaceView {
    /// The largest packet number received; 0 before the first.
    pub largest_received: u64,
    /// How many ranges of packet numbers are to be acknowledged.
    pub ranges: u64,
    /// The number of the next packet, unless it is skipped.
    pub next_packet_number: u64,
    /// Whether the space is not discarded; if it is, all else is 0.
    pub lives: bool,
    /// Whether an ACK is required, and some packet number is to be acknowledged.
    pub acks: bool,
    /// Whether there is something else to send.
    pub other: bool,
}

/// A range of packet numbers.
#[repr(C)]
#[derive(Clone, Copy, Debug, PartialEq, Eq)]
pub struct RangeView {
    /// The first number.
    pub start: u64,
    /// One above the last number.
    pub end: u64,
    /// Whether there is such a range; if not, all else is 0.
    pub some: bool,
}

/// A time or a duration, if there is one.
#[repr(C)]
#[derive(Clone, Copy, Debug, PartialEq, Eq)]
pub struct TimeView {
    /// In nanoseconds.
    pub nanos: u64,
    /// Whether there is one; if not, all else is 0.
    pub some: bool,
}

/// The connection IDs of both endpoints, and their max_ack_delay.
#[repr(C)]
#[derive(Clone, Copy, Debug, PartialEq, Eq)]
pub struct IdsView {
    /// The sequence number of the peer's connection ID in use.
    pub active: u64,
    /// How many connection IDs the local endpoint has issued.
    pub issued: u64,
    /// The peer is asked to retire the local connection IDs below this sequence number.
    pub retire_prior_to: u64,
    /// The local max_ack_delay, in nanoseconds, at most `u64::MAX`.
    pub max_ack_delay: u64,
    /// The peer's max_ack_delay, in nanoseconds, at most `u64::MAX`.
    pub peer_max_ack_delay: u64,
}

unsafe extern "C" {
    /// Does nothing. A library of another layout does not have it.
    #[link_name = "recovery_ffi_layout_a23a1a99"]
    pub fn recovery_ffi_layout();

    /// Makes a recovery, whose peer is at this address and has this connection ID of at most 20 bytes. Returns
    /// `NEW_MADE`, or the number of what is wrong, which leaves the handle unchanged.
    pub fn recovery_ffi_new(
        handle: *mut Handle,
        settings: *const Settings,
        remote: *const Address,
        initial_cid: *const u8,
        initial_cid_len: usize,
        now: u64,
    ) -> u8;

    /// Frees a recovery. The handle then holds none. A handle that holds none is unchanged.
    pub fn recovery_ffi_drop(handle: *mut Handle);

    /// Processes a received ACK_FREQUENCY frame: the event `AckFrequencyIn`. Its numbers are below 2^62.
    pub fn recovery_ffi_ack_frequency(
        handle: *mut Handle,
        sequence: u64,
        threshold: u64,
        micros: u64,
        reordering: u64,
    ) -> EncodedReply;

    /// Records that an ACK frame was sent (RFC 9000, 13.2.1): the event `AcksSent`.
    pub fn recovery_ffi_acks_sent(handle: *mut Handle, space: u8) -> EncodedReply;

    /// Handles the ACK delay timer: the event `AckDelayTimeout`.
    pub fn recovery_ffi_ack_delay_timeout(handle: *mut Handle, space: u8) -> EncodedReply;

    /// Returns an MTU probe to send, if one is due (RFC 9000, 14.3), and tracks it: the event `PollMtu`.
    pub fn recovery_ffi_poll_mtu(handle: *mut Handle, now: u64) -> EncodedReply;

    /// Sets the largest datagram that the peer accepts (RFC 9000, 18.2): the event `PeerLimit`.
    pub fn recovery_ffi_peer_limit(handle: *mut Handle, size: u16) -> EncodedReply;

    /// Uses an MTU that was found elsewhere, by a search of the caller's or the configuration of a tunnel, on the path in
    /// use (RFC 8899, 5; RFC 9000, 14.3): the event `MtuFound`. MTU discovery must be disabled in the settings.
    pub fn recovery_ffi_mtu_found(handle: *mut Handle, mtu: u16) -> EncodedReply;

    /// Ends the losses of packets that were lost together: the event `LossesDone`.
    pub fn recovery_ffi_losses_done(handle: *mut Handle, now: u64) -> EncodedReply;

    /// Returns the window and the bytes in flight of the path in use.
    pub fn recovery_ffi_window(handle: *mut Handle) -> WindowView;

    /// Returns how many bytes the pacer permits now on the path in use: the largest datagram that is not delayed (RFC
    /// 9002, 7.7). It is `u64::MAX` if nothing is paced, and 0 if there is no recovery.
    pub fn recovery_ffi_pacer_room(handle: *mut Handle, now: u64) -> u64;

    /// Returns the round-trip time of the path in use.
    pub fn recovery_ffi_rtt(handle: *mut Handle) -> RttView;

    /// Returns the sequence number of the peer's connection ID in use (RFC 9000, 5.1.1); 0 if there is no recovery.
    pub fn recovery_ffi_active_id(handle: *mut Handle) -> u64;

    /// Returns whether a space tracks a packet that counts in flight (RFC 9002, 2), on any path.
    pub fn recovery_ffi_has_in_flight(handle: *mut Handle, space: u8) -> bool;

    /// Returns the smallest packet number that a space tracks: all smaller ones are acknowledged, lost, forgotten or
    /// discarded. A stack may choose the length of packet numbers by it (RFC 9000, 17.1). Cost: logarithmic.
    pub fn recovery_ffi_smallest_tracked(handle: *mut Handle, space: u8) -> NumberView;

    /// Returns how many items wait for retransmission in a space: how many `recovery_ffi_take_pending` would take. It is 0
    /// if there is no such space, or if it is discarded.
    pub fn recovery_ffi_pending_items(handle: *mut Handle, space: u8) -> u64;

    /// Returns how many items `recovery_ffi_sender_probe` would take in a space: those that wait for retransmission, or
    /// else those of the first packet in flight that has any (RFC 9002, 6.2.4). It is 0 if there is no such space, or if it
    /// is discarded. Cost: logarithmic, plus the packets without items before that one.
    pub fn recovery_ffi_probe_items(handle: *mut Handle, space: u8) -> u64;

    /// Returns how many packets a space tracks, and when a sender declares the next of them lost by its age.
    pub fn recovery_ffi_tracked(handle: *mut Handle, space: u8) -> TrackedView;

    /// Processes a received NEW_CONNECTION_ID frame (RFC 9000, 19.15): the event `NewId`. The ID has at most 20 bytes.
    pub fn recovery_ffi_new_id(
        handle: *mut Handle,
        sequence: u64,
        retire_prior_to: u64,
        id: *const u8,
        id_len: usize,
        token: *const [u8; 16],
    ) -> EncodedReply;

    /// Switches to the next connection ID of the peer: the event `NextId`.
    pub fn recovery_ffi_next_id(handle: *mut Handle) -> EncodedReply;

    /// Sets the connection ID that the server chose (RFC 9000, 7.2): the event `InitialId`. It has at most 20 bytes.
    pub fn recovery_ffi_initial_id(
        handle: *mut Handle,
        id: *const u8,
        id_len: usize,
    ) -> EncodedReply;

    /// Issues connection IDs of at most 20 bytes (RFC 9000, 5.1.1): the event `IssueIds`.
    pub fn recovery_ffi_issue_ids(
        handle: *mut Handle,
        now: u64,
        given: *const Id,
        given_len: usize,
    ) -> EncodedReply;

    /// Handles the timer for new connection IDs: the event `IdTimeout`.
    pub fn recovery_ffi_id_timeout(handle: *mut Handle) -> EncodedReply;

    /// Processes a received RETIRE_CONNECTION_ID frame (RFC 9000, 19.16): the event `PeerRetired`.
    pub fn recovery_ffi_peer_retired(
        handle: *mut Handle,
        sequence: u64,
        limit: u64,
    ) -> EncodedReply;

    /// Writes the bytes of the token that was returned last: all zeros before the first, or if there is no recovery.
    pub fn recovery_ffi_token(handle: *mut Handle, out: *mut [u8; 16]);

    /// Returns whether this is the token that was returned last; false if there is no recovery.
    pub fn recovery_ffi_is_token(handle: *mut Handle, token: *const [u8; 16]) -> bool;

    /// Returns the caller's marks of a path.
    pub fn recovery_ffi_marks(handle: *mut Handle, previous: bool) -> Marks;

    /// Stores the caller's marks of a path. Returns false and changes nothing if there is no such path or no such
    /// space, or if a sender is held: a sender sets its marks itself.
    pub fn recovery_ffi_set_marks(handle: *mut Handle, previous: bool, marks: *const Marks)
        -> bool;

    /// Makes an MTU discovery from `initial_mtu`, `min_mtu`, `allow_mtud` and the settings of the search, as a path has
    /// it. The peer accepts datagrams of at most `limit` bytes, or 0 if it stated no limit. Returns `NEW_MADE`, or
    /// the number of what is wrong, which leaves the handle unchanged.
    pub fn recovery_ffi_mtu_new(mtu: *mut MtuHandle, settings: *const Settings, limit: u16) -> u8;

    /// Frees a discovery. The handle then holds none. A handle that holds none is unchanged.
    pub fn recovery_ffi_mtu_drop(mtu: *mut MtuHandle);

    /// Returns the state of the discovery.
    pub fn recovery_ffi_mtu(mtu: *mut MtuHandle) -> MtuView;

    /// Checks whether a probe is due. The reply is `ANSWER_PROBE` with its size, or `ANSWER_NO_PROBE`. The
    /// caller sends the probe as the packet of this number.
    pub fn recovery_ffi_mtu_poll(mtu: *mut MtuHandle, now: u64, number: u64) -> EncodedReply;

    /// Sets the largest datagram that the peer accepts, in bytes. An error if it is 0, or while a search is running:
    /// set the limit before the first poll.
    pub fn recovery_ffi_mtu_limit(mtu: *mut MtuHandle, size: u16) -> EncodedReply;

    /// Records that a packet of this many bytes was acknowledged (`ANSWER_ACKED`). The flag is true if it was the
    /// probe in flight, whose size is then the MTU.
    pub fn recovery_ffi_mtu_acked(mtu: *mut MtuHandle, number: u64, bytes: u16) -> EncodedReply;

    /// Records that the probe in flight was lost. Changes nothing if there is none.
    pub fn recovery_ffi_mtu_probe_lost(mtu: *mut MtuHandle) -> EncodedReply;

    /// Records that a packet other than the probe in flight was lost. Report packets that are lost together in
    /// increasing order, then call `recovery_ffi_mtu_losses_done`.
    pub fn recovery_ffi_mtu_lost(mtu: *mut MtuHandle, number: u64, bytes: u16) -> EncodedReply;

    /// Ends the losses of packets that were lost together. The flag is true if they are a black hole, which resets the
    /// MTU to the minimum.
    pub fn recovery_ffi_mtu_losses_done(mtu: *mut MtuHandle, now: u64) -> EncodedReply;

    /// Resets the discovery with these sizes; an error if one is zero. The peer's limit is unchanged.
    pub fn recovery_ffi_mtu_reset(mtu: *mut MtuHandle, size: u16, least: u16) -> EncodedReply;

    /// Returns a full bucket at time `now`, from the RTT (nanoseconds), the congestion window and the MTU (bytes). If
    /// the window or the MTU is 0, it is all zeros, which is no bucket.
    pub fn recovery_ffi_pacer(rtt: u64, window: u64, mtu: u16, now: u64) -> Bucket;

    /// Takes the tokens of a sent packet (`ANSWER_TRANSMITTED`), at most all. An error if there is no bucket.
    pub fn recovery_ffi_pacer_transmit(bucket: *mut Bucket, bytes: u16) -> EncodedReply;

    /// Checks whether this many bytes may be sent at time `now` (`ANSWER_READY`), or when to ask again
    /// (`ANSWER_DELAYED`). The RTT (nanoseconds), the MTU and the congestion window (bytes) are those of that time.
    /// An error if the window or the MTU is 0, or if there is no bucket.
    pub fn recovery_ffi_pacer_delay(
        bucket: *mut Bucket,
        rtt: u64,
        bytes: u64,
        mtu: u16,
        window: u64,
        now: u64,
    ) -> EncodedReply;

    /// Records a received packet (RFC 9000, 12.3): the event `Received`.
    pub fn recovery_ffi_received(
        handle: *mut Handle,
        space: u8,
        now: u64,
        number: u64,
        ack_eliciting: bool,
    ) -> EncodedReply;

    /// Records a sent packet with these items (RFC 9002, A.5): the event `Send`.
    pub fn recovery_ffi_send(
        handle: *mut Handle,
        space: u8,
        now: u64,
        size: u16,
        ack_eliciting: bool,
        has_largest: bool,
        largest: u64,
        items: *const u64,
        items_len: usize,
    ) -> EncodedReply;

    /// Records that a sent packet was acknowledged (RFC 9002, A.7): the event `Acked`.
    pub fn recovery_ffi_acked(
        handle: *mut Handle,
        space: u8,
        now: u64,
        number: u64,
        app_limited: bool,
    ) -> EncodedReply;

    /// Declares a sent packet lost (RFC 9002, A.10): the event `Lost`.
    pub fn recovery_ffi_lost(handle: *mut Handle, space: u8, number: u64) -> EncodedReply;

    /// Discards a space with its keys (RFC 9002, 6.4): the event `DiscardSpace`.
    pub fn recovery_ffi_discard(handle: *mut Handle, space: u8) -> EncodedReply;

    /// Returns the item count of the queue that was taken last, and writes the items if there is room for all. None
    /// before the first.
    pub fn recovery_ffi_last_items(handle: *mut Handle, out: *mut u64, out_len: usize) -> usize;

    /// Returns what is in flight on a path: the event `InFlight`.
    pub fn recovery_ffi_in_flight(handle: *mut Handle, previous: bool) -> EncodedReply;

    /// Takes an RTT sample (RFC 9002, 5): the event `Sample`. Nanoseconds are below 10^9.
    pub fn recovery_ffi_sample(
        handle: *mut Handle,
        delay_secs: u64,
        delay_nanos: u32,
        rtt_secs: u64,
        rtt_nanos: u32,
    ) -> EncodedReply;

    /// Records a received datagram on a path (RFC 9000, 8.1): the event `DatagramIn`.
    pub fn recovery_ffi_datagram_in(
        handle: *mut Handle,
        previous: bool,
        bytes: u64,
    ) -> EncodedReply;

    /// Validates the peer's address on a path (RFC 9000, 8): the event `Validated`.
    pub fn recovery_ffi_validated(handle: *mut Handle, previous: bool) -> EncodedReply;

    /// Counts a datagram on the path in use; if it is checked, only if limit and pacer permit. The event `Transmit`.
    pub fn recovery_ffi_transmit(
        handle: *mut Handle,
        now: u64,
        bytes: u16,
        checked: bool,
    ) -> EncodedReply;

    /// Checks whether the pacer permits this many bytes (RFC 9002, 7.7): the event `PacerCheck`.
    pub fn recovery_ffi_pacer_check(handle: *mut Handle, now: u64, bytes: u64) -> EncodedReply;

    /// Reports congestion on the path in use: packets were lost, or marked (RFC 9002, 7.3). The event `Congestion`.
    pub fn recovery_ffi_congestion(
        handle: *mut Handle,
        now: u64,
        sent: u64,
        persistent: bool,
        bytes: u64,
    ) -> EncodedReply;

    /// Ends the acknowledgements of one ACK frame: the event `EndAcks`.
    pub fn recovery_ffi_end_acks(
        handle: *mut Handle,
        now: u64,
        app_limited: bool,
        has_largest: bool,
        largest: u64,
    ) -> EncodedReply;

    /// Changes to another path (RFC 9000, 9.3): the event `NewPath`.
    pub fn recovery_ffi_new_path(
        handle: *mut Handle,
        now: u64,
        remote: *const Address,
        fresh: bool,
    ) -> EncodedReply;

    /// Resets the path in use (RFC 9000, 9.4): the event `ResetPath`.
    pub fn recovery_ffi_reset_path(handle: *mut Handle, now: u64) -> EncodedReply;

    /// Drops the previous path (RFC 9000, 9.3.3): the event `DropPrevious`.
    pub fn recovery_ffi_drop_previous(handle: *mut Handle) -> EncodedReply;

    /// Returns to the previous path, and drops the current one (RFC 9000, 9.3.2): the event `RevertPath`.
    pub fn recovery_ffi_revert_path(handle: *mut Handle) -> EncodedReply;

    /// Processes the ECN counts of an ACK frame (RFC 9000, 13.4.2): the event `Ecn`.
    pub fn recovery_ffi_ecn(
        handle: *mut Handle,
        space: u8,
        newly_acked: u64,
        ect0: u64,
        ect1: u64,
        ce: u64,
    ) -> EncodedReply;

    /// Checks a range of packet numbers of an ACK frame (RFC 9000, 13.1): the event `CheckAck`.
    pub fn recovery_ffi_check_ack(
        handle: *mut Handle,
        space: u8,
        low: u64,
        high: u64,
    ) -> EncodedReply;

    /// Queues the contents of a probe packet (RFC 9002, 6.2.4): the event `QueueProbe`.
    pub fn recovery_ffi_queue_probe(
        handle: *mut Handle,
        space: u8,
        immediate_ack: bool,
    ) -> EncodedReply;

    /// Takes the retransmission queue, to be read by `recovery_ffi_last_items`: the event `TakePending`.
    pub fn recovery_ffi_take_pending(handle: *mut Handle, space: u8) -> EncodedReply;

    /// Returns the state of a path.
    pub fn recovery_ffi_path(handle: *mut Handle, previous: bool) -> PathView;

    /// Returns what a space has to send. A space that does not exist is read as a discarded one.
    pub fn recovery_ffi_space(handle: *mut Handle, space: u8) -> SpaceView;

    /// Returns one of the ranges of packet numbers to be acknowledged in a space, in ascending order.
    pub fn recovery_ffi_range(handle: *mut Handle, space: u8, index: usize) -> RangeView;

    /// Returns how long ago the largest packet of a space was received, for the ACK Delay of an ACK frame (RFC 9000,
    /// 13.2.5). It is zero before the first, and none if there is no such space or it is discarded.
    pub fn recovery_ffi_ack_delay(handle: *mut Handle, space: u8, now: u64) -> TimeView;

    /// Returns when a timer expires.
    pub fn recovery_ffi_timer(handle: *mut Handle, timer: u8) -> TimeView;

    /// Returns the connection IDs of both endpoints, and their max_ack_delay.
    pub fn recovery_ffi_ids(handle: *mut Handle) -> IdsView;

    /// Returns when the oldest of the local connection IDs is to be retired (RFC 9000, 5.1.2), if they expire. Set
    /// `TIMER_PUSH_NEW_CID` to it.
    pub fn recovery_ffi_next_id_timeout(handle: *mut Handle) -> TimeView;

    /// Makes a recovery of a sender, of a client if `client`, else of a server. Its peer is at this address and has
    /// this connection ID of at most 20 bytes. A client's first path is validated, whatever the settings say (RFC 9000,
    /// 8.1). Returns `NEW_MADE`, or the number of what is wrong, which leaves the handle unchanged.
    pub fn recovery_ffi_sender_new(
        handle: *mut Handle,
        client: bool,
        settings: *const Settings,
        remote: *const Address,
        initial_cid: *const u8,
        initial_cid_len: usize,
        now: u64,
    ) -> u8;

    /// Makes a recovery of a sender whose handshake is confirmed (RFC 9001, 4.1.2 and 4.9). It calls
    /// `recovery_ffi_sender_new`, `recovery_ffi_validated`, `recovery_ffi_sender_handshake_confirmed`, and
    /// `recovery_ffi_sender_discard` for the Initial and the Handshake space. Only 1-RTT packets are then sent and
    /// probed for. The results are those of `recovery_ffi_sender_new`.
    pub fn recovery_ffi_sender_established(
        handle: *mut Handle,
        client: bool,
        settings: *const Settings,
        remote: *const Address,
        initial_cid: *const u8,
        initial_cid_len: usize,
        now: u64,
    ) -> u8;

    /// Checks whether a datagram with packets of a space may be sent now. The reply is `ANSWER_TRANSMITTED`, and
    /// the datagram is counted; `ANSWER_BLOCKED` by the amplification limit (RFC 9000, 8.1); `ANSWER_FULL`
    /// if the window has no room (RFC 9002, 7); or `ANSWER_DELAYED` by the pacer, until `first` (RFC 9002, 7.7). If
    /// nothing in it counts in flight, or a probe is due in the space, only the amplification limit is checked. Report
    /// its packets by `recovery_ffi_send` before the next datagram. If the window or the pacer holds it back, `flag` is
    /// whether an ACK is required in the space. Then send an ACK alone: ask again with `in_flight` false (RFC 9000,
    /// 13.2.1). Call it for whatever waits to be sent, also if the window is full: until the handshake is confirmed, the
    /// sender probes for an Initial or Handshake datagram that finds no room. Errors: `REFUSAL_SPACE_DISCARDED`, then
    /// `REFUSAL_OVERFLOW`.
    pub fn recovery_ffi_sender_transmit(
        handle: *mut Handle,
        now: u64,
        bytes: u16,
        space: u8,
        in_flight: bool,
    ) -> EncodedReply;

    /// Processes a received ACK frame (RFC 9002, A.7), with its ranges, the highest first, as on the wire. The reply
    /// `ANSWER_ACKNOWLEDGED` has in `first` how many packets are newly acknowledged, in `second` how many are
    /// declared lost, and in `flag` whether `recovery_ffi_last_outcome` has more than that. Read the packets by
    /// `recovery_ffi_told_numbers` and `recovery_ffi_told_packets`. Errors, which change nothing:
    /// `REFUSAL_SPACE_DISCARDED`; `REFUSAL_BAD_RANGE` if there is no range, a range ends before it begins, or
    /// two have no number between them (RFC 9000, 19.3.1); `REFUSAL_UNSENT`; `REFUSAL_SKIPPED_ACKED` (RFC
    /// 9000, 21.4); `REFUSAL_NO_MEMORY`. If the caller limits its room (`is_limited`) and has too little, the reply
    /// is `ANSWER_NEEDS_ROOM`, and nothing changes. `first` is then how many words of packets, and `second` how
    /// many lost numbers, it needs room for.
    pub fn recovery_ffi_sender_ack(
        handle: *mut Handle,
        space: u8,
        now: u64,
        frame: *const AckFrame,
        ranges: *const AckRange,
        ranges_len: usize,
    ) -> EncodedReply;

    /// Handles the loss detection timer, which may be due (RFC 9002, A.9). The reply is `ANSWER_NOTHING` if it is
    /// not. It is `ANSWER_LOSSES` after a loss detection pass over the space in `first`: read the losses by
    /// `recovery_ffi_last_outcome` and `recovery_ffi_told_numbers`. It is `ANSWER_PROBES` if probes are due in the
    /// space in `first`; `second` is how many, 1 or 2. For each, call `recovery_ffi_sender_transmit`, take its contents
    /// by `recovery_ffi_sender_probe`, and send it by `recovery_ffi_send`. The error is `REFUSAL_NO_MEMORY` if
    /// there is no room for the numbers of the packets that may be lost; then nothing has changed. A timeout that asks
    /// for probes allocates nothing.
    pub fn recovery_ffi_sender_on_timeout(handle: *mut Handle, now: u64) -> EncodedReply;

    /// Takes the contents of a probe in a space (RFC 9002, 6.2.4), to be read by `recovery_ffi_last_items`:
    /// `ANSWER_QUEUE`. They are what is queued for retransmission, or else the contents of the first packet in
    /// flight that has any. If there are no items, send a PING frame. `immediate_ack` asks for an IMMEDIATE_ACK frame
    /// in it. Errors, which change nothing: `REFUSAL_SPACE_DISCARDED`, then `REFUSAL_NO_MEMORY`.
    pub fn recovery_ffi_sender_probe(
        handle: *mut Handle,
        space: u8,
        immediate_ack: bool,
    ) -> EncodedReply;

    /// Discards a space with its keys and its tracked packets, and resets the count of probe timeouts (RFC 9002, 6.2.2,
    /// 6.4 and A.11): `ANSWER_DONE`. Errors: `REFUSAL_DATA_SPACE` for the space of 1-RTT packets, which is never
    /// discarded (RFC 9001, 4.9); `REFUSAL_SPACE_DISCARDED`.
    pub fn recovery_ffi_sender_discard(handle: *mut Handle, space: u8, now: u64) -> EncodedReply;

    /// Declares all packets of a space lost, because they will not be acknowledged: after a Retry, or if 0-RTT is
    /// rejected (RFC 9002, 6.3 and 6.4). This does not indicate congestion. Resets the count of probe timeouts. The
    /// reply is `ANSWER_LOSSES`; read the packets by `recovery_ffi_told_numbers`. If `is_cut` in
    /// `recovery_ffi_last_outcome`, allocation failed for some packets, which are still tracked: the same call
    /// continues with them. Errors, which change nothing: `REFUSAL_SPACE_DISCARDED`, `REFUSAL_NO_MEMORY`.
    pub fn recovery_ffi_sender_retransmit_all(
        handle: *mut Handle,
        space: u8,
        now: u64,
    ) -> EncodedReply;

    /// Records that Handshake keys are available (RFC 9002, A.8): `ANSWER_DONE`.
    pub fn recovery_ffi_sender_handshake_keys(handle: *mut Handle) -> EncodedReply;

    /// Records that the handshake is confirmed (RFC 9001, 4.1.2): `ANSWER_DONE`. From then on 1-RTT packets are
    /// probed for, and a client knows its address validated (RFC 9002, 6.2.1 and 6.2.2.1).
    pub fn recovery_ffi_sender_handshake_confirmed(handle: *mut Handle) -> EncodedReply;

    /// Sets the peer's max_ack_delay, for 1-RTT packets (RFC 9000, 18.2): `ANSWER_DONE`. Nanoseconds are below
    /// 10^9.
    pub fn recovery_ffi_sender_peer_delay(
        handle: *mut Handle,
        secs: u64,
        nanos: u32,
    ) -> EncodedReply;

    /// Sets the RTT that timers use before the first RTT sample of the path in use, instead of the one in the settings
    /// (RFC 9002, 6.2.2): `ANSWER_DONE`. If the RTT of the path is reset, the settings apply again. Nanoseconds are
    /// below 10^9.
    pub fn recovery_ffi_sender_initial_rtt(
        handle: *mut Handle,
        secs: u64,
        nanos: u32,
    ) -> EncodedReply;

    /// Returns the purpose of the loss detection timer, or why it is not set, and how many more bytes the window and
    /// the amplification limit permit on the path in use. All is 0 if there is no sender.
    pub fn recovery_ffi_sender_view(handle: *mut Handle) -> SenderView;

    /// Stores whether a PATH_CHALLENGE frame with this data is outstanding on the path in use (`is_open`), and whether
    /// one is to be sent (`pending`) (RFC 9000, 8.2.1): `ANSWER_DONE`. While one is outstanding, the window does
    /// not grow: an acknowledged packet may have been sent on the path before it (RFC 9000, 9.4).
    pub fn recovery_ffi_sender_challenge(
        handle: *mut Handle,
        content: u64,
        is_open: bool,
        pending: bool,
    ) -> EncodedReply;

    /// Returns the number of consecutive probe timeouts, each of which doubles the next (RFC 9002, 6.2.1); 0 if there
    /// is no sender.
    pub fn recovery_ffi_pto_count(handle: *mut Handle) -> u32;

    /// Returns the last outcome: of an ACK frame, of a timeout that made a loss detection pass, or of a space whose
    /// packets were all declared lost. It is empty before the first, and if there is no sender.
    pub fn recovery_ffi_last_outcome(handle: *mut Handle) -> OutcomeView;

    /// Returns how many packets the last outcome newly acknowledged or, with `lost`, declared lost, without the MTU
    /// probe. Writes their numbers in increasing order, if there is room for all.
    pub fn recovery_ffi_told_numbers(
        handle: *mut Handle,
        lost: bool,
        out: *mut u64,
        out_len: usize,
    ) -> usize;

    /// Returns how many words the packets take that the last outcome newly acknowledged, and writes these if there is
    /// room for all. For each packet, in increasing order: its number, its item count, and its items.
    pub fn recovery_ffi_told_packets(handle: *mut Handle, out: *mut u64, out_len: usize) -> usize;

    /// Returns the default settings: an address that is not validated, a max_ack_delay of 25 ms, and one issued
    /// connection ID of 8 bytes with a lifetime of 10 s. No skips, an RTT of 333 ms, MTUs from 1200 to 1452 bytes, and
    /// NewReno with a window of 12,000 bytes and a factor of a half. For senders, thresholds of 3 packets, 9/8 of an
    /// RTT and 3 probe timeouts.
    pub fn recovery_ffi_default_settings() -> Settings;

    /// Sets a timer to a time in nanoseconds: the event `SetTimer`.
    pub fn recovery_ffi_set_timer(handle: *mut Handle, timer: u8, time: u64) -> EncodedReply;

    /// Stops a timer: the event `StopTimer`.
    pub fn recovery_ffi_stop_timer(handle: *mut Handle, timer: u8) -> EncodedReply;

    /// Returns when the next timer expires: the event `NextTimeout`.
    pub fn recovery_ffi_next_timeout(handle: *mut Handle) -> EncodedReply;
}
