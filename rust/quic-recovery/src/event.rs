//! Events, answers and errors. `tests/rust.py --write` writes them from the sources of the library, and its tests
//! compare them.
use crate::ffi;
use crate::timer::Timer;
use crate::types::{
    AckFrequency, ConnectionId, EcnCounts, Instant, IssuedCid, NewConnectionId, PathName,
    SendableFrames, SpaceId,
};
use std::error::Error;
use std::fmt;
use std::net::SocketAddr;
use std::ops::Range;
use std::time::Duration;

/// An event. A packet carries the numbers of items that are retransmitted if it is lost. The caller defines what the
/// items are.
///
/// ```
/// # use quic_recovery::*;
/// # let (space, now) = (SpaceId::Data, Instant::from_nanos(1));
/// # let mut recovery = Recovery::new(&RecoveryConfig::default(), now)?;
/// let packet = Event::Received { space, now, number: 0, ack_eliciting: true };
/// assert!(matches!(recovery.apply(packet)?, Answer::New { .. }));
/// // a number is new once (RFC 9000, 12.3)
/// assert_eq!(recovery.apply(packet)?, Answer::Duplicate);
/// # Ok::<(), Box<dyn std::error::Error>>(())
/// ```
#[derive(Clone, Copy, Debug, PartialEq, Eq)]
#[non_exhaustive]
pub enum Event<'a> {
    /// A packet was received (RFC 9000, 12.3). Rejected with `SpaceDiscarded`, with `NumberTooLarge` if the number is
    /// 2^62 or more, then with `NoMemory`. A duplicate allocates nothing.
    Received {
        /// The packet number space.
        space: SpaceId,
        /// When it was received.
        now: Instant,
        /// Its packet number.
        number: u64,
        /// Whether it is ack-eliciting (RFC 9002, 2).
        ack_eliciting: bool,
    },
    /// A packet is sent on the current path, under the next number of its space (RFC 9002, A.5). Rejected with
    /// `SpaceDiscarded`, with `NumberTooLarge` if `largest_acked` is 2^62 or more, with `NumbersExhausted` if the next
    /// number is 2^62 or more, with `Overflow`, then with `NoMemory`. `Overflow` means that the bytes in flight, or the
    /// count of ack-eliciting packets, would exceed `u64::MAX`. Cost: amortized constant. If a packet is forgotten, the
    /// cost of `Acked` is added.
    Send {
        /// The packet number space.
        space: SpaceId,
        /// When it is sent.
        now: Instant,
        /// Its size in bytes; 0 if congestion control does not count it.
        size: u16,
        /// Whether it is ack-eliciting (RFC 9002, 2).
        ack_eliciting: bool,
        /// The largest packet number that its ACK frame acknowledges, if it has one.
        largest_acked: Option<u64>,
        /// Its contents, which are retransmitted if it is lost (RFC 9000, 13.3).
        queue: &'a [u64],
    },
    /// A packet that was sent is acknowledged (RFC 9002, A.7). Rejected with `SpaceDiscarded`, then with `NotTracked`.
    /// Cost: logarithmic in the packets tracked.
    Acked {
        /// The packet number space.
        space: SpaceId,
        /// When the ACK was received.
        now: Instant,
        /// The packet's number.
        number: u64,
        /// Whether the sender had too little to send to fill its window (RFC 9002, 7.8).
        app_limited: bool,
    },
    /// A packet that was sent is declared lost (RFC 9002, A.10). Its contents are appended to the retransmission queue.
    /// Rejected with `SpaceDiscarded`, with `NotTracked`, then with `NoMemory` if the queues could not be joined. Cost:
    /// logarithmic in the packets tracked, plus that of joining.
    Lost {
        /// The packet number space.
        space: SpaceId,
        /// The packet's number.
        number: u64,
    },
    /// A NEW_CONNECTION_ID frame was received (RFC 9000, 19.15). Rejected with the first of these errors that applies.
    /// `NumberTooLarge`: its number is 2^62 or more. `BadRetirePriorTo`: its retire-prior-to exceeds its number.
    /// `Retired`: its number is below the active one. `ExceedsLimit`: its number is not among the eight numbers that
    /// start at the active one, or at its retire-prior-to if that is larger. `Conflict`: its number is held with
    /// another ID or another token.
    NewId(NewConnectionId),
    /// Use the peer's next ID, if one is held (RFC 9000, 5.1.2). Never rejected.
    NextId,
    /// The server chose another ID for the handshake (RFC 9000, 7.2). Rejected with `NotInitialId` if the active ID is
    /// no longer the initial one.
    InitialId(ConnectionId),
    /// The local endpoint issues IDs (RFC 9000, 5.1.1). Rejected with `NumberTooLarge` if more than 2^62 would be
    /// issued, with `BadRange` if the numbers do not continue from the count issued, then with `NoMemory`. An empty
    /// list is never rejected.
    IssueIds {
        /// When they are issued. Their lifetime begins then.
        now: Instant,
        /// The IDs, in the order of their numbers.
        ids: &'a [IssuedCid],
    },
    /// The timer for new IDs expired (`Timer::PushNewCid`): the oldest deadline is removed. The answer is whether to
    /// ask the peer, by a NEW_CONNECTION_ID frame, to retire numbers (RFC 9000, 5.1.2). Never rejected.
    IdTimeout,
    /// A RETIRE_CONNECTION_ID frame was received (RFC 9000, 19.16). Rejected with `CidsNotInUse`, then with
    /// `UnissuedCid`.
    PeerRetired {
        /// The number of the ID that the peer retires.
        sequence: u64,
        /// How many IDs the peer can hold (RFC 9000, 18.2: active_connection_id_limit).
        limit: u64,
    },
    /// An ACK_FREQUENCY frame was received (draft-ietf-quic-ack-frequency-04, section 4). Rejected with
    /// `SpaceDiscarded` once the Application Data space is discarded, then with `DelayTooSmall` if it is newer than the
    /// last one and asks for less than 1 ms. `DelayTooSmall` still stores the frame's number.
    AckFrequencyIn(AckFrequency),
    /// An ACK frame was sent that contains all numbers that are to be acknowledged (RFC 9000, 13.2.1). Rejected with
    /// `SpaceDiscarded`.
    AcksSent {
        /// The packet number space.
        space: SpaceId,
    },
    /// The ACK delay timer expired (`Timer::MaxAckDelay`). Rejected with `SpaceDiscarded`.
    AckDelayTimeout {
        /// The packet number space.
        space: SpaceId,
    },
    /// Set a timer, such as the loss detection timer (RFC 9002, A.3 and A.8). Never rejected.
    SetTimer {
        /// The timer. The others are unchanged.
        timer: Timer,
        /// When it expires.
        time: Instant,
    },
    /// Stop a timer, such as the loss detection timer (RFC 9002, A.3 and A.8). Never rejected.
    StopTimer {
        /// The timer. The others are unchanged.
        timer: Timer,
    },
    /// When does the next timer expire (for loss detection: RFC 9002, A.3)? The answer is the earliest running timer,
    /// if any. Never rejected.
    NextTimeout,
    /// The keys of a space are dropped, and with them all packets that it tracks (RFC 9002, 6.4). Every later event on
    /// the space, including this one, is rejected with `SpaceDiscarded`. Cost: linear in the packets that the space
    /// tracks.
    DiscardSpace {
        /// The packet number space.
        space: SpaceId,
    },
    /// How much is in flight on a path (RFC 9002, B.2)? Rejected with `NoSuchPath`.
    InFlight {
        /// The path.
        path: PathName,
    },
    /// An ACK gave an RTT sample of the current path (RFC 9002, 5). Never rejected.
    Sample {
        /// The ACK delay that the peer reported; zero if it is to be ignored.
        delay: Duration,
        /// The time from the sending of a packet to the ACK that newly acknowledges it.
        rtt: Duration,
    },
    /// A datagram was received on a path (RFC 9000, 8.1). Rejected with `NoSuchPath`, then with `Overflow` if the bytes
    /// received on the path would exceed `u64::MAX`.
    DatagramIn {
        /// The path.
        path: PathName,
        /// Its size in bytes.
        bytes: u64,
    },
    /// The peer's address on a path was validated (RFC 9000, 8). Rejected with `NoSuchPath`.
    Validated {
        /// The path.
        path: PathName,
    },
    /// A datagram is to be transmitted on the current path. Rejected with `Overflow` if the bytes transmitted would
    /// exceed `u64::MAX`. A checked datagram may be `Blocked` by the anti-amplification limit (RFC 9000, 8.1), or else
    /// `Delayed` by the pacer (RFC 9002, 7.7). A blocked or delayed datagram is not counted.
    Transmit {
        /// When it is transmitted.
        now: Instant,
        /// Its size in bytes.
        bytes: u16,
        /// Whether to check the anti-amplification limit and the pacer.
        checked: bool,
    },
    /// Does the pacer let this many bytes pass on the current path (RFC 9002, 7.7)? Never rejected. If its tokens do
    /// not cover the bytes, the pacer is first refilled for the time since its last refill.
    PacerCheck {
        /// When it is asked.
        now: Instant,
        /// The number of bytes.
        bytes: u64,
    },
    /// Packets of the current path were lost, or ECN reported congestion (RFC 9002, 7.3). Never rejected.
    Congestion {
        /// When that was detected.
        now: Instant,
        /// When the last of these packets was sent.
        sent: Instant,
        /// Whether the congestion is persistent (RFC 9002, 7.6).
        persistent: bool,
        /// How many bytes were lost.
        bytes: u64,
    },
    /// All packets that one ACK newly acknowledges were reported. The controller of the current path is passed what is
    /// still in flight. Never rejected.
    EndAcks {
        /// When the ACK was received.
        now: Instant,
        /// Whether the sender had too little to send to fill its window (RFC 9002, 7.8).
        app_limited: bool,
        /// The largest number that was acknowledged, if any.
        largest: Option<u64>,
    },
    /// Is a probe of the current path's MTU due (RFC 8899, 5; RFC 9000, 14.3)? A probe that is due is sent as an
    /// ack-eliciting 1-RTT packet under the next number, and is tracked like any other. Rejected with `SpaceDiscarded`,
    /// then with `NumbersExhausted` if the next number is 2^62 or more. If a probe is due, rejected also with
    /// `Overflow`, then with `NoMemory`. `Overflow` means that the bytes in flight, or the count of ack-eliciting
    /// packets, would exceed `u64::MAX`.
    PollMtu {
        /// When it is asked.
        now: Instant,
    },
    /// The peer stated the largest datagram that it accepts (RFC 9000, 18.2: max_udp_payload_size). Rejected with
    /// `ZeroMtu`, then with `Searching` while an MTU search runs on the current path.
    PeerLimit {
        /// The largest size in bytes, above zero.
        size: u16,
    },
    /// An MTU was found elsewhere and is in use on the current path from now on: by a search of the caller's, or by the
    /// configuration of a tunnel (RFC 8899, 5; RFC 9000, 14.3). The controller of the path is notified, so that its
    /// minimum window follows. Rejected with `ZeroMtu`, then with `Searching` if MTU discovery is enabled.
    MtuFound {
        /// The largest datagram that the path carries, in bytes, above zero.
        mtu: u16,
    },
    /// All packets of one loss detection pass were reported. Was there a black hole for large datagrams (RFC 8899,
    /// 4.3)? Never rejected.
    LossesDone {
        /// When they were declared lost.
        now: Instant,
    },
    /// The ECN counts of an ACK frame were received (RFC 9000, 13.4.2). Rejected with `SpaceDiscarded`, then with `Ecn`
    /// if they fail the check of RFC 9000, 13.4.2.1. The answer is whether more packets were marked with ECN-CE.
    Ecn {
        /// The packet number space.
        space: SpaceId,
        /// How many packets the ACK frame newly acknowledges.
        newly_acked: u64,
        /// The frame's counts.
        counts: EcnCounts,
    },
    /// An ACK frame acknowledges a range of numbers (RFC 9000, 13.1). Rejected with `SpaceDiscarded`, with
    /// `NumberTooLarge` if the last number is 2^62 or more, with `BadRange` if the range ends before it begins, then
    /// with `SkippedAcked`. `SkippedAcked` means that the range contains the 1-RTT number that was skipped last (RFC
    /// 9000, 21.4).
    CheckAck {
        /// The packet number space.
        space: SpaceId,
        /// The first number.
        low: u64,
        /// The last number.
        high: u64,
    },
    /// A probe packet is to be sent (RFC 9002, 6.2.4). If the retransmission queue is empty, the contents of the first
    /// tracked packet that has any move into it. If no packet has any, a PING is requested, unless the peer is to be
    /// asked for an immediate ACK. Rejected with `SpaceDiscarded`, then with `NoMemory` if contents are moved. Cost:
    /// linear in the packets that are passed over. One whose contents are empty for all streams is passed over once,
    /// and not again by later probes.
    QueueProbe {
        /// The packet number space.
        space: SpaceId,
        /// Whether to ask the peer for an immediate ACK.
        immediate_ack: bool,
    },
    /// Return the retransmission queue and empty it (RFC 9000, 13.3). Rejected with `SpaceDiscarded`.
    ///
    /// Fails with `NoMemory` too, before anything is taken, if this crate cannot allocate the answer.
    TakePending {
        /// The packet number space.
        space: SpaceId,
    },
    /// Another path is used from now on (RFC 9000, 9.3). The current path becomes the previous one, and an older
    /// previous one is dropped. Rejected with `Overflow` if 2^64 paths were made, then, unless the path is fresh, with
    /// `NoMemory`.
    NewPath {
        /// When the path is made.
        now: Instant,
        /// The peer's address.
        remote: SocketAddr,
        /// Whether RTT, controller and MTU start from their initial values (RFC 9000, 9.4). If not, they are those of
        /// the current path.
        fresh: bool,
    },
    /// RTT, controller, pacer and MTU of the current path start from their initial values (RFC 9000, 9.4). Never
    /// rejected.
    ResetPath {
        /// When the reset happens.
        now: Instant,
    },
    /// The previous path is dropped (RFC 9000, 9.3.3). Its packets stay tracked. Rejected with `NoSuchPath`.
    DropPrevious,
    /// The validation of the current path failed. The previous path is in use again, unchanged except for its MTU
    /// search, and the current one is dropped (RFC 9000, 9.3.2). The MTU stays, within the peer's limit. The MTU search
    /// and the count of loss bursts start again, since the outcome of its probe was reported to the other path. The
    /// packets of the dropped path stay tracked, but are in flight on no path. No previous path is left. Rejected with
    /// `NoSuchPath`.
    RevertPath,
}

/// The answer to an event that is not rejected.
///
/// ```
/// # use quic_recovery::*;
/// # let (space, now) = (SpaceId::Data, Instant::from_nanos(1));
/// # let mut recovery = Recovery::new(&RecoveryConfig::default(), now)?;
/// let (size, ack_eliciting, largest_acked, queue) = (1200, true, None, &[7]);
/// let sent = Event::Send { space, now, size, ack_eliciting, largest_acked, queue };
/// if let Answer::Sent { number, .. } = recovery.apply(sent)? {
///     println!("write the number {number} into the header");
/// }
/// // in flight are the packets that elicit an ACK, or have padding (RFC 9002, 2)
/// let path = PathName::Current;
/// let flight = recovery.apply(Event::InFlight { path })?;
/// assert_eq!(flight, Answer::InFlight { bytes: 1200, ack_eliciting: 1 });
/// # Ok::<(), Box<dyn std::error::Error>>(())
/// ```
#[derive(Clone, Debug, PartialEq, Eq)]
#[non_exhaustive]
pub enum Answer {
    /// The packet is new.
    New {
        /// Whether to start the ACK delay timer (`Timer::MaxAckDelay`).
        arm: bool,
    },
    /// A duplicate, or so old that it may be one: drop the packet.
    Duplicate,
    /// The packet is sent.
    Sent {
        /// Its packet number.
        number: u64,
        /// The number of the non-ack-eliciting packet that is forgotten for it, if any.
        forgotten: Option<u64>,
    },
    /// The packet is no longer tracked.
    Acked {
        /// Whether it was the probe of the path's MTU.
        probe: bool,
    },
    /// The packet is no longer tracked.
    Lost {
        /// Whether it was the probe of the path's MTU.
        probe: bool,
    },
    /// The range of the peer's ID numbers to retire (RFC 9000, 5.1.2), and the stateless reset token of the ID that is
    /// now active. `None` if the active ID is unchanged.
    ///
    /// Read the token by [`Recovery::reset_token`](crate::Recovery::reset_token).
    Retire(Option<Range<u64>>),
    /// Yes or no, as the event defines.
    ///
    /// `true` means, for `IdTimeout`: ask the peer, by a NEW_CONNECTION_ID frame, to retire a connection ID that it did
    /// not retire yet. For `PeerRetired`: the peer can hold one more connection ID. For `AckFrequencyIn`: the frame is
    /// newer than the last one, and applies. For `Ecn`: more packets were marked with CE.
    Flag(bool),
    /// The earliest running timer, if any.
    Timeout(Option<Instant>),
    /// How much is in flight on a path (RFC 9002, B.2).
    InFlight {
        /// The sum of the packets' sizes, in bytes.
        bytes: u64,
        /// How many of the packets are ack-eliciting.
        ack_eliciting: u64,
    },
    /// Transmit the datagram.
    Transmitted,
    /// Do not transmit the datagram: the path's address is not validated, and more than three times the bytes received
    /// from it would be sent (RFC 9000, 8.1).
    Blocked,
    /// Do not transmit the bytes yet. Ask the pacer again at this time (RFC 9002, 7.7).
    Delayed(Instant),
    /// The pacer lets the bytes pass now.
    Ready,
    /// Send a probe of the path's MTU.
    Probe {
        /// Its packet number.
        number: u64,
        /// Its size in bytes.
        size: u16,
    },
    /// No probe of the path's MTU is due.
    NoProbe,
    /// Whether a black hole is reported.
    BlackHole(bool),
    /// The kinds of frames that can be sent.
    Sendable(SendableFrames),
    /// The contents to retransmit.
    Queue(Vec<u64>),
    /// The event has no other answer.
    Done,
}

/// What is wrong with the peer's ECN counts (RFC 9000, 13.4.2.1).
#[derive(Clone, Copy, Debug, PartialEq, Eq, Hash)]
#[non_exhaustive]
pub enum EcnFault {
    /// The count of ECT(0) decreased.
    Ect0Falls,
    /// The count of ECT(1) decreased.
    Ect1Falls,
    /// The count of ECN-CE decreased.
    CeFalls,
    /// The three counts increased by less than the newly acknowledged packets.
    Bleached,
    /// ECT(0) and ECN-CE increased by less than the newly acknowledged packets, or ECT(1) increased.
    Corrupted,
}

impl EcnFault {
    fn from_number(number: u64) -> Self {
        match number {
            ffi::FAULT_ECT0_FALLS => EcnFault::Ect0Falls,
            ffi::FAULT_ECT1_FALLS => EcnFault::Ect1Falls,
            ffi::FAULT_CE_FALLS => EcnFault::CeFalls,
            ffi::FAULT_BLEACHED => EcnFault::Bleached,
            ffi::FAULT_CORRUPTED => EcnFault::Corrupted,
            _ => unreachable!("the library names the fault {number}"),
        }
    }
}

impl fmt::Display for EcnFault {
    fn fmt(&self, f: &mut fmt::Formatter<'_>) -> fmt::Result {
        f.write_str(match self {
            EcnFault::Ect0Falls => "peer ECT(0) count regression",
            EcnFault::Ect1Falls => "peer ECT(1) count regression",
            EcnFault::CeFalls => "peer CE count regression",
            EcnFault::Bleached => "ECN bleaching",
            EcnFault::Corrupted => "ECN corruption",
        })
    }
}

/// Why an event is rejected. The state is unchanged, except for the frame's number that `DelayTooSmall` stores.
///
/// ```
/// # use quic_recovery::*;
/// # let now = Instant::from_nanos(1);
/// # let mut recovery = Recovery::new(&RecoveryConfig::default(), now)?;
/// let space = SpaceId::Initial;
/// let acked = Event::Acked { space, now, number: 9, app_limited: false };
/// // no packet of this number was sent (RFC 9002, A.7)
/// assert_eq!(recovery.apply(acked), Err(Refusal::NotTracked));
/// recovery.apply(Event::DiscardSpace { space })?;
/// match recovery.apply(acked) {
///     // the keys are dropped, and the packets with them (RFC 9002, 6.4): drop the frame
///     Err(Refusal::SpaceDiscarded) => {}
///     other => panic!("{other:?}"),
/// }
/// # Ok::<(), Box<dyn std::error::Error>>(())
/// ```
#[derive(Clone, Copy, Debug, PartialEq, Eq, Hash)]
#[non_exhaustive]
pub enum Refusal {
    /// An allocation failed.
    NoMemory,
    /// A packet number is 2^62 or more (RFC 9000, 12.3).
    NumberTooLarge,
    /// The space has assigned all packet numbers below 2^62 (RFC 9000, 12.3).
    NumbersExhausted,
    /// The packet is not tracked: it was never sent, or it was acknowledged, lost or forgotten.
    NotTracked,
    /// The keys of the space were dropped (RFC 9001, 4.9).
    SpaceDiscarded,
    /// There is no such path.
    NoSuchPath,
    /// An MTU search runs on the current path (RFC 8899, 5), or, for an MTU found elsewhere, discovery is enabled.
    Searching,
    /// A size is zero bytes.
    ZeroMtu,
    /// A counter would exceed the maximum of its type.
    Overflow,
    /// The peer's ID number is below the active one (RFC 9000, 19.15).
    Retired,
    /// The peer's ID number exceeds those that can be held (RFC 9000, 5.1.1).
    ExceedsLimit,
    /// The frame's retire-prior-to exceeds its own number (RFC 9000, 19.15).
    BadRetirePriorTo,
    /// The local endpoint uses zero-length IDs, which cannot be retired (RFC 9000, 19.16).
    CidsNotInUse,
    /// The ID number was not issued (RFC 9000, 19.16).
    UnissuedCid,
    /// An ACK_FREQUENCY frame asks for a delay below 1 ms (draft-ietf-quic-ack-frequency-04, section 4). The number of
    /// the frame is stored.
    DelayTooSmall,
    /// A skipped number, which was never sent, was acknowledged (RFC 9000, 21.4).
    SkippedAcked,
    /// The peer's ECN counts fail the check of RFC 9000, 13.4.2.1: the text has the reason.
    Ecn(EcnFault),
    /// The initial ID is no longer the active one (RFC 9000, 7.2).
    NotInitialId,
    /// Numbers do not continue from the expected one, or a range ends before it begins.
    BadRange,
    /// The peer's ID number is held with another ID, or with another token (RFC 9000, 19.15).
    Conflict,
}

impl Refusal {
    /// Returns the error with this number of the library; for the ECN error, with the number of the fault.
    pub(crate) fn from_number(number: u8, fault: u64) -> Self {
        match number {
            ffi::REFUSAL_NO_MEMORY => Refusal::NoMemory,
            ffi::REFUSAL_NUMBER_TOO_LARGE => Refusal::NumberTooLarge,
            ffi::REFUSAL_NUMBERS_EXHAUSTED => Refusal::NumbersExhausted,
            ffi::REFUSAL_NOT_TRACKED => Refusal::NotTracked,
            ffi::REFUSAL_SPACE_DISCARDED => Refusal::SpaceDiscarded,
            ffi::REFUSAL_NO_SUCH_PATH => Refusal::NoSuchPath,
            ffi::REFUSAL_SEARCHING => Refusal::Searching,
            ffi::REFUSAL_ZERO_MTU => Refusal::ZeroMtu,
            ffi::REFUSAL_OVERFLOW => Refusal::Overflow,
            ffi::REFUSAL_RETIRED => Refusal::Retired,
            ffi::REFUSAL_EXCEEDS_LIMIT => Refusal::ExceedsLimit,
            ffi::REFUSAL_BAD_RETIRE_PRIOR_TO => Refusal::BadRetirePriorTo,
            ffi::REFUSAL_CIDS_NOT_IN_USE => Refusal::CidsNotInUse,
            ffi::REFUSAL_UNISSUED_CID => Refusal::UnissuedCid,
            ffi::REFUSAL_DELAY_TOO_SMALL => Refusal::DelayTooSmall,
            ffi::REFUSAL_SKIPPED_ACKED => Refusal::SkippedAcked,
            ffi::REFUSAL_ECN => Refusal::Ecn(EcnFault::from_number(fault)),
            ffi::REFUSAL_NOT_INITIAL_ID => Refusal::NotInitialId,
            ffi::REFUSAL_BAD_RANGE => Refusal::BadRange,
            ffi::REFUSAL_CONFLICT => Refusal::Conflict,
            _ => unreachable!("the library names the refusal {number}"),
        }
    }

    /// Returns the number of the error in scripts and logs.
    pub fn number(self) -> u8 {
        match self {
            Refusal::NoMemory => ffi::REFUSAL_NO_MEMORY,
            Refusal::NumberTooLarge => ffi::REFUSAL_NUMBER_TOO_LARGE,
            Refusal::NumbersExhausted => ffi::REFUSAL_NUMBERS_EXHAUSTED,
            Refusal::NotTracked => ffi::REFUSAL_NOT_TRACKED,
            Refusal::SpaceDiscarded => ffi::REFUSAL_SPACE_DISCARDED,
            Refusal::NoSuchPath => ffi::REFUSAL_NO_SUCH_PATH,
            Refusal::Searching => ffi::REFUSAL_SEARCHING,
            Refusal::ZeroMtu => ffi::REFUSAL_ZERO_MTU,
            Refusal::Overflow => ffi::REFUSAL_OVERFLOW,
            Refusal::Retired => ffi::REFUSAL_RETIRED,
            Refusal::ExceedsLimit => ffi::REFUSAL_EXCEEDS_LIMIT,
            Refusal::BadRetirePriorTo => ffi::REFUSAL_BAD_RETIRE_PRIOR_TO,
            Refusal::CidsNotInUse => ffi::REFUSAL_CIDS_NOT_IN_USE,
            Refusal::UnissuedCid => ffi::REFUSAL_UNISSUED_CID,
            Refusal::DelayTooSmall => ffi::REFUSAL_DELAY_TOO_SMALL,
            Refusal::SkippedAcked => ffi::REFUSAL_SKIPPED_ACKED,
            Refusal::Ecn(_) => ffi::REFUSAL_ECN,
            Refusal::NotInitialId => ffi::REFUSAL_NOT_INITIAL_ID,
            Refusal::BadRange => ffi::REFUSAL_BAD_RANGE,
            Refusal::Conflict => ffi::REFUSAL_CONFLICT,
        }
    }
}

impl fmt::Display for Refusal {
    fn fmt(&self, f: &mut fmt::Formatter<'_>) -> fmt::Result {
        f.write_str(match self {
            Refusal::NoMemory => "out of memory",
            Refusal::NumberTooLarge => "a number is 2^62 or more",
            Refusal::NumbersExhausted => "no packet numbers are left",
            Refusal::NotTracked => "the packet is not tracked",
            Refusal::SpaceDiscarded => "the space is discarded",
            Refusal::NoSuchPath => "there is no such path",
            Refusal::Searching => "an MTU search is running",
            Refusal::ZeroMtu => "the size is zero",
            Refusal::Overflow => "a counter would exceed 2^64 - 1",
            Refusal::Retired => "the connection ID is already retired",
            Refusal::ExceedsLimit => "the connection ID exceeds the limit",
            Refusal::BadRetirePriorTo => "retire-prior-to exceeds the frame's sequence number",
            Refusal::CidsNotInUse => "connection IDs are not in use",
            Refusal::UnissuedCid => "the connection ID was not issued",
            Refusal::DelayTooSmall => "the requested delay is too small",
            Refusal::SkippedAcked => "a skipped packet number is acknowledged",
            Refusal::Ecn(fault) => return fault.fmt(f),
            Refusal::NotInitialId => "the initial connection ID is not active",
            Refusal::BadRange => "invalid range of packet numbers",
            Refusal::Conflict => "the connection ID conflicts with the stored one",
        })
    }
}

impl Error for Refusal {}
