//! The safe interface to the sender of one endpoint.
use crate::config::{ConfigError, RecoveryConfig};
use crate::event::{Answer, Event, Refusal};
use crate::ffi;
use crate::recovery::{Form, Recovery};
use crate::timer::Timer;
use crate::types::{EcnCounts, Instant, PathName, SpaceId};
use std::error::Error;
use std::fmt;
use std::time::Duration;

/// The role of the local endpoint.
#[derive(Clone, Copy, Debug, PartialEq, Eq, Hash)]
pub enum Side {
    /// The endpoint that opened the connection.
    Client,
    /// The other endpoint.
    Server,
}

/// Why a call of a sender fails. The documentation of [`Sender`] states what such a call changes.
#[derive(Clone, Copy, Debug, PartialEq, Eq, Hash)]
#[non_exhaustive]
pub enum SenderError {
    /// The error of a recovery's event.
    Event(Refusal),
    /// A number was acknowledged that was never sent (RFC 9000, 13.1).
    Unsent,
    /// The space of 1-RTT packets is never discarded (RFC 9001, 4.9).
    DataSpace,
    /// Only the sender itself makes this event; a caller cannot.
    Decided,
}

impl From<Refusal> for SenderError {
    fn from(refusal: Refusal) -> Self {
        SenderError::Event(refusal)
    }
}

impl fmt::Display for SenderError {
    fn fmt(&self, f: &mut fmt::Formatter<'_>) -> fmt::Result {
        match self {
            SenderError::Event(refusal) => refusal.fmt(f),
            SenderError::Unsent => f.write_str("a number was acknowledged that was never sent"),
            SenderError::DataSpace => f.write_str("the space of 1-RTT packets is never discarded"),
            SenderError::Decided => f.write_str("the sender decides the event itself"),
        }
    }
}

impl Error for SenderError {}

/// Whether a datagram may be sent.
///
/// ```
/// # use quic_recovery::*;
/// # let at = |millis: u64| Instant::from_nanos(1 + millis * 1_000_000);
/// # let (mut config, space) = (RecoveryConfig::default(), SpaceId::Data);
/// config.transport.congestion = Congestion::Fixed(120_000);
/// let mut sender = Sender::established(Side::Client, &config, at(0))?;
/// for _ in 0..10 {
///     assert_eq!(sender.transmit(at(0), 1200, space, true)?, Transmission::Transmitted);
/// }
/// // ten datagrams take this long at 5/4 of the window in each RTT of 333 ms (RFC 9002, 7.7)
/// let until = at(0) + std::time::Duration::from_micros(26_640);
/// let delayed = Transmission::Delayed { until, ack: false };
/// assert_eq!(sender.transmit(at(0), 1200, space, true)?, delayed);
/// assert_eq!(sender.transmit(until, 1200, space, true)?, Transmission::Transmitted);
/// # Ok::<(), Box<dyn std::error::Error>>(())
/// ```
#[derive(Clone, Copy, Debug, PartialEq, Eq)]
pub enum Transmission {
    /// It may, and is counted.
    Transmitted,
    /// The amplification limit forbids it (RFC 9000, 8.1).
    Blocked,
    /// The window has no room for it (RFC 9002, 7).
    Full {
        /// Whether an ACK is required in the space: send it alone ([`Sender::ack_required`]).
        ack: bool,
    },
    /// The pacer delays it (RFC 9002, 7.7).
    Delayed {
        /// When to ask again.
        until: Instant,
        /// Whether an ACK is required in the space: send it alone ([`Sender::ack_required`]).
        ack: bool,
    },
}

/// A sent packet.
#[derive(Clone, Copy, Debug, PartialEq, Eq)]
pub struct Sent {
    /// Its number.
    pub number: u64,
    /// The number of a non-ack-eliciting packet that is no longer tracked, because there were too many.
    pub forgotten: Option<u64>,
}

/// An MTU probe of the path to be sent (RFC 8899).
#[derive(Clone, Copy, Debug, PartialEq, Eq)]
pub struct MtuProbe {
    /// The packet's number.
    pub number: u64,
    /// The datagram's size in bytes.
    pub size: u16,
}

/// The fields of an ACK frame, except its ranges, and what the caller knows at its arrival.
///
/// ```
/// # use std::time::Duration;
/// # use quic_recovery::*;
/// # let at = |millis: u64| Instant::from_nanos(1 + millis * 1_000_000);
/// # let space = SpaceId::Data;
/// # let mut sender = Sender::established(Side::Client, &RecoveryConfig::default(), at(0))?;
/// sender.send(space, at(1), 1200, true, None, &[])?;
/// let counts = EcnCounts { ect0: 0, ect1: 0, ce: 1 };
/// let ack = Ack { delay: Duration::from_millis(10), ecn: Some(counts), ..Ack::default() };
/// let acked = sender.on_ack(space, at(101), &ack, &[(0, 0)])?;
/// // the packet was marked on the way (RFC 9002, 7.1)
/// assert_eq!(acked.ecn, EcnOutcome::Marked);
/// // the first sample ignores the delay (RFC 9002, 5.3)
/// assert_eq!(sender.recovery().rtt(), Duration::from_millis(100));
/// # Ok::<(), Box<dyn std::error::Error>>(())
/// ```
#[derive(Clone, Copy, Debug, Default, PartialEq, Eq)]
pub struct Ack {
    /// The ACK delay that the peer reports.
    pub delay: Duration,
    /// The ECN counts, if the frame has them (RFC 9000, 19.3.2).
    pub ecn: Option<EcnCounts>,
    /// Whether the sender had too little to send to fill its window (RFC 9002, 7.8).
    pub app_limited: bool,
    /// When the frame was received, if that was before it is processed: its keys came later, or frames are processed
    /// in batches (RFC 9002, 5.3). The RTT sample and the age of packets end then. `None` and a later time count as
    /// the time of the call.
    pub received: Option<Instant>,
}

/// The outcome of a frame's ECN counts (RFC 9000, 13.4.2.1).
#[derive(Clone, Copy, Debug, Default, PartialEq, Eq)]
pub enum EcnOutcome {
    /// No congestion. If the frame raises the largest acknowledged number and has no ECN counts, packets are no longer
    /// marked on the path.
    #[default]
    Quiet,
    /// More packets were marked with CE on the path in use: congestion (RFC 9002, 7.1).
    Marked,
    /// Validation failed: packets are no longer marked on the path.
    Failed,
}

/// The result of a loss detection pass.
///
/// ```
/// # use quic_recovery::*;
/// # let at = |millis: u64| Instant::from_nanos(1 + millis * 1_000_000);
/// # let space = SpaceId::Data;
/// # let mut sender = Sender::established(Side::Client, &RecoveryConfig::default(), at(0))?;
/// sender.send(space, at(1), 1200, true, None, &[])?;
/// sender.on_ack(space, at(101), &Ack::default(), &[(0, 0)])?;
/// for sent in [200, 1200, 1200, 1200, 1200] {
///     sender.send(space, at(sent), 1200, true, None, &[])?;
/// }
/// let acked = sender.on_ack(space, at(1300), &Ack::default(), &[(5, 5)])?;
/// assert_eq!(acked.losses.numbers, [1, 2]);
/// // these were sent more than 3 * (100 + 4 * 37.5 + 25) ms apart (RFC 9002, 7.6.1)
/// assert!(acked.losses.is_persistent);
/// // the minimum window is two datagrams (RFC 9002, 7.2 and 7.6.2)
/// assert_eq!(sender.recovery().window_and_flight().0, 2400);
/// # Ok::<(), Box<dyn std::error::Error>>(())
/// ```
#[derive(Clone, Debug, Default, PartialEq, Eq)]
pub struct Losses {
    /// The numbers of the lost packets, increasing; without that of the MTU probe.
    pub numbers: Vec<u64>,
    /// The number of the MTU probe, if it is lost: this does not indicate congestion (RFC 9000, 14.4).
    pub probe: Option<u64>,
    /// The bytes lost on the path in use, if there is congestion (RFC 9002, 7.3.2).
    pub congestion: Option<u64>,
    /// Whether congestion is persistent (RFC 9002, 7.6).
    pub is_persistent: bool,
    /// Whether a black hole was reported (RFC 8899, 4.3).
    pub is_black_hole: bool,
    /// Whether allocation failed for a lost packet: its items could not join the retransmission queue. It is still
    /// tracked, and the timer is due at once, so that the next [`Sender::on_timeout`] declares it lost.
    pub is_cut: bool,
}

impl Losses {
    /// Resets to no losses; the vector keeps its memory.
    fn be_none(&mut self) {
        self.numbers.clear();
        self.probe = None;
        self.congestion = None;
        self.is_persistent = false;
        self.is_black_hole = false;
        self.is_cut = false;
    }
}

/// The packets of a space that were declared lost together.
#[derive(Clone, Debug, Default, PartialEq, Eq)]
pub struct Retransmitted {
    /// The numbers of the packets that are lost, increasing.
    pub numbers: Vec<u64>,
    /// Whether allocation failed for a packet, which is then still tracked: the same call continues with the rest.
    pub is_cut: bool,
}

/// The result of an ACK frame.
#[derive(Clone, Debug, Default, PartialEq, Eq)]
pub struct Acknowledged {
    /// The newly acknowledged numbers, increasing.
    pub numbers: Vec<u64>,
    /// The packets that were found lost.
    pub losses: Losses,
    /// The outcome of its ECN counts.
    pub ecn: EcnOutcome,
    /// For each of these packets: its number, its item count, and its items.
    words: Vec<u64>,
}

impl Acknowledged {
    /// Returns the newly acknowledged packets in increasing order, each with its items. These are the items with which
    /// it was sent, except those that a probe moved into another packet (RFC 9000, 13.3).
    pub fn packets(&self) -> Packets<'_> {
        Packets { words: &self.words }
    }

    /// Fills the numbers of these packets, of which there are `count`.
    #[inline(always)]
    fn number(&mut self, count: usize) -> Result<(), Refusal> {
        if self.numbers.capacity() < count {
            make_room(&mut self.numbers, count)?;
        }
        self.numbers.resize(count, 0);
        let packets = Packets { words: &self.words };
        for (place, (number, _)) in self.numbers.iter_mut().zip(packets) {
            *place = number;
        }
        Ok(())
    }

    /// Returns for how many words of packets there is room, and for how many lost numbers. A packet has its number, its
    /// item count and its items, and one more number in `numbers`.
    #[inline(always)]
    fn rooms(&self) -> (u64, u64) {
        let packets = self.words.capacity().min(2 * self.numbers.capacity());
        (packets as u64, self.losses.numbers.capacity() as u64)
    }

    /// Makes room for `packets` words of packets, for the numbers of the packets, and for `lost` lost numbers.
    fn make_room(&mut self, packets: u64, lost: u64) -> Result<(), Refusal> {
        let count = |it| usize::try_from(it).map_err(|_| Refusal::NoMemory);
        let (packets, lost) = (count(packets)?, count(lost)?);
        make_room(&mut self.words, packets)?;
        make_room(&mut self.numbers, packets.div_ceil(2))?;
        make_room(&mut self.losses.numbers, lost)
    }
}

/// Clears a vector and makes room for `count` numbers.
fn make_room(numbers: &mut Vec<u64>, count: usize) -> Result<(), Refusal> {
    numbers.clear();
    numbers.try_reserve(count).map_err(|_| Refusal::NoMemory)
}

/// The packets that an ACK frame newly acknowledges, each with its items.
#[derive(Clone, Debug)]
pub struct Packets<'a> {
    words: &'a [u64],
}

impl<'a> Iterator for Packets<'a> {
    type Item = (u64, &'a [u64]);

    fn next(&mut self) -> Option<Self::Item> {
        let (&[number, count], behind) = self.words.split_first_chunk()?;
        let (items, rest) = behind.split_at_checked(usize::try_from(count).ok()?)?;
        self.words = rest;
        Some((number, items))
    }
}

/// The result of a timeout.
#[derive(Clone, Debug, PartialEq, Eq)]
pub enum Timeout {
    /// The timer is not due.
    Nothing,
    /// A loss detection pass was made over a space.
    Lost {
        /// The space.
        space: SpaceId,
        /// The packets that were found lost.
        losses: Losses,
    },
    /// Probes are due in a space (RFC 9002, 6.2.4): see [`Sender::on_timeout`] for what the caller does for each.
    Probe {
        /// The space.
        space: SpaceId,
        /// How many: 2, or 1 against a deadlock.
        count: u8,
    },
}

/// What the timer for losses waits for, or why it is not set (RFC 9002, 6.2 and A.8).
#[derive(Clone, Copy, Debug, PartialEq, Eq, Hash)]
pub enum TimerState {
    /// The time at which packets of a space may be lost.
    Losses {
        /// The space.
        space: SpaceId,
        /// When the timer expires.
        at: Instant,
    },
    /// The probe timeout of a space. Until the handshake is confirmed, it also runs while a datagram of the space waits
    /// for room in the window.
    Probes {
        /// The space.
        space: SpaceId,
        /// When the timer expires.
        at: Instant,
    },
    /// The probe timeout that ends a deadlock of the handshake (RFC 9002, 6.2.2.1).
    DeadlockProbe {
        /// The space of the probe.
        space: SpaceId,
        /// When the timer expires.
        at: Instant,
    },
    /// The next datagram from the peer: the amplification limit permits no datagram of 1200 bytes (RFC 9000, 8.1 and
    /// 14.1).
    Blocked,
    /// The confirmation of the handshake: only 1-RTT packets are in flight, which are not probed for before (RFC 9002,
    /// 6.2.1). If the handshake is confirmed, [`Sender::on_handshake_confirmed`] was not called.
    Unconfirmed,
    /// Nothing: no ack-eliciting packet is in flight that is probed for.
    Idle,
}

/// The sender of one endpoint (RFC 9002, Appendices A and B): which packets are lost, when to probe, and whether a
/// datagram may be sent. It has one [`Recovery`], which can be read, and makes the decisions that a recovery leaves to
/// its caller. One call takes an ACK frame, one the timer.
///
/// The reply and effect of each call are proved, and the promises of a recovery hold too. A call that fails changes
/// nothing, unless its documentation says otherwise; memory for an answer is allocated first. After each call,
/// [`Sender::timer`] is when to call [`Sender::on_timeout`]. Sums of times and durations are capped at their largest
/// values. The examples of the calls begin as this one does, with a clock that starts above 0 ([`Sender::new`] says
/// why):
///
/// ```
/// use quic_recovery::*;
///
/// let at = |millis: u64| Instant::from_nanos(1 + millis * 1_000_000);
/// let space = SpaceId::Data;
/// let mut sender = Sender::established(Side::Client, &RecoveryConfig::default(), at(0))?;
/// // an ack-eliciting packet is outstanding: the probe timeout runs (RFC 9002, A.8)
/// sender.send(space, at(0), 1200, true, None, &[7])?;
/// assert!(sender.timer().is_some());
/// // it is acknowledged: nothing is left to probe for (RFC 9002, A.8)
/// sender.on_ack(space, at(50), &Ack::default(), &[(0, 0)])?;
/// assert_eq!(sender.timer(), None);
/// # Ok::<(), Box<dyn std::error::Error>>(())
/// ```
#[derive(Debug)]
pub struct Sender {
    /// Its handle holds the recovery of a sender.
    recovery: Recovery,
    /// The ranges of an ACK frame with several in the library's form, kept for their memory.
    ranges: Vec<ffi::AckRange>,
}

/// Returns a frame in the library's form, to be processed if the answer fits.
#[inline(always)]
fn frame(ack: &Ack, told: &Acknowledged) -> ffi::AckFrame {
    let counts = ack.ecn.unwrap_or_default();
    let (packets_room, lost_room) = told.rooms();
    ffi::AckFrame {
        delay_secs: ack.delay.as_secs(),
        ect0: counts.ect0,
        ect1: counts.ect1,
        ce: counts.ce,
        packets_room,
        lost_room,
        received: ack.received.map_or(0, Instant::as_nanos),
        delay_nanos: ack.delay.subsec_nanos(),
        has_ecn: ack.ecn.is_some(),
        app_limited: ack.app_limited,
        is_limited: true,
        has_received: ack.received.is_some(),
    }
}

/// Passes a frame with its ranges. It is processed if the answer fits.
fn take(
    recovery: &mut Recovery,
    space: SpaceId,
    now: Instant,
    frame: &ffi::AckFrame,
    ranges: &[ffi::AckRange],
) -> ffi::EncodedReply {
    let (space, now) = (space as u8, now.as_nanos());
    let (first, count) = (ranges.as_ptr(), ranges.len());
    // SAFETY: the handle holds a recovery, which is borrowed alone, and the ranges are a slice.
    unsafe { ffi::recovery_ffi_sender_ack(recovery.handle(), space, now, frame, first, count) }
}

/// Returns the space with this number.
fn space_of(number: u64) -> SpaceId {
    match SpaceId::VALUES.into_iter().find(|it| *it as u64 == number) {
        Some(space) => space,
        None => unreachable!("the library names the space {number}"),
    }
}

/// Returns the error of a reply that is none of the answers to its call.
#[cold]
fn error(reply: &ffi::EncodedReply) -> SenderError {
    match (reply.kind, reply.refusal) {
        (ffi::ANSWER_REFUSED, ffi::REFUSAL_UNSENT) => SenderError::Unsent,
        (ffi::ANSWER_REFUSED, ffi::REFUSAL_DATA_SPACE) => SenderError::DataSpace,
        (ffi::ANSWER_REFUSED, ffi::REFUSAL_DECIDED) => SenderError::Decided,
        (ffi::ANSWER_REFUSED, number) => {
            SenderError::Event(Refusal::from_number(number, reply.first))
        }
        (kind, _) => unreachable!("the library answers a sender's call with {kind}"),
    }
}

/// Fails with the error of a reply that is not of this kind.
#[inline]
fn expect(kind: u8, reply: &ffi::EncodedReply) -> Result<(), SenderError> {
    if reply.kind == kind {
        Ok(())
    } else {
        Err(error(reply))
    }
}

impl Sender {
    /// Returns a sender without any event, made at time `now`. The paths of a client are validated, whatever the
    /// settings say (RFC 9000, 8.1). Let the clock start above 0: a packet that is sent at 0 counts as sent before the
    /// start of the recovery period, so that its ACK or loss does not change the window (RFC 9002, B.3 and B.5). Fails
    /// if the configuration is invalid, or allocation fails.
    ///
    /// ```
    /// # use quic_recovery::*;
    /// # let at = |millis: u64| Instant::from_nanos(1 + millis * 1_000_000);
    /// # let config = RecoveryConfig::default();
    /// let mut server = Sender::new(Side::Server, &config, at(0))?;
    /// // an unvalidated client gets at most three times the bytes received from it (RFC 9000, 8.1)
    /// let datagram = server.transmit(at(0), 1200, SpaceId::Initial, true)?;
    /// assert_eq!(datagram, Transmission::Blocked);
    /// // the paths of a client have no such limit
    /// let mut client = Sender::new(Side::Client, &config, at(0))?;
    /// let datagram = client.transmit(at(0), 1200, SpaceId::Initial, true)?;
    /// assert_eq!(datagram, Transmission::Transmitted);
    /// # Ok::<(), Box<dyn std::error::Error>>(())
    /// ```
    pub fn new(side: Side, config: &RecoveryConfig, now: Instant) -> Result<Self, ConfigError> {
        Ok(Sender {
            recovery: Recovery::of(Form::Handshaking(side), config, now)?,
            ranges: Vec::new(),
        })
    }

    /// Returns the sender of an established connection, made at time `now`. It makes [`Sender::new`],
    /// [`Sender::on_address_validated`], [`Sender::on_handshake_confirmed`], and discards the Initial and Handshake
    /// spaces (RFC 9001, 4.1.2 and 4.9). It sends and probes for 1-RTT packets only. The errors are those of
    /// [`Sender::new`].
    ///
    /// ```
    /// # use quic_recovery::*;
    /// # let at = |millis: u64| Instant::from_nanos(1 + millis * 1_000_000);
    /// # let config = RecoveryConfig::default();
    /// let mut server = Sender::established(Side::Server, &config, at(0))?;
    /// assert_eq!(server.transmit(at(0), 1200, SpaceId::Data, true)?, Transmission::Transmitted);
    /// // without keys no Initial packet can be sent (RFC 9001, 4.9.1)
    /// let initial = server.send(SpaceId::Initial, at(0), 1200, true, None, &[]);
    /// assert_eq!(initial, Err(Refusal::SpaceDiscarded.into()));
    /// # Ok::<(), Box<dyn std::error::Error>>(())
    /// ```
    pub fn established(
        side: Side,
        config: &RecoveryConfig,
        now: Instant,
    ) -> Result<Self, ConfigError> {
        Ok(Sender {
            recovery: Recovery::of(Form::Established(side), config, now)?,
            ranges: Vec::new(),
        })
    }

    /// Returns the recovery, for reading: paths, spaces, ranges to be acknowledged, connection IDs, timers, taken
    /// items.
    ///
    /// ```
    /// # use std::time::Duration;
    /// # use quic_recovery::*;
    /// # let at = |millis: u64| Instant::from_nanos(1 + millis * 1_000_000);
    /// # let space = SpaceId::Data;
    /// # let mut sender = Sender::established(Side::Client, &RecoveryConfig::default(), at(0))?;
    /// sender.send(space, at(0), 1200, true, None, &[7])?;
    /// assert!(sender.recovery().has_in_flight(space));
    /// sender.on_ack(space, at(100), &Ack::default(), &[(0, 0)])?;
    /// // the first sample is the RTT (RFC 9002, 5.3)
    /// assert_eq!(sender.recovery().rtt(), Duration::from_millis(100));
    /// # Ok::<(), Box<dyn std::error::Error>>(())
    /// ```
    pub fn recovery(&self) -> &Recovery {
        &self.recovery
    }

    /// Returns when the loss detection timer is due, as the last call set it (RFC 9002, A.8).
    ///
    /// ```
    /// # use quic_recovery::*;
    /// # let at = |millis: u64| Instant::from_nanos(1 + millis * 1_000_000);
    /// # let space = SpaceId::Data;
    /// # let mut sender = Sender::established(Side::Client, &RecoveryConfig::default(), at(0))?;
    /// sender.send(space, at(5), 1200, true, None, &[7])?;
    /// // 333 ms before a sample, four times half of that, and the peer's max_ack_delay (RFC 9002, 5.3 and 6.2)
    /// assert_eq!(sender.timer(), Some(at(5 + 333 + 666 + 25)));
    /// # Ok::<(), Box<dyn std::error::Error>>(())
    /// ```
    pub fn timer(&self) -> Option<Instant> {
        self.recovery.timer(Timer::LossDetection)
    }

    /// Returns what the timer for losses waits for, or why it is not set: the first thing to read if a transfer waits.
    ///
    /// ```
    /// # use quic_recovery::*;
    /// # let at = |millis: u64| Instant::from_nanos(1 + millis * 1_000_000);
    /// # let config = RecoveryConfig::default();
    /// let mut server = Sender::new(Side::Server, &config, at(0))?;
    /// server.on_datagram(1200)?;
    /// for item in 0..3 {
    ///     server.transmit(at(0), 1200, SpaceId::Initial, true)?;
    ///     server.send(SpaceId::Initial, at(0), 1200, true, None, &[item])?;
    /// }
    /// // three times 1200 bytes are sent (RFC 9000, 8.1): no timer runs (RFC 9002, 6.2.2.1)
    /// assert_eq!(server.timer_state(), TimerState::Blocked);
    /// server.on_address_validated();
    /// // 333 + 4 * 166.5 ms: in this space no max_ack_delay is added (RFC 9002, 6.2.1)
    /// assert_eq!(server.timer_state(), TimerState::Probes { space: SpaceId::Initial, at: at(999) });
    /// # Ok::<(), Box<dyn std::error::Error>>(())
    /// ```
    pub fn timer_state(&self) -> TimerState {
        let view = self.view();
        let space = SpaceId::VALUES[usize::from(view.space)];
        let at = Instant::from_nanos(view.timer);
        match view.awaits {
            ffi::AWAITS_LOSSES => TimerState::Losses { space, at },
            ffi::AWAITS_PROBES => TimerState::Probes { space, at },
            ffi::AWAITS_DEADLOCK_PROBE => TimerState::DeadlockProbe { space, at },
            ffi::AWAITS_PEER => TimerState::Blocked,
            ffi::AWAITS_CONFIRMATION => TimerState::Unconfirmed,
            ffi::AWAITS_NOTHING => TimerState::Idle,
            other => unreachable!("no timer waits for {other}"),
        }
    }

    /// Returns how many bytes more fit into the congestion window of the path in use (RFC 9002, 7). A datagram that
    /// counts in flight and is larger is [`Transmission::Full`]. Ask [`Sender::transmit`] for what waits even if there
    /// is no room: until the handshake is confirmed, the sender probes only for what it was asked for.
    ///
    /// ```
    /// # use quic_recovery::*;
    /// # let at = |millis: u64| Instant::from_nanos(1 + millis * 1_000_000);
    /// # let space = SpaceId::Data;
    /// # let mut sender = Sender::established(Side::Client, &RecoveryConfig::default(), at(0))?;
    /// // ten datagrams of 1200 bytes (RFC 9002, 7.2)
    /// assert_eq!(sender.window_room(), 12_000);
    /// sender.send(space, at(0), 1200, true, None, &[7])?;
    /// assert_eq!(sender.window_room(), 10_800);
    /// # Ok::<(), Box<dyn std::error::Error>>(())
    /// ```
    pub fn window_room(&self) -> u64 {
        self.view().window_room
    }

    /// Returns how many bytes the pacer permits now on the path in use: the largest datagram that
    /// [`Sender::transmit`] does not delay (RFC 9002, 7.7). It is `u64::MAX` if nothing is paced.
    ///
    /// ```
    /// # use quic_recovery::*;
    /// # let at = |millis: u64| Instant::from_nanos(1 + millis * 1_000_000);
    /// # let space = SpaceId::Data;
    /// # let mut sender = Sender::established(Side::Client, &RecoveryConfig::default(), at(0))?;
    /// // a burst of ten datagrams of 1200 bytes
    /// assert_eq!(sender.pacer_room(at(0)), 12_000);
    /// sender.transmit(at(0), 1200, space, true)?;
    /// assert_eq!(sender.pacer_room(at(0)), 10_800);
    /// // a fourth of the RTT of 333 ms later: 5/4 of a fourth of the window more, and no more than a burst
    /// assert_eq!(sender.pacer_room(at(84)), 12_000);
    /// # Ok::<(), Box<dyn std::error::Error>>(())
    /// ```
    pub fn pacer_room(&self, now: Instant) -> u64 {
        // SAFETY: the handle holds a recovery, and the call only reads.
        unsafe { ffi::recovery_ffi_pacer_room(&mut self.recovery.reader(), now.as_nanos()) }
    }

    /// Returns how many bytes the amplification limit still lets out on the path in use (RFC 9000, 8.1); `None` if its
    /// address is validated, so that no limit binds it.
    ///
    /// ```
    /// # use quic_recovery::*;
    /// # let at = |millis: u64| Instant::from_nanos(1 + millis * 1_000_000);
    /// # let config = RecoveryConfig::default();
    /// let mut server = Sender::new(Side::Server, &config, at(0))?;
    /// server.on_datagram(1200)?;
    /// // three times the bytes received (RFC 9000, 8.1)
    /// assert_eq!(server.amplification_room(), Some(3600));
    /// server.transmit(at(0), 1200, SpaceId::Initial, true)?;
    /// assert_eq!(server.amplification_room(), Some(2400));
    /// server.on_address_validated();
    /// assert_eq!(server.amplification_room(), None);
    /// # Ok::<(), Box<dyn std::error::Error>>(())
    /// ```
    pub fn amplification_room(&self) -> Option<u64> {
        let view = self.view();
        view.is_limited.then_some(view.amplification_room)
    }

    /// Returns whether an ACK must be sent in a space at once (RFC 9000, 13.2.1). The window and the pacer hold back no
    /// ACK (RFC 9002, 7 and 7.7): ask [`Sender::transmit`] with `in_flight` false, send the ACK alone with size 0, and
    /// report [`Event::AcksSent`].
    ///
    /// ```
    /// # use quic_recovery::*;
    /// # let at = |millis: u64| Instant::from_nanos(1 + millis * 1_000_000);
    /// # let (mut config, space) = (RecoveryConfig::default(), SpaceId::Data);
    /// config.transport.congestion = Congestion::Fixed(1200);
    /// let mut sender = Sender::established(Side::Client, &config, at(0))?;
    /// sender.send(space, at(0), 1200, true, None, &[7])?;
    /// // the ACK of one packet may wait, that of two may not (RFC 9000, 13.2.1 and 13.2.2)
    /// for (number, required) in [(0, false), (1, true)] {
    ///     sender.on_event(Event::Received { space, now: at(1), number, ack_eliciting: true })?;
    ///     assert_eq!(sender.ack_required(space), required);
    /// }
    /// // the window is full, and the ACK goes alone
    /// assert_eq!(sender.transmit(at(1), 1200, space, true)?, Transmission::Full { ack: true });
    /// assert_eq!(sender.transmit(at(1), 50, space, false)?, Transmission::Transmitted);
    /// sender.send(space, at(1), 0, false, Some(1), &[])?;
    /// sender.on_event(Event::AcksSent { space })?;
    /// assert!(!sender.ack_required(space));
    /// # Ok::<(), Box<dyn std::error::Error>>(())
    /// ```
    pub fn ack_required(&self, space: SpaceId) -> bool {
        self.recovery
            .space(space)
            .is_some_and(|it| it.can_send.acks)
    }

    /// Returns the smallest packet number that a space tracks, if any: all smaller ones are acknowledged, lost,
    /// forgotten or discarded. A stack chooses the length of packet numbers by it (RFC 9000, 17.1).
    ///
    /// ```
    /// # use quic_recovery::*;
    /// # let at = |millis: u64| Instant::from_nanos(1 + millis * 1_000_000);
    /// # let space = SpaceId::Data;
    /// # let mut sender = Sender::established(Side::Client, &RecoveryConfig::default(), at(0))?;
    /// for item in 0..3 {
    ///     sender.send(space, at(0), 1200, true, None, &[item])?;
    /// }
    /// sender.on_ack(space, at(50), &Ack::default(), &[(0, 1)])?;
    /// // acknowledged packets are no longer tracked (RFC 9002, A.7)
    /// assert_eq!(sender.smallest_tracked(space), Some(2));
    /// # Ok::<(), Box<dyn std::error::Error>>(())
    /// ```
    pub fn smallest_tracked(&self, space: SpaceId) -> Option<u64> {
        // SAFETY: the handle holds a recovery, and the call only reads.
        let view =
            unsafe { ffi::recovery_ffi_smallest_tracked(&mut self.recovery.reader(), space as u8) };
        view.is_some.then_some(view.number)
    }

    fn view(&self) -> ffi::SenderView {
        // SAFETY: the handle holds a recovery, and the call only reads.
        unsafe { ffi::recovery_ffi_sender_view(&mut self.recovery.reader()) }
    }

    /// Returns the number of consecutive probe timeouts, each of which doubles the next (RFC 9002, 6.2.1).
    ///
    /// ```
    /// # use quic_recovery::*;
    /// # let at = |millis: u64| Instant::from_nanos(1 + millis * 1_000_000);
    /// # let space = SpaceId::Data;
    /// # let mut sender = Sender::established(Side::Client, &RecoveryConfig::default(), at(0))?;
    /// sender.send(space, at(0), 1200, true, None, &[7])?;
    /// let timeout = 333 + 666 + 25;
    /// sender.on_timeout(at(timeout))?;
    /// assert_eq!(sender.pto_count(), 1);
    /// // twice the timeout after the last probe (RFC 9002, 6.2.1)
    /// sender.send(space, at(timeout), 1200, true, None, &[7])?;
    /// assert_eq!(sender.timer(), Some(at(timeout + 2 * timeout)));
    /// # Ok::<(), Box<dyn std::error::Error>>(())
    /// ```
    pub fn pto_count(&self) -> u32 {
        // SAFETY: the handle holds a recovery, and the call only reads.
        unsafe { ffi::recovery_ffi_pto_count(&mut self.recovery.reader()) }
    }

    /// Returns whether a datagram with packets of a space may be sent now, and counts it if so. Report its packets by
    /// [`Sender::send`] before the next datagram. Only the amplification limit is checked if a probe is due in the
    /// space, or if nothing in the datagram counts in flight (RFC 9002, 7, 7.5 and 7.7). Then `in_flight` is false: the
    /// datagram holds only ACKs, a close, or the MTU probe.
    ///
    /// After each call ask for whatever waits to be sent, also if [`Sender::window_room`] has no room. Packets of
    /// 1-RTT data may fill the window before the peer can read them. So until the handshake is confirmed, an Initial
    /// or Handshake datagram that finds no room starts a probe timeout of its space (RFC 9002, 6.2). If the answer says
    /// that an ACK is required, send it alone ([`Sender::ack_required`]).
    ///
    /// ```
    /// # use quic_recovery::*;
    /// # let at = |millis: u64| Instant::from_nanos(1 + millis * 1_000_000);
    /// # let space = SpaceId::Data;
    /// # let mut sender = Sender::established(Side::Client, &RecoveryConfig::default(), at(0))?;
    /// for item in 0..10 {
    ///     assert_eq!(sender.transmit(at(0), 1200, space, true)?, Transmission::Transmitted);
    ///     sender.send(space, at(0), 1200, true, None, &[item])?;
    /// }
    /// // the initial window is ten datagrams (RFC 9002, 7.2)
    /// assert_eq!(sender.transmit(at(0), 1200, space, true)?, Transmission::Full { ack: false });
    /// // a datagram with only ACKs does not count in flight (RFC 9002, 7)
    /// assert_eq!(sender.transmit(at(0), 50, space, false)?, Transmission::Transmitted);
    /// # Ok::<(), Box<dyn std::error::Error>>(())
    /// ```
    ///
    /// # Errors
    /// `SpaceDiscarded`, then `Overflow` if the bytes transmitted on the path would exceed `u64::MAX`. Then nothing has
    /// changed.
    #[inline]
    pub fn transmit(
        &mut self,
        now: Instant,
        bytes: u16,
        space: SpaceId,
        in_flight: bool,
    ) -> Result<Transmission, SenderError> {
        let (handle, now) = (self.recovery.handle(), now.as_nanos());
        // SAFETY: the handle holds a recovery, and `self` is borrowed alone.
        let reply = unsafe {
            ffi::recovery_ffi_sender_transmit(handle, now, bytes, space as u8, in_flight)
        };
        Ok(match reply.kind {
            ffi::ANSWER_TRANSMITTED => Transmission::Transmitted,
            ffi::ANSWER_BLOCKED => Transmission::Blocked,
            ffi::ANSWER_FULL => Transmission::Full { ack: reply.flag },
            ffi::ANSWER_DELAYED => Transmission::Delayed {
                until: Instant::from_nanos(reply.first),
                ack: reply.flag,
            },
            _ => return Err(error(&reply)),
        })
    }

    /// Records a sent packet with these items, as [`Event::Send`] and with its errors. An ack-eliciting packet starts the
    /// probe timeout, even with size 0, with which it does not count in flight (RFC 9002, A.5). No other packet does.
    ///
    /// ```
    /// # use quic_recovery::*;
    /// # let at = |millis: u64| Instant::from_nanos(1 + millis * 1_000_000);
    /// # let space = SpaceId::Data;
    /// # let mut sender = Sender::established(Side::Client, &RecoveryConfig::default(), at(0))?;
    /// // items 7 and 8 stand for the frames of this packet
    /// let data = sender.send(space, at(0), 1200, true, None, &[7, 8])?;
    /// // a packet with only an ACK frame, of numbers up to 41: it does not count in flight (RFC 9002, 2)
    /// let ack = sender.send(space, at(0), 0, false, Some(41), &[])?;
    /// // numbers increase (RFC 9000, 12.3)
    /// assert_eq!((data.number, ack.number), (0, 1));
    /// let (_, in_flight) = sender.recovery().window_and_flight();
    /// assert_eq!(in_flight, 1200);
    /// # Ok::<(), Box<dyn std::error::Error>>(())
    /// ```
    #[inline]
    pub fn send(
        &mut self,
        space: SpaceId,
        now: Instant,
        size: u16,
        ack_eliciting: bool,
        largest_acked: Option<u64>,
        queue: &[u64],
    ) -> Result<Sent, SenderError> {
        let event = Event::Send {
            space,
            now,
            size,
            ack_eliciting,
            largest_acked,
            queue,
        };
        let reply = self.recovery.reply_to(event);
        expect(ffi::ANSWER_SENT, &reply)?;
        Ok(Sent {
            number: reply.first,
            forgotten: reply.flag.then_some(reply.second),
        })
    }

    /// Returns an MTU probe to send, if one is due, and tracks it, as [`Event::PollMtu`] and with its errors. The
    /// window is not checked: an MTU probe may exceed it (RFC 9000, 14.4).
    ///
    /// ```
    /// # use quic_recovery::*;
    /// # let at = |millis: u64| Instant::from_nanos(1 + millis * 1_000_000);
    /// # let space = SpaceId::Data;
    /// # let mut sender = Sender::established(Side::Client, &RecoveryConfig::default(), at(0))?;
    /// let probe = sender.poll_mtu(at(0))?.expect("a search begins at the first poll");
    /// // a probe is larger than the MTU in use, and no larger than `upper_bound` (RFC 8899, 5.1.2)
    /// assert!(1200 < probe.size && probe.size <= 1452);
    /// sender.transmit(at(0), probe.size, space, false)?;
    /// // it is acknowledged: the path carries this size (RFC 8899, 5.2)
    /// sender.on_ack(space, at(50), &Ack::default(), &[(probe.number, probe.number)])?;
    /// let path = sender.recovery().path(PathName::Current);
    /// assert_eq!(path.map(|it| it.current_mtu), Some(probe.size));
    /// # Ok::<(), Box<dyn std::error::Error>>(())
    /// ```
    pub fn poll_mtu(&mut self, now: Instant) -> Result<Option<MtuProbe>, SenderError> {
        let reply = self.recovery.reply_to(Event::PollMtu { now });
        match reply.kind {
            ffi::ANSWER_PROBE => Ok(Some(MtuProbe {
                number: reply.first,
                size: reply.size,
            })),
            ffi::ANSWER_NO_PROBE => Ok(None),
            _ => Err(error(&reply)),
        }
    }

    /// Uses an MTU that was found elsewhere on the path in use: by a search of the caller's, or by the configuration of a
    /// tunnel (RFC 8899, 5; RFC 9000, 14.3). In bytes, above zero, and within the peer's limit. The controller's minimum
    /// window follows. A fresh path begins with the initial MTU of the settings.
    ///
    /// ```
    /// # use quic_recovery::*;
    /// # let at = |millis: u64| Instant::from_nanos(1 + millis * 1_000_000);
    /// let mut config = RecoveryConfig::default();
    /// config.transport.mtu_discovery_config = None;
    /// let mut sender = Sender::established(Side::Client, &config, at(0))?;
    /// sender.mtu_found(9000)?;
    /// let path = sender.recovery().path(PathName::Current);
    /// assert_eq!(path.map(|it| it.current_mtu), Some(9000));
    /// // the minimum window is two datagrams (RFC 9002, 7.2)
    /// assert_eq!(sender.recovery().window_and_flight(), (18_000, 0));
    /// # Ok::<(), Box<dyn std::error::Error>>(())
    /// ```
    ///
    /// # Errors
    /// `ZeroMtu` if it is zero, else `Searching` if MTU discovery is enabled in the settings. Then nothing has changed.
    pub fn mtu_found(&mut self, mtu: u16) -> Result<(), SenderError> {
        let reply = self.recovery.reply_to(Event::MtuFound { mtu });
        expect(ffi::ANSWER_DONE, &reply)
    }

    /// Processes a received ACK frame (RFC 9002, A.7). `ranges` has the first and last number of each range, the
    /// highest range first, as on the wire. The sender acknowledges the packets, takes an RTT sample, and declares
    /// packets lost. Cost: logarithmic for each range, each newly acknowledged packet, and each packet tracked below
    /// the largest acknowledged.
    ///
    /// ```
    /// # use quic_recovery::*;
    /// # let at = |millis: u64| Instant::from_nanos(1 + millis * 1_000_000);
    /// # let space = SpaceId::Data;
    /// # let mut sender = Sender::established(Side::Client, &RecoveryConfig::default(), at(0))?;
    /// for item in [70, 71, 72, 73] {
    ///     sender.send(space, at(0), 1200, true, None, &[item])?;
    /// }
    /// // the highest range first (RFC 9000, 19.3.1)
    /// let acked = sender.on_ack(space, at(100), &Ack::default(), &[(3, 3), (1, 1)])?;
    /// let packets: Vec<_> = acked.packets().collect();
    /// assert_eq!(packets, [(1, &[71][..]), (3, &[73][..])]);
    /// // packet 0 is lost: it is three below the largest acknowledged (RFC 9002, 6.1.1)
    /// assert_eq!(acked.losses.numbers, [0]);
    /// let unsent = sender.on_ack(space, at(101), &Ack::default(), &[(9, 9)]);
    /// assert_eq!(unsent, Err(SenderError::Unsent));
    /// # Ok::<(), Box<dyn std::error::Error>>(())
    /// ```
    ///
    /// # Errors
    /// `SpaceDiscarded`. `BadRange` if there is no range, a range ends before it begins, or two have no number between
    /// them (RFC 9000, 19.3.1). [`SenderError::Unsent`] if a number was never sent (RFC 9000, 13.1). `SkippedAcked` if a
    /// range holds the number that was skipped last (RFC 9000, 21.4). `NoMemory` if there is no room for the answer.
    /// Then nothing has changed.
    pub fn on_ack(
        &mut self,
        space: SpaceId,
        now: Instant,
        ack: &Ack,
        ranges: &[(u64, u64)],
    ) -> Result<Acknowledged, SenderError> {
        let mut told = Acknowledged::default();
        told.make_room(16, 0)?;
        self.on_ack_into(space, now, ack, ranges, &mut told)?;
        Ok(told)
    }

    /// Does the same as [`Sender::on_ack`], but fills vectors of the caller again. They allocate only if they grow.
    ///
    /// ```
    /// # use quic_recovery::*;
    /// # let at = |millis: u64| Instant::from_nanos(1 + millis * 1_000_000);
    /// # let space = SpaceId::Data;
    /// # let mut sender = Sender::established(Side::Client, &RecoveryConfig::default(), at(0))?;
    /// let mut acked = Acknowledged::default();
    /// for number in 0..3 {
    ///     let (sent, received) = (at(100 * number), at(100 * number + 50));
    ///     sender.send(space, sent, 1200, true, None, &[])?;
    ///     sender.on_ack_into(space, received, &Ack::default(), &[(0, number)], &mut acked)?;
    ///     // what was acknowledged before is not newly acknowledged (RFC 9002, A.7)
    ///     assert_eq!(acked.numbers, [number]);
    /// }
    /// # Ok::<(), Box<dyn std::error::Error>>(())
    /// ```
    ///
    /// # Errors
    /// Those of [`Sender::on_ack`]. Then nothing has changed, except that the vectors may be empty.
    #[inline]
    pub fn on_ack_into(
        &mut self,
        space: SpaceId,
        now: Instant,
        ack: &Ack,
        ranges: &[(u64, u64)],
        told: &mut Acknowledged,
    ) -> Result<(), SenderError> {
        let reply = match *ranges {
            // most frames have one range, which needs no vector
            [(first, last)] => {
                let one = [ffi::AckRange { first, last }];
                take(&mut self.recovery, space, now, &frame(ack, told), &one)
            }
            _ => self.take_ranges(space, now, ack, ranges, told)?,
        };
        if reply.kind == ffi::ANSWER_ACKNOWLEDGED && reply.second == 0 && !reply.flag {
            told.losses.be_none();
            told.ecn = EcnOutcome::Quiet;
            return Ok(self.packets(reply.first, told)?);
        }
        self.take_rest(space, now, ack, ranges, told, reply)
    }

    /// Passes a frame with any ranges.
    #[inline(never)]
    fn take_ranges(
        &mut self,
        space: SpaceId,
        now: Instant,
        ack: &Ack,
        ranges: &[(u64, u64)],
        told: &Acknowledged,
    ) -> Result<ffi::EncodedReply, Refusal> {
        self.convert(ranges)?;
        let frame = frame(ack, told);
        Ok(take(&mut self.recovery, space, now, &frame, &self.ranges))
    }

    /// Passes a frame again if its answer needs more room. Then reads an outcome that has more than packets.
    #[inline(never)]
    fn take_rest(
        &mut self,
        space: SpaceId,
        now: Instant,
        ack: &Ack,
        ranges: &[(u64, u64)],
        told: &mut Acknowledged,
        mut reply: ffi::EncodedReply,
    ) -> Result<(), SenderError> {
        if reply.kind == ffi::ANSWER_NEEDS_ROOM {
            told.make_room(reply.first, reply.second)?;
            reply = self.take_ranges(space, now, ack, ranges, told)?;
        }
        expect(ffi::ANSWER_ACKNOWLEDGED, &reply)?;
        Ok(self.last_outcome(told)?)
    }

    /// Stores ranges in the library's form.
    fn convert(&mut self, ranges: &[(u64, u64)]) -> Result<(), Refusal> {
        self.ranges.clear();
        self.ranges
            .try_reserve(ranges.len())
            .map_err(|_| Refusal::NoMemory)?;
        let given = ranges
            .iter()
            .map(|&(first, last)| ffi::AckRange { first, last });
        self.ranges.extend(given);
        Ok(())
    }

    /// Returns how many packets a space tracks, and when the next is lost.
    fn tracked(&self, space: SpaceId) -> ffi::TrackedView {
        // SAFETY: the handle holds a recovery, and the call only reads.
        unsafe { ffi::recovery_ffi_tracked(&mut self.recovery.reader(), space as u8) }
    }

    /// Returns how many packets a timeout may declare lost: those of one space, if they may be lost by now.
    fn may_lose(&self, now: Instant) -> u64 {
        let spaces = SpaceId::VALUES.into_iter().map(|it| self.tracked(it));
        let due = spaces.filter(|it| it.has_loss_time && it.loss_time <= now.as_nanos());
        due.map(|it| it.packets).max().unwrap_or(0)
    }

    /// Handles the loss detection timer, which may be due (RFC 9002, A.9). Before its time nothing happens. If a space
    /// may have lost packets, they are declared lost. Otherwise probes are due in the space whose timer expired, and
    /// replace those that were due before. For each the caller asks [`Sender::transmit`], takes its contents by
    /// [`Sender::probe`] and sends it by [`Sender::send`], in this order. Cost: logarithmic for each packet tracked
    /// below the largest acknowledged.
    ///
    /// ```
    /// # use quic_recovery::*;
    /// # let at = |millis: u64| Instant::from_nanos(1 + millis * 1_000_000);
    /// # let space = SpaceId::Data;
    /// # let mut sender = Sender::established(Side::Client, &RecoveryConfig::default(), at(0))?;
    /// for item in 0..2 {
    ///     sender.send(space, at(0), 1200, true, None, &[item])?;
    /// }
    /// sender.on_ack(space, at(80), &Ack::default(), &[(1, 1)])?;
    /// // packet 0 is lost 9/8 of the RTT of 80 ms after it was sent (RFC 9002, 6.1.2)
    /// assert_eq!(sender.timer(), Some(at(90)));
    /// assert_eq!(sender.on_timeout(at(89))?, Timeout::Nothing);
    /// match sender.on_timeout(at(90))? {
    ///     Timeout::Lost { losses, .. } => assert_eq!(losses.numbers, [0]),
    ///     other => panic!("{other:?}"),
    /// }
    /// # Ok::<(), Box<dyn std::error::Error>>(())
    /// ```
    ///
    /// # Errors
    /// `NoMemory` if there is no room for the numbers of the packets that may be lost. Then nothing has changed. A
    /// timeout that asks for probes allocates nothing.
    pub fn on_timeout(&mut self, now: Instant) -> Result<Timeout, SenderError> {
        let mut told = Acknowledged::default();
        told.make_room(0, self.may_lose(now))?;
        let (handle, now) = (self.recovery.handle(), now.as_nanos());
        // SAFETY: the handle holds a recovery, and `self` is borrowed alone.
        let reply = unsafe { ffi::recovery_ffi_sender_on_timeout(handle, now) };
        Ok(match reply.kind {
            ffi::ANSWER_NOTHING => Timeout::Nothing,
            ffi::ANSWER_LOSSES => {
                self.last_outcome(&mut told)?;
                Timeout::Lost {
                    space: space_of(reply.first),
                    losses: told.losses,
                }
            }
            ffi::ANSWER_PROBES => match reply.second {
                count @ 1..=2 => Timeout::Probe {
                    space: space_of(reply.first),
                    count: count as u8,
                },
                count => unreachable!("the library says that {count} probes are due"),
            },
            _ => return Err(error(&reply)),
        })
    }

    /// Returns the contents of a probe in a space (RFC 9002, 6.2.4): what is queued for retransmission, or else the
    /// contents of the first packet in flight that has any. If called for both probes of a timeout, each carries the
    /// contents of another packet. If there are no items, send a PING frame. `immediate_ack` asks for an IMMEDIATE_ACK
    /// frame in the probe.
    ///
    /// There may be more items than one packet holds, and the sender no longer has any of them. Pass to [`Sender::send`]
    /// those that the packet carries. Put the others into the second probe, then into the next packets that
    /// [`Sender::transmit`] permits.
    ///
    /// ```
    /// # use quic_recovery::*;
    /// # let at = |millis: u64| Instant::from_nanos(1 + millis * 1_000_000);
    /// # let space = SpaceId::Data;
    /// # let mut sender = Sender::established(Side::Client, &RecoveryConfig::default(), at(0))?;
    /// for item in [7, 8] {
    ///     sender.send(space, at(0), 1200, true, None, &[item])?;
    /// }
    /// let now = at(333 + 666 + 25);
    /// // two packets may be sent, even if the window is full (RFC 9002, 6.2.4 and 7.5)
    /// assert_eq!(sender.on_timeout(now)?, Timeout::Probe { space, count: 2 });
    /// for item in [7, 8] {
    ///     assert_eq!(sender.transmit(now, 1200, space, true)?, Transmission::Transmitted);
    ///     let items = sender.probe(space, false)?;
    ///     assert_eq!(items, [item]);
    ///     sender.send(space, now, 1200, true, None, &items)?;
    /// }
    /// # Ok::<(), Box<dyn std::error::Error>>(())
    /// ```
    ///
    /// # Errors
    /// `SpaceDiscarded`, or `NoMemory` if the queues cannot be joined or the answer cannot be allocated. Then nothing
    /// has changed.
    pub fn probe(&mut self, space: SpaceId, immediate_ack: bool) -> Result<Vec<u64>, SenderError> {
        let room = self.recovery.room_for_probe(space)?;
        let handle = self.recovery.handle();
        // SAFETY: the handle holds a recovery, and `self` is borrowed alone.
        let reply = unsafe { ffi::recovery_ffi_sender_probe(handle, space as u8, immediate_ack) };
        expect(ffi::ANSWER_QUEUE, &reply)?;
        Ok(self.recovery.taken(room))
    }

    /// Records a received datagram of this many bytes on the path in use. If its address is not validated, more may be
    /// sent, so that the timer may be due at once (RFC 9000, 8.1; RFC 9002, A.6). Fails with `Overflow`, without a
    /// change, if the bytes received on the path would exceed `u64::MAX`.
    ///
    /// ```
    /// # use quic_recovery::*;
    /// # let at = |millis: u64| Instant::from_nanos(1 + millis * 1_000_000);
    /// # let config = RecoveryConfig::default();
    /// let (mut server, space) = (Sender::new(Side::Server, &config, at(0))?, SpaceId::Initial);
    /// assert_eq!(server.transmit(at(0), 1200, space, true)?, Transmission::Blocked);
    /// server.on_datagram(1200)?;
    /// // three datagrams of this size may be sent, and no fourth (RFC 9000, 8.1)
    /// for _ in 0..3 {
    ///     assert_eq!(server.transmit(at(0), 1200, space, true)?, Transmission::Transmitted);
    /// }
    /// assert_eq!(server.transmit(at(0), 1200, space, true)?, Transmission::Blocked);
    /// # Ok::<(), Box<dyn std::error::Error>>(())
    /// ```
    pub fn on_datagram(&mut self, bytes: u64) -> Result<(), SenderError> {
        let path = PathName::Current;
        let reply = self.recovery.reply_to(Event::DatagramIn { path, bytes });
        expect(ffi::ANSWER_DONE, &reply)
    }

    /// Records that Handshake keys are available (RFC 9002, A.8).
    ///
    /// ```
    /// # use quic_recovery::*;
    /// # let at = |millis: u64| Instant::from_nanos(1 + millis * 1_000_000);
    /// # let config = RecoveryConfig::default();
    /// let (mut client, space) = (Sender::new(Side::Client, &config, at(0))?, SpaceId::Initial);
    /// client.send(space, at(0), 1200, true, None, &[7])?;
    /// client.on_ack(space, at(50), &Ack::default(), &[(0, 0)])?;
    /// // the server may be blocked: an Initial packet is to be sent, so that it may send again (RFC 9002, 6.2.2.1)
    /// assert!(matches!(client.timer_state(), TimerState::DeadlockProbe { space: SpaceId::Initial, .. }));
    /// client.on_handshake_keys();
    /// // with Handshake keys it is a Handshake packet
    /// assert!(matches!(client.timer_state(), TimerState::DeadlockProbe { space: SpaceId::Handshake, .. }));
    /// # Ok::<(), Box<dyn std::error::Error>>(())
    /// ```
    pub fn on_handshake_keys(&mut self) {
        // SAFETY: the handle holds a recovery, and `self` is borrowed alone.
        unsafe { ffi::recovery_ffi_sender_handshake_keys(self.recovery.handle()) };
    }

    /// Records that the handshake is confirmed (RFC 9001, 4.1.2). From then on 1-RTT packets are probed for, and a
    /// client knows its address validated (RFC 9002, 6.2.1 and 6.2.2.1).
    ///
    /// ```
    /// # use quic_recovery::*;
    /// # let at = |millis: u64| Instant::from_nanos(1 + millis * 1_000_000);
    /// # let config = RecoveryConfig::default();
    /// let (mut server, space) = (Sender::new(Side::Server, &config, at(0))?, SpaceId::Data);
    /// server.on_address_validated();
    /// for keys in [SpaceId::Initial, SpaceId::Handshake] {
    ///     server.discard(keys, at(0))?;
    /// }
    /// server.send(space, at(0), 1200, true, None, &[7])?;
    /// // 1-RTT packets are not probed for before the handshake is confirmed (RFC 9002, 6.2.1)
    /// assert_eq!(server.timer_state(), TimerState::Unconfirmed);
    /// server.on_handshake_confirmed();
    /// assert_eq!(server.timer_state(), TimerState::Probes { space, at: at(333 + 666 + 25) });
    /// # Ok::<(), Box<dyn std::error::Error>>(())
    /// ```
    pub fn on_handshake_confirmed(&mut self) {
        // SAFETY: the handle holds a recovery, and `self` is borrowed alone.
        unsafe { ffi::recovery_ffi_sender_handshake_confirmed(self.recovery.handle()) };
    }

    /// Validates the peer's address on the path in use (RFC 9000, 8.1 and 8.2).
    ///
    /// ```
    /// # use quic_recovery::*;
    /// # let at = |millis: u64| Instant::from_nanos(1 + millis * 1_000_000);
    /// # let config = RecoveryConfig::default();
    /// let mut server = Sender::new(Side::Server, &config, at(0))?;
    /// assert_eq!(server.transmit(at(0), 1200, SpaceId::Initial, true)?, Transmission::Blocked);
    /// server.on_address_validated();
    /// // the limit no longer applies (RFC 9000, 8.1)
    /// assert_eq!(server.transmit(at(0), 1200, SpaceId::Initial, true)?, Transmission::Transmitted);
    /// # Ok::<(), Box<dyn std::error::Error>>(())
    /// ```
    pub fn on_address_validated(&mut self) {
        let path = PathName::Current;
        self.recovery.reply_to(Event::Validated { path });
    }

    /// Sets the peer's max_ack_delay, for 1-RTT packets (RFC 9000, 18.2); 25 ms before.
    ///
    /// ```
    /// # use std::time::Duration;
    /// # use quic_recovery::*;
    /// # let at = |millis: u64| Instant::from_nanos(1 + millis * 1_000_000);
    /// # let space = SpaceId::Data;
    /// # let mut sender = Sender::established(Side::Client, &RecoveryConfig::default(), at(0))?;
    /// sender.set_peer_max_ack_delay(Duration::from_millis(60));
    /// sender.send(space, at(0), 1200, true, None, &[7])?;
    /// // the probe timeout allows for this delay (RFC 9002, 6.2.1)
    /// assert_eq!(sender.timer(), Some(at(333 + 666 + 60)));
    /// # Ok::<(), Box<dyn std::error::Error>>(())
    /// ```
    pub fn set_peer_max_ack_delay(&mut self, span: Duration) {
        let (secs, nanos) = (span.as_secs(), span.subsec_nanos());
        // SAFETY: the handle holds a recovery, and `self` is borrowed alone.
        unsafe { ffi::recovery_ffi_sender_peer_delay(self.recovery.handle(), secs, nanos) };
    }

    /// Sets the RTT that timers use before the first RTT sample of the path in use, in place of that of the settings
    /// (RFC 9002, 6.2.2). It may be that of an earlier connection to the same peer, or the time that a Retry took.
    /// Probe timeout and loss delay follow at once; the pacer uses the settings until the first sample. A new path with
    /// an initial RTT uses the settings again.
    ///
    /// ```
    /// # use std::time::Duration;
    /// # use quic_recovery::*;
    /// # let at = |millis: u64| Instant::from_nanos(1 + millis * 1_000_000);
    /// # let space = SpaceId::Data;
    /// # let mut sender = Sender::established(Side::Client, &RecoveryConfig::default(), at(0))?;
    /// sender.set_initial_rtt(Duration::from_millis(100));
    /// sender.send(space, at(0), 1200, true, None, &[7])?;
    /// // 100 ms, four times half of that, and the peer's max_ack_delay (RFC 9002, 5.3 and 6.2)
    /// assert_eq!(sender.timer(), Some(at(100 + 200 + 25)));
    /// # Ok::<(), Box<dyn std::error::Error>>(())
    /// ```
    pub fn set_initial_rtt(&mut self, rtt: Duration) {
        let (secs, nanos) = (rtt.as_secs(), rtt.subsec_nanos());
        // SAFETY: the handle holds a recovery, and `self` is borrowed alone.
        unsafe { ffi::recovery_ffi_sender_initial_rtt(self.recovery.handle(), secs, nanos) };
    }

    /// Stores the data of the outstanding PATH_CHALLENGE frame on the path in use, if any, and whether a PATH_CHALLENGE
    /// is to be sent (RFC 9000, 8.2.1). While one is outstanding, the window does not grow: an acknowledged packet may
    /// have been sent on the path before it (RFC 9000, 9.4).
    ///
    /// ```
    /// # use quic_recovery::*;
    /// # let at = |millis: u64| Instant::from_nanos(1 + millis * 1_000_000);
    /// # let space = SpaceId::Data;
    /// # let mut sender = Sender::established(Side::Client, &RecoveryConfig::default(), at(0))?;
    /// for (challenge, window) in [(Some(7), 12_000), (None, 13_200)] {
    ///     sender.set_challenge(challenge, false);
    ///     let sent = sender.send(space, at(1), 1200, true, None, &[])?.number;
    ///     sender.on_ack(space, at(51), &Ack::default(), &[(sent, sent)])?;
    ///     // in slow start an ACK adds the bytes that it acknowledges (RFC 9002, 7.3.1), unless a challenge is open
    ///     assert_eq!(sender.recovery().window_and_flight(), (window, 0));
    /// }
    /// # Ok::<(), Box<dyn std::error::Error>>(())
    /// ```
    pub fn set_challenge(&mut self, challenge: Option<u64>, pending: bool) {
        let (data, is_open) = (challenge.unwrap_or(0), challenge.is_some());
        let handle = self.recovery.handle();
        // SAFETY: the handle holds a recovery, and `self` is borrowed alone.
        unsafe { ffi::recovery_ffi_sender_challenge(handle, data, is_open, pending) };
    }

    /// Discards a space with its keys and its tracked packets, and resets the count of probe timeouts (RFC 9002, 6.2.2,
    /// 6.4 and A.11). Fails with `SpaceDiscarded`, without a change.
    ///
    /// ```
    /// # use quic_recovery::*;
    /// # let at = |millis: u64| Instant::from_nanos(1 + millis * 1_000_000);
    /// # let config = RecoveryConfig::default();
    /// let (mut client, space) = (Sender::new(Side::Client, &config, at(0))?, SpaceId::Initial);
    /// client.send(space, at(0), 1200, true, None, &[7])?;
    /// client.discard(space, at(50))?;
    /// // what was sent in the space is no longer in flight (RFC 9002, 6.4)
    /// assert!(!client.recovery().has_in_flight(space));
    /// // an ACK that comes too late: drop it
    /// let late = client.on_ack(space, at(60), &Ack::default(), &[(0, 0)]);
    /// assert_eq!(late, Err(Refusal::SpaceDiscarded.into()));
    /// # Ok::<(), Box<dyn std::error::Error>>(())
    /// ```
    pub fn discard(&mut self, space: SpaceId, now: Instant) -> Result<(), SenderError> {
        let (handle, now) = (self.recovery.handle(), now.as_nanos());
        // SAFETY: the handle holds a recovery, and `self` is borrowed alone.
        let reply = unsafe { ffi::recovery_ffi_sender_discard(handle, space as u8, now) };
        expect(ffi::ANSWER_DONE, &reply)
    }

    /// Declares all packets of a space lost, because they will not be acknowledged: after a Retry, or if 0-RTT is
    /// rejected (RFC 9002, 6.3 and 6.4). Their items are queued for retransmission. This does not indicate congestion.
    /// Resets the count of probe timeouts.
    ///
    /// If allocation fails for a packet, it is still tracked, the others are lost, and `is_cut` is true: the same call
    /// continues with the rest. Cost: logarithmic for each tracked packet.
    ///
    /// ```
    /// # use quic_recovery::*;
    /// # let at = |millis: u64| Instant::from_nanos(1 + millis * 1_000_000);
    /// # let config = RecoveryConfig::default();
    /// let (mut client, space) = (Sender::new(Side::Client, &config, at(0))?, SpaceId::Initial);
    /// for item in [7, 8] {
    ///     client.send(space, at(0), 1200, true, None, &[item])?;
    /// }
    /// // a Retry: the first Initial packets will not be acknowledged (RFC 9002, 6.3)
    /// let lost = client.retransmit_all(space, at(50))?;
    /// assert_eq!((lost.numbers, lost.is_cut), (vec![0, 1], false));
    /// assert_eq!(client.on_event(Event::TakePending { space })?, Answer::Queue(vec![7, 8]));
    /// // no congestion: the window is still that of RFC 9002, 7.2
    /// assert_eq!(client.recovery().window_and_flight(), (12_000, 0));
    /// # Ok::<(), Box<dyn std::error::Error>>(())
    /// ```
    ///
    /// # Errors
    /// `SpaceDiscarded`, or `NoMemory` if there is no room for the numbers. Then nothing has changed.
    pub fn retransmit_all(
        &mut self,
        space: SpaceId,
        now: Instant,
    ) -> Result<Retransmitted, SenderError> {
        let mut told = Acknowledged::default();
        told.make_room(0, self.tracked(space).packets)?;
        let (handle, now) = (self.recovery.handle(), now.as_nanos());
        // SAFETY: the handle holds a recovery, and `self` is borrowed alone.
        let reply = unsafe { ffi::recovery_ffi_sender_retransmit_all(handle, space as u8, now) };
        expect(ffi::ANSWER_LOSSES, &reply)?;
        self.last_outcome(&mut told)?;
        Ok(Retransmitted {
            numbers: told.losses.numbers,
            is_cut: told.losses.is_cut,
        })
    }

    /// Applies an event, as [`Recovery::apply`] does and with the same errors. Fails with [`SenderError::Decided`] for
    /// events that only the sender itself makes: `Acked`, `Lost`, `LossesDone`, `Sample`, `EndAcks`, `Congestion`,
    /// `Ecn`, `QueueProbe`, `Transmit`, `DiscardSpace`, and `SetTimer` and `StopTimer` of [`Timer::LossDetection`].
    ///
    /// ```
    /// # use quic_recovery::*;
    /// # let at = |millis: u64| Instant::from_nanos(1 + millis * 1_000_000);
    /// # let space = SpaceId::Data;
    /// # let mut sender = Sender::established(Side::Client, &RecoveryConfig::default(), at(0))?;
    /// let packet = Event::Received { space, now: at(5), number: 0, ack_eliciting: true };
    /// assert!(matches!(sender.on_event(packet)?, Answer::New { .. }));
    /// // a number is new once (RFC 9000, 12.3)
    /// assert_eq!(sender.on_event(packet)?, Answer::Duplicate);
    /// // the sender itself declares packets lost
    /// let lost = sender.on_event(Event::Lost { space, number: 0 });
    /// assert_eq!(lost, Err(SenderError::Decided));
    /// # Ok::<(), Box<dyn std::error::Error>>(())
    /// ```
    pub fn on_event(&mut self, event: Event<'_>) -> Result<Answer, SenderError> {
        if let Event::TakePending { space } = event {
            return Ok(self.recovery.take_pending(space)?);
        }
        let reply = self.recovery.reply_to(event);
        if reply.kind == ffi::ANSWER_REFUSED {
            return Err(error(&reply));
        }
        Ok(self.recovery.read(reply)?)
    }

    /// Reads the last outcome: of an ACK frame that was processed, of a timeout that made a loss detection pass, or of
    /// a space whose packets were all declared lost. It is empty before the first.
    ///
    /// # Errors
    /// `NoMemory` if the vectors cannot grow.
    pub fn last_outcome(&self, into: &mut Acknowledged) -> Result<(), Refusal> {
        // SAFETY: the handle holds a recovery, and the call only reads.
        let view = unsafe { ffi::recovery_ffi_last_outcome(&mut self.recovery.reader()) };
        self.packets(view.acked, into)?;
        self.lost(view.lost, &mut into.losses.numbers)?;
        into.losses.probe = view.has_probe.then_some(view.probe);
        into.losses.congestion = view.has_congestion.then_some(view.congestion);
        into.losses.is_persistent = view.is_persistent;
        into.losses.is_black_hole = view.is_black_hole;
        into.losses.is_cut = view.is_cut;
        into.ecn = match view.ecn {
            ffi::ECN_QUIET => EcnOutcome::Quiet,
            ffi::ECN_MARKED => EcnOutcome::Marked,
            ffi::ECN_FAILED => EcnOutcome::Failed,
            number => unreachable!("the library says that counts of ECN come to {number}"),
        };
        Ok(())
    }

    /// Reads `count` acknowledged packets into the answer.
    #[inline(always)]
    fn packets(&self, count: u64, into: &mut Acknowledged) -> Result<(), Refusal> {
        let wanted = self.words(&mut into.words);
        if wanted > into.words.capacity() {
            make_room(&mut into.words, wanted)?;
            self.words(&mut into.words);
        }
        into.number(usize::try_from(count).map_err(|_| Refusal::NoMemory)?)
    }

    /// Reads the acknowledged packets into a vector if it has room for them. Returns how many words they take.
    #[inline(always)]
    fn words(&self, into: &mut Vec<u64>) -> usize {
        into.clear();
        let (handle, out, room) = (
            &mut self.recovery.reader(),
            into.as_mut_ptr(),
            into.capacity(),
        );
        // SAFETY: the handle holds a recovery, the call only reads, and there is room for `room` words.
        let wanted = unsafe { ffi::recovery_ffi_told_packets(handle, out, room) };
        if wanted <= room {
            // SAFETY: there is room for these words, so the call has written them.
            unsafe { into.set_len(wanted) };
        }
        wanted
    }

    /// Reads the lost numbers into a vector.
    fn lost(&self, count: u64, into: &mut Vec<u64>) -> Result<(), Refusal> {
        let count = usize::try_from(count).map_err(|_| Refusal::NoMemory)?;
        into.clear();
        into.try_reserve(count).map_err(|_| Refusal::NoMemory)?;
        into.resize(count, 0);
        if count > 0 {
            let (handle, out) = (&mut self.recovery.reader(), into.as_mut_ptr());
            // SAFETY: the handle holds a recovery, the call only reads, and there is room for `count` numbers.
            unsafe { ffi::recovery_ffi_told_numbers(handle, true, out, count) };
        }
        Ok(())
    }
}
