//! The safe interface to the recovery of one connection.
use crate::config::{address, ConfigError, RecoveryConfig};
use crate::event::{Answer, Event, Refusal};
use crate::ffi;
use crate::sender::Side;
use crate::timer::Timer;
use crate::types::{Instant, PathMarks, PathName, ResetToken, SendableFrames, SpaceId};
use std::fmt;
use std::ops::Range;
use std::ptr::null_mut;
use std::time::Duration;

/// The state of a path. Durations are capped at `u64::MAX` nanoseconds.
#[derive(Clone, Copy, Debug, PartialEq, Eq)]
#[non_exhaustive]
pub struct PathStats {
    /// How many bytes may be in flight (RFC 9002, 7).
    pub window: u64,
    /// The slow start threshold, in bytes: `u64::MAX` before the first loss (RFC 9002, 7.3.1), and `None` for a fixed
    /// window.
    pub ssthresh: Option<u64>,
    /// The bytes in flight (RFC 9002, B.2).
    pub in_flight: u64,
    /// How many packets in flight are ack-eliciting.
    pub ack_eliciting: u64,
    /// The bytes of the datagrams transmitted.
    pub total_sent: u64,
    /// The bytes of the datagrams received.
    pub total_recvd: u64,
    /// The round-trip time.
    pub rtt: RttEstimate,
    /// The pacer's bucket.
    pub pacer: PacerStats,
    /// The MTU in use, in bytes (RFC 9000, 14.3).
    pub current_mtu: u16,
    /// Whether the peer's address is validated (RFC 9000, 8).
    pub validated: bool,
}

/// The estimate of a round-trip time (RFC 9002, 5).
#[derive(Clone, Copy, Debug, PartialEq, Eq)]
pub struct RttEstimate {
    /// The RTT estimate: the smoothed one, or the initial one before the first sample (RFC 9002, 5.3).
    pub get: Duration,
    /// The larger of that estimate and the last sample, for loss detection (RFC 9002, 6.1.2).
    pub conservative: Duration,
    /// The smallest sample (RFC 9002, 5.2).
    pub min: Duration,
    /// The last sample, or the initial RTT before the first one (RFC 9002, 5.1).
    pub latest: Duration,
    /// The mean deviation of the samples, or half of the initial RTT before the first one (RFC 9002, 5.3: `rttvar`).
    pub variance: Duration,
    /// The probe timeout without the peer's max_ack_delay (RFC 9002, 6.2.1).
    pub pto_base: Duration,
}

/// The bucket of a pacer: one token per byte (RFC 9002, 7.7).
#[derive(Clone, Copy, Debug, PartialEq, Eq)]
pub struct PacerStats {
    /// The most bytes that may be sent at once.
    pub capacity: u64,
    /// The bytes that it holds after the last `Transmit` or `PacerCheck`, without those of the time since.
    pub tokens: u64,
}

/// What a packet number space has to send.
#[derive(Clone, Copy, Debug, PartialEq, Eq)]
#[non_exhaustive]
pub struct SpaceStats {
    /// The largest packet number received; 0 before the first.
    pub largest_received: u64,
    /// How many ranges of packet numbers are to be acknowledged.
    pub ranges: usize,
    /// The number of the next packet, unless it is skipped.
    pub next_packet_number: u64,
    /// What can be sent.
    pub can_send: SendableFrames,
}

/// The connection IDs of both endpoints, and their max_ack_delay.
#[derive(Clone, Copy, Debug, PartialEq, Eq)]
#[non_exhaustive]
pub struct IdStats {
    /// The sequence number of the peer's connection ID in use.
    pub active: u64,
    /// How many connection IDs the local endpoint has issued.
    pub issued: u64,
    /// The peer is asked to retire the local connection IDs below this sequence number.
    pub retire_prior_to: u64,
    /// The local max_ack_delay.
    pub max_ack_delay: Duration,
    /// The peer's max_ack_delay, as far as it is known.
    pub peer_max_ack_delay: Duration,
}

/// The loss recovery of one connection. You pass in events with their times; it returns answers and errors. It does no
/// I/O and reads no clock. Each answer is proved to follow from the events before it.
///
/// It may move to another thread. Several threads may read it at once, while no event is applied.
///
/// ```
/// use quic_recovery::*;
///
/// let at = |millis: u64| Instant::from_nanos(1 + millis * 1_000_000);
/// let space = SpaceId::Data;
/// let mut recovery = Recovery::new(&RecoveryConfig::default(), at(0))?;
/// let packet = Event::Received { space, now: at(3), number: 0, ack_eliciting: true };
/// assert!(matches!(recovery.apply(packet)?, Answer::New { .. }));
/// // an ack-eliciting packet is to be acknowledged (RFC 9000, 13.2.1)
/// assert_eq!(recovery.ranges(space).collect::<Vec<_>>(), [0..1]);
/// assert_eq!(recovery.apply(Event::AcksSent { space })?, Answer::Done);
/// # Ok::<(), Box<dyn std::error::Error>>(())
/// ```
pub struct Recovery {
    /// It holds a recovery from `new` to `drop`. Calls that change the recovery get this handle, and readers a copy of
    /// it ([`Recovery::reader`]).
    handle: ffi::Handle,
}

// SAFETY: the handle owns one block of memory and all that it leads to. The library has no thread locals and no mutable
// statics, and allocates and frees memory by `malloc` and `free`, which any thread may call.
unsafe impl Send for Recovery {}

// SAFETY: what `&self` permits only reads. Each reader of the library guarantees that the recovery is unchanged
// (`ReadsHandle`), and its code borrows the recovery as shared, which has no interior mutability. It writes only to the
// bytes of the handle, from which it takes the pointer and puts it back, and each call has a copy of these. Methods that
// change the recovery take `&mut self`, so no reader runs at the same time.
unsafe impl Sync for Recovery {}

impl fmt::Debug for Recovery {
    fn fmt(&self, f: &mut fmt::Formatter<'_>) -> fmt::Result {
        f.debug_struct("Recovery")
            .field("path", &self.path(PathName::Current))
            .finish_non_exhaustive()
    }
}

impl Drop for Recovery {
    fn drop(&mut self) {
        // SAFETY: the handle holds a recovery, and is not used again.
        unsafe { ffi::recovery_ffi_drop(&mut self.handle) }
    }
}

/// The initial form of a recovery.
#[derive(Clone, Copy)]
pub(crate) enum Form {
    /// A bare recovery.
    Bare,
    /// A sender of this side, from the start of the handshake.
    Handshaking(Side),
    /// A sender of this side, once the handshake is confirmed.
    Established(Side),
}

fn is_previous(path: PathName) -> bool {
    path == PathName::Previous
}

/// Passes an event to the library.
///
/// # Safety
///
/// The handle holds a recovery, and nothing else uses it during the call.
#[inline(always)]
unsafe fn hand_in(handle: *mut ffi::Handle, event: Event<'_>) -> ffi::EncodedReply {
    use ffi::*;
    // SAFETY: as this function's; slices are passed by their own pointers and lengths. The types ensure that IDs have
    // at most 20 bytes, numbers of frames are below 2^62 and nanoseconds are below 10^9, so that no call fails for it.
    unsafe {
        match event {
            Event::Received {
                space,
                now,
                number,
                ack_eliciting,
            } => recovery_ffi_received(handle, space as u8, now.as_nanos(), number, ack_eliciting),
            Event::Send {
                space,
                now,
                size,
                ack_eliciting,
                largest_acked,
                queue,
            } => recovery_ffi_send(
                handle,
                space as u8,
                now.as_nanos(),
                size,
                ack_eliciting,
                largest_acked.is_some(),
                largest_acked.unwrap_or(0),
                queue.as_ptr(),
                queue.len(),
            ),
            Event::Acked {
                space,
                now,
                number,
                app_limited,
            } => recovery_ffi_acked(handle, space as u8, now.as_nanos(), number, app_limited),
            Event::Lost { space, number } => recovery_ffi_lost(handle, space as u8, number),
            Event::NewId(frame) => recovery_ffi_new_id(
                handle,
                frame.sequence,
                frame.retire_prior_to,
                frame.id.as_ptr(),
                frame.id.len(),
                frame.reset_token.bytes(),
            ),
            Event::NextId => recovery_ffi_next_id(handle),
            Event::InitialId(id) => recovery_ffi_initial_id(handle, id.as_ptr(), id.len()),
            Event::IssueIds { now, ids } => {
                recovery_ffi_issue_ids(handle, now.as_nanos(), ids.as_ptr().cast::<Id>(), ids.len())
            }
            Event::IdTimeout => recovery_ffi_id_timeout(handle),
            Event::PeerRetired { sequence, limit } => {
                recovery_ffi_peer_retired(handle, sequence, limit)
            }
            Event::AckFrequencyIn(frame) => recovery_ffi_ack_frequency(
                handle,
                frame.sequence.into_inner(),
                frame.ack_eliciting_threshold.into_inner(),
                frame.request_max_ack_delay.into_inner(),
                frame.reordering_threshold.into_inner(),
            ),
            Event::AcksSent { space } => recovery_ffi_acks_sent(handle, space as u8),
            Event::AckDelayTimeout { space } => recovery_ffi_ack_delay_timeout(handle, space as u8),
            Event::SetTimer { timer, time } => {
                recovery_ffi_set_timer(handle, timer as u8, time.as_nanos())
            }
            Event::StopTimer { timer } => recovery_ffi_stop_timer(handle, timer as u8),
            Event::NextTimeout => recovery_ffi_next_timeout(handle),
            Event::DiscardSpace { space } => recovery_ffi_discard(handle, space as u8),
            Event::InFlight { path } => recovery_ffi_in_flight(handle, is_previous(path)),
            Event::Sample { delay, rtt } => recovery_ffi_sample(
                handle,
                delay.as_secs(),
                delay.subsec_nanos(),
                rtt.as_secs(),
                rtt.subsec_nanos(),
            ),
            Event::DatagramIn { path, bytes } => {
                recovery_ffi_datagram_in(handle, is_previous(path), bytes)
            }
            Event::Validated { path } => recovery_ffi_validated(handle, is_previous(path)),
            Event::Transmit {
                now,
                bytes,
                checked,
            } => recovery_ffi_transmit(handle, now.as_nanos(), bytes, checked),
            Event::PacerCheck { now, bytes } => {
                recovery_ffi_pacer_check(handle, now.as_nanos(), bytes)
            }
            Event::Congestion {
                now,
                sent,
                persistent,
                bytes,
            } => {
                recovery_ffi_congestion(handle, now.as_nanos(), sent.as_nanos(), persistent, bytes)
            }
            Event::EndAcks {
                now,
                app_limited,
                largest,
            } => recovery_ffi_end_acks(
                handle,
                now.as_nanos(),
                app_limited,
                largest.is_some(),
                largest.unwrap_or(0),
            ),
            Event::PollMtu { now } => recovery_ffi_poll_mtu(handle, now.as_nanos()),
            Event::PeerLimit { size } => recovery_ffi_peer_limit(handle, size),
            Event::MtuFound { mtu } => recovery_ffi_mtu_found(handle, mtu),
            Event::LossesDone { now } => recovery_ffi_losses_done(handle, now.as_nanos()),
            Event::Ecn {
                space,
                newly_acked,
                counts,
            } => recovery_ffi_ecn(
                handle,
                space as u8,
                newly_acked,
                counts.ect0,
                counts.ect1,
                counts.ce,
            ),
            Event::CheckAck { space, low, high } => {
                recovery_ffi_check_ack(handle, space as u8, low, high)
            }
            Event::QueueProbe {
                space,
                immediate_ack,
            } => recovery_ffi_queue_probe(handle, space as u8, immediate_ack),
            Event::TakePending { space } => recovery_ffi_take_pending(handle, space as u8),
            Event::NewPath { now, remote, fresh } => {
                recovery_ffi_new_path(handle, now.as_nanos(), &address(remote), fresh)
            }
            Event::ResetPath { now } => recovery_ffi_reset_path(handle, now.as_nanos()),
            Event::DropPrevious => recovery_ffi_drop_previous(handle),
            Event::RevertPath => recovery_ffi_revert_path(handle),
        }
    }
}

/// Returns a vector of this many zeros, to be overwritten by items. Fails with `NoMemory` alone.
fn with_room(count: u64) -> Result<Vec<u64>, Refusal> {
    let mut items = Vec::new();
    let count = usize::try_from(count).map_err(|_| Refusal::NoMemory)?;
    items
        .try_reserve_exact(count)
        .map_err(|_| Refusal::NoMemory)?;
    items.resize(count, 0);
    Ok(items)
}

impl Recovery {
    /// Returns a recovery without any event, made at time `now`. A packet that is sent at `now` itself does not change
    /// the window (RFC 9002, B.5). Fails if the configuration is invalid, or allocation fails.
    ///
    /// ```
    /// # use quic_recovery::*;
    /// # let at = |millis: u64| Instant::from_nanos(1 + millis * 1_000_000);
    /// # let config = RecoveryConfig::default();
    /// let recovery = Recovery::new(&config, at(0))?;
    /// // the initial window, with nothing in flight (RFC 9002, 7.2)
    /// assert_eq!(recovery.window_and_flight(), (12_000, 0));
    /// // no packet fits into a datagram of 0 bytes
    /// let mut wrong = config;
    /// wrong.transport.initial_mtu = 0;
    /// assert_eq!(Recovery::new(&wrong, at(0)).err(), Some(ConfigError::ZeroMtu));
    /// # Ok::<(), Box<dyn std::error::Error>>(())
    /// ```
    pub fn new(config: &RecoveryConfig, now: Instant) -> Result<Self, ConfigError> {
        Recovery::of(Form::Bare, config, now)
    }

    /// Returns a recovery of this form.
    pub(crate) fn of(
        form: Form,
        config: &RecoveryConfig,
        now: Instant,
    ) -> Result<Self, ConfigError> {
        let (settings, remote) = (config.settings(), address(config.remote));
        let id: &[u8] = &config.initial_cid;
        let (bytes, len) = (id.as_ptr(), id.len());
        let now = now.as_nanos();
        let mut handle = ffi::Handle {
            ptr: null_mut(),
            holds: false,
        };
        // SAFETY: it does nothing; a library of another layout does not have it.
        unsafe { ffi::recovery_ffi_layout() };
        // SAFETY: the handle is all zeros, and the ID is a slice.
        let code = unsafe {
            match form {
                Form::Bare => {
                    ffi::recovery_ffi_new(&mut handle, &settings, &remote, bytes, len, now)
                }
                Form::Handshaking(side) => ffi::recovery_ffi_sender_new(
                    &mut handle,
                    side == Side::Client,
                    &settings,
                    &remote,
                    bytes,
                    len,
                    now,
                ),
                Form::Established(side) => ffi::recovery_ffi_sender_established(
                    &mut handle,
                    side == Side::Client,
                    &settings,
                    &remote,
                    bytes,
                    len,
                    now,
                ),
            }
        };
        match ConfigError::from_number(code) {
            Some(error) => Err(error),
            None => Ok(Recovery { handle }),
        }
    }

    /// Applies one event, as a whole or not at all. After an error the state is unchanged, except for the sequence
    /// number of an ACK_FREQUENCY frame that fails with `DelayTooSmall`, which is stored.
    ///
    /// ```
    /// # use quic_recovery::*;
    /// # let at = |millis: u64| Instant::from_nanos(1 + millis * 1_000_000);
    /// # let space = SpaceId::Data;
    /// # let mut recovery = Recovery::new(&RecoveryConfig::default(), at(0))?;
    /// let (size, ack_eliciting, largest_acked, queue) = (1200, true, None, &[7]);
    /// recovery.apply(Event::Send { space, now: at(0), size, ack_eliciting, largest_acked, queue })?;
    /// let acked = Event::Acked { space, now: at(50), number: 0, app_limited: false };
    /// assert_eq!(recovery.apply(acked)?, Answer::Acked { probe: false });
    /// // the packet is no longer in flight (RFC 9002, A.7); an event that fails changes nothing
    /// let before = recovery.window_and_flight();
    /// assert_eq!(before.1, 0);
    /// assert_eq!(recovery.apply(acked), Err(Refusal::NotTracked));
    /// assert_eq!(recovery.window_and_flight(), before);
    /// # Ok::<(), Box<dyn std::error::Error>>(())
    /// ```
    #[inline]
    pub fn apply(&mut self, event: Event<'_>) -> Result<Answer, Refusal> {
        if let Event::TakePending { space } = event {
            return self.take_pending(space);
        }
        let reply = self.reply_to(event);
        self.read(reply)
    }

    /// Takes the retransmission queue of a space. Room for its items is allocated first, so that nothing has changed if
    /// that fails.
    #[inline]
    pub(crate) fn take_pending(&mut self, space: SpaceId) -> Result<Answer, Refusal> {
        // SAFETY: the handle holds a recovery.
        let room = unsafe { ffi::recovery_ffi_pending_items(&mut self.reader(), space as u8) };
        if room > 0 {
            return self.take_items(space, room);
        }
        let reply = self.reply_to(Event::TakePending { space });
        match reply.kind {
            ffi::ANSWER_QUEUE => Ok(Answer::Queue(Vec::new())),
            _ => self.read(reply),
        }
    }

    /// Takes a retransmission queue of this many items.
    #[inline(never)]
    fn take_items(&mut self, space: SpaceId, room: u64) -> Result<Answer, Refusal> {
        let items = with_room(room)?;
        let reply = self.reply_to(Event::TakePending { space });
        match reply.kind {
            ffi::ANSWER_QUEUE => Ok(Answer::Queue(self.taken(items))),
            _ => self.read(reply),
        }
    }

    /// Returns a vector of as many zeros as a probe takes items. Fails with `NoMemory` alone.
    pub(crate) fn room_for_probe(&self, space: SpaceId) -> Result<Vec<u64>, Refusal> {
        // SAFETY: the handle holds a recovery.
        with_room(unsafe { ffi::recovery_ffi_probe_items(&mut self.reader(), space as u8) })
    }

    /// Applies one event. Returns its reply in numbers.
    #[inline]
    pub(crate) fn reply_to(&mut self, event: Event<'_>) -> ffi::EncodedReply {
        // SAFETY: the handle holds a recovery, and `self` is borrowed alone.
        unsafe { hand_in(&mut self.handle, event) }
    }

    /// Returns the library's handle, for a call that changes the recovery.
    pub(crate) fn handle(&mut self) -> &mut ffi::Handle {
        &mut self.handle
    }

    /// Returns a copy of the library's handle, for one call of a reader: a reader writes to the handle's bytes, and
    /// changes nothing that they lead to.
    #[inline(always)]
    pub(crate) fn reader(&self) -> ffi::Handle {
        ffi::Handle {
            ptr: self.handle.ptr,
            holds: self.handle.holds,
        }
    }

    /// Returns the reply of these numbers.
    #[inline]
    pub(crate) fn read(&self, reply: ffi::EncodedReply) -> Result<Answer, Refusal> {
        let ffi::EncodedReply {
            kind,
            refusal,
            flag,
            other,
            size,
            first,
            second,
        } = reply;
        Ok(match kind {
            ffi::ANSWER_NEW => Answer::New { arm: flag },
            ffi::ANSWER_DUPLICATE => Answer::Duplicate,
            ffi::ANSWER_SENT => Answer::Sent {
                number: first,
                forgotten: flag.then_some(second),
            },
            ffi::ANSWER_ACKED => Answer::Acked { probe: flag },
            ffi::ANSWER_LOST => Answer::Lost { probe: flag },
            ffi::ANSWER_RETIRE => Answer::Retire(flag.then_some(first..second)),
            ffi::ANSWER_FLAG => Answer::Flag(flag),
            ffi::ANSWER_TIMEOUT => Answer::Timeout(flag.then_some(Instant::from_nanos(first))),
            ffi::ANSWER_IN_FLIGHT => Answer::InFlight {
                bytes: first,
                ack_eliciting: second,
            },
            ffi::ANSWER_TRANSMITTED => Answer::Transmitted,
            ffi::ANSWER_BLOCKED => Answer::Blocked,
            ffi::ANSWER_DELAYED => Answer::Delayed(Instant::from_nanos(first)),
            ffi::ANSWER_READY => Answer::Ready,
            ffi::ANSWER_PROBE => Answer::Probe {
                number: first,
                size,
            },
            ffi::ANSWER_NO_PROBE => Answer::NoProbe,
            ffi::ANSWER_BLACK_HOLE => Answer::BlackHole(flag),
            ffi::ANSWER_SENDABLE => Answer::Sendable(SendableFrames { acks: flag, other }),
            ffi::ANSWER_QUEUE => Answer::Queue(self.last_items()?),
            ffi::ANSWER_DONE => Answer::Done,
            ffi::ANSWER_REFUSED => return Err(Refusal::from_number(refusal, first)),
            kind => unreachable!("the library answers an event with {kind}"),
        })
    }

    /// Returns the items that were taken last, in place of as many zeros.
    pub(crate) fn taken(&self, mut items: Vec<u64>) -> Vec<u64> {
        if !items.is_empty() {
            let (handle, count) = (&mut self.reader(), items.len());
            // SAFETY: the handle holds a recovery, the call only reads, and there is room for `count` items.
            let found = unsafe { ffi::recovery_ffi_last_items(handle, items.as_mut_ptr(), count) };
            assert_eq!(
                found, count,
                "the library said how many items it would take"
            );
        }
        items
    }

    /// Returns the items that were taken last. Fails with `NoMemory` alone.
    pub fn last_items(&self) -> Result<Vec<u64>, Refusal> {
        let mut none = [];
        // SAFETY: the handle holds a recovery, and nothing is written to an empty slice.
        let count =
            unsafe { ffi::recovery_ffi_last_items(&mut self.reader(), none.as_mut_ptr(), 0) };
        Ok(self.taken(with_room(count as u64)?))
    }

    /// Returns the token of the last `Answer::Retire` of a connection ID (RFC 9000, 10.3.1), all zeros before the
    /// first.
    ///
    /// ```
    /// # use quic_recovery::*;
    /// # let at = |millis: u64| Instant::from_nanos(1 + millis * 1_000_000);
    /// # let space = SpaceId::Data;
    /// # let mut recovery = Recovery::new(&RecoveryConfig::default(), at(0))?;
    /// let (id, reset_token) = (ConnectionId::from([1; 8]), ResetToken::from([2; 16]));
    /// recovery.apply(Event::NewId(NewConnectionId { sequence: 1, retire_prior_to: 0, id, reset_token }))?;
    /// // the next ID is used from now on, and ID 0 is retired (RFC 9000, 5.1.2)
    /// assert_eq!(recovery.apply(Event::NextId)?, Answer::Retire(Some(0..1)));
    /// assert_eq!(recovery.active_id(), 1);
    /// // a datagram that ends with the token of this ID is a stateless reset (RFC 9000, 10.3.1)
    /// assert_eq!(recovery.reset_token(), reset_token);
    /// assert!(recovery.is_reset_token(&[2; 16]));
    /// # Ok::<(), Box<dyn std::error::Error>>(())
    /// ```
    pub fn reset_token(&self) -> ResetToken {
        let mut bytes = [0; 16];
        // SAFETY: the handle holds a recovery, the call only reads, and sixteen bytes are written.
        unsafe { ffi::recovery_ffi_token(&mut self.reader(), &mut bytes) };
        ResetToken::from(bytes)
    }

    /// Returns whether these are the bytes of the token of the last `Answer::Retire` of a connection ID, all zeros
    /// before the first. At the end of a datagram they are a stateless reset by the peer (RFC 9000, 10.3.1).
    pub fn is_reset_token(&self, token: &[u8; 16]) -> bool {
        // SAFETY: the handle holds a recovery, and the call only reads.
        unsafe { ffi::recovery_ffi_is_token(&mut self.reader(), token) }
    }

    /// Returns the state of a path, or `None` if there is no such path.
    ///
    /// ```
    /// # use quic_recovery::*;
    /// # let at = |millis: u64| Instant::from_nanos(1 + millis * 1_000_000);
    /// # let space = SpaceId::Data;
    /// # let mut recovery = Recovery::new(&RecoveryConfig::default(), at(0))?;
    /// let (path, bytes) = (PathName::Current, 1200);
    /// recovery.apply(Event::DatagramIn { path, bytes })?;
    /// let stats = recovery.path(path).expect("there is always a current path");
    /// assert_eq!((stats.total_recvd, stats.validated), (1200, false));
    /// // before a sample the deviation is half of the RTT (RFC 9002, 5.3)
    /// assert_eq!(stats.rtt.variance, stats.rtt.get / 2);
    /// // before a loss there is no threshold (RFC 9002, 7.3.1)
    /// assert_eq!(stats.ssthresh, Some(u64::MAX));
    /// assert_eq!(recovery.path(PathName::Previous), None);
    /// # Ok::<(), Box<dyn std::error::Error>>(())
    /// ```
    pub fn path(&self, path: PathName) -> Option<PathStats> {
        // SAFETY: the handle holds a recovery, and the call only reads.
        let view = unsafe { ffi::recovery_ffi_path(&mut self.reader(), is_previous(path)) };
        view.lives.then(|| PathStats {
            window: view.window,
            ssthresh: view.has_ssthresh.then_some(view.ssthresh),
            in_flight: view.in_flight,
            ack_eliciting: view.ack_eliciting,
            total_sent: view.total_sent,
            total_recvd: view.total_recvd,
            rtt: RttEstimate {
                get: Duration::from_nanos(view.rtt),
                conservative: Duration::from_nanos(view.rtt_conservative),
                min: Duration::from_nanos(view.rtt_min),
                latest: Duration::from_nanos(view.rtt_latest),
                variance: Duration::from_nanos(view.rtt_variance),
                pto_base: Duration::from_nanos(view.pto_base),
            },
            pacer: PacerStats {
                capacity: view.pacer_capacity,
                tokens: view.pacer_tokens,
            },
            current_mtu: view.mtu,
            validated: view.validated,
        })
    }

    /// Returns how many bytes may be in flight on the path in use (RFC 9002, 7), and how many are. This and the four
    /// readings below cost a few instructions; [`Recovery::path`] and [`Recovery::ids`] read all.
    ///
    /// ```
    /// # use quic_recovery::*;
    /// # let at = |millis: u64| Instant::from_nanos(1 + millis * 1_000_000);
    /// # let space = SpaceId::Data;
    /// # let mut recovery = Recovery::new(&RecoveryConfig::default(), at(0))?;
    /// let (size, ack_eliciting, largest_acked, queue) = (1000, true, None, &[7]);
    /// recovery.apply(Event::Send { space, now: at(0), size, ack_eliciting, largest_acked, queue })?;
    /// // ten datagrams of 1200 bytes (RFC 9002, 7.2), and the size of the packet (B.2)
    /// assert_eq!(recovery.window_and_flight(), (12_000, 1000));
    /// # Ok::<(), Box<dyn std::error::Error>>(())
    /// ```
    #[inline]
    pub fn window_and_flight(&self) -> (u64, u64) {
        // SAFETY: the handle holds a recovery, and the call only reads.
        let view = unsafe { ffi::recovery_ffi_window(&mut self.reader()) };
        (view.window, view.in_flight)
    }

    /// Returns the RTT estimate of the path in use: the smoothed one, or the initial one before the first sample (RFC
    /// 9002, 5.3).
    ///
    /// ```
    /// # use std::time::Duration;
    /// # use quic_recovery::*;
    /// # let at = |millis: u64| Instant::from_nanos(1 + millis * 1_000_000);
    /// # let space = SpaceId::Data;
    /// # let mut recovery = Recovery::new(&RecoveryConfig::default(), at(0))?;
    /// for millis in [100, 60] {
    ///     let rtt = Duration::from_millis(millis);
    ///     recovery.apply(Event::Sample { delay: Duration::ZERO, rtt })?;
    /// }
    /// // 7/8 of the estimate and 1/8 of the sample (RFC 9002, 5.3)
    /// assert_eq!(recovery.rtt(), Duration::from_millis(95));
    /// # Ok::<(), Box<dyn std::error::Error>>(())
    /// ```
    #[inline]
    pub fn rtt(&self) -> Duration {
        // SAFETY: the handle holds a recovery, and the call only reads.
        Duration::from_nanos(unsafe { ffi::recovery_ffi_rtt(&mut self.reader()) }.rtt)
    }

    /// Returns the probe timeout of the path in use without the peer's max_ack_delay (RFC 9002, 6.2.1).
    ///
    /// ```
    /// # use std::time::Duration;
    /// # use quic_recovery::*;
    /// # let at = |millis: u64| Instant::from_nanos(1 + millis * 1_000_000);
    /// # let space = SpaceId::Data;
    /// # let mut recovery = Recovery::new(&RecoveryConfig::default(), at(0))?;
    /// let rtt = Duration::from_millis(100);
    /// recovery.apply(Event::Sample { delay: Duration::ZERO, rtt })?;
    /// // the first sample, and four times half of it (RFC 9002, 5.3 and 6.2.1)
    /// assert_eq!(recovery.pto_base(), Duration::from_millis(300));
    /// # Ok::<(), Box<dyn std::error::Error>>(())
    /// ```
    #[inline]
    pub fn pto_base(&self) -> Duration {
        // SAFETY: the handle holds a recovery, and the call only reads.
        Duration::from_nanos(unsafe { ffi::recovery_ffi_rtt(&mut self.reader()) }.pto_base)
    }

    /// Returns the sequence number of the peer's connection ID in use (RFC 9000, 5.1.1).
    #[inline]
    pub fn active_id(&self) -> u64 {
        // SAFETY: the handle holds a recovery, and the call only reads.
        unsafe { ffi::recovery_ffi_active_id(&mut self.reader()) }
    }

    /// Returns whether a space tracks a packet that counts in flight (RFC 9002, 2), on any path.
    ///
    /// ```
    /// # use quic_recovery::*;
    /// # let at = |millis: u64| Instant::from_nanos(1 + millis * 1_000_000);
    /// # let space = SpaceId::Data;
    /// # let mut recovery = Recovery::new(&RecoveryConfig::default(), at(0))?;
    /// let (now, largest_acked, queue) = (at(0), None, &[]);
    /// // a packet with only an ACK frame is not in flight (RFC 9002, 2)
    /// recovery.apply(Event::Send { space, now, size: 0, ack_eliciting: false, largest_acked, queue })?;
    /// assert!(!recovery.has_in_flight(space));
    /// recovery.apply(Event::Send { space, now, size: 1200, ack_eliciting: true, largest_acked, queue })?;
    /// assert!(recovery.has_in_flight(space));
    /// # Ok::<(), Box<dyn std::error::Error>>(())
    /// ```
    #[inline]
    pub fn has_in_flight(&self, space: SpaceId) -> bool {
        // SAFETY: the handle holds a recovery, and the call only reads.
        unsafe { ffi::recovery_ffi_has_in_flight(&mut self.reader(), space as u8) }
    }

    /// Returns what a space has to send, or `None` once it is discarded.
    ///
    /// ```
    /// # use quic_recovery::*;
    /// # let at = |millis: u64| Instant::from_nanos(1 + millis * 1_000_000);
    /// # let space = SpaceId::Data;
    /// # let mut recovery = Recovery::new(&RecoveryConfig::default(), at(0))?;
    /// recovery.apply(Event::Received { space, now: at(0), number: 0, ack_eliciting: true })?;
    /// recovery.apply(Event::AckDelayTimeout { space })?;
    /// let stats = recovery.space(space).expect("its keys are not discarded");
    /// // an ACK is required at the end of the delay (RFC 9000, 13.2.1)
    /// assert!(stats.can_send.acks);
    /// assert_eq!((stats.largest_received, stats.ranges), (0, 1));
    /// recovery.apply(Event::DiscardSpace { space: SpaceId::Initial })?;
    /// assert_eq!(recovery.space(SpaceId::Initial), None);
    /// # Ok::<(), Box<dyn std::error::Error>>(())
    /// ```
    pub fn space(&self, space: SpaceId) -> Option<SpaceStats> {
        // SAFETY: the handle holds a recovery, and the call only reads.
        let view = unsafe { ffi::recovery_ffi_space(&mut self.reader(), space as u8) };
        view.lives.then(|| SpaceStats {
            largest_received: view.largest_received,
            ranges: usize::try_from(view.ranges).unwrap_or(usize::MAX),
            next_packet_number: view.next_packet_number,
            can_send: SendableFrames {
                acks: view.acks,
                other: view.other,
            },
        })
    }

    /// Returns the number of the next packet of a space, unless it is skipped; `None` once the space is discarded.
    ///
    /// ```
    /// # use quic_recovery::*;
    /// # let at = |millis: u64| Instant::from_nanos(1 + millis * 1_000_000);
    /// # let space = SpaceId::Data;
    /// # let mut recovery = Recovery::new(&RecoveryConfig::default(), at(0))?;
    /// // each space begins with 0 (RFC 9000, 12.3)
    /// assert_eq!(recovery.next_packet_number(space), Some(0));
    /// let (size, ack_eliciting, largest_acked, queue) = (1200, true, None, &[7]);
    /// recovery.apply(Event::Send { space, now: at(0), size, ack_eliciting, largest_acked, queue })?;
    /// assert_eq!(recovery.next_packet_number(space), Some(1));
    /// # Ok::<(), Box<dyn std::error::Error>>(())
    /// ```
    pub fn next_packet_number(&self, space: SpaceId) -> Option<u64> {
        self.space(space).map(|it| it.next_packet_number)
    }

    /// Returns how long ago the largest packet of a space was received, for the ACK Delay of an ACK frame (RFC 9000,
    /// 13.2.5 and 19.3): zero before the first, and `None` once the space is discarded.
    ///
    /// ```
    /// # use std::time::Duration;
    /// # use quic_recovery::*;
    /// # let at = |millis: u64| Instant::from_nanos(1 + millis * 1_000_000);
    /// # let space = SpaceId::Data;
    /// # let mut recovery = Recovery::new(&RecoveryConfig::default(), at(0))?;
    /// recovery.apply(Event::Received { space, now: at(5), number: 0, ack_eliciting: true })?;
    /// // from its arrival to the ACK (RFC 9000, 13.2.5)
    /// assert_eq!(recovery.ack_delay(space, at(12)), Some(Duration::from_millis(7)));
    /// # Ok::<(), Box<dyn std::error::Error>>(())
    /// ```
    pub fn ack_delay(&self, space: SpaceId, now: Instant) -> Option<Duration> {
        // SAFETY: the handle holds a recovery, and the call only reads.
        let view =
            unsafe { ffi::recovery_ffi_ack_delay(&mut self.reader(), space as u8, now.as_nanos()) };
        view.some.then_some(Duration::from_nanos(view.nanos))
    }

    /// Returns the ranges of packet numbers to be acknowledged in a space, in ascending order.
    ///
    /// ```
    /// # use quic_recovery::*;
    /// # let at = |millis: u64| Instant::from_nanos(1 + millis * 1_000_000);
    /// # let space = SpaceId::Data;
    /// # let mut recovery = Recovery::new(&RecoveryConfig::default(), at(0))?;
    /// for number in [0, 1, 5] {
    ///     recovery.apply(Event::Received { space, now: at(number), number, ack_eliciting: true })?;
    /// }
    /// // an ACK frame names what was received (RFC 9000, 19.3)
    /// assert_eq!(recovery.ranges(space).collect::<Vec<_>>(), [0..2, 5..6]);
    /// # Ok::<(), Box<dyn std::error::Error>>(())
    /// ```
    pub fn ranges(&self, space: SpaceId) -> impl Iterator<Item = Range<u64>> + '_ {
        (0..).map_while(move |index| {
            // SAFETY: the handle holds a recovery, and the call only reads.
            let view = unsafe { ffi::recovery_ffi_range(&mut self.reader(), space as u8, index) };
            view.some.then_some(view.start..view.end)
        })
    }

    /// Returns when a timer expires, if it is running.
    ///
    /// ```
    /// # use quic_recovery::*;
    /// # let at = |millis: u64| Instant::from_nanos(1 + millis * 1_000_000);
    /// # let space = SpaceId::Data;
    /// # let mut recovery = Recovery::new(&RecoveryConfig::default(), at(0))?;
    /// // the idle timeout restarts if a packet is received (RFC 9000, 10.1)
    /// let timer = Timer::Idle;
    /// for time in [at(30_000), at(30_005)] {
    ///     recovery.apply(Event::SetTimer { timer, time })?;
    /// }
    /// assert_eq!(recovery.timer(timer), Some(at(30_005)));
    /// recovery.apply(Event::StopTimer { timer })?;
    /// assert_eq!(recovery.timer(timer), None);
    /// # Ok::<(), Box<dyn std::error::Error>>(())
    /// ```
    pub fn timer(&self, timer: Timer) -> Option<Instant> {
        // SAFETY: the handle holds a recovery, and the call only reads.
        let view = unsafe { ffi::recovery_ffi_timer(&mut self.reader(), timer as u8) };
        view.some.then_some(Instant::from_nanos(view.nanos))
    }

    /// Returns when the oldest of the local connection IDs is to be retired (RFC 9000, 5.1.2), if they expire. Set
    /// `Timer::PushNewCid` to it.
    ///
    /// ```
    /// # use std::time::Duration;
    /// # use quic_recovery::*;
    /// # let at = |millis: u64| Instant::from_nanos(1 + millis * 1_000_000);
    /// # let config = RecoveryConfig::default();
    /// let lifetime = Duration::from_secs(10);
    /// let config = RecoveryConfig { cid_lifetime: Some(lifetime), issued: 1, ..config };
    /// let recovery = Recovery::new(&config, at(5))?;
    /// // the ID of the handshake is issued at the start (RFC 9000, 5.1.1)
    /// assert_eq!(recovery.next_id_timeout(), Some(at(5) + lifetime));
    /// # Ok::<(), Box<dyn std::error::Error>>(())
    /// ```
    pub fn next_id_timeout(&self) -> Option<Instant> {
        // SAFETY: the handle holds a recovery, and the call only reads.
        let view = unsafe { ffi::recovery_ffi_next_id_timeout(&mut self.reader()) };
        view.some.then_some(Instant::from_nanos(view.nanos))
    }

    /// Returns the caller's marks of a path, or `None` if there is no such path.
    pub fn marks(&self, path: PathName) -> Option<PathMarks> {
        // SAFETY: the handle holds a recovery, and the call only reads.
        let view = unsafe { ffi::recovery_ffi_marks(&mut self.reader(), is_previous(path)) };
        let space = SpaceId::VALUES
            .into_iter()
            .find(|it| *it as u8 == view.first_space)?;
        view.lives.then_some(PathMarks {
            sending_ecn: view.sending_ecn,
            challenge: view.has_challenge.then_some(view.challenge),
            challenge_pending: view.challenge_pending,
            first_packet_after_rtt_sample: view.has_first.then_some((space, view.first_number)),
        })
    }

    /// Stores the caller's marks of a path, without an event. Returns false and changes nothing if there is no such
    /// path.
    ///
    /// ```
    /// # use quic_recovery::*;
    /// # let at = |millis: u64| Instant::from_nanos(1 + millis * 1_000_000);
    /// # let space = SpaceId::Data;
    /// # let mut recovery = Recovery::new(&RecoveryConfig::default(), at(0))?;
    /// let path = PathName::Current;
    /// let marks = PathMarks { challenge: Some(7), ..PathMarks::default() };
    /// assert!(recovery.set_marks(path, &marks));
    /// assert_eq!(recovery.marks(path), Some(marks));
    /// // there is one path before a migration (RFC 9000, 9)
    /// assert!(!recovery.set_marks(PathName::Previous, &marks));
    /// # Ok::<(), Box<dyn std::error::Error>>(())
    /// ```
    pub fn set_marks(&mut self, path: PathName, marks: &PathMarks) -> bool {
        let first = marks.first_packet_after_rtt_sample;
        let given = ffi::Marks {
            challenge: marks.challenge.unwrap_or(0),
            first_number: first.map_or(0, |it| it.1),
            first_space: first.map_or(0, |it| it.0 as u8),
            has_challenge: marks.challenge.is_some(),
            has_first: first.is_some(),
            challenge_pending: marks.challenge_pending,
            sending_ecn: marks.sending_ecn,
            lives: true,
        };
        // SAFETY: the handle holds a recovery, and `self` is borrowed alone.
        unsafe { ffi::recovery_ffi_set_marks(&mut self.handle, is_previous(path), &given) }
    }

    /// Returns the connection IDs of both endpoints, and their max_ack_delay.
    ///
    /// ```
    /// # use std::time::Duration;
    /// # use quic_recovery::*;
    /// # let at = |millis: u64| Instant::from_nanos(1 + millis * 1_000_000);
    /// # let space = SpaceId::Data;
    /// # let mut recovery = Recovery::new(&RecoveryConfig::default(), at(0))?;
    /// let id = IssuedCid::new(1, ConnectionId::from([9; 8]), ResetToken::from([3; 16]));
    /// recovery.apply(Event::IssueIds { now: at(0), ids: &[id] })?;
    /// // the numbers of IDs begin with that of the handshake, 0 (RFC 9000, 5.1.1)
    /// assert_eq!((recovery.ids().issued, recovery.ids().active), (2, 0));
    /// // the delay of a peer that states none (RFC 9000, 18.2)
    /// assert_eq!(recovery.ids().peer_max_ack_delay, Duration::from_millis(25));
    /// # Ok::<(), Box<dyn std::error::Error>>(())
    /// ```
    pub fn ids(&self) -> IdStats {
        // SAFETY: the handle holds a recovery, and the call only reads.
        let view = unsafe { ffi::recovery_ffi_ids(&mut self.reader()) };
        IdStats {
            active: view.active,
            issued: view.issued,
            retire_prior_to: view.retire_prior_to,
            max_ack_delay: Duration::from_nanos(view.max_ack_delay),
            peer_max_ack_delay: Duration::from_nanos(view.peer_max_ack_delay),
        }
    }
}
