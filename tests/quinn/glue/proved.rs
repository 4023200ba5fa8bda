//! A connection's loss recovery, held by the proved library alone: which packets are lost and when to probe it decides,
//! and what is known of paths, spaces, ids and timers is read from it. Kept here are the bytes of the peer's ids.
#[cfg(feature = "shadow")]
use super::own::Sender;
#[cfg(not(feature = "shadow"))]
use qr::Sender;

use qr::{Answer, Event, PathName, Refusal, SenderError};
use quic_recovery as qr;
use std::{
    cell::OnceCell,
    mem,
    net::SocketAddr,
    ops::{Deref, Range, RangeInclusive},
    sync::Arc,
    time::{Duration, Instant},
};

use super::spaces::SendableFrames;
use crate::{
    coding::BufMutExt,
    congestion::{NewReno, NewRenoConfig},
    frame,
    packet::SpaceId,
    shared::{ConnectionId, IssuedCid},
    token::ResetToken,
    Side, TransportError,
};

/// What an ACK frame says.
pub(super) struct Acks {
    /// The numbers, rising
    pub ranges: Vec<Range<u64>>,
    pub delay: Duration,
}

impl Acks {
    /// The frame (RFC 9000, 19.3)
    pub fn encode(&self, delay: u64, ecn: Option<&frame::EcnCounts>, buf: &mut Vec<u8>) {
        buf.write_var(2 + u64::from(ecn.is_some()));
        let mut above = None;
        for range in self.ranges.iter().rev() {
            match above {
                None => {
                    [range.end - 1, delay, self.ranges.len() as u64 - 1].into_iter().for_each(|it| buf.write_var(it))
                }
                Some(start) => buf.write_var(start - range.end - 1),
            }
            buf.write_var(range.end - range.start - 1);
            above = Some(range.start);
        }
        let counts = ecn.into_iter().flat_map(|it| [it.ect0, it.ect1, it.ce]);
        counts.for_each(|it| buf.write_var(it));
    }
}

/// What holds a datagram back
#[derive(Clone, Copy, PartialEq)]
pub(super) enum Held {
    /// The window is full
    Full,
    /// The pacer delays it
    Until(Instant),
}

pub(super) struct Proved {
    pub sender: Sender,
    /// The moment that the library knows as its nanosecond 0
    epoch: Instant,
    /// What the last ACK frame came to, and its ranges: kept for their memory
    pub told: qr::Acknowledged,
    heard: Vec<(u64, u64)>,
    /// The peer's ids by their numbers, the first of them in use: the library does not tell their bytes
    rem_ids: Vec<(u64, ConnectionId)>,
    cid_len: usize,
    /// Set by tests, which push the retirement of ids
    retire_at_least: u64,
    /// The current path, but for what each packet changes, and the spaces, as they were read last
    seen: OnceCell<qr::PathStats>,
    seen_in: [OnceCell<Option<qr::SpaceStats>>; 3],
}

fn space_of(space: SpaceId) -> qr::SpaceId {
    qr::SpaceId::VALUES[space as usize]
}

pub(super) fn space_from(space: qr::SpaceId) -> SpaceId {
    [SpaceId::Initial, SpaceId::Handshake, SpaceId::Data][space as usize]
}

/// The next number of a packet (RFC 9000, 16)
fn number_in(rest: &mut &[u8]) -> Option<u64> {
    let size = 1 << (rest.first()? >> 6);
    let number = rest.get(..size)?.iter().fold(0, |sum, &it| sum << 8 | u64::from(it));
    *rest = &rest[size..];
    Some(number & ((1u64 << (8 * size - 2)) - 1))
}

/// Whether a packet's frames ask for an acknowledgement (RFC 9000, 13.2): looked at before any of them is handled,
/// since the library is told with the number; nothing where they cannot be read.
pub(super) fn is_ack_eliciting(payload: &[u8]) -> Option<bool> {
    let mut rest = payload;
    while let Some(kind) = rest.first().copied() {
        rest = &rest[1..];
        match kind {
            0 => continue,
            2 | 3 => {
                number_in(&mut rest)?;
                number_in(&mut rest)?;
                let more = 1 + 2 * number_in(&mut rest)? + if kind == 3 { 3 } else { 0 };
                for _ in 0..more {
                    number_in(&mut rest)?;
                }
            }
            0x1c | 0x1d => return Some(false),
            _ => return Some(true),
        }
    }
    Some(false)
}

fn id_of(id: &ConnectionId) -> qr::ConnectionId {
    qr::ConnectionId::new(id).expect("an id has at most 20 bytes")
}

fn token_of(token: &ResetToken) -> qr::ResetToken {
    let mut bytes = [0; 16];
    bytes.copy_from_slice(token);
    qr::ResetToken::from(bytes)
}

/// How a connection is closed whose peer broke the protocol
impl From<SenderError> for TransportError {
    fn from(refused: SenderError) -> Self {
        match refused {
            SenderError::Event(Refusal::ExceedsLimit) => TransportError::CONNECTION_ID_LIMIT_ERROR(""),
            SenderError::Event(Refusal::NoMemory) => TransportError::INTERNAL_ERROR("out of memory"),
            _ => TransportError::PROTOCOL_VIOLATION(refused.to_string()),
        }
    }
}

/// The settings of a connection whose MTU stays, with a window at the start
pub(super) fn settings(
    (remote, rem_cid): (SocketAddr, &ConnectionId),
    initial_rtt: Duration,
    mtu: u16,
    window: u64,
) -> qr::RecoveryConfig {
    qr::RecoveryConfig {
        transport: qr::TransportConfig {
            initial_rtt,
            initial_mtu: mtu,
            min_mtu: mtu,
            mtu_discovery_config: None,
            congestion: qr::Congestion::NewReno(qr::NewRenoConfig {
                initial_window: window,
                loss_reduction_factor: (1, 2),
            }),
            ..qr::TransportConfig::default()
        },
        allow_mtud: false,
        issued: 1,
        skips: qr::Skips::Disabled,
        ..qr::RecoveryConfig::new(remote, id_of(rem_cid))
    }
}

/// What is read of the library as it stands
impl Deref for Proved {
    type Target = qr::Recovery;

    fn deref(&self) -> &qr::Recovery {
        self.sender.recovery()
    }
}

impl Proved {
    pub fn new(side: Side, config: qr::RecoveryConfig, now: Instant) -> Self {
        let side = [qr::Side::Client, qr::Side::Server][usize::from(side.is_server())];
        // The recovery begins a nanosecond before what is sent now, so that losses of this count
        let epoch = now.checked_sub(Duration::from_nanos(1)).unwrap_or(now);
        let sender = Sender::new(side, &config, qr::Instant::from_nanos((now - epoch).as_nanos() as u64));
        Self {
            sender: sender.expect("sound settings, and memory"),
            epoch,
            told: qr::Acknowledged::default(),
            heard: Vec::new(),
            rem_ids: vec![(0, ConnectionId::new(&config.initial_cid))],
            cid_len: config.cid_len.into(),
            retire_at_least: 0,
            seen: OnceCell::new(),
            seen_in: Default::default(),
        }
    }

    fn at(&self, moment: Instant) -> qr::Instant {
        let since = moment.saturating_duration_since(self.epoch);
        qr::Instant::from_nanos(u64::try_from(since.as_nanos()).unwrap_or(u64::MAX))
    }

    fn moment(&self, at: qr::Instant) -> Instant {
        self.epoch + Duration::from_nanos(at.as_nanos())
    }

    /// For a call after which the current path is another, validated, or of another MTU
    fn changing(&mut self) -> &mut Sender {
        self.seen.take();
        &mut self.sender
    }

    /// For one that counts bytes, which is asked for before the path is validated alone
    fn counting(&mut self) -> &mut Sender {
        if !self.path().validated {
            self.seen.take();
        }
        &mut self.sender
    }

    /// For one that may change a space
    fn changing_in(&mut self, space: SpaceId) -> &mut Sender {
        self.seen_in[space as usize].take();
        &mut self.sender
    }

    // Paths

    pub fn path(&self) -> &qr::PathStats {
        let read = || self.sender.recovery().path(PathName::Current);
        self.seen.get_or_init(|| read().expect("there is always a current path"))
    }

    /// How many bytes may go out before the peer's address is validated (RFC 9000, 8.1)
    pub fn room(&self) -> usize {
        let path = self.path();
        match path.validated {
            true => usize::MAX,
            false => (3 * path.total_recvd).saturating_sub(path.total_sent) as usize,
        }
    }

    /// The window, for those who look at it
    pub fn congestion_state(&self) -> NewReno {
        let mut shown = NewRenoConfig::default();
        shown.initial_window(self.window_and_flight().0);
        NewReno::new(Arc::new(shown), self.epoch)
    }

    pub fn new_path(&mut self, now: Instant, remote: SocketAddr, fresh: bool) {
        let now = self.at(now);
        let _ = self.changing().on_event(Event::NewPath { now, remote, fresh });
    }

    /// The path before the current one is used again, if it was validated (RFC 9000, 9.3.2)
    pub fn revert_path(&mut self) -> bool {
        self.changing().on_event(Event::RevertPath).is_ok()
    }

    pub fn peer_limit(&mut self, size: u16) {
        let _ = self.changing().on_event(Event::PeerLimit { size });
    }

    pub fn validated(&mut self) {
        self.changing().on_address_validated();
    }

    pub fn datagram_in(&mut self, bytes: usize) {
        // Refused where 2^64 bytes came in; then the total stays
        let _ = self.counting().on_datagram(bytes as u64);
    }

    /// When so many bytes may go out, where that is not now
    fn pace(&mut self, now: Instant, bytes: u64) -> Option<Instant> {
        let now = self.at(now);
        match self.sender.on_event(Event::PacerCheck { now, bytes }) {
            Ok(Answer::Delayed(moment)) => Some(self.moment(moment)),
            _ => None,
        }
    }

    /// What holds so many bytes back. The sender is asked only while no packet is built, since that may be its probe.
    pub fn held(&mut self, now: Instant, space: SpaceId, bytes: u64, asks: bool) -> Option<Held> {
        let (window, in_flight) = self.window_and_flight();
        let is_full = in_flight + bytes > window;
        if asks {
            self.ask(now, space, if is_full { bytes.min(u16::MAX.into()) as u16 } else { 0 });
        }
        match is_full {
            true => Some(Held::Full),
            false => self.pace(now, bytes).map(Held::Until),
        }
    }

    /// The sender probes for a space that waits for room, so it is asked too. What goes out is counted later: if there
    /// is room, it is asked for 0 bytes.
    fn ask(&mut self, now: Instant, space: SpaceId, bytes: u16) {
        let now = self.at(now);
        let sent = self.counting().transmit(now, bytes, space_of(space), true);
        debug_assert!(bytes == 0 || sent != Ok(qr::Transmission::Transmitted), "a probe is due");
    }

    /// Whether packets of the current path are marked
    pub fn sending_ecn(&self) -> bool {
        self.sender.recovery().marks(PathName::Current).map_or(true, |it| it.sending_ecn)
    }

    /// A datagram goes out that had room
    pub fn transmitted(&mut self, now: Instant, bytes: usize) {
        let now = self.at(now);
        let sent = self.counting().transmit(now, bytes as u16, qr::SpaceId::Data, false);
        debug_assert_eq!(sent, Ok(qr::Transmission::Transmitted));
    }

    // Packets that come in, and their ACKs

    /// Whether it may have come before
    pub fn received(&mut self, id: SpaceId, now: Instant, number: u64, ack_eliciting: bool) -> bool {
        let (space, now) = (space_of(id), self.at(now));
        let told = self.changing_in(id).on_event(Event::Received { space, now, number, ack_eliciting });
        if told == Ok(Answer::New { arm: true }) {
            let _ = self.sender.on_event(Event::AckDelayTimeout { space });
        }
        !matches!(told, Ok(Answer::New { .. }))
    }

    pub fn space(&self, id: SpaceId) -> Option<&qr::SpaceStats> {
        let seen = self.seen_in[id as usize].get_or_init(|| self.sender.recovery().space(space_of(id)));
        seen.as_ref()
    }

    /// What of a space can be sent, where it has something else or not
    pub fn sendable(&self, id: SpaceId, other: bool) -> SendableFrames {
        let acks = self.can_send_acks(id);
        SendableFrames { acks, other }
    }

    pub fn can_send_acks(&self, id: SpaceId) -> bool {
        self.space(id).map_or(false, |it| it.can_send.acks)
    }

    pub fn acks(&self, id: SpaceId, now: Instant) -> Acks {
        let space = space_of(id);
        let delay = self.ack_delay(space, self.at(now));
        Acks { ranges: self.ranges(space).collect(), delay: delay.unwrap_or_default() }
    }

    pub fn acks_sent(&mut self, id: SpaceId) {
        let space = space_of(id);
        let _ = self.changing_in(id).on_event(Event::AcksSent { space });
    }

    // Packets that go out, and what becomes of them

    pub fn next_number(&self, id: SpaceId) -> u64 {
        self.space(id).expect("the space was not discarded").next_packet_number
    }

    /// The packet with the next number goes out; where it holds something, its key is the item that comes back once it
    /// is acknowledged, or waits once it is lost.
    pub fn sent(
        &mut self,
        (id, number): (SpaceId, u64),
        now: Instant,
        size: u16,
        ack_eliciting: bool,
        largest_acked: Option<u64>,
        key: Option<u64>,
    ) {
        let (space, now) = (space_of(id), self.at(now));
        let sender = self.changing_in(id);
        let sent = sender.send(space, now, size, ack_eliciting, largest_acked, key.as_slice());
        assert_eq!(sent.map(|it| it.number), Ok(number), "another number was in the header");
    }

    /// An ACK frame came in. What it comes to goes back to `told`.
    pub fn on_ack(
        &mut self,
        space: SpaceId,
        now: Instant,
        ack: &qr::Ack,
        ranges: impl Iterator<Item = RangeInclusive<u64>>,
    ) -> Result<qr::Acknowledged, SenderError> {
        self.changing_in(space);
        let (space, now, mut told) = (space_of(space), self.at(now), mem::take(&mut self.told));
        self.heard.clear();
        self.heard.extend(ranges.map(|it| (*it.start(), *it.end())));
        self.sender.on_ack_into(space, now, ack, &self.heard, &mut told)?;
        Ok(told)
    }

    /// The timer for losses may be due
    pub fn on_timeout(&mut self, now: Instant) -> qr::Timeout {
        let now = self.at(now);
        let told = self.sender.on_timeout(now).unwrap_or(qr::Timeout::Nothing);
        if let qr::Timeout::Probe { space, .. } = told {
            // A probe needs no room, so its space does not wait for that any more
            let _ = self.counting().transmit(now, 0, space, true);
        }
        told
    }

    /// The keys of packets whose frames a probe carries; a probe without any is a PING
    pub fn probe(&mut self, space: SpaceId) -> Vec<u64> {
        let keys = self.changing_in(space).probe(space_of(space), false);
        keys.unwrap_or_default()
    }

    /// The keys of packets whose frames wait to be sent again
    pub fn take_pending(&mut self, space: SpaceId) -> Vec<u64> {
        let space = space_of(space);
        match self.sender.on_event(Event::TakePending { space }) {
            Ok(Answer::Queue(numbers)) => numbers,
            _ => Vec::new(),
        }
    }

    /// All that is tracked in the space goes
    pub fn discard(&mut self, space: SpaceId, now: Instant) {
        let now = self.at(now);
        let _ = self.changing_in(space).discard(space_of(space), now);
    }

    /// What is tracked in the space was sent in vain
    pub fn retransmit_all(&mut self, space: SpaceId, now: Instant) {
        let now = self.at(now);
        let _ = self.sender.retransmit_all(space_of(space), now);
        self.take_pending(space);
    }

    /// When the timer for losses is due
    pub fn timer(&self) -> Option<Instant> {
        let at = self.sender.recovery().timer(qr::Timer::LossDetection)?;
        Some(self.moment(at))
    }

    // The peer's ids

    /// An event by which another id may come into use, after one that the peer issued
    fn retire(
        &mut self,
        event: Event<'_>,
        issued: Option<(u64, ConnectionId)>,
    ) -> Result<Option<(Range<u64>, ResetToken)>, SenderError> {
        let told = self.sender.on_event(event)?;
        let is_held = |id: &(u64, ConnectionId)| self.rem_ids.iter().any(|it| it.0 == id.0);
        let (active, issued) = (self.active_seq(), issued.filter(|it| !is_held(it)));
        self.rem_ids.extend(issued);
        self.rem_ids.retain(|it| it.0 >= active);
        self.rem_ids.sort_by_key(|it| it.0);
        let Answer::Retire(Some(range)) = told else {
            return Ok(None);
        };
        let token = ResetToken::from(*self.reset_token().bytes());
        Ok(Some((range, token)))
    }

    pub fn new_id(&mut self, frame: &frame::NewConnectionId) -> Result<Option<(Range<u64>, ResetToken)>, SenderError> {
        let event = Event::NewId(qr::NewConnectionId {
            sequence: frame.sequence,
            retire_prior_to: frame.retire_prior_to,
            id: id_of(&frame.id),
            reset_token: token_of(&frame.reset_token),
        });
        self.retire(event, Some((frame.sequence, frame.id)))
    }

    pub fn next_id(&mut self) -> Option<(Range<u64>, ResetToken)> {
        self.retire(Event::NextId, None).unwrap_or(None)
    }

    pub fn initial_id(&mut self, id: ConnectionId) {
        let _ = self.sender.on_event(Event::InitialId(id_of(&id)));
        self.rem_ids = vec![(0, id)];
    }

    pub fn active_seq(&self) -> u64 {
        self.sender.recovery().active_id()
    }

    pub fn active_id(&self) -> ConnectionId {
        self.rem_ids[0].1
    }

    // This end's ids

    pub fn cid_len(&self) -> usize {
        self.cid_len
    }

    pub fn issue_ids(&mut self, now: Instant, ids: &[IssuedCid]) {
        let now = self.at(now);
        let given = |it: &IssuedCid| qr::IssuedCid::new(it.sequence, id_of(&it.id), token_of(&it.reset_token));
        let ids: Vec<_> = ids.iter().map(given).collect();
        let _ = self.sender.on_event(Event::IssueIds { now, ids: &ids });
    }

    /// Whether ids are to be issued in the place of those that expired
    pub fn id_timeout(&mut self) -> bool {
        self.sender.on_event(Event::IdTimeout) == Ok(Answer::Flag(true))
    }

    /// Whether there is room for one more id
    pub fn peer_retired(&mut self, sequence: u64, limit: u64) -> Result<bool, SenderError> {
        let answer = self.sender.on_event(Event::PeerRetired { sequence, limit })?;
        Ok(answer == Answer::Flag(true))
    }

    pub fn retire_prior_to(&self) -> u64 {
        let told = self.ids().retire_prior_to;
        told.max(self.retire_at_least)
    }

    pub fn next_expiry(&self) -> Option<Instant> {
        let at = self.next_id_timeout()?;
        Some(self.moment(at))
    }

    /// How many ids go newly where those below `number` are to be retired
    #[cfg(test)]
    pub fn retire_below(&mut self, number: u64) -> u64 {
        number - mem::replace(&mut self.retire_at_least, number).max(self.ids().retire_prior_to)
    }

    /// The least and the last number of this end's ids that are not to be retired
    #[cfg(test)]
    pub fn own_ids(&self) -> (u64, u64) {
        (self.retire_prior_to(), self.ids().issued - 1)
    }
}
