//! The crate's own parts beside the library: they are told the same, and all that can be read of both is compared.
use std::{
    collections::BTreeMap,
    fmt::Debug,
    fs::OpenOptions,
    io::Write,
    mem,
    sync::Arc,
    time::{Duration, Instant},
};

use qr::{Answer, Event, PathName, Recovery, Refusal, SenderError};
use quic_recovery as qr;

use super::{assembler, cid_state::CidState, pacing::Pacer, paths::RttEstimator};
use super::{StreamsState, TransportError};
use crate::{
    cid_queue::{CidQueue, InsertError},
    congestion::{Controller, ControllerFactory, NewRenoConfig},
    frame,
    shared::{ConnectionId, IssuedCid},
    token::ResetToken,
    Side,
};

#[allow(dead_code, unused_imports)]
#[path = "../../../original/connection/spaces.rs"]
mod spaces;

const SPACES: [qr::SpaceId; 3] = [qr::SpaceId::Initial, qr::SpaceId::Handshake, qr::SpaceId::Data];

struct Path {
    rtt: RttEstimator,
    congestion: Box<dyn Controller>,
    pacing: Pacer,
    mtu: u16,
    validated: bool,
    total_sent: u64,
    total_recvd: u64,
    /// Bytes in flight, and packets that elicit an ACK
    in_flight: (u64, u64),
    sending_ecn: bool,
}

struct Own {
    epoch: Instant,
    reno: Arc<NewRenoConfig>,
    initial_rtt: Duration,
    initial_mtu: u16,
    limit: u16,
    spaces: [spaces::PacketSpace; 3],
    largest: [u64; 3],
    discarded: [bool; 3],
    /// What the timer for losses goes by (RFC 9002, A.3)
    is_server: bool,
    max_ack_delay: Duration,
    pto_count: u32,
    waits: [Option<Instant>; 3],
    has_handshake_keys: bool,
    is_confirmed: bool,
    is_address_known: bool,
    base: Instant,
    /// The paths so far; which one is in use, and which one was before it
    paths: Vec<Path>,
    current: usize,
    previous: Option<usize>,
    /// On which path a packet was sent
    sent_on: BTreeMap<(usize, u64), usize>,
    rem_cids: CidQueue,
    local_cids: CidState,
    streams: StreamsState,
    /// Of each thing that was compared: how often, how often it differed, and how it did at first
    counts: BTreeMap<&'static str, (u64, u64, String)>,
}

/// The library's sender, and the crate's own parts told the same
pub(super) struct Sender {
    sender: qr::Sender,
    own: Own,
}

impl Sender {
    pub fn new(side: qr::Side, config: &qr::RecoveryConfig, now: qr::Instant) -> Result<Self, qr::ConfigError> {
        Ok(Sender { sender: qr::Sender::new(side, config, now)?, own: Own::new(side, config, now) })
    }

    pub fn recovery(&self) -> &Recovery {
        self.sender.recovery()
    }

    /// All that can be read of both, before a call
    fn compare(&mut self) -> &mut qr::Sender {
        self.own.compare(self.sender.recovery());
        &mut self.sender
    }

    pub fn on_event(&mut self, event: Event<'_>) -> Result<Answer, SenderError> {
        if !matches!(event, Event::AckDelayTimeout { .. }) {
            self.compare();
        }
        let answer = self.sender.on_event(event);
        self.own.told(&event, &answer, self.sender.recovery());
        answer
    }

    pub fn send(
        &mut self,
        space: qr::SpaceId,
        now: qr::Instant,
        size: u16,
        ack_eliciting: bool,
        largest_acked: Option<u64>,
        queue: &[u64],
    ) -> Result<qr::Sent, SenderError> {
        let event = Event::Send { space, now, size, ack_eliciting, largest_acked, queue };
        let qr::Sent { number, forgotten } =
            self.compare().send(space, now, size, ack_eliciting, largest_acked, queue)?;
        let answer = Ok(Answer::Sent { number, forgotten });
        self.own.told(&event, &answer, self.sender.recovery());
        Ok(qr::Sent { number, forgotten })
    }

    pub fn transmit(
        &mut self,
        now: qr::Instant,
        bytes: u16,
        space: qr::SpaceId,
        in_flight: bool,
    ) -> Result<qr::Transmission, SenderError> {
        let sent = self.compare().transmit(now, bytes, space, in_flight)?;
        self.own.asked(now, space, in_flight, sent);
        if sent == qr::Transmission::Transmitted {
            self.own.transmitted(bytes);
        }
        Ok(sent)
    }

    pub fn on_ack_into(
        &mut self,
        space: qr::SpaceId,
        now: qr::Instant,
        ack: &qr::Ack,
        ranges: &[(u64, u64)],
        told: &mut qr::Acknowledged,
    ) -> Result<(), SenderError> {
        self.compare().on_ack_into(space, now, ack, ranges, told)?;
        self.own.acked(space, now, ack, ranges, told);
        Ok(())
    }

    pub fn on_timeout(&mut self, now: qr::Instant) -> Result<qr::Timeout, SenderError> {
        let told = self.compare().on_timeout(now)?;
        self.own.timed_out(now, &told);
        Ok(told)
    }

    pub fn probe(&mut self, space: qr::SpaceId, immediate_ack: bool) -> Result<Vec<u64>, SenderError> {
        let keys = self.compare().probe(space, immediate_ack)?;
        self.own.probed(space, &keys);
        Ok(keys)
    }

    pub fn discard(&mut self, space: qr::SpaceId, now: qr::Instant) -> Result<(), SenderError> {
        self.compare().discard(space, now)?;
        self.own.discarded(space);
        self.own.begin_anew(space, now);
        Ok(())
    }

    pub fn retransmit_all(&mut self, space: qr::SpaceId, now: qr::Instant) -> Result<qr::Retransmitted, SenderError> {
        let all = self.compare().retransmit_all(space, now)?;
        self.own.sent_in_vain(space, &all.numbers);
        self.own.begin_anew(space, now);
        Ok(all)
    }

    pub fn on_datagram(&mut self, bytes: u64) -> Result<(), SenderError> {
        self.compare().on_datagram(bytes)?;
        self.own.path().total_recvd += bytes;
        Ok(())
    }

    pub fn on_address_validated(&mut self) {
        self.compare().on_address_validated();
        self.own.path().validated = true;
    }

    pub fn on_handshake_keys(&mut self) {
        self.sender.on_handshake_keys();
        self.own.has_handshake_keys = true;
    }

    pub fn on_handshake_confirmed(&mut self) {
        self.sender.on_handshake_confirmed();
        (self.own.is_confirmed, self.own.is_address_known) = (true, true);
    }

    pub fn set_peer_max_ack_delay(&mut self, delay: Duration) {
        self.sender.set_peer_max_ack_delay(delay);
        self.own.max_ack_delay = delay;
    }
}

/// A path and ids begin a nanosecond earlier, so that what is sent at this time counts as sent after a recovery's start
fn before(now: Instant) -> Instant {
    now.checked_sub(Duration::from_nanos(1)).unwrap_or(now)
}

impl Own {
    fn new(side: qr::Side, config: &qr::RecoveryConfig, now: qr::Instant) -> Self {
        let (transport, epoch) = (&config.transport, Instant::now());
        let now = epoch + Duration::from_nanos(now.as_nanos());
        let qr::Congestion::NewReno(given) = transport.congestion else {
            panic!("another controller than NewReno");
        };
        let mtu = transport.initial_mtu;
        let mut reno = NewRenoConfig::default();
        reno.initial_window(given.initial_window).max_datagram_size(mtu.into()).minimum_window(2 * u64::from(mtu));
        let none = 0u32.into();
        let mut this = Own {
            epoch,
            reno: Arc::new(reno),
            initial_rtt: transport.initial_rtt,
            initial_mtu: mtu,
            limit: u16::MAX,
            spaces: [(); 3].map(|_| spaces::PacketSpace::new(now)),
            largest: [0; 3],
            discarded: [false; 3],
            is_server: side == qr::Side::Server,
            max_ack_delay: Duration::from_millis(25),
            pto_count: 0,
            waits: [None; 3],
            has_handshake_keys: false,
            is_confirmed: false,
            is_address_known: false,
            base: now,
            paths: Vec::new(),
            current: 0,
            previous: None,
            sent_on: BTreeMap::new(),
            rem_cids: CidQueue::new(ConnectionId::new(&config.initial_cid)),
            local_cids: CidState::new(config.cid_len.into(), config.cid_lifetime, before(now)),
            streams: StreamsState::new(Side::Client, none, none, 0, none, none),
            counts: BTreeMap::new(),
        };
        this.new_path(now, true);
        this.path().validated = config.validated || side == qr::Side::Client;
        this
    }

    fn path(&mut self) -> &mut Path {
        &mut self.paths[self.current]
    }

    fn new_path(&mut self, now: Instant, fresh: bool) {
        let (rtt, congestion, mtu) = match self.paths.get(self.current) {
            Some(path) if !fresh => (path.rtt, path.congestion.clone_box(), path.mtu),
            _ => {
                let rtt = RttEstimator::new(self.initial_rtt);
                (rtt, self.reno.build(before(now)), self.initial_mtu.min(self.limit))
            }
        };
        self.previous = (!self.paths.is_empty()).then_some(self.current);
        self.current = self.paths.len();
        self.paths.push(Path {
            pacing: Pacer::new(rtt.get(), congestion.window(), mtu, before(now)),
            rtt,
            congestion,
            mtu,
            validated: false,
            total_sent: 0,
            total_recvd: 0,
            in_flight: (0, 0),
            sending_ecn: true,
        });
    }

    fn same<T: PartialEq + Debug>(&mut self, what: &'static str, own: T, told: T) {
        let paths = self.paths.len();
        let it = self.counts.entry(what).or_default();
        it.0 += 1;
        if own != told {
            it.1 += 1;
            if it.2.is_empty() {
                it.2 = format!("own {own:?}, library {told:?}, {paths} paths");
            }
        }
    }

    fn at(&self, moment: qr::Instant) -> Instant {
        self.epoch + Duration::from_nanos(moment.as_nanos())
    }

    fn nanos(&self, moment: Instant) -> u64 {
        moment.duration_since(self.epoch).as_nanos() as u64
    }

    /// All that both can be asked for
    fn compare(&mut self, recovery: &Recovery) {
        let told = recovery.path(PathName::Current).unwrap();
        let path = self.path();
        let own = (path.rtt.get(), path.rtt.conservative(), path.rtt.min(), path.rtt.pto_base());
        let rtt = (told.rtt.get, told.rtt.conservative, told.rtt.min, told.rtt.pto_base);
        let window = path.congestion.window();
        let flight = path.in_flight;
        let totals = (path.total_sent, path.total_recvd);
        let rest = (path.mtu, path.validated);
        self.same("rtt", own.0, rtt.0);
        self.same("rtt conservative", own.1, rtt.1);
        self.same("rtt min", own.2, rtt.2);
        self.same("pto base", own.3, rtt.3);
        self.same("window", window, told.window);
        self.same("bytes in flight", flight.0, told.in_flight);
        self.same("packets in flight", flight.1, told.ack_eliciting);
        self.same("total sent", totals.0, told.total_sent);
        self.same("total received", totals.1, told.total_recvd);
        self.same("mtu", rest.0, told.current_mtu);
        self.same("validated", rest.1, told.validated);
        for (at, &id) in SPACES.iter().enumerate() {
            let told = recovery.space(id);
            self.same("space lives", !self.discarded[at], told.is_some());
            let Some(told) = told else { continue };
            self.same("largest received", self.largest[at], told.largest_received);
            self.same("next number", self.spaces[at].next_packet_number, told.next_packet_number);
            let acks = &self.spaces[at].pending_acks;
            let (can_send, own): (_, Vec<_>) = (acks.can_send(), acks.ranges().iter().collect());
            self.same("can send acks", can_send, told.can_send.acks);
            self.same("ack ranges", own, recovery.ranges(id).collect());
        }
        let own = self.due().map(|it| self.nanos(it));
        let told = recovery.timer(qr::Timer::LossDetection).map(|it| it.as_nanos());
        self.same("timer for losses", own, told);
        let ids = recovery.ids();
        self.same("id in use", self.rem_cids.active_seq(), ids.active);
        let own = self.local_cids.retire_prior_to();
        self.same("retire prior to", own, ids.retire_prior_to);
    }

    /// A tracked packet that leaves, and the path that it was sent on
    fn leaves(&mut self, space: qr::SpaceId, number: u64) -> Option<(spaces::SentPacket, usize)> {
        let found = self.spaces[space as usize].sent_packets.remove(&number);
        self.same("tracked", found.is_some(), true);
        let packet = found?;
        let on = self.sent_on.remove(&(space as usize, number)).unwrap_or(0);
        self.paths[on].in_flight.0 -= u64::from(packet.size);
        self.paths[on].in_flight.1 -= u64::from(packet.ack_eliciting);
        Some((packet, on))
    }

    fn retired(
        &mut self,
        own: Result<Option<(std::ops::Range<u64>, ResetToken)>, InsertError>,
        answer: &Result<Answer, SenderError>,
        recovery: &Recovery,
    ) {
        let token = recovery.reset_token();
        let told = match answer {
            Ok(Answer::Retire(Some(range))) => Ok(Some((range.clone(), ResetToken::from(*token.bytes())))),
            Ok(_) => Ok(None),
            Err(SenderError::Event(Refusal::Retired)) => Err(InsertError::Retired),
            Err(_) => Err(InsertError::ExceedsLimit),
        };
        self.same("ids to retire", own, told);
    }

    fn transmitted(&mut self, bytes: u16) {
        let path = self.path();
        path.pacing.on_transmit(bytes);
        path.total_sent += u64::from(bytes);
    }

    fn discarded(&mut self, space: qr::SpaceId) {
        for number in self.tracked(space) {
            self.leaves(space, number);
        }
        self.discarded[space as usize] = true;
    }

    fn sent_in_vain(&mut self, space: qr::SpaceId, told: &[u64]) {
        let own = self.tracked(space);
        self.same("sent in vain", &own[..], told);
        for number in own {
            self.loses(space, number);
        }
        self.spaces[space as usize].loss_time = None;
    }

    fn tracked(&self, space: qr::SpaceId) -> Vec<u64> {
        let packets = &self.spaces[space as usize].sent_packets;
        packets.keys().copied().collect()
    }

    fn loses(&mut self, space: qr::SpaceId, number: u64) -> Option<(spaces::SentPacket, usize)> {
        let (packet, on) = self.leaves(space, number)?;
        self.spaces[space as usize].pending |= packet.retransmits.clone();
        Some((packet, on))
    }

    fn begin_anew(&mut self, space: qr::SpaceId, now: qr::Instant) {
        (self.pto_count, self.base) = (0, self.at(now));
        self.waits[space as usize] = None;
    }

    /// A space waits from the first datagram in flight that finds no room in the window to the next one that does
    fn asked(&mut self, now: qr::Instant, space: qr::SpaceId, in_flight: bool, sent: qr::Transmission) {
        let now = self.at(now);
        let waits = &mut self.waits[space as usize];
        match sent {
            qr::Transmission::Full { .. } => *waits = waits.or(Some(now)),
            qr::Transmission::Blocked => {}
            _ if in_flight => *waits = None,
            _ => {}
        }
    }

    /// When the timer for losses is due (RFC 9002, 6.2 and A.8)
    fn due(&mut self) -> Option<Instant> {
        let lives = |it: &usize| !self.discarded[*it];
        let lost = (0..3).filter(lives).filter_map(|it| self.spaces[it].loss_time).min();
        let path = &self.paths[self.current];
        if lost.is_some() || !path.validated && 3 * path.total_recvd < path.total_sent + 1200 {
            return lost;
        }
        let span = |it: usize| {
            let late = if it == 2 { self.max_ack_delay } else { Duration::ZERO };
            (path.rtt.pto_base() + late) * 2u32.pow(self.pto_count.min(16))
        };
        let probe = |it: usize| {
            let (here, is_open) = (&self.spaces[it], it < 2 && !self.is_confirmed);
            let last = here.time_of_last_ack_eliciting_packet;
            let from = match here.sent_packets.values().any(|it| it.ack_eliciting) {
                true => last.filter(|_| it < 2 || self.is_confirmed)?,
                false => self.waits[it].filter(|_| is_open)?.max(last.unwrap_or(self.epoch)),
            };
            Some(from + span(it))
        };
        let probes = (0..3).filter(lives).filter_map(probe).min();
        let space = usize::from(self.has_handshake_keys && !self.discarded[1]);
        let is_stuck = !self.is_server && !self.is_address_known && !self.discarded[space];
        probes.or(is_stuck.then(|| self.base + span(space)))
    }

    /// Which packets of a space are lost, and when the next one is (RFC 9002, 6.1)
    fn look(&mut self, space: qr::SpaceId, now: Instant) -> (Vec<u64>, Option<Instant>) {
        let delay = (self.path().rtt.conservative() * 9 / 8).max(Duration::from_millis(1));
        let here = &self.spaces[space as usize];
        let largest = here.largest_acked_packet.unwrap_or(0);
        let is_lost = |at: u64, it: &spaces::SentPacket| largest >= at + 3 || it.time_sent + delay <= now;
        let below = || here.sent_packets.range(..largest);
        let lost = below().filter(|it| is_lost(*it.0, it.1)).map(|it| *it.0);
        let rest = below().filter(|it| !is_lost(*it.0, it.1)).map(|it| it.1.time_sent + delay);
        (lost.collect(), rest.min())
    }

    fn lost(&mut self, space: qr::SpaceId, now: Instant, losses: &qr::Losses) {
        let (own, time) = self.look(space, now);
        self.same("lost", &own, &losses.numbers);
        self.spaces[space as usize].loss_time = time;
        let here = self.current;
        let (mut bytes, mut last) = (0, None);
        for &number in &losses.numbers {
            let Some((packet, on)) = self.loses(space, number) else { continue };
            if on == here && packet.size > 0 {
                bytes += u64::from(packet.size);
                last = Some(packet.time_sent);
            }
        }
        self.same("bytes lost", last.map(|_| bytes), losses.congestion);
        if let Some(sent) = last {
            // If it persists, it is told of a packet sent later than every recovery began, so that the window is the least
            let sent = if losses.is_persistent { now + Duration::from_secs(86_400) } else { sent };
            let path = self.path();
            path.congestion.on_congestion_event(now, sent, losses.is_persistent, bytes);
        }
    }

    /// The timer for losses, which said this
    fn timed_out(&mut self, now: qr::Instant, told: &qr::Timeout) {
        let now = self.at(now);
        match told {
            qr::Timeout::Lost { space, losses } => {
                let due = SPACES.into_iter().find(|it| {
                    let time = self.spaces[*it as usize].loss_time;
                    !self.discarded[*it as usize] && time.map_or(false, |time| time <= now)
                });
                self.same("the space of losses", due, Some(*space));
                self.base = now;
                if let Some(space) = due {
                    self.lost(space, now, losses);
                }
            }
            qr::Timeout::Probe { .. } => {
                (self.pto_count, self.base) = (self.pto_count + 1, now);
                self.waits = self.waits.map(|it| it.map(|_| now));
            }
            _ => {}
        }
    }

    /// A probe, which carries what these packets did
    fn probed(&mut self, space: qr::SpaceId, keys: &Vec<u64>) {
        let it = &mut self.spaces[space as usize];
        it.loss_probes = 1;
        it.maybe_queue_probe(&self.streams);
        let own = mem::take(&mut it.pending).retire_cids;
        self.same("what a probe carries", &own, keys);
    }

    /// An ACK frame, which came to this
    fn acked(
        &mut self,
        space: qr::SpaceId,
        now: qr::Instant,
        ack: &qr::Ack,
        ranges: &[(u64, u64)],
        told: &qr::Acknowledged,
    ) {
        let now = self.at(now);
        let here = &self.spaces[space as usize];
        let raised = here.largest_acked_packet.map_or(true, |it| it < ranges[0].1);
        let of = |&(first, last): &(u64, u64)| here.sent_packets.range(first..=last).map(|it| *it.0);
        let own: Vec<u64> = ranges.iter().rev().flat_map(of).collect();
        self.same("newly acknowledged", &own, &told.numbers);
        if told.numbers.is_empty() {
            return;
        }
        self.base = now;
        self.is_address_known |= space == qr::SpaceId::Handshake;
        if self.is_server || self.is_address_known {
            self.pto_count = 0;
        }
        let (largest, current) = (ranges[0].1, self.current);
        let (mut elicits, mut sample, mut ours, mut is_ours) = (false, None, 0, false);
        for &number in &told.numbers {
            let Some((packet, on)) = self.leaves(space, number) else { continue };
            if let Some(acked) = packet.largest_acked {
                let acks = &mut self.spaces[space as usize].pending_acks;
                acks.subtract_below(acked);
            }
            elicits |= packet.ack_eliciting;
            is_ours = on == current;
            ours += u64::from(is_ours);
            if number == largest {
                sample = (on == current).then(|| now - packet.time_sent);
                if raised {
                    self.spaces[space as usize].largest_acked_packet_sent = packet.time_sent;
                }
            }
            if on == current && packet.ack_eliciting {
                let (sent, size, path) = (packet.time_sent, packet.size.into(), self.path());
                path.congestion.on_ack(now, sent, size, ack.app_limited, &path.rtt);
            }
        }
        if raised {
            self.spaces[space as usize].largest_acked_packet = Some(largest);
        }
        if let (Some(rtt), true) = (sample, elicits) {
            let most = match space {
                qr::SpaceId::Data => self.max_ack_delay,
                _ => Duration::ZERO,
            };
            self.path().rtt.update(ack.delay.min(most), rtt);
        }
        self.lost(space, now, &told.losses);
        if self.path().sending_ecn && raised {
            self.counted(space, now, ack, (ours, is_ours), told);
        }
    }

    /// The counts of ECN of a frame, of which so many packets were sent on the current path, the largest one or not
    fn counted(
        &mut self,
        space: qr::SpaceId,
        now: Instant,
        ack: &qr::Ack,
        (newly, is_ours): (u64, bool),
        told: &qr::Acknowledged,
    ) {
        let Some(qr::EcnCounts { ect0, ect1, ce }) = ack.ecn else {
            self.path().sending_ecn = false;
            return;
        };
        let it = &mut self.spaces[space as usize];
        let sent = it.largest_acked_packet_sent;
        let own = match it.detect_ecn(newly, frame::EcnCounts { ect0, ect1, ce }) {
            Ok(marked) if !marked || !is_ours => qr::EcnOutcome::Quiet,
            Ok(_) => qr::EcnOutcome::Marked,
            Err(_) => qr::EcnOutcome::Failed,
        };
        self.same("ecn", own, told.ecn);
        let path = self.path();
        path.sending_ecn = own != qr::EcnOutcome::Failed;
        if own == qr::EcnOutcome::Marked {
            path.congestion.on_congestion_event(now, sent, false, 0);
        }
    }

    /// An event that the library has answered
    fn told(&mut self, event: &Event<'_>, answer: &Result<Answer, SenderError>, recovery: &Recovery) {
        match *event {
            Event::Received { space, now, number, ack_eliciting } => {
                let now = self.at(now);
                let it = &mut self.spaces[space as usize];
                let is_old = it.dedup.insert(number);
                if !is_old {
                    it.pending_acks.insert_one(number, now);
                    it.pending_acks.packet_received(ack_eliciting);
                    let largest = &mut self.largest[space as usize];
                    *largest = number.max(*largest);
                }
                self.same("duplicate", is_old, *answer == Ok(Answer::Duplicate));
            }
            Event::Send { space, now, size, ack_eliciting, largest_acked, queue } => {
                let time_sent = self.at(now);
                let it = &mut self.spaces[space as usize];
                let number = it.get_tx_number();
                let mut retransmits = spaces::ThinRetransmits::default();
                if !queue.is_empty() {
                    retransmits.get_or_create().retire_cids.extend(queue);
                }
                let packet = spaces::SentPacket {
                    time_sent,
                    size,
                    ack_eliciting,
                    largest_acked,
                    retransmits,
                    stream_frames: Default::default(),
                };
                it.sent(number, packet);
                if ack_eliciting {
                    it.time_of_last_ack_eliciting_packet = Some(time_sent);
                }
                if size > 0 {
                    self.base = time_sent;
                }
                self.sent_on.insert((space as usize, number), self.current);
                let path = self.path();
                path.in_flight.0 += u64::from(size);
                path.in_flight.1 += u64::from(ack_eliciting);
                if let Ok(Answer::Sent { number: told, forgotten }) = *answer {
                    self.same("number", number, told);
                    if let Some(number) = forgotten {
                        self.leaves(space, number);
                    }
                }
            }
            Event::TakePending { space } => {
                let pending = mem::take(&mut self.spaces[space as usize].pending);
                let own = match self.discarded[space as usize] {
                    true => Err(SenderError::Event(Refusal::SpaceDiscarded)),
                    false => Ok(Answer::Queue(pending.retire_cids)),
                };
                self.same("queue", own, answer.clone());
            }
            Event::NewId(frame) => {
                let own = self.rem_cids.insert(frame::NewConnectionId {
                    sequence: frame.sequence,
                    retire_prior_to: frame.retire_prior_to,
                    id: ConnectionId::new(&frame.id),
                    reset_token: ResetToken::from(*frame.reset_token.bytes()),
                });
                self.retired(own, answer, recovery);
            }
            Event::NextId => {
                let own = self.rem_cids.next().map(|(token, range)| (range, token));
                self.retired(Ok(own), answer, recovery);
            }
            Event::InitialId(id) => self.rem_cids.update_initial_cid(ConnectionId::new(&id)),
            Event::IssueIds { now, ids } => {
                let now = self.at(now);
                let issued = |it: &qr::IssuedCid| IssuedCid {
                    sequence: it.sequence(),
                    id: ConnectionId::new(&[]),
                    reset_token: ResetToken::from([0; 16]),
                };
                let own: Vec<_> = ids.iter().map(issued).collect();
                self.local_cids.new_cids(&own, now);
            }
            Event::IdTimeout => {
                let own = self.local_cids.on_cid_timeout();
                self.same("id timeout", Ok(Answer::Flag(own)), answer.clone());
            }
            Event::PeerRetired { sequence, limit } => {
                let own: Result<bool, TransportError> = self.local_cids.on_cid_retirement(sequence, limit);
                let told = match answer {
                    Ok(Answer::Flag(more)) => Some(*more),
                    _ => None,
                };
                self.same("peer retired", own.ok(), told);
            }
            Event::AcksSent { space } => self.spaces[space as usize].pending_acks.acks_sent(),
            Event::PacerCheck { now, bytes } => {
                let now = self.at(now);
                let path = self.path();
                let (window, rtt, mtu) = (path.congestion.window(), path.rtt.get(), path.mtu);
                let own = path.pacing.delay(rtt, bytes, mtu, window, now);
                let own = own.map(|it| self.nanos(it));
                let told = match answer {
                    Ok(Answer::Delayed(moment)) => Some(moment.as_nanos()),
                    _ => None,
                };
                self.same("pacer's moment", own, told);
            }
            Event::PeerLimit { size } => {
                self.limit = size;
                let path = self.path();
                path.mtu = path.mtu.min(size);
            }
            Event::NewPath { now, fresh, .. } => {
                let is_back = self.previous.map_or(false, |it| self.paths[it].validated);
                if is_back && !self.path().validated {
                    self.current = self.previous.take().unwrap_or(self.current);
                }
                self.new_path(self.at(now), fresh);
                self.path().validated = !self.is_server;
            }
            Event::RevertPath if answer.is_ok() => self.current = self.previous.take().unwrap_or(self.current),
            _ => {}
        }
    }
}

impl Drop for Own {
    /// What was compared goes into the file that QUINN_SHADOW names
    fn drop(&mut self) {
        let Ok(name) = std::env::var("QUINN_SHADOW") else {
            return;
        };
        let test = std::thread::current().name().unwrap_or("").to_owned();
        let mut text = String::new();
        for (what, (compared, differ, first)) in &self.counts {
            text += &format!("{test}\t{what}\t{compared}\t{differ}\t{first}\n");
        }
        let file = OpenOptions::new().append(true).create(true).open(name);
        file.and_then(|mut it| it.write_all(text.as_bytes())).unwrap();
    }
}
