//! The sending half of a connection over the layer (RFC 9002, Appendices A and B): what is lost, when to probe, whether a datagram
//! may go out. Moments and spans are nanoseconds, and stop at their greatest values.
use crate::layer::{
    BAD_RANGE, EcnCounts, Moment, NO_SUCH_PATH, OVERFLOW, Pacer, Packet, Phase, Recovery, Refusal, Rtt, SPACE_DISCARDED, Sending, Space, Span,
};
use crate::lines::{Answer, Event, Reply, apply};
use crate::skips::Skips;

pub const UNSENT: Refusal = "refused 128 Unsent\n";
pub const DATA_SPACE: Refusal = "refused 129 DataSpace\n";
pub const SKIPPED_ACKED: Refusal = "refused 16 SkippedAcked\n";

const SPACES: [Space; 3] = [Space::Initial, Space::Handshake, Space::Data];
/// No recovery starts later.
const LATEST_START: Moment = Moment::MAX - 1;
const GRANULARITY: Span = 1_000_000;
const MOST_DOUBLINGS: u32 = 16;
const LOSS_DETECTION: usize = 0;
const LEAST_DATAGRAM: u16 = 1200; // of a probe (RFC 9000, 14.1)

/// An ACK frame: its ranges have the highest first.
pub struct Ack {
    pub delay: Span,
    pub app_limited: bool,
    pub ranges: Vec<(u64, u64)>,
    pub ecn: Option<EcnCounts>,
    /// When the frame was received, if that was before it was processed.
    pub received: Option<Moment>,
}

/// What a look for losses found.
#[derive(Default)]
pub struct Losses {
    /// In the order in which they were told.
    pub numbers: Vec<u64>,
    /// The bytes lost, and whether the congestion persists.
    pub congestion: Option<(u64, bool)>,
    pub black_hole: bool,
}

#[derive(Default)]
pub enum Ecn {
    #[default]
    Same,
    Congestion,
    Failed,
}

#[derive(Default)]
pub struct Acked {
    pub numbers: Vec<u64>,
    pub losses: Losses,
    pub ecn: Ecn,
}

pub enum Permit {
    Transmitted,
    Blocked,
    /// Whether an ACK is required in the space (RFC 9000, 13.2.1).
    Full { ack: bool },
    Delayed { until: Moment, ack: bool },
}

pub enum Timeout {
    Nothing,
    Losses(Space, Losses),
    Probe(Space, u8),
}

/// What the timer is set for.
enum Due {
    Losses(Space),
    Probes(Space),
    /// A probe against a deadlock (6.2.2.1).
    Probe(Space),
}

/// A packet that is lost.
struct Lost {
    number: u64,
    sent: Moment,
    size: u16,
    eliciting: bool,
    /// Whether the current path's congestion hears of it (B.8; RFC 9000, 9.4 and 14.4).
    counts: bool,
    probe: bool,
}

/// The settings of loss detection (6.1.1, 6.1.2, 7.6.1).
#[derive(Clone, Copy)]
pub struct Settings {
    pub packets: u64,
    pub time: (u64, u64),
    pub periods: u64,
}

impl Default for Settings {
    fn default() -> Self {
        Settings { packets: 3, time: (9, 8), periods: 3 }
    }
}

pub struct Sender {
    recovery: Recovery,
    is_client: bool,
    settings: Settings,
    skips: Option<Skips>,
    /// A window that nothing changes.
    window: Option<u64>,
    peer_delay: Span,
    pto_count: u32,
    confirmed: bool,
    /// Whether the peer is known to have validated this end's address (A.8); of a client's it is always known.
    knows_validated: bool,
    handshake_keys: bool,
    base: Moment,
    loss_times: [Option<Moment>; 3],
    /// Of the current path.
    first_behind_sample: Option<(Space, u64)>,
    /// When a path got that mark last.
    sampled: Moment,
    /// The probes that the last timeout asked for and that were not sent yet (6.2.4).
    probes: Option<(Space, u8)>,
    /// Since when a datagram of Initial and of Handshake waits for room in the window.
    waits: [Option<Moment>; 2],
    sending_ecn: bool,
    /// The same of the previous one.
    previous: (Option<(Space, u64)>, bool),
}

fn later(moment: Moment, span: Span) -> Moment {
    u128::from(moment).saturating_add(span).min(u128::from(u64::MAX)) as u64
}

/// RFC 9002, 6.1.2.
fn loss_delay(rtt: &Rtt, (numerator, denominator): (u64, u64)) -> Span {
    let longer = rtt.get().max(rtt.latest);
    let scaled = longer.saturating_mul(u128::from(numerator)) / u128::from(denominator);
    scaled.max(longer).max(GRANULARITY)
}

/// RFC 9002, 6.2.1, but for max_ack_delay.
fn probe_timeout(rtt: &Rtt) -> Span {
    rtt.get() + (4 * rtt.variance).max(GRANULARITY)
}

impl Sender {
    pub fn new(is_client: bool, skips: Option<Skips>, window: Option<u64>, settings: Settings) -> Self {
        let mut recovery = Recovery::new();
        recovery.current.validated = is_client;
        let mut sender = Sender {
            recovery,
            is_client,
            settings,
            skips,
            window,
            peer_delay: 25_000_000,
            pto_count: 0,
            confirmed: false,
            knows_validated: !is_client,
            handshake_keys: false,
            base: 0,
            loss_times: [None; 3],
            first_behind_sample: None,
            sampled: 0,
            probes: None,
            waits: [None; 2],
            sending_ecn: true,
            previous: (None, true),
        };
        sender.begin_window();
        sender.set_timer();
        sender
    }

    /// A server of a connection whose handshake is over. (Its first path is validated.)
    pub fn established(skips: Option<Skips>, window: Option<u64>, settings: Settings) -> Self {
        let mut sender = Sender::new(false, skips, window, settings);
        sender.recovery.current.validated = true;
        sender.on_handshake_confirmed();
        for space in [Space::Initial, Space::Handshake] {
            let _ = sender.discard(space, 0);
        }
        sender
    }

    /// Sets the timer for losses, after each call; its moment.
    pub fn set_timer(&mut self) -> Option<Moment> {
        if let Some(window) = self.window {
            self.recovery.current.congestion.window = window;
        }
        let moment = self.due().map(|(moment, _)| moment);
        self.recovery.set_timer(LOSS_DETECTION, moment);
        moment
    }

    /// A path that begins with its controller has a pacer for that one's window.
    fn begin_window(&mut self) {
        if let Some(window) = self.window {
            let path = &mut self.recovery.current;
            path.congestion.window = window;
            path.pacer = Pacer::new(path.rtt.get(), window, path.pacer.last_mtu, path.pacer.prev);
        }
    }

    // ---- what goes out

    pub fn transmit(&mut self, space: Space, now: Moment, bytes: u16, in_flight: bool) -> Result<Permit, Refusal> {
        let here = &self.recovery.spaces[space as usize];
        if here.discarded {
            return Err(SPACE_DISCARDED);
        }
        let path = &self.recovery.current;
        path.total_sent.checked_add(u64::from(bytes)).ok_or(OVERFLOW)?;
        if !self.may_send(bytes) {
            return Ok(Permit::Blocked);
        }
        let asks = in_flight && !self.is_probe_due(space);
        let ack = self.is_ack_required(space);
        if asks && u128::from(path.bytes) + u128::from(bytes) > u128::from(path.congestion.window) {
            self.begin_wait(space, now);
            return Ok(Permit::Full { ack });
        }
        let permit = match self.recovery.transmit(now, bytes, asks)? {
            Sending::Transmitted => Permit::Transmitted,
            Sending::Blocked => return Ok(Permit::Blocked),
            Sending::Delayed(until) => Permit::Delayed { until, ack },
        };
        if in_flight {
            self.end_wait(space);
        }
        Ok(permit)
    }

    /// A datagram of the space finds no room. A space that waits already waits from its first such datagram on.
    fn begin_wait(&mut self, space: Space, now: Moment) {
        if let Some(waits) = self.waits.get_mut(space as usize) {
            waits.get_or_insert(now);
        }
    }

    fn end_wait(&mut self, space: Space) {
        if let Some(waits) = self.waits.get_mut(space as usize) {
            *waits = None;
        }
    }

    /// Whether an ACK must be sent at once in a space (RFC 9000, 13.2.1).
    pub fn is_ack_required(&self, space: Space) -> bool {
        self.recovery.spaces[space as usize].acks.can_send()
    }

    pub fn is_probe_due(&self, space: Space) -> bool {
        self.probes.is_some_and(|(probed, _)| probed == space)
    }

    pub fn has_pending(&self, space: Space) -> bool {
        !self.recovery.spaces[space as usize].pending.is_empty()
    }

    pub fn take_pending(&mut self, space: Space) -> Result<Vec<u64>, Refusal> {
        self.recovery.take_pending(space)
    }

    pub fn window(&self) -> u64 {
        self.recovery.current.congestion.window
    }

    /// The ranges of an ACK frame, the highest first, and its ACK delay (RFC 9000, 13.2.5).
    pub fn frame(&self, space: Space, now: Moment) -> Result<(Vec<(u64, u64)>, Span), Refusal> {
        let here = &self.recovery.spaces[space as usize];
        if here.discarded {
            return Err(SPACE_DISCARDED);
        }
        Ok(here.acks.frame(now))
    }

    /// Whether the amplification limit lets so many bytes out (RFC 9000, 8.1).
    fn may_send(&self, bytes: u16) -> bool {
        let path = &self.recovery.current;
        path.validated || u128::from(path.total_sent) + u128::from(bytes) <= 3 * u128::from(path.total_received)
    }

    /// An event that passes through. A path that was never validated gives way to the last one that was: it is no path
    /// to return to (RFC 9000, 9.3.2).
    pub fn pass(&mut self, event: Event) -> Reply {
        let is_back = self.recovery.previous.as_ref().is_some_and(|path| path.validated);
        match event {
            Event::RevertPath if !is_back => return Err(NO_SUCH_PATH),
            Event::NewPath { .. } if is_back && !self.recovery.current.validated => {
                if self.recovery.made == u64::MAX {
                    return Err(OVERFLOW);
                }
                self.passed(Event::RevertPath)?;
            }
            _ => {}
        }
        self.passed(event)
    }

    fn passed(&mut self, event: Event) -> Reply {
        let event = match event {
            Event::NewPath { now, fresh } => Event::NewPath { now: now.saturating_sub(1), fresh },
            Event::ResetPath { now } => Event::ResetPath { now: now.saturating_sub(1) },
            event => event,
        };
        let elicits = match event {
            Event::Send { space, eliciting: true, .. } => Some(space),
            _ => None,
        };
        let sent = match event {
            Event::Send { now, size, .. } if size > 0 => Some(now),
            Event::PollMtu { now } => Some(now),
            _ => None,
        };
        let (moves, fresh) = match event {
            Event::NewPath { fresh, .. } => (true, fresh),
            Event::ResetPath { .. } => (false, true),
            _ => (false, false),
        };
        let goes_back = matches!(event, Event::RevertPath);
        let changes_path = goes_back || matches!(event, Event::NewPath { .. } | Event::ResetPath { .. });
        let holds_skipped = match event {
            Event::CheckAck { space, low, high } => self.is_skipped(space, &[(low, high)]),
            _ => false,
        };
        let in_data = matches!(event, Event::Send { space: Space::Data, .. } | Event::PollMtu { .. });
        let skips = in_data && self.skip();
        let reply = apply(&mut self.recovery, event);
        let goes_out = matches!(reply, Ok(Answer::Sent { .. } | Answer::Probe { .. }));
        if skips {
            self.end_skip(goes_out);
        }
        let answer = reply?;
        if goes_out {
            self.base = sent.unwrap_or(self.base);
            if let Some((space, count)) = self.probes.filter(|(space, _)| elicits == Some(*space)) {
                self.probes = Some((space, count - 1)).filter(|(_, count)| *count > 0);
            }
        }
        if fresh {
            self.begin_window();
        }
        if moves && fresh {
            self.pto_count = 0;
        }
        if moves {
            // the limit binds those who answer an address that may be another's (RFC 9000, 8.1)
            self.recovery.current.validated = self.is_client;
            self.previous = (self.first_behind_sample, self.sending_ecn);
            self.sending_ecn = true;
            self.first_behind_sample = self.first_behind_sample.filter(|_| !fresh);
            self.recovery.current.validated = self.is_client;
        }
        if goes_back {
            (self.first_behind_sample, self.sending_ecn) = self.previous;
        }
        if changes_path {
            SPACES.iter().for_each(|space| self.renew_loss_time(*space));
        }
        if holds_skipped { Err(SKIPPED_ACKED) } else { Ok(answer) }
    }

    /// Passes over a number that is to be skipped; whether there was one.
    fn skip(&mut self) -> bool {
        let here = &mut self.recovery.spaces[Space::Data as usize];
        if here.discarded || self.skips.as_ref().is_none_or(|skips| skips.next != here.next_number) {
            return false;
        }
        here.next_number += 1;
        if !here.packets.slots.is_empty() {
            here.packets.slots.push_back(None);
        }
        true
    }

    /// The number was skipped for good where one behind it went out.
    fn end_skip(&mut self, goes_out: bool) {
        let here = &mut self.recovery.spaces[Space::Data as usize];
        if !goes_out {
            here.next_number -= 1;
            here.packets.slots.pop_back();
        } else if let Some(skips) = &mut self.skips {
            skips.pass();
        }
    }

    // ---- what is acknowledged

    pub fn on_ack(&mut self, space: Space, now: Moment, ack: &Ack) -> Result<Option<Acked>, Refusal> {
        self.check(space, &ack.ranges)?;
        let numbers = self.tracked_in(space, &ack.ranges);
        if numbers.is_empty() {
            return Ok(None);
        }
        let received = ack.received.map_or(now, |received| received.min(now));
        let sample = self.sample_of(space, received, ack, &numbers);
        let newly = numbers.iter().filter(|number| self.is_of_current(space, **number)).count() as u64;
        let is_ours = numbers.last().is_some_and(|largest| self.is_of_current(space, *largest));
        let before = self.recovery.spaces[space as usize].largest_acked;
        for number in &numbers {
            self.recovery.acked(space, *number, ack.app_limited)?;
        }
        if let Some((delay, rtt)) = sample {
            self.recovery.sample(delay, rtt);
            let next = self.recovery.spaces[space as usize].next_number;
            if self.first_behind_sample.is_none() {
                self.first_behind_sample = Some((space, next));
                self.sampled = now;
            }
        }
        let losses = self.look(space, now, Some(received))?;
        self.knows_validated |= space == Space::Handshake;
        if self.knows_validated {
            self.pto_count = 0;
        }
        let rises = self.recovery.spaces[space as usize].largest_acked > before;
        // counts of a frame that came out of order prove nothing (RFC 9000, 13.4.2.1)
        let ecn = if rises { self.mark(space, now, ack.ecn, newly, is_ours) } else { Ecn::Same };
        self.base = now;
        Ok(Some(Acked { numbers, losses, ecn }))
    }

    /// Whether the frame can be right.
    fn check(&self, space: Space, ranges: &[(u64, u64)]) -> Result<(), Refusal> {
        let here = &self.recovery.spaces[space as usize];
        if here.discarded {
            return Err(SPACE_DISCARDED);
        }
        let follows = |pair: &[(u64, u64)]| u128::from(pair[1].1) + 2 <= u128::from(pair[0].0);
        if ranges.is_empty() || ranges.iter().any(|(first, last)| first > last) || !ranges.windows(2).all(follows) {
            return Err(BAD_RANGE);
        }
        if ranges[0].1 >= here.next_number {
            return Err(UNSENT);
        }
        if self.is_skipped(space, ranges) { Err(SKIPPED_ACKED) } else { Ok(()) }
    }

    /// Whether the number that was skipped last is in a range (RFC 9000, 21.4).
    fn is_skipped(&self, space: Space, ranges: &[(u64, u64)]) -> bool {
        self.last_skipped(space).is_some_and(|last| ranges.iter().any(|(low, high)| (*low..=*high).contains(&last)))
    }

    /// The number of a space that was skipped last.
    fn last_skipped(&self, space: Space) -> Option<u64> {
        self.skips.as_ref().and_then(|skips| skips.last).filter(|_| space == Space::Data)
    }

    fn tracked(&self, space: Space, number: u64) -> Option<&Packet> {
        let packets = &self.recovery.spaces[space as usize].packets;
        packets.slots.get(number.checked_sub(packets.first)? as usize)?.as_ref()
    }

    /// The numbers of the ranges that are tracked, rising.
    fn tracked_in(&self, space: Space, ranges: &[(u64, u64)]) -> Vec<u64> {
        let packets = &self.recovery.spaces[space as usize].packets;
        let place = |number: u64| (number.saturating_sub(packets.first)).min(packets.slots.len() as u64) as usize;
        let mut numbers = Vec::new();
        for (first, last) in ranges.iter().rev() {
            let from = place(*first);
            let to = if *last < packets.first { from } else { place(*last + 1) };
            let held = packets.slots.range(from..to).enumerate().filter(|(_, slot)| slot.is_some());
            numbers.extend(held.map(|(step, _)| packets.first + (from + step) as u64));
        }
        numbers
    }

    /// The delay and the round trip that a frame tells of (5.1, 5.3; RFC 9000, 9.4).
    fn sample_of(&self, space: Space, received: Moment, ack: &Ack, numbers: &[u64]) -> Option<(Span, Span)> {
        let largest = self.tracked(space, ack.ranges[0].1).filter(|_| self.is_of_current(space, ack.ranges[0].1))?;
        numbers.iter().find(|number| self.tracked(space, **number).is_some_and(|packet| packet.ack_eliciting))?;
        let delay = if space == Space::Data { ack.delay.min(self.peer_delay) } else { 0 };
        Some((delay, u128::from(received.saturating_sub(largest.time_sent))))
    }

    /// Whether a tracked packet was sent on the path in use.
    fn is_of_current(&self, space: Space, number: u64) -> bool {
        self.tracked(space, number).is_some_and(|packet| packet.generation == self.recovery.current.generation)
    }

    /// The effect of the counts of a frame that raised the largest acknowledged number (7.1; RFC 9000, 13.4.2.1). Only the
    /// packets of the path in use are compared with them, and a mark on another path is no congestion of this one
    /// (RFC 9000, 9.4).
    fn mark(&mut self, space: Space, now: Moment, counts: Option<EcnCounts>, newly: u64, is_ours: bool) -> Ecn {
        if !self.sending_ecn {
            return Ecn::Same;
        }
        let Some(counts) = counts else {
            self.sending_ecn = false;
            return Ecn::Same;
        };
        match self.recovery.ecn(space, newly, counts) {
            Ok(marked) if !marked || !is_ours => Ecn::Same,
            Ok(_) => {
                let sent = self.recovery.spaces[space as usize].largest_acked_sent;
                self.recovery.congestion(now.min(LATEST_START), sent, false);
                Ecn::Congestion
            }
            Err(_) => {
                self.sending_ecn = false;
                Ecn::Failed
            }
        }
    }

    // ---- what is lost

    /// Detects losses in a space (A.10), by an ACK that was received at a time or by the timer. What an ACK that waits to
    /// be processed may still name is not lost by its age: that is counted up to the time of receipt.
    fn look(&mut self, space: Space, now: Moment, by_ack: Option<Moment>) -> Result<Losses, Refusal> {
        let lost = self.find_lost(space, by_ack.unwrap_or(now));
        let mut found = Losses::default();
        for packet in lost.iter().filter(|packet| !packet.probe) {
            self.recovery.lost(space, packet.number)?;
            found.numbers.push(packet.number);
        }
        if !found.numbers.is_empty() {
            found.black_hole = self.recovery.losses_done(now);
        }
        let counted = || lost.iter().filter(|packet| packet.counts);
        if let Some(latest) = counted().map(|packet| packet.sent).max() {
            let persists = by_ack.is_some() && self.persists(space, &lost);
            // later than every recovery began, so that the window falls to its least (7.6.2)
            let sent = if persists { Moment::MAX } else { latest };
            self.recovery.congestion(now.min(LATEST_START), sent, persists);
            found.congestion = Some((counted().map(|packet| u64::from(packet.size)).sum(), persists));
        }
        for packet in lost.iter().filter(|packet| packet.probe) {
            self.recovery.lost(space, packet.number)?;
            found.numbers.push(packet.number);
        }
        Ok(found)
    }

    /// When the next packet of a space is lost by its age, by the RTT of the path in use (6.1.2).
    fn renew_loss_time(&mut self, space: Space) {
        let here = &self.recovery.spaces[space as usize];
        let delay = loss_delay(&self.recovery.current.rtt, self.settings.time);
        let below = (here.packets.first..here.largest_acked.unwrap_or(0)).zip(&here.packets.slots);
        let sent = below.filter_map(|(_, slot)| Some(slot.as_ref()?.time_sent)).min();
        self.loss_times[space as usize] = sent.map(|sent| later(sent, delay));
    }

    /// The packets that are lost, rising; and the moment of the next look, for those that are not lost yet.
    fn find_lost(&mut self, space: Space, now: Moment) -> Vec<Lost> {
        let here = &self.recovery.spaces[space as usize];
        let path = &self.recovery.current;
        let delay = loss_delay(&path.rtt, self.settings.time);
        let probe = match path.mtud.phase {
            Phase::Searching(probing) if space == Space::Data => probing.in_flight,
            _ => None,
        };
        let largest = here.largest_acked.unwrap_or(0);
        let skipped = self.last_skipped(space);
        let mut lost = Vec::new();
        let mut next: Option<Moment> = None;
        for (number, slot) in (here.packets.first..largest).zip(&here.packets.slots) {
            let Some(packet) = slot else { continue };
            let due = later(packet.time_sent, delay);
            // a number that was never sent is no packet (6.1.1)
            let later_packets = largest - number - u64::from(skipped.is_some_and(|skipped| number < skipped && skipped < largest));
            if later_packets < self.settings.packets.max(1) && due > now {
                next = Some(next.map_or(due, |least| least.min(due)));
                continue;
            }
            let probe = probe == Some(number);
            lost.push(Lost {
                number,
                sent: packet.time_sent,
                size: packet.size,
                eliciting: packet.ack_eliciting,
                counts: !probe && packet.size > 0 && packet.generation == path.generation,
                probe,
            });
        }
        self.loss_times[space as usize] = next;
        lost
    }

    /// Whether congestion persists (7.6): of a run of lost numbers, the earliest that counts and one behind it.
    fn persists(&self, space: Space, lost: &[Lost]) -> bool {
        let Some(first) = self.first_behind_sample else {
            return false;
        };
        let period = u128::from(self.settings.periods.max(1)) * (probe_timeout(&self.recovery.current.rtt) + self.peer_delay);
        let skipped = self.last_skipped(space);
        let mut run: Option<(u64, Option<Moment>)> = None;
        for packet in lost {
            let follows = |last: u64| (last + 1..packet.number).all(|number| skipped == Some(number));
            let mut earliest = run.filter(|(last, _)| follows(*last)).and_then(|(_, earliest)| earliest);
            let is_later = if first.0 == space { packet.number >= first.1 } else { packet.sent > self.sampled };
            if packet.counts && packet.eliciting && is_later {
                if earliest.is_some_and(|earliest| u128::from(packet.sent.saturating_sub(earliest)) > period) {
                    return true;
                }
                earliest = Some(earliest.map_or(packet.sent, |earliest| earliest.min(packet.sent)));
            }
            run = Some((packet.number, earliest));
        }
        false
    }

    // ---- the timer

    /// When the timer is due, and for what (A.8). Of equal moments the first space's counts.
    fn due(&self) -> Option<(Moment, Due)> {
        let looks = SPACES.iter().filter_map(|space| Some((self.loss_times[*space as usize]?, *space)));
        if let Some((moment, space)) = looks.min_by_key(|(moment, _)| *moment) {
            return Some((moment, Due::Losses(space)));
        }
        if !self.may_send(LEAST_DATAGRAM) {
            return None;
        }
        let probes = SPACES.iter().filter_map(|space| Some((self.probe_at(*space)?, *space)));
        if let Some((moment, space)) = probes.min_by_key(|(moment, _)| *moment) {
            return Some((moment, Due::Probes(space)));
        }
        if self.knows_validated {
            return None;
        }
        let lives = |space: Space| !self.recovery.spaces[space as usize].discarded;
        let space = if self.handshake_keys && lives(Space::Handshake) { Space::Handshake } else { Space::Initial };
        lives(space).then(|| (later(self.base, self.probe_span(space)), Due::Probe(space)))
    }

    /// When a probe is due for what a space has in flight or, until the handshake is confirmed, for what waits in Initial
    /// or Handshake for room in the window. The peer may be unable to read the packets that fill the window.
    fn probe_at(&self, space: Space) -> Option<Moment> {
        if space == Space::Data && !self.confirmed {
            return None;
        }
        let here = &self.recovery.spaces[space as usize];
        let is_in_flight = here.packets.slots.iter().flatten().any(|packet| packet.ack_eliciting);
        let waits = self.waits.get(space as usize).copied().flatten().filter(|_| !self.confirmed);
        let from = match is_in_flight {
            true => here.last_eliciting_time?,
            false => waits?.max(here.last_eliciting_time.unwrap_or(0)),
        };
        Some(later(from, self.probe_span(space)))
    }

    fn probe_span(&self, space: Space) -> Span {
        let delay = if space == Space::Data { self.peer_delay } else { 0 };
        (probe_timeout(&self.recovery.current.rtt) + delay) << self.pto_count.min(MOST_DOUBLINGS)
    }

    /// A.9.
    pub fn on_timeout(&mut self, now: Moment) -> Result<Timeout, Refusal> {
        let Some((_, due)) = self.due().filter(|(moment, _)| *moment <= now) else {
            return Ok(Timeout::Nothing);
        };
        self.base = now;
        let (space, probes) = match due {
            Due::Losses(space) => return Ok(Timeout::Losses(space, self.look(space, now, None)?)),
            Due::Probes(space) => (space, 2),
            Due::Probe(space) => (space, 1),
        };
        self.probes = Some((space, probes));
        for waits in &mut self.waits {
            *waits = waits.map(|_| now);
        }
        self.pto_count = self.pto_count.saturating_add(1);
        Ok(Timeout::Probe(space, probes))
    }

    /// What a probe carries: what waits, or the contents of the first packet that has any (6.2.4).
    pub fn probe(&mut self, space: Space) -> Result<Vec<u64>, Refusal> {
        self.recovery.queue_probe(space, false)?;
        self.recovery.take_pending(space)
    }

    // ---- what is said of the connection

    pub fn on_handshake_keys(&mut self) {
        self.handshake_keys = true;
    }

    pub fn on_handshake_confirmed(&mut self) {
        self.confirmed = true;
        self.knows_validated = true;
    }

    pub fn set_peer_delay(&mut self, span: Span) {
        self.peer_delay = span;
    }

    pub fn discard(&mut self, space: Space, now: Moment) -> Result<(), Refusal> {
        if space == Space::Data {
            return Err(DATA_SPACE);
        }
        self.recovery.discard(space)?;
        self.begin_anew(space, now);
        Ok(())
    }

    /// Gives up what a space has in flight (6.3, 6.4): its numbers.
    pub fn abandon(&mut self, space: Space, now: Moment) -> Result<Vec<u64>, Refusal> {
        if self.recovery.spaces[space as usize].discarded {
            return Err(SPACE_DISCARDED);
        }
        let numbers = self.tracked_in(space, &[(0, u64::MAX - 1)]);
        for number in &numbers {
            self.recovery.lost(space, *number)?;
        }
        self.begin_anew(space, now);
        Ok(numbers)
    }

    fn begin_anew(&mut self, space: Space, now: Moment) {
        self.loss_times[space as usize] = None;
        self.pto_count = 0;
        self.base = now;
        self.probes = self.probes.filter(|(probed, _)| *probed != space);
        self.end_wait(space);
    }
}
