//! A careful sender in plain Rust, for comparison: the duties and the answers of `Sender` (RFC 9002, A and B), with
//! nothing that is proved and nothing from this library. It has three spaces, checked ranges, errors, skipped numbers,
//! items that are returned with what is acknowledged, a bound on non-ack-eliciting packets, generations of paths, ECN,
//! losses with persistent congestion, a controller that is chosen at run time, a pacer, and the timer of A.8 after each
//! call. Stubs: CUBIC, black holes, and MTU probes, which it never sends; its path never changes.
//!
//! `rust/quic-recovery/examples/beside.rs` compares it with the library, answer by answer.
use std::collections::VecDeque;

/// Times and spans in nanoseconds.
type Nanos = u64;

const MS: Nanos = 1_000_000;
/// How many non-ack-eliciting packets are tracked after the last ack-eliciting one.
const MAX_SILENT: u64 = 1001;
const NONE: u64 = u64::MAX;

#[derive(Default)]
struct Packet {
    time: Nanos,
    generation: u64,
    largest: u64,
    items: Vec<u64>,
    size: u16,
    eliciting: bool,
    is_tracked: bool,
}

#[derive(Default)]
struct Space {
    slots: VecDeque<Packet>,
    first: u64,
    next: u64,
    eliciting: u64,
    sized: u64,
    silent: u64,
    silent_from: u64,
    last_eliciting: u64,
    last_time: Option<Nanos>,
    largest_acked: Option<u64>,
    largest_acked_sent: Nanos,
    loss_time: Option<Nanos>,
    pending: Vec<u64>,
    probes: u32,
    /// Since when a datagram waits for room in the window.
    waits: Option<Nanos>,
    is_discarded: bool,
    ecn: [u64; 3],
    acks_acked: u64,
}

impl Space {
    fn drop_front(&mut self) {
        while self.slots.front().is_some_and(|it| !it.is_tracked) {
            self.slots.pop_front();
            self.first += 1;
        }
    }
}

struct Reno {
    window: u64,
    ssthresh: u64,
    recovery: Nanos,
    acked: u64,
    mtu: u16,
}

/// The controller, chosen at run time.
#[allow(dead_code)]
enum Control {
    Reno(Reno),
    Fixed(u64),
    Cubic(Box<[u64; 12]>),
}

impl Control {
    fn window(&self) -> u64 {
        match self {
            Control::Reno(it) => it.window,
            Control::Fixed(window) => *window,
            Control::Cubic(it) => it[0],
        }
    }

    #[inline]
    fn on_ack(&mut self, sent: Nanos, bytes: u64, is_limited: bool) {
        match self {
            Control::Reno(it) => it.on_ack(sent, bytes, is_limited),
            Control::Fixed(_) => {}
            Control::Cubic(it) => cubic_stub(it, sent, bytes),
        }
    }

    fn on_congestion(&mut self, now: Nanos, sent: Nanos, is_persistent: bool) {
        if let Control::Reno(it) = self {
            if sent <= it.recovery && !is_persistent {
                return;
            }
            it.recovery = now;
            it.window = (it.window / 2).max(2 * u64::from(it.mtu));
            it.ssthresh = it.window;
            if is_persistent {
                it.window = 2 * u64::from(it.mtu);
            }
        }
    }
}

impl Reno {
    #[inline]
    fn on_ack(&mut self, sent: Nanos, bytes: u64, is_limited: bool) {
        if is_limited || sent <= self.recovery {
            return;
        }
        if self.window < self.ssthresh {
            self.window = self.window.saturating_add(bytes);
            if self.window >= self.ssthresh {
                self.acked = self.window - self.ssthresh;
            }
            return;
        }
        self.acked = self.acked.saturating_add(bytes);
        if self.acked >= self.window {
            self.acked -= self.window;
            self.window = self.window.saturating_add(self.mtu.into());
        }
    }
}

#[cold]
#[inline(never)]
fn cubic_stub(it: &mut [u64; 12], sent: Nanos, bytes: u64) {
    it[1] = it[1].max(sent);
    it[0] = it[0].saturating_add(bytes);
}

/// The token bucket of RFC 9002, 7.7, as `docs/PROMISES.md` states it.
struct Pacer {
    tokens: u64,
    capacity: u64,
    window: u64,
    mtu: u16,
    last: Nanos,
}

impl Pacer {
    /// When to ask again for these bytes; `None` if they may be sent now.
    fn delay(
        &mut self,
        rtt: Nanos,
        bytes: u64,
        mtu: u16,
        window: u64,
        now: Nanos,
    ) -> Option<Nanos> {
        if window != self.window || mtu != self.mtu {
            let mtus = u128::from(mtu);
            let capacity = u128::from(window) * u128::from(2 * MS) / u128::from(rtt.max(1));
            self.capacity = capacity.clamp(10 * mtus, 256 * mtus) as u64;
            self.tokens = self.tokens.min(self.capacity);
            self.window = window;
            self.mtu = mtu;
        }
        if self.tokens >= bytes || window > u64::from(u32::MAX) || rtt == 0 {
            return None;
        }
        let elapsed = u128::from(now.saturating_sub(self.last));
        let credit = 5 * u128::from(window) * elapsed / (4 * u128::from(rtt));
        self.tokens = (u128::from(self.tokens) + credit).min(self.capacity.into()) as u64;
        self.last = self.last.max(now);
        if self.tokens >= bytes {
            return None;
        }
        let short = u128::from(bytes.max(self.capacity) - self.tokens);
        let wait = 4 * (u128::from(rtt) * short / u128::from(window) / 5);
        Some((u128::from(self.last) + wait).min(u64::MAX.into()) as u64)
    }
}

pub struct Path {
    generation: u64,
    pub bytes: u64,
    eliciting: u64,
    control: Control,
    srtt: Option<Nanos>,
    latest: Nanos,
    var: Nanos,
    min: Nanos,
    is_validated: bool,
    sent: u64,
    received: u64,
    pacer: Pacer,
    mtu: u16,
    probe: Option<(u64, u16)>,
    bursts: u64,
    sends_ecn: bool,
    first_sample: Option<(u8, u64)>,
    is_challenged: bool,
}

impl Path {
    pub fn window(&self) -> u64 {
        self.control.window()
    }

    fn rtt(&self) -> Nanos {
        self.srtt.unwrap_or(self.latest)
    }

    fn pto(&self) -> Nanos {
        self.rtt() + (4 * self.var).max(MS)
    }

    fn take_sample(&mut self, rtt: Nanos, delay: Nanos) {
        self.latest = rtt;
        let Some(srtt) = self.srtt else {
            (self.srtt, self.var, self.min) = (Some(rtt), rtt / 2, rtt);
            return;
        };
        self.min = self.min.min(rtt);
        let adjusted = if self.min + delay <= rtt {
            rtt - delay
        } else {
            rtt
        };
        self.var = (3 * self.var + srtt.abs_diff(adjusted)) / 4;
        self.srtt = Some((7 * srtt + adjusted) / 8);
    }
}

/// What an ACK frame resulted in.
#[derive(Default)]
pub struct Outcome {
    pub numbers: Vec<u64>,
    /// For each number: it, the count of its items, and these.
    pub words: Vec<u64>,
    pub lost: Vec<u64>,
    pub probe: Option<u64>,
    pub congestion: Option<u64>,
    pub is_persistent: bool,
    pub is_black_hole: bool,
    pub ecn: u8,
}

impl Outcome {
    fn clear(&mut self) {
        self.numbers.clear();
        self.words.clear();
        self.lost.clear();
        (self.probe, self.congestion, self.ecn) = (None, None, 0);
        (self.is_persistent, self.is_black_hole) = (false, false);
    }
}

#[derive(Debug, PartialEq)]
pub enum Refused {
    Discarded,
    BadRange,
    Unsent,
    Skipped,
    Exhausted,
    Overflow,
}

#[derive(Debug, PartialEq)]
pub enum Permit {
    Transmitted,
    Blocked,
    Full,
    Delayed(Nanos),
}

/// The smallest datagram with an ack-eliciting Initial packet (RFC 9000, 14.1).
const LEAST_DATAGRAM: u64 = 1200;

pub struct Sender {
    spaces: [Space; 3],
    pub path: Path,
    previous: Option<Box<Path>>,
    skip_next: u64,
    skip_last: Option<u64>,
    exponent: u32,
    state: u64,
    peer_delay: Nanos,
    count: u32,
    is_confirmed: bool,
    is_known: bool,
    base: Nanos,
    pub timer: Option<Nanos>,
    is_timed: bool,
}

impl Sender {
    /// A client whose handshake is confirmed, which skips no numbers before `u64::MAX`.
    pub fn new() -> Self {
        let (window, mtu) = (12_000, 1200);
        Sender {
            spaces: Default::default(),
            path: Path {
                generation: 0,
                bytes: 0,
                eliciting: 0,
                control: Control::Reno(Reno {
                    window,
                    ssthresh: u64::MAX,
                    recovery: 0,
                    acked: 0,
                    mtu,
                }),
                srtt: None,
                latest: 333 * MS,
                var: 333 * MS / 2,
                min: 333 * MS,
                is_validated: true,
                sent: 0,
                received: 0,
                pacer: Pacer {
                    tokens: 12_000,
                    capacity: 12_000,
                    window,
                    mtu,
                    last: 0,
                },
                mtu,
                probe: None,
                bursts: 0,
                sends_ecn: true,
                first_sample: None,
                is_challenged: false,
            },
            previous: None,
            skip_next: u64::MAX,
            skip_last: None,
            exponent: 6,
            state: 1,
            peer_delay: 25 * MS,
            count: 0,
            is_confirmed: true,
            is_known: true,
            base: 0,
            timer: None,
            is_timed: false,
        }
    }

    #[inline(never)]
    pub fn transmit(
        &mut self,
        now: Nanos,
        bytes: u16,
        space: u8,
        in_flight: bool,
    ) -> Result<Permit, Refused> {
        let here = &self.spaces[space as usize];
        if here.is_discarded {
            return Err(Refused::Discarded);
        }
        let path = &mut self.path;
        let total = path
            .sent
            .checked_add(bytes.into())
            .ok_or(Refused::Overflow)?;
        if !path.is_validated && total > path.received.saturating_mul(3) {
            return Ok(Permit::Blocked);
        }
        if in_flight && here.probes == 0 {
            let window = path.control.window();
            if path.bytes + u64::from(bytes) > window {
                if self.waits_for_room(space) && here.waits.is_none() {
                    self.wait(space, Some(now));
                }
                return Ok(Permit::Full);
            }
            let rtt = path.rtt();
            if let Some(until) = path.pacer.delay(rtt, bytes.into(), path.mtu, window, now) {
                self.wait(space, None);
                return Ok(Permit::Delayed(until));
            }
        }
        path.pacer.tokens = path.pacer.tokens.saturating_sub(bytes.into());
        path.sent = total;
        if in_flight {
            self.wait(space, None);
        }
        if !self.path.is_validated {
            self.set_timer();
        }
        Ok(Permit::Transmitted)
    }

    /// Returns whether a space is probed for while it waits: Data is not before the handshake is confirmed, nor does it
    /// wait after that.
    #[inline]
    fn waits_for_room(&self, space: u8) -> bool {
        space < 2 && !self.is_confirmed
    }

    /// Begins or ends the wait of a space.
    #[inline]
    fn wait(&mut self, space: u8, since: Option<Nanos>) {
        let here = &mut self.spaces[space as usize];
        if here.waits != since {
            here.waits = since;
            self.set_timer();
        }
    }

    /// Returns the number, and that of a packet that is forgotten for it.
    #[inline(never)]
    pub fn send(
        &mut self,
        space: u8,
        now: Nanos,
        size: u16,
        eliciting: bool,
        largest: Option<u64>,
        items: &[u64],
    ) -> Result<(u64, Option<u64>), Refused> {
        let here = &mut self.spaces[space as usize];
        if here.is_discarded {
            return Err(Refused::Discarded);
        }
        if largest.is_some_and(|it| it >= 1 << 62) {
            return Err(Refused::Overflow);
        }
        if here.next >= (1 << 62) - 1 {
            return Err(Refused::Exhausted);
        }
        let bytes = self
            .path
            .bytes
            .checked_add(size.into())
            .ok_or(Refused::Overflow)?;
        if space == 2 && here.next == self.skip_next {
            self.skip();
        }
        let here = &mut self.spaces[space as usize];
        let number = here.next;
        if here.slots.is_empty() {
            here.first = number;
        }
        here.next += 1;
        here.slots.push_back(Packet {
            time: now,
            generation: self.path.generation,
            largest: largest.unwrap_or(NONE),
            items: items.to_vec(),
            size,
            eliciting,
            is_tracked: true,
        });
        here.sized += u64::from(size > 0);
        self.path.bytes = bytes;
        let mut forgotten = None;
        if eliciting {
            here.eliciting += 1;
            here.last_eliciting = number;
            here.silent = 0;
            here.last_time = Some(now);
            here.probes = here.probes.saturating_sub(1);
            self.path.eliciting += 1;
        } else {
            here.silent += 1;
            if here.silent > MAX_SILENT {
                forgotten = self.forget(space);
            }
        }
        if size > 0 {
            self.base = now;
        }
        self.set_timer();
        Ok((number, forgotten))
    }

    #[cold]
    #[inline(never)]
    fn skip(&mut self) {
        let here = &mut self.spaces[2];
        here.next += 1;
        if here.slots.is_empty() {
            here.first = here.next;
        } else {
            here.slots.push_back(Packet::default());
        }
        self.skip_last = Some(self.skip_next);
        self.state = self
            .state
            .wrapping_mul(6_364_136_223_846_793_005)
            .wrapping_add(1);
        self.skip_next = (1 << self.exponent) + (self.state >> 33) % (1 << self.exponent);
        self.exponent += 1;
    }

    #[cold]
    #[inline(never)]
    fn forget(&mut self, space: u8) -> Option<u64> {
        let here = &mut self.spaces[space as usize];
        let mut at = here.silent_from.max(here.last_eliciting + 1);
        loop {
            let slot = here.slots.get_mut(at.checked_sub(here.first)? as usize)?;
            if slot.is_tracked {
                slot.is_tracked = false;
                here.sized -= u64::from(slot.size > 0);
                self.path.bytes -= u64::from(slot.size);
                here.silent -= 1;
                here.silent_from = at + 1;
                return Some(at);
            }
            at += 1;
        }
    }

    /// Processes at `now` a frame that was received at `received`. The ranges have the highest first, as on the wire.
    #[allow(clippy::too_many_arguments)]
    #[inline(never)]
    pub fn on_ack(
        &mut self,
        space: u8,
        now: Nanos,
        received: Nanos,
        delay: Nanos,
        is_limited: bool,
        ecn: Option<[u64; 3]>,
        ranges: &[(u64, u64)],
        out: &mut Outcome,
    ) -> Result<(), Refused> {
        out.clear();
        let (index, received) = (space as usize, received.min(now));
        let largest = self.check(index, ranges)?;
        let is_limited = is_limited || self.path.is_challenged;
        let here = &mut self.spaces[index];
        let before = here.largest_acked;
        let mut elicits = false;
        let mut is_ours = false;
        let mut sample = None;
        let (first_slot, len) = (here.first, here.slots.len() as u64);
        let path = &mut self.path;
        let probe = path.probe;
        for &(first, last) in ranges.iter().rev() {
            let from = first.saturating_sub(first_slot).min(len);
            let to = (last + 1).saturating_sub(first_slot).min(len);
            for (at, slot) in here.slots.range_mut(from as usize..to as usize).enumerate() {
                if !slot.is_tracked {
                    continue;
                }
                slot.is_tracked = false;
                let number = first_slot + from + at as u64;
                out.numbers.push(number);
                let items = std::mem::take(&mut slot.items);
                out.words.extend_from_slice(&[number, items.len() as u64]);
                if !items.is_empty() {
                    out.words.extend_from_slice(&items);
                }
                elicits |= slot.eliciting;
                here.sized -= u64::from(slot.size > 0);
                here.eliciting -= u64::from(slot.eliciting);
                here.silent -= u64::from(!slot.eliciting && number > here.last_eliciting);
                if here.largest_acked.is_none_or(|it| number > it) {
                    here.largest_acked = Some(number);
                    here.largest_acked_sent = slot.time;
                }
                if slot.largest != NONE {
                    here.acks_acked = here.acks_acked.max(slot.largest);
                }
                is_ours = slot.generation == path.generation;
                if slot.generation == path.generation {
                    path.bytes -= u64::from(slot.size);
                    path.eliciting -= u64::from(slot.eliciting);
                    if number == largest {
                        sample = Some(received.saturating_sub(slot.time));
                    }
                    if let Some((_, size)) = probe.filter(|it| space == 2 && it.0 == number) {
                        path.mtu = size;
                        path.probe = None;
                        if let Control::Reno(it) = &mut path.control {
                            it.mtu = size;
                        }
                    }
                    if slot.eliciting {
                        path.control.on_ack(slot.time, slot.size.into(), is_limited);
                    }
                } else if let Some(previous) = self
                    .previous
                    .as_mut()
                    .filter(|it| it.generation == slot.generation)
                {
                    previous.bytes -= u64::from(slot.size);
                    previous.eliciting -= u64::from(slot.eliciting);
                }
            }
        }
        if out.numbers.is_empty() {
            if !self.is_timed {
                self.set_timer();
            }
            return Ok(());
        }
        here.drop_front();
        if let (Some(rtt), true) = (sample, elicits) {
            let delay = if space == 2 {
                delay.min(self.peer_delay)
            } else {
                0
            };
            path.take_sample(rtt, delay);
            if path.first_sample.is_none() {
                path.first_sample = Some((space, here.next));
            }
        }
        self.look(index, now, received, true, out);
        let rises = self.spaces[index].largest_acked > before;
        if self.path.sends_ecn && rises {
            match ecn {
                None => self.path.sends_ecn = false,
                Some(counts) => self.compare_ecn(index, now, counts, is_ours, out),
            }
        }
        self.is_known |= space == 1;
        if self.is_known {
            self.count = 0;
        }
        self.base = now;
        self.set_timer();
        Ok(())
    }

    /// Returns the largest number of a frame.
    #[inline]
    fn check(&self, index: usize, ranges: &[(u64, u64)]) -> Result<u64, Refused> {
        let here = &self.spaces[index];
        if here.is_discarded {
            return Err(Refused::Discarded);
        }
        let Some(&(_, largest)) = ranges.first() else {
            return Err(Refused::BadRange);
        };
        let mut above = u64::MAX;
        let skipped = if index == 2 {
            self.skip_last.unwrap_or(NONE)
        } else {
            NONE
        };
        let mut has_skipped = false;
        for &(first, last) in ranges {
            if first > last || last >= above.saturating_sub(1) {
                return Err(Refused::BadRange);
            }
            has_skipped |= first <= skipped && skipped <= last;
            above = first;
        }
        if largest >= here.next {
            return Err(Refused::Unsent);
        }
        if has_skipped {
            return Err(Refused::Skipped);
        }
        Ok(largest)
    }

    #[cold]
    #[inline(never)]
    fn compare_ecn(
        &mut self,
        index: usize,
        now: Nanos,
        counts: [u64; 3],
        is_ours: bool,
        out: &mut Outcome,
    ) {
        let here = &mut self.spaces[index];
        if (0..3).any(|it| counts[it] < here.ecn[it]) {
            self.path.sends_ecn = false;
            out.ecn = 2;
            return;
        }
        if counts[2] > here.ecn[2] && is_ours {
            out.ecn = 1;
            let sent = here.largest_acked_sent;
            self.path.control.on_congestion(now, sent, false);
        }
        here.ecn = counts;
    }

    /// A loss detection pass, which judges the age of packets at `at` (RFC 9002, A.10).
    #[inline]
    fn look(&mut self, index: usize, now: Nanos, at: Nanos, by_ack: bool, out: &mut Outcome) {
        let here = &mut self.spaces[index];
        here.loss_time = None;
        let Some(largest) = here.largest_acked else {
            return;
        };
        if here.first >= largest || here.slots.is_empty() {
            return;
        }
        self.look_below(index, now, at, by_ack, out, largest)
    }

    #[cold]
    #[inline(never)]
    fn look_below(
        &mut self,
        index: usize,
        now: Nanos,
        at: Nanos,
        by_ack: bool,
        out: &mut Outcome,
        largest: u64,
    ) {
        let skipped = self.skip_last.filter(|_| index == 2).unwrap_or(NONE);
        let here = &mut self.spaces[index];
        let path = &mut self.path;
        let longer = path.rtt().max(path.latest);
        let delay = (longer * 9 / 8).max(MS);
        let to = ((largest - here.first) as usize).min(here.slots.len());
        let (mut last_sent, mut bytes, mut oldest, mut run) = (0, None, None::<Nanos>, NONE);
        let period = 3 * (path.pto() + self.peer_delay);
        for (place, slot) in here.slots.range_mut(..to).enumerate() {
            if !slot.is_tracked {
                continue;
            }
            let number = here.first + place as u64;
            let due = slot.time.saturating_add(delay);
            let has_skip = number < skipped && skipped < largest;
            if largest - number < 3 + u64::from(has_skip) && due > at {
                here.loss_time = Some(here.loss_time.map_or(due, |it| it.min(due)));
                continue;
            }
            slot.is_tracked = false;
            here.pending.append(&mut slot.items);
            here.sized -= u64::from(slot.size > 0);
            here.eliciting -= u64::from(slot.eliciting);
            here.silent -= u64::from(!slot.eliciting && number > here.last_eliciting);
            if run.wrapping_add(1) != number {
                oldest = None;
            }
            run = number;
            if path.probe.is_some_and(|it| it.0 == number) {
                out.probe = Some(number);
                path.probe = None;
                continue;
            }
            out.lost.push(number);
            if slot.generation != path.generation {
                continue;
            }
            path.bytes -= u64::from(slot.size);
            path.eliciting -= u64::from(slot.eliciting);
            if slot.size == 0 {
                continue;
            }
            bytes = Some(bytes.unwrap_or(0) + u64::from(slot.size));
            last_sent = last_sent.max(slot.time);
            if slot.eliciting
                && path
                    .first_sample
                    .is_some_and(|it| it <= (index as u8, number))
            {
                let is_long = oldest.is_some_and(|it| slot.time.saturating_sub(it) > period);
                out.is_persistent |= by_ack && is_long;
                oldest = Some(oldest.map_or(slot.time, |it| it.min(slot.time)));
            }
        }
        here.drop_front();
        if bytes.is_some() {
            path.bursts += 1;
            path.control
                .on_congestion(now, last_sent, out.is_persistent);
        }
        out.congestion = bytes;
    }

    /// RFC 9002, A.8.
    #[inline]
    fn set_timer(&mut self) {
        self.is_timed = true;
        let mut earliest: Option<Nanos> = None;
        for here in &self.spaces {
            if let Some(it) = here.loss_time {
                earliest = Some(earliest.map_or(it, |earliest| earliest.min(it)));
            }
        }
        if earliest.is_some() {
            self.timer = earliest;
            return;
        }
        let least = self.path.sent.saturating_add(LEAST_DATAGRAM);
        if !self.path.is_validated && least > self.path.received.saturating_mul(3) {
            self.timer = None;
            return;
        }
        let span = self.path.pto();
        let shift = self.count.min(16);
        for (at, here) in self.spaces.iter().enumerate() {
            if at == 2 && !self.is_confirmed {
                continue;
            }
            let waits = here.waits.filter(|_| !self.is_confirmed);
            let from = match here.eliciting {
                0 => waits.map(|it| it.max(here.last_time.unwrap_or(0))),
                _ => here.last_time,
            };
            let Some(time) = from else { continue };
            let span = if at == 2 {
                span + self.peer_delay
            } else {
                span
            };
            let it = time.saturating_add(span << shift);
            earliest = Some(earliest.map_or(it, |earliest| earliest.min(it)));
        }
        if earliest.is_none() && !self.is_known {
            earliest = Some(self.base.saturating_add(span << shift));
        }
        self.timer = earliest;
    }
}
