//! The recovery layer behind a script, in plain Rust: what the program of this repository does, with no proof. Moments and
//! spans are nanoseconds.
use std::collections::VecDeque;
use std::mem;
use std::ops::Range;

pub type Moment = u64;
pub type Span = u128;

/// The text of a refusal.
pub type Refusal = &'static str;

pub const NUMBER_TOO_LARGE: Refusal = "refused 2 NumberTooLarge\n";
pub const NUMBERS_EXHAUSTED: Refusal = "refused 3 NumbersExhausted\n";
pub const NOT_TRACKED: Refusal = "refused 4 NotTracked\n";
pub const SPACE_DISCARDED: Refusal = "refused 5 SpaceDiscarded\n";
pub const NO_SUCH_PATH: Refusal = "refused 6 NoSuchPath\n";
pub const SEARCHING: Refusal = "refused 7 Searching\n";
pub const ZERO_MTU: Refusal = "refused 8 ZeroMtu\n";
pub const OVERFLOW: Refusal = "refused 9 Overflow\n";
pub const RETIRED: Refusal = "refused 10 Retired\n";
pub const EXCEEDS_LIMIT: Refusal = "refused 11 ExceedsLimit\n";
pub const BAD_RETIRE_PRIOR_TO: Refusal = "refused 12 BadRetirePriorTo\n";
pub const UNISSUED_CID: Refusal = "refused 14 UnissuedCid\n";
pub const DELAY_TOO_SMALL: Refusal = "refused 15 DelayTooSmall\n";
pub const NOT_INITIAL_ID: Refusal = "refused 18 NotInitialId\n";
pub const BAD_RANGE: Refusal = "refused 19 BadRange\n";
pub const CONFLICT: Refusal = "refused 20 Conflict\n";

const NUMBER_LIMIT: u64 = 1 << 62;
pub const LONGEST_SPAN: Span = (1 << 64) * 1_000_000_000 - 1;
const INITIAL_RTT: Span = 333_000_000;
const LIFETIME: u64 = 10_000_000_000;
const LEAST_MTU: u16 = 1200;
const INITIAL_WINDOW: u64 = 12_000;
const MOST_RANGES: usize = 64;
const MOST_SILENT: u64 = 1001;

#[derive(Clone, Copy, PartialEq, PartialOrd)]
pub enum Space {
    Initial,
    Handshake,
    Data,
}

#[derive(Clone, Copy)]
pub enum PathName {
    Current,
    Previous,
}

// ---- packets received

/// Which of the numbers came: the greatest, and of the 128 below it each by a bit, the nearest the lowest.
#[derive(Default)]
struct Dedup {
    window: u128,
    next: u64,
}

impl Dedup {
    /// Whether the number came before, or counts as one that did.
    fn insert(&mut self, number: u64) -> bool {
        if number >= self.next {
            let places = number + 1 - self.next;
            self.window = if places > 128 {
                0
            } else {
                (self.window << 1 | 1) << (places - 1)
            };
            self.next = number + 1;
            return false;
        }
        let below = self.next - 1 - number;
        if below == 0 || below > 128 {
            return true;
        }
        let bit = 1 << (below - 1);
        let held = self.window & bit != 0;
        self.window |= bit;
        held
    }

    fn smallest_missing(&self, low: u64, high: u64) -> Option<u64> {
        let greatest = self.next - 1;
        if low + 1 >= greatest {
            return None;
        }
        let places = (greatest - 1 - low).min(128) as u32;
        let clear = !self.window & (u128::MAX >> (128 - places));
        if clear == 0 {
            return None;
        }
        let number = greatest - 1 - u64::from(127 - clear.leading_zeros());
        (number < high).then_some(number)
    }
}

#[derive(Default)]
struct Ranges(Vec<Range<u64>>);

impl Ranges {
    fn insert(&mut self, number: u64) {
        let ranges = &mut self.0;
        let at = match ranges.last() {
            Some(last) if last.end >= number => {
                if last.start <= number {
                    ranges.len() - 1
                } else {
                    ranges.partition_point(|range| range.end < number)
                }
            }
            _ => {
                ranges.push(number..number + 1);
                return;
            }
        };
        let next = ranges.get(at + 1).map(|next| next.start);
        let range = &mut ranges[at];
        if number + 1 < range.start {
            ranges.insert(at, number..number + 1);
        } else if number + 1 == range.start {
            range.start = number;
        } else if number == range.end {
            range.end = number + 1;
            if next == Some(number + 1) {
                let joined = ranges.remove(at + 1);
                ranges[at].end = joined.end;
            }
        }
    }

    fn remove_to(&mut self, last: u64) {
        let ranges = &mut self.0;
        match ranges.first() {
            Some(first) if first.start <= last => {}
            _ => return,
        }
        let gone = ranges.iter().take_while(|range| range.end <= last + 1).count();
        ranges.drain(..gone);
        if let Some(first) = ranges.first_mut() {
            first.start = first.start.max(last + 1);
        }
    }
}

pub struct PendingAcks {
    immediate: bool,
    eliciting: u64,
    silent: u64,
    threshold: u64,
    reordering: u64,
    earliest: Option<Moment>,
    ranges: Ranges,
    largest: Option<(u64, Moment)>,
    largest_eliciting: Option<u64>,
    largest_acked: Option<u64>,
}

impl PendingAcks {
    fn new() -> Self {
        PendingAcks {
            immediate: false,
            eliciting: 0,
            silent: 0,
            threshold: 1,
            reordering: 1,
            earliest: None,
            ranges: Ranges::default(),
            largest: None,
            largest_eliciting: None,
            largest_acked: None,
        }
    }

    pub fn can_send(&self) -> bool {
        self.immediate && !self.ranges.0.is_empty()
    }

    /// The ranges, the highest first, and how long ago the largest number came.
    pub fn frame(&self, now: Moment) -> (Vec<(u64, u64)>, Span) {
        let ranges = self.ranges.0.iter().rev().map(|range| (range.start, range.end - 1));
        let delay = self.largest.map_or(0, |(_, came)| now.saturating_sub(came));
        (ranges.collect(), delay.into())
    }

    fn insert(&mut self, number: u64, now: Moment) {
        self.ranges.insert(number);
        if self.ranges.0.len() > MOST_RANGES {
            self.ranges.0.remove(0);
        }
        if self.largest.is_none_or(|(largest, _)| largest < number) {
            self.largest = Some((number, now));
        }
    }

    fn received(&mut self, now: Moment, number: u64, eliciting: bool, dedup: &Dedup) -> bool {
        if !eliciting {
            self.silent = self.silent.saturating_add(1);
            return false;
        }
        let before = self.largest_eliciting.unwrap_or(0);
        let greatest = before.max(number);
        self.largest_eliciting = Some(greatest);
        self.eliciting = self.eliciting.saturating_add(1);
        let out_of_order = match self.reordering {
            0 => false,
            1 => number < before || dedup.smallest_missing(before, number).is_some(),
            threshold => self.is_reported(threshold, greatest, dedup),
        };
        self.immediate |= self.eliciting > self.threshold || out_of_order;
        if self.earliest.is_some() || self.can_send() {
            return false;
        }
        self.earliest = Some(now);
        true
    }

    fn is_reported(&self, threshold: u64, greatest: u64, dedup: &Dedup) -> bool {
        match self.largest_acked {
            Some(acked) if threshold <= acked => dedup
                .smallest_missing(acked - threshold + 1, greatest)
                .is_some_and(|missing| greatest - missing >= threshold),
            _ => false,
        }
    }

    fn acks_sent(&mut self) {
        self.immediate = false;
        self.eliciting = 0;
        self.silent = 0;
        self.earliest = None;
        self.largest_acked = self.largest_eliciting;
    }
}

// ---- packets sent

pub struct Packet {
    pub generation: u64,
    pub time_sent: Moment,
    pub size: u16,
    pub ack_eliciting: bool,
    largest_acked: Option<u64>,
    items: Vec<u64>,
}

/// The packets tracked, by number: `first` is that of the first slot, and numbers go on by one.
#[derive(Default)]
pub struct SentPackets {
    pub slots: VecDeque<Option<Packet>>,
    pub first: u64,
    last_eliciting: Option<u64>,
    silent: u64,
    silent_from: u64,
    filled_from: u64,
}

impl SentPackets {
    fn first_from(&self, number: u64) -> Option<u64> {
        let place = number.saturating_sub(self.first) as usize;
        let rest = self.slots.range(place.min(self.slots.len())..);
        let found = place + rest.enumerate().find(|(_, slot)| slot.is_some())?.0;
        Some(self.first + found as u64)
    }

    /// Tracks a packet of the next number; the packet that is forgotten for it.
    fn insert(&mut self, number: u64, packet: Packet) -> Option<(u64, Packet)> {
        if self.slots.is_empty() {
            self.first = number;
        }
        let eliciting = packet.ack_eliciting;
        self.slots.push_back(Some(packet));
        if eliciting {
            self.last_eliciting = Some(number);
            self.silent = 0;
            return None;
        }
        self.silent += 1;
        if self.silent <= MOST_SILENT {
            return None;
        }
        let behind = self.last_eliciting.map_or(0, |last| last + 1);
        let least = self.first_from(behind.max(self.silent_from))?;
        self.silent_from = least;
        Some((least, self.take(least)?))
    }

    fn take(&mut self, number: u64) -> Option<Packet> {
        let place = number.checked_sub(self.first)? as usize;
        let packet = self.slots.get_mut(place)?.take()?;
        while let Some(None) = self.slots.front() {
            self.slots.pop_front();
            self.first += 1;
        }
        if !packet.ack_eliciting && self.last_eliciting.is_none_or(|last| last < number) {
            self.silent -= 1;
        }
        Some(packet)
    }

    /// The items of the first packet that has some.
    fn take_first_items(&mut self) -> Option<Vec<u64>> {
        let from = self.filled_from.max(self.first);
        let place = ((from - self.first) as usize).min(self.slots.len());
        for (step, slot) in self.slots.range_mut(place..).enumerate() {
            if let Some(packet) = slot.as_mut().filter(|it| !it.items.is_empty()) {
                self.filled_from = self.first + (place + step) as u64;
                return Some(mem::take(&mut packet.items));
            }
        }
        self.filled_from = self.first + self.slots.len() as u64;
        None
    }
}

#[derive(Clone, Copy, Default)]
pub struct EcnCounts {
    pub ect0: u64,
    pub ect1: u64,
    pub ce: u64,
}

impl EcnCounts {
    fn detect(&mut self, newly: u64, counts: EcnCounts) -> Result<bool, Refusal> {
        if counts.ect0 < self.ect0 {
            return Err("refused 17 Ecn peer ECT(0) count regression\n");
        }
        if counts.ect1 < self.ect1 {
            return Err("refused 17 Ecn peer ECT(1) count regression\n");
        }
        if counts.ce < self.ce {
            return Err("refused 17 Ecn peer CE count regression\n");
        }
        let newly = u128::from(newly);
        let rise = u128::from(counts.ect0 - self.ect0) + u128::from(counts.ce - self.ce);
        if rise + u128::from(counts.ect1 - self.ect1) < newly {
            return Err("refused 17 Ecn ECN bleaching\n");
        }
        if rise < newly || counts.ect1 > self.ect1 {
            return Err("refused 17 Ecn ECN corruption\n");
        }
        let marked = counts.ce > self.ce;
        *self = counts;
        Ok(marked)
    }
}

pub struct PacketSpace {
    pub discarded: bool,
    dedup: Dedup,
    pub acks: PendingAcks,
    rx_packet: u64,
    pub largest_acked: Option<u64>,
    pub largest_acked_sent: Moment,
    pub last_eliciting_time: Option<Moment>,
    pub loss_probes: u32,
    sent_with_keys: u64,
    pub pending: Vec<u64>,
    ping_pending: bool,
    immediate_ack_pending: bool,
    ecn: EcnCounts,
    pub next_number: u64,
    pub packets: SentPackets,
}

impl PacketSpace {
    fn new() -> Self {
        PacketSpace {
            discarded: false,
            dedup: Dedup::default(),
            acks: PendingAcks::new(),
            rx_packet: 0,
            largest_acked: None,
            largest_acked_sent: 0,
            last_eliciting_time: None,
            loss_probes: 0,
            sent_with_keys: 0,
            pending: Vec::new(),
            ping_pending: false,
            immediate_ack_pending: false,
            ecn: EcnCounts::default(),
            next_number: 0,
            packets: SentPackets::default(),
        }
    }

    fn on_sent(&mut self, number: u64, eliciting: bool, now: Moment) {
        self.sent_with_keys = self.sent_with_keys.saturating_add(1);
        self.next_number = number + 1;
        if eliciting {
            self.last_eliciting_time = Some(now);
            self.loss_probes = self.loss_probes.saturating_sub(1);
        }
    }

    fn on_acked(&mut self, number: u64, packet: &Packet) {
        if let Some(largest) = packet.largest_acked {
            self.acks.ranges.remove_to(largest);
        }
        if self.largest_acked.is_none_or(|largest| largest < number) {
            self.largest_acked = Some(number);
            self.largest_acked_sent = packet.time_sent;
        }
    }

    fn queue(&mut self, mut items: Vec<u64>) {
        if self.pending.is_empty() {
            self.pending = items;
        } else {
            self.pending.append(&mut items);
        }
    }

    /// Whether an ACK can be sent, and whether something else can.
    fn queue_probe(&mut self, immediate: bool) -> (bool, bool) {
        self.loss_probes = self.loss_probes.saturating_add(1);
        let mut nothing = false;
        if self.pending.is_empty() {
            match self.packets.take_first_items() {
                Some(items) => self.queue(items),
                None => nothing = true,
            }
        }
        self.immediate_ack_pending |= immediate;
        self.ping_pending |= nothing && !self.immediate_ack_pending;
        let other = !self.pending.is_empty() || self.ping_pending || self.immediate_ack_pending;
        (self.acks.can_send(), other)
    }
}

// ---- ids

#[derive(Clone, Copy, PartialEq)]
pub struct Id {
    len: u8,
    bytes: [u8; 20],
}

impl Id {
    pub fn new(byte: u8) -> Self {
        let mut bytes = [0; 20];
        bytes[..8].fill(byte);
        Id { len: 8, bytes }
    }
}

pub type Token = [u8; 16];

/// The ids of the peer: eight numbers from the one in use on.
struct RemoteIds {
    entries: [Option<(Id, Option<Token>)>; 8],
    start: u64,
}

impl RemoteIds {
    fn new(id: Id) -> Self {
        let mut entries = [None; 8];
        entries[0] = Some((id, None));
        RemoteIds { entries, start: 0 }
    }

    fn insert(&mut self, number: u64, low: u64, id: Id, token: Token) -> Result<Option<Range<u64>>, Refusal> {
        let active = self.start;
        let low = low.max(active);
        if number < active {
            return Err(RETIRED);
        }
        if number - low >= 8 {
            return Err(EXCEEDS_LIMIT);
        }
        let entry = self.entries[(number % 8) as usize].as_ref().filter(|_| number - active < 8);
        if entry.is_some_and(|(held, held_token)| *held != id || held_token.is_some_and(|held| held != token)) {
            return Err(CONFLICT);
        }
        self.drop_below(low);
        self.entries[(number % 8) as usize] = Some((id, Some(token)));
        if low == active {
            return Ok(None);
        }
        self.advance(low);
        Ok(Some(active..self.start.min(active + 8)))
    }

    fn drop_below(&mut self, low: u64) {
        let end = self.start + 8;
        for number in self.start..low.min(end) {
            self.entries[(number % 8) as usize] = None;
        }
        self.start = low;
    }

    /// To the least number held from one on, if there is one.
    fn advance(&mut self, low: u64) -> bool {
        for number in low..self.start + 8 {
            if self.entries[(number % 8) as usize].is_some() {
                self.drop_below(number);
                return true;
            }
        }
        false
    }

    fn next(&mut self) -> Option<Range<u64>> {
        let retired = self.start;
        self.advance(retired + 1).then(|| retired..self.start)
    }
}

/// The ids of this end that are not retired: a flag for each number from `first` on.
struct LocalIds {
    deadlines: VecDeque<(u64, Moment)>,
    issued: u64,
    unretired: VecDeque<bool>,
    first: u64,
    count: u64,
    previous_mark: u64,
    mark: u64,
}

impl LocalIds {
    fn new() -> Self {
        LocalIds {
            deadlines: VecDeque::from([(0, LIFETIME)]),
            issued: 1,
            unretired: VecDeque::from([true]),
            first: 0,
            count: 1,
            previous_mark: 0,
            mark: 0,
        }
    }

    fn is_any_below(&self, end: u64) -> bool {
        self.count > 0 && self.first < end
    }

    fn timeout(&mut self) -> bool {
        let next = self.deadlines.pop_front().map_or(self.mark, |(number, _)| number + 1);
        if self.is_any_below(self.mark) {
            return false;
        }
        self.previous_mark = self.mark;
        self.mark = next;
        self.is_any_below(next)
    }

    fn issue(&mut self, now: Moment, first: u64, count: u64) -> Result<(), Refusal> {
        if count > NUMBER_LIMIT - self.issued {
            return Err(NUMBER_TOO_LARGE);
        }
        if count == 0 {
            return Ok(());
        }
        if first != self.issued {
            return Err(BAD_RANGE);
        }
        if self.unretired.is_empty() {
            self.first = first;
        }
        self.issued += count;
        self.count += count;
        self.unretired.extend(std::iter::repeat_n(true, count as usize));
        if let Some(deadline) = now.checked_add(LIFETIME) {
            if self.deadlines.back().is_some_and(|last| last.1 == deadline) {
                self.deadlines.pop_back();
            }
            self.deadlines.push_back((self.issued - 1, deadline));
        }
        Ok(())
    }

    fn retire(&mut self, number: u64, limit: u64) -> Result<bool, Refusal> {
        if number >= self.issued {
            return Err(UNISSUED_CID);
        }
        let place = number.checked_sub(self.first);
        if place.and_then(|it| self.unretired.get_mut(it as usize)).is_some_and(mem::take) {
            self.count -= 1;
            while let Some(false) = self.unretired.front() {
                self.unretired.pop_front();
                self.first += 1;
            }
        }
        Ok(limit > self.count)
    }
}

// ---- paths

#[derive(Clone, Copy)]
pub struct Rtt {
    pub latest: Span,
    smoothed: Option<Span>,
    pub variance: Span,
    min: Span,
}

impl Rtt {
    fn new(initial: Span) -> Self {
        Rtt {
            latest: initial,
            smoothed: None,
            variance: initial / 2,
            min: initial,
        }
    }

    pub fn get(&self) -> Span {
        self.smoothed.unwrap_or(self.latest)
    }

    fn update(&mut self, delay: Span, rtt: Span) {
        self.latest = rtt;
        let Some(smoothed) = self.smoothed else {
            self.min = rtt;
            self.smoothed = Some(rtt);
            self.variance = rtt / 2;
            return;
        };
        self.min = self.min.min(rtt);
        let adjusted = if self.min + delay <= rtt { rtt - delay } else { rtt };
        self.variance = (3 * self.variance + smoothed.abs_diff(adjusted)) / 4;
        self.smoothed = Some((7 * smoothed + adjusted) / 8);
    }
}

#[derive(Clone, Copy)]
pub struct NewReno {
    mtu: u16,
    pub window: u64,
    ssthresh: u64,
    recovery_start: Moment,
    bytes_acked: u64,
}

impl NewReno {
    fn new(now: Moment, mtu: u16) -> Self {
        NewReno {
            mtu,
            window: INITIAL_WINDOW,
            ssthresh: u64::MAX,
            recovery_start: now,
            bytes_acked: 0,
        }
    }

    fn least_window(&self) -> u64 {
        2 * u64::from(self.mtu)
    }

    fn on_ack(&mut self, sent: Moment, bytes: u64, app_limited: bool) {
        if app_limited || sent <= self.recovery_start {
            return;
        }
        if self.window < self.ssthresh {
            self.window = self.window.saturating_add(bytes);
            if self.window >= self.ssthresh {
                self.bytes_acked = self.window - self.ssthresh;
            }
            return;
        }
        self.bytes_acked = self.bytes_acked.saturating_add(bytes);
        if self.bytes_acked >= self.window {
            self.bytes_acked -= self.window;
            self.window = self.window.saturating_add(u64::from(self.mtu));
        }
    }

    fn on_congestion(&mut self, now: Moment, sent: Moment, persistent: bool) {
        if sent <= self.recovery_start {
            return;
        }
        self.recovery_start = now;
        self.ssthresh = (self.window / 2).max(self.least_window());
        self.window = if persistent { self.least_window() } else { self.ssthresh };
    }

    fn on_mtu(&mut self, mtu: u16) {
        self.mtu = mtu;
        self.window = self.window.max(self.least_window());
    }
}

#[derive(Clone, Copy)]
pub struct Pacer {
    capacity: u64,
    last_window: u64,
    pub last_mtu: u16,
    tokens: u64,
    pub prev: Moment,
}

/// A quotient of spans; where both fit 64 bits they are divided there, which takes a third of the time.
fn quotient(dividend: u128, divisor: u128) -> u128 {
    match (u64::try_from(dividend), u64::try_from(divisor)) {
        (Ok(dividend), Ok(divisor)) => u128::from(dividend / divisor),
        _ => dividend / divisor,
    }
}

fn capacity(rtt: Span, window: u64, mtu: u16) -> u64 {
    let mtu = u128::from(mtu);
    quotient(u128::from(window) * 2_000_000, rtt.max(1)).clamp(10 * mtu, 256 * mtu) as u64
}

impl Pacer {
    pub fn new(rtt: Span, window: u64, mtu: u16, now: Moment) -> Self {
        let capacity = capacity(rtt, window, mtu);
        Pacer {
            capacity,
            last_window: window,
            last_mtu: mtu,
            tokens: capacity,
            prev: now,
        }
    }

    fn delay(&mut self, rtt: Span, bytes: u64, mtu: u16, window: u64, now: Moment) -> Option<Moment> {
        if window != self.last_window || mtu != self.last_mtu {
            self.capacity = capacity(rtt, window, mtu);
            self.tokens = self.tokens.min(self.capacity);
            self.last_window = window;
            self.last_mtu = mtu;
        }
        if self.tokens >= bytes || window > u64::from(u32::MAX) || rtt == 0 {
            return None;
        }
        let elapsed = now.saturating_sub(self.prev);
        let credit = quotient(5 * u128::from(window) * u128::from(elapsed), 4 * rtt);
        self.tokens = (u128::from(self.tokens) + credit).min(u128::from(self.capacity)) as u64;
        self.prev = self.prev.max(now);
        if self.tokens >= bytes {
            return None;
        }
        let short = bytes.max(self.capacity) - self.tokens;
        let product = rtt.saturating_mul(u128::from(short)).min(LONGEST_SPAN);
        let wait = 4 * (quotient(product, u128::from(window)) / 5);
        Some((u128::from(self.prev) + wait).min(u128::from(u64::MAX)) as u64)
    }
}

#[derive(Clone, Copy)]
pub struct Probing {
    lower: u16,
    upper: u16,
    last: u16,
    pub in_flight: Option<u64>,
    losses: u8,
}

#[derive(Clone, Copy)]
pub enum Phase {
    Initial,
    Searching(Probing),
    Complete(Moment),
}

/// The bursts of losses: the least size of each kept, and the one that goes on.
#[derive(Clone, Copy)]
struct Detector {
    bursts: [u16; 4],
    count: usize,
    current: Option<(u16, u64)>,
    acked_mtu: u16,
    newest: u64,
}

impl Detector {
    fn new() -> Self {
        Detector {
            bursts: [0; 4],
            count: 0,
            current: None,
            acked_mtu: LEAST_MTU,
            newest: 0,
        }
    }

    fn on_acked(&mut self, number: u64, size: u16) {
        if size == self.acked_mtu {
            self.newest = self.newest.max(number);
        } else if size > self.acked_mtu {
            self.acked_mtu = size;
            self.newest = number;
            let kept = self.bursts;
            let all = mem::take(&mut self.count);
            for least in kept.into_iter().take(all).filter(|least| *least > size) {
                self.bursts[self.count] = least;
                self.count += 1;
            }
        }
    }

    fn close(&mut self) {
        let Some((least, last)) = self.current.take() else {
            return;
        };
        if least <= LEAST_MTU || last < self.newest && least <= self.acked_mtu {
            return;
        }
        if last > self.newest {
            self.acked_mtu = LEAST_MTU;
        }
        if self.count < 4 {
            self.bursts[self.count] = least;
            self.count += 1;
        } else if let Some(kept) = self.bursts.iter_mut().min().filter(|it| **it < least) {
            *kept = least;
        }
    }

    fn on_lost(&mut self, number: u64, size: u16) {
        match &mut self.current {
            Some((least, last)) if *last + 1 == number => {
                *least = size.min(*least);
                *last = number;
            }
            _ => {
                self.close();
                self.current = Some((size, number));
            }
        }
    }

    fn black_hole(&mut self) -> bool {
        self.close();
        let found = self.count == 4;
        if found {
            self.count = 0;
        }
        found
    }
}

#[derive(Clone, Copy)]
pub struct MtuDiscovery {
    current: u16,
    pub phase: Phase,
    limit: u16,
    detector: Detector,
}

impl MtuDiscovery {
    fn new(limit: Option<u16>) -> Self {
        let limit = limit.unwrap_or(65_527);
        MtuDiscovery {
            current: LEAST_MTU.min(limit),
            phase: Phase::Initial,
            limit,
            detector: Detector::new(),
        }
    }

    fn reset(&mut self) {
        self.detector = Detector::new();
        self.phase = Phase::Initial;
        self.current = LEAST_MTU.min(self.limit);
    }

    fn begin(&self) -> Probing {
        let lower = self.current.min(self.limit);
        Probing {
            lower,
            upper: 1452.max(lower).min(self.limit),
            last: lower,
            in_flight: None,
            losses: 0,
        }
    }

    fn poll(&mut self, now: Moment, number: u64) -> Option<u16> {
        let mut probing = match self.phase {
            Phase::Searching(probing) => probing,
            Phase::Complete(activation) if now < activation => return None,
            _ => self.begin(),
        };
        if probing.in_flight.is_some() {
            return None;
        }
        match next_size(&mut probing) {
            Some(size) => {
                probing.in_flight = Some(number);
                probing.last = size;
                self.phase = Phase::Searching(probing);
                Some(size)
            }
            None => {
                self.phase = Phase::Complete(now.saturating_add(600_000_000_000));
                None
            }
        }
    }

    fn on_acked(&mut self, number: u64, size: u16) -> bool {
        match &mut self.phase {
            Phase::Searching(probing) if probing.in_flight == Some(number) => {
                probing.in_flight = None;
                probing.losses = 0;
                self.current = probing.last;
                self.detector.count = 0;
                self.detector.acked_mtu = size;
                self.detector.newest = number;
                true
            }
            _ => {
                self.detector.on_acked(number, size);
                false
            }
        }
    }

    fn on_lost(&mut self, number: u64, size: u16) -> bool {
        match &mut self.phase {
            Phase::Searching(probing) if probing.in_flight == Some(number) => {
                probing.in_flight = None;
                probing.losses += 1;
                true
            }
            _ => {
                self.detector.on_lost(number, size);
                false
            }
        }
    }

    fn black_hole(&mut self, now: Moment) -> bool {
        let found = self.detector.black_hole();
        if found {
            self.current = LEAST_MTU;
            self.phase = Phase::Complete(now.saturating_add(60_000_000_000));
        }
        found
    }
}

fn next_size(probing: &mut Probing) -> Option<u16> {
    match probing.losses {
        0 => probing.lower = probing.last,
        1 | 2 => return Some(probing.last),
        _ => {
            probing.upper = probing.last.saturating_sub(1);
            probing.losses = 0;
        }
    }
    let middle = ((u32::from(probing.lower) + u32::from(probing.upper)) / 2) as u16;
    if middle.abs_diff(probing.last) >= 20 {
        return (middle != 0).then_some(middle);
    }
    (probing.upper.saturating_sub(probing.last) >= 20).then_some(probing.upper)
}

#[derive(Clone, Copy)]
pub struct Path {
    pub generation: u64,
    pub bytes: u64,
    eliciting: u64,
    pub rtt: Rtt,
    pub congestion: NewReno,
    pub pacer: Pacer,
    pub validated: bool,
    pub total_sent: u64,
    pub total_received: u64,
    pub mtud: MtuDiscovery,
}

impl Path {
    fn new(generation: u64, limit: Option<u16>, now: Moment) -> Self {
        Path {
            generation,
            bytes: 0,
            eliciting: 0,
            rtt: Rtt::new(INITIAL_RTT),
            congestion: NewReno::new(now, LEAST_MTU),
            pacer: Pacer::new(INITIAL_RTT, INITIAL_WINDOW, LEAST_MTU, now),
            validated: false,
            total_sent: 0,
            total_received: 0,
            mtud: MtuDiscovery::new(limit),
        }
    }

    fn behind(previous: &Path, generation: u64, now: Moment) -> Self {
        Path {
            generation,
            bytes: 0,
            eliciting: 0,
            pacer: Pacer::new(previous.rtt.get(), previous.congestion.window, previous.mtud.current, now),
            validated: false,
            total_sent: 0,
            total_received: 0,
            ..*previous
        }
    }

    fn reset(&mut self, now: Moment) {
        self.rtt = Rtt::new(INITIAL_RTT);
        self.congestion = NewReno::new(now, LEAST_MTU);
        self.mtud.reset();
        self.pacer = Pacer::new(INITIAL_RTT, INITIAL_WINDOW, self.mtud.current, now);
    }

    fn remove(&mut self, packet: &Packet) -> bool {
        let ours = packet.generation == self.generation;
        if ours {
            self.bytes -= u64::from(packet.size);
            self.eliciting -= u64::from(packet.ack_eliciting);
        }
        ours
    }

    fn delay(&mut self, now: Moment, bytes: u64) -> Option<Moment> {
        self.pacer
            .delay(self.rtt.get(), bytes, self.mtud.current, self.congestion.window, now)
    }
}

// ---- the connection

pub enum Sending {
    Transmitted,
    Blocked,
    Delayed(Moment),
}

pub struct Recovery {
    pub spaces: [PacketSpace; 3],
    pub current: Path,
    pub previous: Option<Path>,
    /// How many paths were made behind the first one.
    pub made: u64,
    peer_limit: Option<u16>,
    last_frequency: Option<u64>,
    max_ack_delay: Span,
    timers: [Option<Moment>; 9],
    remote: RemoteIds,
    local: LocalIds,
}

impl Recovery {
    pub fn new() -> Self {
        Recovery {
            spaces: [PacketSpace::new(), PacketSpace::new(), PacketSpace::new()],
            current: Path::new(0, None, 0),
            previous: None,
            made: 0,
            peer_limit: None,
            last_frequency: None,
            max_ack_delay: 25_000_000,
            timers: [None; 9],
            remote: RemoteIds::new(Id::new(0xFF)),
            local: LocalIds::new(),
        }
    }

    fn space(&mut self, space: Space) -> Result<&mut PacketSpace, Refusal> {
        let here = &mut self.spaces[space as usize];
        if here.discarded { Err(SPACE_DISCARDED) } else { Ok(here) }
    }

    fn path(&mut self, name: PathName) -> Result<&mut Path, Refusal> {
        match name {
            PathName::Current => Ok(&mut self.current),
            PathName::Previous => self.previous.as_mut().ok_or(NO_SUCH_PATH),
        }
    }

    fn remove_from_previous(&mut self, packet: &Packet) {
        if let Some(path) = &mut self.previous {
            path.remove(packet);
        }
    }

    /// Whether the packet is new, and then whether the timer of a late ACK is to be started.
    pub fn received(&mut self, space: Space, now: Moment, number: u64, eliciting: bool) -> Result<Option<bool>, Refusal> {
        let here = self.space(space)?;
        if number >= NUMBER_LIMIT {
            return Err(NUMBER_TOO_LARGE);
        }
        if here.dedup.insert(number) {
            return Ok(None);
        }
        here.acks.insert(number, now);
        here.rx_packet = here.rx_packet.max(number);
        Ok(Some(here.acks.received(now, number, eliciting, &here.dedup)))
    }

    /// The number of the packet, and that of one that is forgotten.
    pub fn send(
        &mut self,
        space: Space,
        now: Moment,
        size: u16,
        ack_eliciting: bool,
        largest_acked: Option<u64>,
        items: Vec<u64>,
    ) -> Result<(u64, Option<u64>), Refusal> {
        let path = &mut self.current;
        let here = &mut self.spaces[space as usize];
        if here.discarded {
            return Err(SPACE_DISCARDED);
        }
        if largest_acked.is_some_and(|largest| largest >= NUMBER_LIMIT) {
            return Err(NUMBER_TOO_LARGE);
        }
        let number = here.next_number;
        if number >= NUMBER_LIMIT {
            return Err(NUMBERS_EXHAUSTED);
        }
        let bytes = path.bytes.checked_add(u64::from(size)).ok_or(OVERFLOW)?;
        path.eliciting = path.eliciting.checked_add(u64::from(ack_eliciting)).ok_or(OVERFLOW)?;
        path.bytes = bytes;
        let packet = Packet {
            generation: path.generation,
            time_sent: now,
            size,
            ack_eliciting,
            largest_acked,
            items,
        };
        let forgotten = here.packets.insert(number, packet);
        here.on_sent(number, ack_eliciting, now);
        if let Some((number_of_it, packet)) = &forgotten {
            path.remove(packet);
            self.remove_from_previous(packet);
            return Ok((number, Some(*number_of_it)));
        }
        Ok((number, None))
    }

    /// Whether the packet was a probe.
    pub fn acked(&mut self, space: Space, number: u64, app_limited: bool) -> Result<bool, Refusal> {
        let here = self.space(space)?;
        let packet = here.packets.take(number).ok_or(NOT_TRACKED)?;
        here.on_acked(number, &packet);
        self.remove_from_previous(&packet);
        let path = &mut self.current;
        let probe = space == Space::Data && path.mtud.on_acked(number, packet.size);
        if probe {
            path.congestion.on_mtu(path.mtud.current);
        }
        if path.remove(&packet) && packet.ack_eliciting {
            path.congestion
                .on_ack(packet.time_sent, u64::from(packet.size), app_limited);
        }
        Ok(probe)
    }

    /// Whether the packet was a probe.
    pub fn lost(&mut self, space: Space, number: u64) -> Result<bool, Refusal> {
        let here = self.space(space)?;
        let mut packet = here.packets.take(number).ok_or(NOT_TRACKED)?;
        here.queue(mem::take(&mut packet.items));
        self.remove_from_previous(&packet);
        self.current.remove(&packet);
        Ok(space == Space::Data && self.current.mtud.on_lost(number, packet.size))
    }

    pub fn discard(&mut self, space: Space) -> Result<(), Refusal> {
        let here = self.space(space)?;
        here.discarded = true;
        here.pending = Vec::new();
        let slots = mem::take(&mut here.packets.slots);
        for packet in slots.into_iter().flatten() {
            self.current.remove(&packet);
            self.remove_from_previous(&packet);
        }
        Ok(())
    }

    /// Bytes in flight, and how many packets of them elicit ACKs.
    pub fn in_flight(&mut self, path: PathName) -> Result<(u64, u64), Refusal> {
        let path = self.path(path)?;
        Ok((path.bytes, path.eliciting))
    }

    pub fn acks_sent(&mut self, space: Space) -> Result<(), Refusal> {
        self.space(space)?.acks.acks_sent();
        Ok(())
    }

    pub fn ack_delay_timeout(&mut self, space: Space) -> Result<(), Refusal> {
        let acks = &mut self.space(space)?.acks;
        acks.immediate = acks.eliciting > 0;
        Ok(())
    }

    pub fn ack_frequency(&mut self, sequence: u64, threshold: u64, micros: u64, reordering: u64) -> Result<bool, Refusal> {
        self.space(Space::Data)?;
        if self.last_frequency.is_some_and(|last| sequence <= last) {
            return Ok(false);
        }
        self.last_frequency = Some(sequence);
        let delay = u128::from(micros) * 1000;
        if delay < 1_000_000 {
            return Err(DELAY_TOO_SMALL);
        }
        self.max_ack_delay = delay;
        let acks = &mut self.spaces[Space::Data as usize].acks;
        acks.threshold = threshold;
        acks.reordering = reordering;
        Ok(true)
    }

    pub fn new_id(&mut self, number: u64, low: u64, id: Id, token: Token) -> Result<Option<Range<u64>>, Refusal> {
        if number >= NUMBER_LIMIT {
            return Err(NUMBER_TOO_LARGE);
        }
        if low > number {
            return Err(BAD_RETIRE_PRIOR_TO);
        }
        self.remote.insert(number, low, id, token)
    }

    pub fn next_id(&mut self) -> Option<Range<u64>> {
        self.remote.next()
    }

    pub fn initial_id(&mut self, id: Id) -> Result<(), Refusal> {
        if self.remote.start != 0 {
            return Err(NOT_INITIAL_ID);
        }
        self.remote.entries[0] = Some((id, None));
        Ok(())
    }

    pub fn issue_ids(&mut self, now: Moment, first: u64, count: u64) -> Result<(), Refusal> {
        self.local.issue(now, first, count)
    }

    pub fn id_timeout(&mut self) -> bool {
        self.local.timeout()
    }

    pub fn peer_retired(&mut self, number: u64, limit: u64) -> Result<bool, Refusal> {
        self.local.retire(number, limit)
    }

    pub fn sample(&mut self, delay: Span, rtt: Span) {
        self.current.rtt.update(delay, rtt);
    }

    pub fn datagram_in(&mut self, path: PathName, bytes: u64) -> Result<(), Refusal> {
        let path = self.path(path)?;
        path.total_received = path.total_received.checked_add(bytes).ok_or(OVERFLOW)?;
        Ok(())
    }

    pub fn validated(&mut self, path: PathName) -> Result<(), Refusal> {
        self.path(path)?.validated = true;
        Ok(())
    }

    pub fn transmit(&mut self, now: Moment, bytes: u16, checked: bool) -> Result<Sending, Refusal> {
        let path = &mut self.current;
        let bytes = u64::from(bytes);
        let sent = path.total_sent.checked_add(bytes).ok_or(OVERFLOW)?;
        if checked {
            if !path.validated && 3 * u128::from(path.total_received) < u128::from(sent) {
                return Ok(Sending::Blocked);
            }
            if let Some(until) = path.delay(now, bytes) {
                return Ok(Sending::Delayed(until));
            }
        }
        path.total_sent = sent;
        path.pacer.tokens = path.pacer.tokens.saturating_sub(bytes);
        Ok(Sending::Transmitted)
    }

    pub fn pacer_check(&mut self, now: Moment, bytes: u64) -> Option<Moment> {
        self.current.delay(now, bytes)
    }

    pub fn congestion(&mut self, now: Moment, sent: Moment, persistent: bool) {
        self.current.congestion.on_congestion(now, sent, persistent);
    }

    /// The number and size of the probe that goes out.
    pub fn poll_mtu(&mut self, now: Moment) -> Result<Option<(u64, u16)>, Refusal> {
        let number = self.space(Space::Data)?.next_number;
        if number >= NUMBER_LIMIT {
            return Err(NUMBERS_EXHAUSTED);
        }
        let before = self.current.mtud.phase;
        let Some(size) = self.current.mtud.poll(now, number) else {
            return Ok(None);
        };
        if let Err(refusal) = self.send(Space::Data, now, size, true, None, Vec::new()) {
            self.current.mtud.phase = before;
            return Err(refusal);
        }
        Ok(Some((number, size)))
    }

    pub fn peer_limit(&mut self, size: u16) -> Result<(), Refusal> {
        if size == 0 {
            return Err(ZERO_MTU);
        }
        let mtud = &mut self.current.mtud;
        if matches!(mtud.phase, Phase::Searching(_)) {
            return Err(SEARCHING);
        }
        mtud.current = mtud.current.min(size);
        mtud.limit = size;
        self.peer_limit = Some(size);
        Ok(())
    }

    /// Each path searches here, so that no MTU found elsewhere is taken.
    pub fn mtu_found(&mut self, mtu: u16) -> Result<(), Refusal> {
        Err(if mtu == 0 { ZERO_MTU } else { SEARCHING })
    }

    pub fn losses_done(&mut self, now: Moment) -> bool {
        let found = self.current.mtud.black_hole(now);
        if found {
            self.current.congestion.on_mtu(LEAST_MTU);
        }
        found
    }

    pub fn ecn(&mut self, space: Space, newly: u64, counts: EcnCounts) -> Result<bool, Refusal> {
        self.space(space)?.ecn.detect(newly, counts)
    }

    pub fn check_ack(&mut self, space: Space, low: u64, high: u64) -> Result<(), Refusal> {
        self.space(space)?;
        if high >= NUMBER_LIMIT {
            return Err(NUMBER_TOO_LARGE);
        }
        if low > high { Err(BAD_RANGE) } else { Ok(()) }
    }

    pub fn queue_probe(&mut self, space: Space, immediate: bool) -> Result<(bool, bool), Refusal> {
        Ok(self.space(space)?.queue_probe(immediate))
    }

    pub fn take_pending(&mut self, space: Space) -> Result<Vec<u64>, Refusal> {
        Ok(mem::take(&mut self.space(space)?.pending))
    }

    pub fn new_path(&mut self, now: Moment, fresh: bool) -> Result<(), Refusal> {
        let generation = self.made.checked_add(1).ok_or(OVERFLOW)?;
        let path = if fresh {
            Path::new(generation, self.peer_limit, now)
        } else {
            Path::behind(&self.current, generation, now)
        };
        self.previous = Some(mem::replace(&mut self.current, path));
        self.made = generation;
        Ok(())
    }

    pub fn reset_path(&mut self, now: Moment) {
        self.current.reset(now);
    }

    pub fn drop_previous(&mut self) -> Result<(), Refusal> {
        self.previous.take().map(|_| ()).ok_or(NO_SUCH_PATH)
    }

    pub fn revert_path(&mut self) -> Result<(), Refusal> {
        let mut path = self.previous.take().ok_or(NO_SUCH_PATH)?;
        let mtu = path.mtud.current;
        path.mtud = MtuDiscovery::new(self.peer_limit);
        path.mtud.current = self.peer_limit.map_or(mtu, |limit| mtu.min(limit));
        self.current = path;
        Ok(())
    }

    pub fn set_timer(&mut self, timer: usize, time: Option<Moment>) {
        self.timers[timer] = time;
    }

    pub fn next_timeout(&self) -> Option<Moment> {
        self.timers.iter().flatten().copied().min()
    }
}
