//! The lines of a script and of its answers, over any way to read words and to write text.
use crate::layer::{EcnCounts, Id, Moment, PathName, Recovery, Refusal, Sending, Space, Span, Token};
use std::ops::Range;

/// The words of a line, each a field behind the name.
pub trait Words {
    fn word(&mut self) -> Option<&[u8]>;
    fn number(&mut self) -> Option<u64>;
    fn span(&mut self) -> Option<Span>;
    /// Whether no word is left.
    fn is_end(&self) -> bool;

    fn end(&self) -> Option<()> {
        self.is_end().then_some(())
    }

    fn below(&mut self, limit: u64) -> Option<u64> {
        self.number().filter(|number| *number < limit)
    }

    fn flag(&mut self) -> Option<bool> {
        match self.word()? {
            b"0" => Some(false),
            b"1" => Some(true),
            _ => None,
        }
    }

    fn space(&mut self) -> Option<Space> {
        match self.word()? {
            b"initial" => Some(Space::Initial),
            b"handshake" => Some(Space::Handshake),
            b"data" => Some(Space::Data),
            _ => None,
        }
    }

    fn path(&mut self) -> Option<PathName> {
        match self.word()? {
            b"current" => Some(PathName::Current),
            b"previous" => Some(PathName::Previous),
            _ => None,
        }
    }

    fn timer(&mut self) -> Option<usize> {
        match self.word()? {
            b"loss-detection" => Some(0),
            b"idle" => Some(1),
            b"close" => Some(2),
            b"key-discard" => Some(3),
            b"path-validation" => Some(4),
            b"keep-alive" => Some(5),
            b"pacing" => Some(6),
            b"push-new-cid" => Some(7),
            b"max-ack-delay" => Some(8),
            _ => None,
        }
    }

    /// A number, or none by `-`.
    fn largest(&mut self) -> Option<Option<u64>>;
}

pub trait Text {
    fn text(&mut self, text: &str);
    fn number(&mut self, number: u64);

    /// A text with a number behind it.
    fn with(&mut self, text: &str, number: u64) {
        self.text(text);
        self.number(number);
    }

    fn one_of(&mut self, flag: bool, yes: &str, no: &str) {
        self.text(if flag { yes } else { no });
    }

    fn until(&mut self, text: &str, moment: u64) {
        self.with(text, moment);
        self.text("\n");
    }

    fn pair(&mut self, text: &str, first: u64, second: u64) {
        self.with(text, first);
        self.with(" ", second);
        self.text("\n");
    }
}

/// What a line says.
pub enum Event {
    Received { space: Space, now: Moment, number: u64, eliciting: bool },
    Send { space: Space, now: Moment, size: u16, eliciting: bool, largest: Option<u64>, items: Vec<u64> },
    Acked { space: Space, number: u64, limited: bool },
    Lost { space: Space, number: u64 },
    Discard(Space),
    InFlight(PathName),
    AcksSent(Space),
    AckDelayTimeout(Space),
    AckFrequency { sequence: u64, threshold: u64, micros: u64, reordering: u64 },
    NewId { number: u64, low: u64, id: Id, token: Token },
    NextId,
    InitialId(Id),
    IssueIds { now: Moment, first: u64, count: u64 },
    IdTimeout,
    PeerRetired { number: u64, limit: u64 },
    Sample { delay: Span, rtt: Span },
    DatagramIn { path: PathName, bytes: u64 },
    Validated(PathName),
    Transmit { now: Moment, bytes: u16, checked: bool },
    PacerCheck { now: Moment, bytes: u64 },
    Congestion { now: Moment, sent: Moment, persistent: bool },
    EndAcks,
    PollMtu { now: Moment },
    PeerLimit { size: u16 },
    MtuFound { mtu: u16 },
    LossesDone { now: Moment },
    Ecn { space: Space, newly: u64, counts: EcnCounts },
    CheckAck { space: Space, low: u64, high: u64 },
    QueueProbe { space: Space, immediate: bool },
    TakePending(Space),
    NewPath { now: Moment, fresh: bool },
    ResetPath { now: Moment },
    DropPrevious,
    RevertPath,
    SetTimer { timer: usize, time: Moment },
    StopTimer { timer: usize },
    NextTimeout,
}

/// What an event that is not refused is answered.
pub enum Answer {
    New { arm: bool },
    Duplicate,
    Sent { number: u64, forgotten: Option<u64> },
    Acked { probe: bool },
    Lost { probe: bool },
    Retire(Option<Range<u64>>),
    Flag(bool),
    Timeout(Option<Moment>),
    InFlight { bytes: u64, count: u64 },
    Transmitted,
    Blocked,
    Delayed(Moment),
    Ready,
    Probe { number: u64, size: u16 },
    NoProbe,
    BlackHole(bool),
    Sendable { acks: bool, other: bool },
    Queue(Vec<u64>),
    Done,
    /// Never answered: by it a reply takes 56 bytes in a list, as in the proved program, and not 32.
    #[allow(dead_code)]
    Room([u64; 6]),
}

pub type Reply = Result<Answer, Refusal>;

/// The event that a line says; `None` where it is none.
#[inline(always)]
pub fn read(name: &[u8], words: &mut impl Words) -> Option<Event> {
    let event = match name {
        b"received" => Event::Received {
            space: words.space()?,
            now: words.number()?,
            number: words.number()?,
            eliciting: words.flag()?,
        },
        b"send" => read_send(words)?,
        b"acked" => {
            let (space, _now) = (words.space()?, words.number()?);
            Event::Acked { space, number: words.number()?, limited: words.flag()? }
        }
        b"lost" => Event::Lost { space: words.space()?, number: words.number()? },
        b"discard" => Event::Discard(words.space()?),
        b"in-flight" => Event::InFlight(words.path()?),
        b"acks-sent" => Event::AcksSent(words.space()?),
        b"ack-delay-timeout" => Event::AckDelayTimeout(words.space()?),
        b"ack-frequency" => Event::AckFrequency {
            sequence: words.below(1 << 62)?,
            threshold: words.below(1 << 62)?,
            micros: words.below(1 << 62)?,
            reordering: words.below(1 << 62)?,
        },
        b"new-id" => {
            let (number, low, byte) = (words.number()?, words.number()?, words.below(256)? as u8);
            Event::NewId { number, low, id: Id::new(byte), token: [byte; 16] }
        }
        b"next-id" => Event::NextId,
        b"initial-id" => Event::InitialId(Id::new(words.below(256)? as u8)),
        b"issue-ids" => {
            let (now, first, count) = (words.number()?, words.number()?, words.below(65)?);
            first.checked_add(count.saturating_sub(1))?;
            Event::IssueIds { now, first, count }
        }
        b"id-timeout" => Event::IdTimeout,
        b"peer-retired" => Event::PeerRetired { number: words.number()?, limit: words.number()? },
        b"sample" => Event::Sample { delay: words.span()?, rtt: words.span()? },
        b"datagram-in" => Event::DatagramIn { path: words.path()?, bytes: words.number()? },
        b"validated" => Event::Validated(words.path()?),
        b"transmit" => Event::Transmit {
            now: words.number()?,
            bytes: words.below(65_536)? as u16,
            checked: words.flag()?,
        },
        b"pacer-check" => Event::PacerCheck { now: words.number()?, bytes: words.number()? },
        b"congestion" => {
            let (now, sent, persistent, _bytes) = (words.number()?, words.number()?, words.flag()?, words.number()?);
            Event::Congestion { now, sent, persistent }
        }
        b"end-acks" => {
            let (_now, _limited, _largest) = (words.number()?, words.flag()?, words.largest()?);
            Event::EndAcks
        }
        b"poll-mtu" => Event::PollMtu { now: words.number()? },
        b"peer-limit" => Event::PeerLimit { size: words.below(65_536)? as u16 },
        b"mtu-found" => Event::MtuFound { mtu: words.below(65_536)? as u16 },
        b"losses-done" => Event::LossesDone { now: words.number()? },
        b"ecn" => {
            let (space, newly) = (words.space()?, words.number()?);
            let (ect0, ect1, ce) = (words.number()?, words.number()?, words.number()?);
            Event::Ecn { space, newly, counts: EcnCounts { ect0, ect1, ce } }
        }
        b"check-ack" => Event::CheckAck { space: words.space()?, low: words.number()?, high: words.number()? },
        b"queue-probe" => Event::QueueProbe { space: words.space()?, immediate: words.flag()? },
        b"take-pending" => Event::TakePending(words.space()?),
        b"new-path" => {
            let (now, _port) = (words.number()?, words.below(65_536)?);
            Event::NewPath { now, fresh: words.flag()? }
        }
        b"reset-path" => Event::ResetPath { now: words.number()? },
        b"drop-previous" => Event::DropPrevious,
        b"revert-path" => Event::RevertPath,
        b"set-timer" => Event::SetTimer { timer: words.timer()?, time: words.number()? },
        b"stop-timer" => Event::StopTimer { timer: words.timer()? },
        b"next-timeout" => Event::NextTimeout,
        _ => return None,
    };
    words.end()?;
    Some(event)
}

fn read_send(words: &mut impl Words) -> Option<Event> {
    let (space, now, size) = (words.space()?, words.number()?, words.below(65_536)? as u16);
    let (eliciting, largest) = (words.flag()?, words.largest()?);
    let mut items = Vec::new();
    while !words.is_end() {
        items.push(words.number()?);
    }
    Some(Event::Send { space, now, size, eliciting, largest, items })
}

/// What an event is answered.
#[inline(always)]
pub fn apply(recovery: &mut Recovery, event: Event) -> Reply {
    Ok(match event {
        Event::Received { space, now, number, eliciting } => match recovery.received(space, now, number, eliciting)? {
            Some(arm) => Answer::New { arm },
            None => Answer::Duplicate,
        },
        Event::Send { space, now, size, eliciting, largest, items } => {
            let (number, forgotten) = recovery.send(space, now, size, eliciting, largest, items)?;
            Answer::Sent { number, forgotten }
        }
        Event::Acked { space, number, limited } => Answer::Acked { probe: recovery.acked(space, number, limited)? },
        Event::Lost { space, number } => Answer::Lost { probe: recovery.lost(space, number)? },
        Event::Discard(space) => done(recovery.discard(space)?),
        Event::InFlight(path) => {
            let (bytes, count) = recovery.in_flight(path)?;
            Answer::InFlight { bytes, count }
        }
        Event::AcksSent(space) => done(recovery.acks_sent(space)?),
        Event::AckDelayTimeout(space) => done(recovery.ack_delay_timeout(space)?),
        Event::AckFrequency { sequence, threshold, micros, reordering } => {
            Answer::Flag(recovery.ack_frequency(sequence, threshold, micros, reordering)?)
        }
        Event::NewId { number, low, id, token } => Answer::Retire(recovery.new_id(number, low, id, token)?),
        Event::NextId => Answer::Retire(recovery.next_id()),
        Event::InitialId(id) => done(recovery.initial_id(id)?),
        Event::IssueIds { now, first, count } => done(recovery.issue_ids(now, first, count)?),
        Event::IdTimeout => Answer::Flag(recovery.id_timeout()),
        Event::PeerRetired { number, limit } => Answer::Flag(recovery.peer_retired(number, limit)?),
        Event::Sample { delay, rtt } => done(recovery.sample(delay, rtt)),
        Event::DatagramIn { path, bytes } => done(recovery.datagram_in(path, bytes)?),
        Event::Validated(path) => done(recovery.validated(path)?),
        Event::Transmit { now, bytes, checked } => match recovery.transmit(now, bytes, checked)? {
            Sending::Transmitted => Answer::Transmitted,
            Sending::Blocked => Answer::Blocked,
            Sending::Delayed(until) => Answer::Delayed(until),
        },
        Event::PacerCheck { now, bytes } => match recovery.pacer_check(now, bytes) {
            Some(until) => Answer::Delayed(until),
            None => Answer::Ready,
        },
        Event::Congestion { now, sent, persistent } => done(recovery.congestion(now, sent, persistent)),
        Event::EndAcks => Answer::Done,
        Event::PollMtu { now } => match recovery.poll_mtu(now)? {
            Some((number, size)) => Answer::Probe { number, size },
            None => Answer::NoProbe,
        },
        Event::PeerLimit { size } => done(recovery.peer_limit(size)?),
        Event::MtuFound { mtu } => done(recovery.mtu_found(mtu)?),
        Event::LossesDone { now } => Answer::BlackHole(recovery.losses_done(now)),
        Event::Ecn { space, newly, counts } => Answer::Flag(recovery.ecn(space, newly, counts)?),
        Event::CheckAck { space, low, high } => done(recovery.check_ack(space, low, high)?),
        Event::QueueProbe { space, immediate } => {
            let (acks, other) = recovery.queue_probe(space, immediate)?;
            Answer::Sendable { acks, other }
        }
        Event::TakePending(space) => Answer::Queue(recovery.take_pending(space)?),
        Event::NewPath { now, fresh } => done(recovery.new_path(now, fresh)?),
        Event::ResetPath { now } => done(recovery.reset_path(now)),
        Event::DropPrevious => done(recovery.drop_previous()?),
        Event::RevertPath => done(recovery.revert_path()?),
        Event::SetTimer { timer, time } => done(recovery.set_timer(timer, Some(time))),
        Event::StopTimer { timer } => done(recovery.set_timer(timer, None)),
        Event::NextTimeout => Answer::Timeout(recovery.next_timeout()),
    })
}

/// Of an event that has no other answer.
fn done((): ()) -> Answer {
    Answer::Done
}

/// Writes the line of a reply.
#[inline(always)]
pub fn write(reply: Reply, out: &mut impl Text) {
    match reply {
        Ok(Answer::New { arm }) => out.one_of(arm, "new arm\n", "new\n"),
        Ok(Answer::Duplicate) => out.text("duplicate\n"),
        Ok(Answer::Sent { number, forgotten: None }) => out.until("sent ", number),
        Ok(Answer::Sent { number, forgotten: Some(forgotten) }) => {
            out.with("sent ", number);
            out.until(" forgot ", forgotten);
        }
        Ok(Answer::Acked { probe }) => out.one_of(probe, "acked probe\n", "acked\n"),
        Ok(Answer::Lost { probe }) => out.one_of(probe, "lost probe\n", "lost\n"),
        Ok(Answer::Retire(Some(range))) => out.pair("retire ", range.start, range.end),
        Ok(Answer::Retire(None)) => out.text("retire none\n"),
        Ok(Answer::Flag(flag)) => out.one_of(flag, "yes\n", "no\n"),
        Ok(Answer::Timeout(Some(time))) => out.until("timeout ", time),
        Ok(Answer::Timeout(None)) => out.text("timeout none\n"),
        Ok(Answer::InFlight { bytes, count }) => out.pair("in-flight ", bytes, count),
        Ok(Answer::Transmitted) => out.text("transmitted\n"),
        Ok(Answer::Blocked) => out.text("blocked\n"),
        Ok(Answer::Delayed(until)) => out.until("delayed ", until),
        Ok(Answer::Ready) => out.text("ready\n"),
        Ok(Answer::Probe { number, size }) => out.pair("probe ", number, u64::from(size)),
        Ok(Answer::NoProbe) => out.text("no probe\n"),
        Ok(Answer::BlackHole(found)) => out.one_of(found, "black-hole yes\n", "black-hole no\n"),
        Ok(Answer::Sendable { acks, other }) => {
            out.one_of(acks, "sendable yes ", "sendable no ");
            out.one_of(other, "yes\n", "no\n");
        }
        Ok(Answer::Queue(items)) => {
            out.text("queue");
            for item in items {
                out.with(" ", item);
            }
            out.text("\n");
        }
        Ok(Answer::Done) => out.text("done\n"),
        Ok(Answer::Room(_)) => {}
        Err(refusal) => out.text(refusal),
    }
}
