//! Two endpoints over a hostile network, in plain Rust: the steps and answers of `recovery-link schedule=FILE`, over the
//! sender in plain Rust. A step is answered before the next one is read. It takes `controller=WINDOW`, and no CUBIC.
#[allow(dead_code)]
mod bytes;
#[allow(dead_code)]
mod layer;
#[allow(dead_code)]
mod lines;
#[allow(dead_code)]
mod sending;
#[allow(dead_code)]
mod skips;

use bytes::{Bytes, Cursor};
use layer::{Moment, PathName, Refusal, Space, Span};
use lines::{Answer, Event, Text, Words};
use sending::{Ack, Losses, Permit, Sender, Settings, Timeout};
use std::fs::File;
use std::io::{BufRead, BufReader, Write};
use std::process::ExitCode;

const NAMES: [&str; 2] = ["client", "server"];
const SPACES: [&str; 3] = ["initial", "handshake", "data"];

/// A packet, alone in its datagram.
struct Packet {
    from: usize,
    space: Space,
    number: u64,
    size: u16,
    eliciting: bool,
    items: Vec<u64>,
    ranges: Vec<(u64, u64)>,
    delay: Span,
}

struct Endpoint {
    sender: Sender,
    /// What was passed and not sent yet, by packets.
    waiting: Vec<(Space, Vec<u64>)>,
    /// When the ACK delay timer is due.
    late: Option<Moment>,
    max_ack_delay: Span,
}

struct Pair {
    ends: [Endpoint; 2],
    wire: Vec<Packet>,
}

/// What a datagram of a `send` holds.
struct Content {
    eliciting: bool,
    /// The window for which it is checked, if it is.
    window: Option<u64>,
}

impl Endpoint {
    fn new(is_client: bool, window: Option<u64>) -> Self {
        let sender = Sender::new(is_client, None, window, Settings::default());
        Endpoint { sender, waiting: Vec::new(), late: None, max_ack_delay: 25_000_000 }
    }

    fn waits_in(&self, space: Space) -> Option<usize> {
        self.waiting.iter().position(|(wanted, _)| *wanted == space)
    }

    /// Asks for a datagram: with what there is to send or, if that is held back and an ACK is required, with the ACK
    /// alone (RFC 9000, 13.2.1).
    fn permitted(&mut self, space: Space, now: Moment, size: u16, out: &mut Bytes) -> Result<Option<Content>, Refusal> {
        let is_probe = self.sender.is_probe_due(space);
        let eliciting = is_probe || self.waits_in(space).is_some() || self.sender.has_pending(space);
        if !eliciting && !self.sender.is_ack_required(space) {
            out.text("nothing");
            return Ok(None);
        }
        let window = Some(self.sender.window()).filter(|_| eliciting && !is_probe);
        match self.sender.transmit(space, now, size, eliciting)? {
            Permit::Transmitted => return Ok(Some(Content { eliciting, window })),
            Permit::Blocked => out.text("blocked"),
            Permit::Full { ack: true } | Permit::Delayed { ack: true, .. } => {
                if let Permit::Transmitted = self.sender.transmit(space, now, size, false)? {
                    return Ok(Some(Content { eliciting: false, window: None }));
                }
                out.text("blocked");
            }
            Permit::Full { .. } => out.text("full"),
            Permit::Delayed { until, .. } => out.with("delayed ", until),
        }
        Ok(None)
    }

    /// The items of the next packet: what is to be retransmitted, a probe's, or else what waits longest.
    fn take_items(&mut self, space: Space, content: &Content) -> Result<Vec<u64>, Refusal> {
        if !content.eliciting {
            return Ok(Vec::new());
        }
        let items = match content.window {
            Some(_) => self.sender.take_pending(space)?,
            None => self.sender.probe(space)?,
        };
        match self.waits_in(space) {
            Some(place) if items.is_empty() => Ok(self.waiting.remove(place).1),
            _ => Ok(items),
        }
    }

    /// Sends a datagram, if there is something to send and it may be sent.
    fn send(&mut self, from: usize, space: Space, now: Moment, size: u16, out: &mut Bytes) -> Result<Option<Packet>, Refusal> {
        let (ranges, delay) = self.sender.frame(space, now)?;
        let Some(content) = self.permitted(space, now, size, out)? else {
            return Ok(None);
        };
        let items = self.take_items(space, &content)?;
        let (largest, eliciting) = (ranges.first().map(|range| range.1), content.eliciting);
        let counted = if eliciting { size } else { 0 };
        let event = Event::Send { space, now, size: counted, eliciting, largest, items: items.clone() };
        let Answer::Sent { number, .. } = self.sender.pass(event)? else {
            return Err("sent has another answer\n");
        };
        self.sender.pass(Event::AcksSent(space))?;
        self.late = self.late.filter(|_| space != Space::Data);
        out.with("sent ", number);
        items.iter().for_each(|item| out.with(" ", *item));
        out.text(if eliciting { "" } else { " ack-only" });
        content.window.into_iter().for_each(|window| out.with(" window ", window));
        largest.into_iter().for_each(|largest| out.with(" largest ", largest));
        out.with(" delay ", delay as u64);
        Ok(Some(Packet { from, space, number, size, eliciting, items, ranges, delay }))
    }

    fn hear(&mut self, packet: &Packet, now: Moment, out: &mut Bytes) -> Result<(), Refusal> {
        let (space, number, eliciting) = (packet.space, packet.number, packet.eliciting);
        self.sender.pass(Event::DatagramIn { path: PathName::Current, bytes: packet.size.into() })?;
        match self.sender.pass(Event::Received { space, now, number, eliciting }) {
            Ok(Answer::New { arm }) => {
                out.text(" new");
                packet.items.iter().for_each(|item| out.with(" ", *item));
                self.hear_ack(packet, now, out);
                self.plan_ack(space, now, arm)?;
            }
            Ok(_) => out.text(" duplicate"),
            Err(refusal) => {
                out.text(" dropped ");
                out.text(refusal.trim_end());
            }
        }
        Ok(())
    }

    fn hear_ack(&mut self, packet: &Packet, now: Moment, out: &mut Bytes) {
        if packet.ranges.is_empty() {
            return;
        }
        let (delay, ranges) = (packet.delay, packet.ranges.clone());
        let ack = Ack { delay, app_limited: false, ranges, ecn: None, received: None };
        match self.sender.on_ack(packet.space, now, &ack) {
            Ok(acked) => {
                out.text(" acked");
                let acked = acked.unwrap_or_default();
                acked.numbers.iter().for_each(|number| out.with(" ", *number));
                if !acked.losses.numbers.is_empty() {
                    out.text(" lost");
                    write_lost(&acked.losses, out);
                }
            }
            Err(refusal) => {
                out.text(" ack ");
                out.text(refusal.trim_end());
            }
        }
    }

    /// Initial and Handshake packets are acknowledged at once, others within max_ack_delay (RFC 9000, 13.2.1).
    fn plan_ack(&mut self, space: Space, now: Moment, arm: bool) -> Result<(), Refusal> {
        if arm && space == Space::Data {
            self.late = Some((u128::from(now) + self.max_ack_delay).min(u64::MAX.into()) as u64);
        } else if arm {
            self.sender.pass(Event::AckDelayTimeout(space))?;
        }
        Ok(())
    }

    fn expire(&mut self, now: Moment, out: &mut Bytes) -> Result<(), Refusal> {
        match self.sender.on_timeout(now)? {
            Timeout::Nothing => out.text("nothing"),
            Timeout::Losses(space, losses) => {
                out.text("lost ");
                out.text(SPACES[space as usize]);
                write_lost(&losses, out);
            }
            Timeout::Probe(space, count) => {
                out.text("probe ");
                out.text(SPACES[space as usize]);
                out.with(" ", count.into());
            }
        }
        Ok(())
    }

    fn end_delay(&mut self, now: Moment, out: &mut Bytes) -> Result<(), Refusal> {
        if self.late.is_none_or(|due| due > now) {
            out.text("nothing");
            return Ok(());
        }
        self.late = None;
        self.sender.pass(Event::AckDelayTimeout(Space::Data))?;
        done(out)
    }
}

fn done(out: &mut Bytes) -> Result<(), Refusal> {
    out.text("done");
    Ok(())
}

fn write_lost(losses: &Losses, out: &mut Bytes) {
    losses.numbers.iter().for_each(|number| out.with(" ", *number));
    if let Some((bytes, persists)) = losses.congestion {
        out.one_of(persists, " persistent ", " congestion ");
        out.number(bytes);
    }
}

impl Pair {
    fn arrive(&mut self, at: u64, now: Moment, out: &mut Bytes) -> Result<(), Refusal> {
        let Some(packet) = self.wire.get(at as usize) else {
            out.text("nothing");
            return Ok(());
        };
        let to = 1 - packet.from;
        out.text("arrived ");
        out.text(NAMES[to]);
        out.text(" ");
        out.text(SPACES[packet.space as usize]);
        out.with(" ", packet.number);
        self.ends[to].hear(packet, now, out)
    }

    /// Makes a step of an endpoint; `None` if the line is none.
    fn step_of(&mut self, name: &[u8], line: &mut Cursor, out: &mut Bytes) -> Option<Result<(), Refusal>> {
        let from = match line.word()? {
            b"client" => 0,
            b"server" => 1,
            _ => return None,
        };
        let end = &mut self.ends[from];
        Some(match name {
            b"hand" => {
                let (space, mut items) = (line.space()?, Vec::new());
                while !line.is_end() {
                    items.push(line.number()?);
                }
                end.waiting.push((space, items));
                done(out)
            }
            b"send" => {
                let (space, now, size) = (line.space()?, line.number()?, line.below(65_536)? as u16);
                line.end()?;
                let sent = end.send(from, space, now, size, out);
                sent.map(|packet| self.wire.extend(packet))
            }
            b"expire" => end.expire(line.number()?, out),
            b"late" => end.end_delay(line.number()?, out),
            b"discard" => end.sender.discard(line.space()?, line.number()?).and_then(|()| done(out)),
            b"validated" => end.sender.pass(Event::Validated(PathName::Current)).and_then(|_| done(out)),
            b"keys" => {
                end.sender.on_handshake_keys();
                done(out)
            }
            b"confirmed" => {
                end.sender.on_handshake_confirmed();
                done(out)
            }
            _ => return None,
        })
    }

    /// Answers a line; `None` if it is no step.
    fn answer(&mut self, line: &mut Cursor, out: &mut Bytes) -> Option<()> {
        let made = match line.name() {
            b"arrive" => {
                let (at, now) = (line.number()?, line.number()?);
                self.arrive(at, now, out)
            }
            name => self.step_of(name, line, out)?,
        };
        line.end()?;
        for end in &mut self.ends {
            end.sender.set_timer();
        }
        if let Err(refusal) = made {
            out.0.clear();
            out.text(refusal.trim_end());
        }
        out.text("\n");
        Some(())
    }
}

fn play(file: &str, window: Option<u64>) -> Option<()> {
    let mut input = BufReader::new(File::open(file).ok()?);
    let mut output = std::io::stdout().lock();
    let mut pair = Pair { ends: [true, false].map(|side| Endpoint::new(side, window)), wire: Vec::new() };
    let (mut line, mut out) = (Vec::new(), Bytes(Vec::new()));
    for number in 1.. {
        line.clear();
        out.0.clear();
        if input.read_until(b'\n', &mut line).ok()? == 0 {
            break;
        }
        if !line.ends_with(b"\n") {
            line.push(b'\n');
        }
        if line == b"\n" || line.starts_with(b"#") {
            continue;
        }
        if pair.answer(&mut Cursor::new(&line), &mut out).is_none() {
            eprintln!("line {number}: cannot be read");
            return None;
        }
        output.write_all(&out.0).and_then(|()| output.flush()).ok()?;
    }
    Some(())
}

fn main() -> ExitCode {
    let (mut file, mut window) = (None, None);
    for word in std::env::args().skip(1) {
        match word.split_once('=') {
            Some(("schedule", name)) => file = Some(name.to_owned()),
            Some(("controller", "newreno")) => window = None,
            Some(("controller", bytes)) => window = bytes.parse().ok(),
            _ => return ExitCode::from(2),
        }
    }
    match file.and_then(|file| play(&file, window)) {
        Some(()) => ExitCode::SUCCESS,
        None => ExitCode::from(2),
    }
}
