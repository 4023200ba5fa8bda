//! The program over the calls of a sender, in plain Rust: a line is answered before the next one is read. It takes the arguments
//! of recovery-sender.
#[allow(dead_code)]
mod bytes;
#[allow(dead_code)]
mod layer;
mod lines;
#[allow(dead_code)]
mod sending;
mod skips;

use bytes::{Bytes, Cursor};
use layer::{EcnCounts, Moment, PathName, Refusal, Space, Span};
use lines::{Answer, Event, Text, Words, read, write};
use sending::{Ack, Acked, Ecn, Losses, Permit, Sender, Settings, Timeout};
use skips::Skips;
use std::io::{BufRead, ErrorKind, Write};
use std::process::ExitCode;

const USAGE: &str = "usage: recovery-sender client|server|established [SEED [WINDOW [PACKETS NUMERATOR DENOMINATOR PERIODS]]]";
const HELP: &str = include_str!("../../crates/recovery_sender_program/help.txt");
const VERSION: &str = concat!("recovery-sender ", include_str!("../../VERSION"));

/// What a line says.
enum Call {
    Transmit { space: Space, now: Moment, bytes: u16, in_flight: bool },
    Ack { space: Space, now: Moment, ack: Ack },
    Timeout(Moment),
    Probe(Space),
    HandshakeKeys,
    HandshakeConfirmed,
    PeerDelay(Span),
    Discard { space: Space, now: Moment },
    Abandon { space: Space, now: Moment },
    Pass(Event),
}

/// The call that a line says; `None` where it is none.
fn read_call(line: &mut Cursor) -> Option<Call> {
    let call = match line.name() {
        b"transmit" => Call::Transmit {
            space: line.space()?,
            now: line.number()?,
            bytes: line.below(65_536)? as u16,
            in_flight: line.flag()?,
        },
        b"ack" => read_ack(line)?,
        b"timeout" => Call::Timeout(line.number()?),
        b"probe" => Call::Probe(line.space()?),
        b"datagram" => Call::Pass(Event::DatagramIn { path: PathName::Current, bytes: line.number()? }),
        b"keys" => Call::HandshakeKeys,
        b"confirmed" => Call::HandshakeConfirmed,
        b"validated" if line.is_end() => Call::Pass(Event::Validated(PathName::Current)),
        b"peer-delay" => Call::PeerDelay(line.span()?),
        b"discard" => Call::Discard { space: line.space()?, now: line.number()? },
        b"abandon" => Call::Abandon { space: line.space()?, now: line.number()? },
        b"acked" | b"lost" | b"losses-done" | b"sample" | b"end-acks" | b"congestion" | b"ecn" | b"queue-probe" => return None,
        name => match read(name, line)? {
            Event::SetTimer { timer: 0, .. } | Event::StopTimer { timer: 0 } => return None,
            event => Call::Pass(event),
        },
    };
    line.end()?;
    Some(call)
}

fn read_ack(line: &mut Cursor) -> Option<Call> {
    let (space, now) = (line.space()?, line.number()?);
    let (delay, app_limited) = (line.span()?, line.flag()?);
    let mut ranges = Vec::new();
    while !line.is_end() && (ranges.is_empty() || !is_at(line, b" ecn") && !is_at(line, b" received")) {
        ranges.push((line.number()?, line.number()?));
    }
    if ranges.is_empty() {
        return None;
    }
    let ecn = match skip(line, b" ecn") {
        true => Some(EcnCounts { ect0: line.number()?, ect1: line.number()?, ce: line.number()? }),
        false => None,
    };
    let received = match skip(line, b" received") {
        true => Some(line.number()?),
        false => None,
    };
    Some(Call::Ack { space, now, ack: Ack { delay, app_limited, ranges, ecn, received } })
}

/// Whether the rest of the line begins with this word.
fn is_at(line: &Cursor, word: &[u8]) -> bool {
    line.input[line.at..].starts_with(word)
}

/// Skips a word, if the rest of the line begins with it.
fn skip(line: &mut Cursor, word: &[u8]) -> bool {
    let found = is_at(line, word);
    if found {
        line.at += word.len();
    }
    found
}

/// Makes a call and writes its answer, without its end.
fn answer(sender: &mut Sender, call: Call, out: &mut Bytes) -> Result<(), Refusal> {
    match call {
        Call::Transmit { space, now, bytes, in_flight } => match sender.transmit(space, now, bytes, in_flight)? {
            Permit::Transmitted => out.text("transmitted"),
            Permit::Blocked => out.text("blocked"),
            Permit::Full { ack } => out.one_of(ack, "full ack", "full"),
            Permit::Delayed { until, ack } => {
                out.with("delayed ", until);
                out.text(if ack { " ack" } else { "" });
            }
        },
        Call::Ack { space, now, ack } => match sender.on_ack(space, now, &ack)? {
            Some(acked) => write_acked(&acked, out),
            None => out.text("acked none"),
        },
        Call::Timeout(now) => match sender.on_timeout(now)? {
            Timeout::Nothing => out.text("nothing"),
            Timeout::Losses(_, losses) => {
                write_numbers("lost", &losses.numbers, out);
                write_behind(&losses, out);
            }
            Timeout::Probe(space, count) => {
                out.text(["probe initial", "probe handshake", "probe data"][space as usize]);
                out.with(" ", u64::from(count));
            }
        },
        Call::Probe(space) => {
            let items = sender.probe(space)?;
            write(Ok(Answer::Queue(items)), out);
            out.0.pop();
        }
        Call::HandshakeKeys => done(sender.on_handshake_keys(), out),
        Call::HandshakeConfirmed => done(sender.on_handshake_confirmed(), out),
        Call::PeerDelay(span) => done(sender.set_peer_delay(span), out),
        Call::Discard { space, now } => done(sender.discard(space, now)?, out),
        Call::Abandon { space, now } => write_numbers("lost", &sender.abandon(space, now)?, out),
        Call::Pass(event) => {
            let answer = sender.pass(event)?;
            write(Ok(answer), out);
            out.0.pop();
        }
    }
    Ok(())
}

fn done((): (), out: &mut Bytes) {
    out.text("done");
}

fn write_acked(acked: &Acked, out: &mut Bytes) {
    write_numbers("acked", &acked.numbers, out);
    if !acked.losses.numbers.is_empty() {
        write_numbers(" lost", &acked.losses.numbers, out);
    }
    write_behind(&acked.losses, out);
    match acked.ecn {
        Ecn::Same => {}
        Ecn::Congestion => out.text(" ecn-congestion"),
        Ecn::Failed => out.text(" ecn-failed"),
    }
}

fn write_numbers(name: &str, numbers: &[u64], out: &mut Bytes) {
    out.text(name);
    for number in numbers {
        out.with(" ", *number);
    }
    if numbers.is_empty() {
        out.text(" none");
    }
}

fn write_behind(losses: &Losses, out: &mut Bytes) {
    if let Some((bytes, persists)) = losses.congestion {
        out.one_of(persists, " persistent ", " congestion ");
        out.number(bytes);
    }
    if losses.black_hole {
        out.text(" black-hole");
    }
}

/// Answers a line; `None` where it says no call.
fn play_line(sender: &mut Sender, line: &[u8], out: &mut Bytes) -> Option<()> {
    let call = read_call(&mut Cursor::new(line))?;
    let refused = answer(sender, call, out);
    match (refused, sender.set_timer()) {
        (Err(refusal), _) => out.text(refusal),
        (Ok(()), Some(moment)) => out.until(" timer ", moment),
        (Ok(()), None) => out.text(" timer none\n"),
    }
    Some(())
}

/// A number without signs and leading zeros.
fn number(word: &str) -> Option<u64> {
    let is_plain = word.bytes().all(|byte| byte.is_ascii_digit()) && (word == "0" || !word.starts_with('0'));
    word.parse().ok().filter(|_| is_plain)
}

/// The last four arguments.
fn settings(words: &[String]) -> Option<Settings> {
    let numbers: Vec<u64> = words.iter().map(|word| number(word)).collect::<Option<_>>()?;
    let [packets, numerator, denominator, periods] = numbers[..] else {
        return None;
    };
    let is_short = packets.max(periods) <= u64::from(u32::MAX);
    (is_short && denominator > 0).then_some(Settings { packets, time: (numerator, denominator), periods })
}

/// The sender that the arguments ask for.
fn begun(words: &[String]) -> Option<Sender> {
    let (side, rest) = words.split_first()?;
    let skips = match rest.first().map(String::as_str) {
        None | Some("-") => None,
        Some(seed) => Some(Skips::new(number(seed)?)),
    };
    let window = match rest.get(1).map(String::as_str) {
        None | Some("-") => None,
        Some(word) => Some(number(word).filter(|window| *window > 0)?),
    };
    let settings = match rest.get(2..) {
        None | Some([]) => Settings::default(),
        Some(words) => settings(words)?,
    };
    match side.as_str() {
        "client" => Some(Sender::new(true, skips, window, settings)),
        "server" => Some(Sender::new(false, skips, window, settings)),
        "established" => Some(Sender::established(skips, window, settings)),
        _ => None,
    }
}

fn fails(status: u8, why: &str) -> ExitCode {
    eprintln!("{why}");
    ExitCode::from(status)
}

/// Writes, and ends the program where nothing is taken: quietly where nobody reads.
fn put(output: &mut impl Write, text: &[u8]) -> Result<(), ExitCode> {
    let written = output.write_all(text).and_then(|()| output.flush());
    written.map_err(|why| match why.kind() {
        ErrorKind::BrokenPipe => ExitCode::SUCCESS,
        _ => fails(1, "sender: write failed"),
    })
}

fn main() -> ExitCode {
    let words: Vec<String> = std::env::args().skip(1).collect();
    let (mut input, mut output) = (std::io::stdin().lock(), std::io::stdout().lock());
    let page = match words.as_slice() {
        [word] if word == "--help" => Some(HELP),
        [word] if word == "--version" => Some(VERSION),
        _ => None,
    };
    if let Some(page) = page {
        return put(&mut output, page.as_bytes()).err().unwrap_or(ExitCode::SUCCESS);
    }
    let Some(mut sender) = begun(&words) else {
        return fails(2, USAGE);
    };
    let (mut line, mut out) = (Vec::new(), Bytes(Vec::new()));
    for number in 1.. {
        line.clear();
        out.0.clear();
        match input.read_until(b'\n', &mut line) {
            Ok(0) => break,
            Ok(_) => {}
            Err(_) => return fails(1, "sender: read failed"),
        }
        if !line.ends_with(b"\n") {
            line.push(b'\n');
        }
        if line == b"\n" || line.starts_with(b"#") {
            continue;
        }
        if play_line(&mut sender, &line, &mut out).is_none() {
            return fails(2, &format!("line {number}: cannot be read"));
        }
        if let Err(status) = put(&mut output, &out.0) {
            return status;
        }
    }
    ExitCode::SUCCESS
}
