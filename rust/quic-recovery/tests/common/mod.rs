//! The lines of the program `recovery-replay`: parsed events, answers as it writes them, and random events.
#![allow(dead_code)]
use quic_recovery::*;
use std::fmt::Write;
use std::net::{IpAddr, Ipv4Addr, SocketAddr};
use std::path::{Path, PathBuf};
use std::process::{Command, Stdio};
use std::time::Duration;

/// An event that owns its fields.
pub struct Line {
    pub words: Vec<String>,
    pub items: Vec<u64>,
    ids: Vec<IssuedCid>,
}

const SPACES: [(&str, SpaceId); 3] = [
    ("initial", SpaceId::Initial),
    ("handshake", SpaceId::Handshake),
    ("data", SpaceId::Data),
];

impl Line {
    pub fn new(line: &str) -> Self {
        let words: Vec<String> = line.split(' ').map(str::to_owned).collect();
        let mut items = Vec::new();
        let mut ids = Vec::new();
        if words[0] == "send" {
            items = words[6..].iter().map(|it| it.parse().unwrap()).collect();
        }
        if words[0] == "issue-ids" {
            let first: u64 = words[2].parse().unwrap();
            let count: u64 = words[3].parse().unwrap();
            let id = |sequence| {
                IssuedCid::new(
                    sequence,
                    ConnectionId::from([9; 8]),
                    ResetToken::from([9; 16]),
                )
            };
            ids = (0..count).map(|it| id(first.saturating_add(it))).collect();
        }
        Line { words, items, ids }
    }

    pub fn number(&self, at: usize) -> u64 {
        self.words[at].parse().unwrap()
    }

    pub fn short(&self, at: usize) -> u16 {
        self.words[at].parse().unwrap()
    }

    pub fn flag(&self, at: usize) -> bool {
        self.words[at] == "1"
    }

    pub fn moment(&self, at: usize) -> Instant {
        Instant::from_nanos(self.number(at))
    }

    pub fn span(&self, at: usize) -> Duration {
        let nanos: u128 = self.words[at].parse().unwrap();
        let billion = 1_000_000_000;
        Duration::new((nanos / billion) as u64, (nanos % billion) as u32)
    }

    pub fn largest(&self, at: usize) -> Option<u64> {
        self.words[at].parse().ok()
    }

    pub fn space(&self, at: usize) -> SpaceId {
        let found = SPACES.iter().find(|it| it.0 == self.words[at]);
        found.unwrap().1
    }

    fn path(&self, at: usize) -> PathName {
        match self.words[at].as_str() {
            "current" => PathName::Current,
            "previous" => PathName::Previous,
            other => panic!("no path is named {other}"),
        }
    }

    fn timer(&self, at: usize) -> Timer {
        Timer::named(&self.words[at]).unwrap()
    }

    fn var(&self, at: usize) -> VarInt {
        VarInt::from_u64(self.number(at)).unwrap()
    }

    fn id(&self, at: usize) -> ConnectionId {
        ConnectionId::from([self.number(at) as u8; 8])
    }

    fn token(&self, at: usize) -> ResetToken {
        ResetToken::from([self.number(at) as u8; 16])
    }

    /// Returns the event of the line.
    pub fn event(&self) -> Event<'_> {
        match self.words[0].as_str() {
            "received" => Event::Received {
                space: self.space(1),
                now: self.moment(2),
                number: self.number(3),
                ack_eliciting: self.flag(4),
            },
            "send" => Event::Send {
                space: self.space(1),
                now: self.moment(2),
                size: self.short(3),
                ack_eliciting: self.flag(4),
                largest_acked: self.largest(5),
                queue: &self.items,
            },
            "acked" => Event::Acked {
                space: self.space(1),
                now: self.moment(2),
                number: self.number(3),
                app_limited: self.flag(4),
            },
            "lost" => Event::Lost {
                space: self.space(1),
                number: self.number(2),
            },
            "new-id" => Event::NewId(NewConnectionId {
                sequence: self.number(1),
                retire_prior_to: self.number(2),
                id: self.id(3),
                reset_token: self.token(3),
            }),
            "next-id" => Event::NextId,
            "initial-id" => Event::InitialId(self.id(1)),
            "issue-ids" => Event::IssueIds {
                now: self.moment(1),
                ids: &self.ids,
            },
            "id-timeout" => Event::IdTimeout,
            "peer-retired" => Event::PeerRetired {
                sequence: self.number(1),
                limit: self.number(2),
            },
            "ack-frequency" => Event::AckFrequencyIn(AckFrequency {
                sequence: self.var(1),
                ack_eliciting_threshold: self.var(2),
                request_max_ack_delay: self.var(3),
                reordering_threshold: self.var(4),
            }),
            "acks-sent" => Event::AcksSent {
                space: self.space(1),
            },
            "ack-delay-timeout" => Event::AckDelayTimeout {
                space: self.space(1),
            },
            "set-timer" => Event::SetTimer {
                timer: self.timer(1),
                time: self.moment(2),
            },
            "stop-timer" => Event::StopTimer {
                timer: self.timer(1),
            },
            "next-timeout" => Event::NextTimeout,
            "discard" => Event::DiscardSpace {
                space: self.space(1),
            },
            "in-flight" => Event::InFlight { path: self.path(1) },
            "sample" => Event::Sample {
                delay: self.span(1),
                rtt: self.span(2),
            },
            _ => self.event_of_path(),
        }
    }

    fn event_of_path(&self) -> Event<'_> {
        match self.words[0].as_str() {
            "datagram-in" => Event::DatagramIn {
                path: self.path(1),
                bytes: self.number(2),
            },
            "validated" => Event::Validated { path: self.path(1) },
            "transmit" => Event::Transmit {
                now: self.moment(1),
                bytes: self.short(2),
                checked: self.flag(3),
            },
            "pacer-check" => Event::PacerCheck {
                now: self.moment(1),
                bytes: self.number(2),
            },
            "congestion" => Event::Congestion {
                now: self.moment(1),
                sent: self.moment(2),
                persistent: self.flag(3),
                bytes: self.number(4),
            },
            "end-acks" => Event::EndAcks {
                now: self.moment(1),
                app_limited: self.flag(2),
                largest: self.largest(3),
            },
            "poll-mtu" => Event::PollMtu {
                now: self.moment(1),
            },
            "peer-limit" => Event::PeerLimit {
                size: self.short(1),
            },
            "mtu-found" => Event::MtuFound { mtu: self.short(1) },
            "losses-done" => Event::LossesDone {
                now: self.moment(1),
            },
            "ecn" => Event::Ecn {
                space: self.space(1),
                newly_acked: self.number(2),
                counts: EcnCounts {
                    ect0: self.number(3),
                    ect1: self.number(4),
                    ce: self.number(5),
                },
            },
            "check-ack" => Event::CheckAck {
                space: self.space(1),
                low: self.number(2),
                high: self.number(3),
            },
            "queue-probe" => Event::QueueProbe {
                space: self.space(1),
                immediate_ack: self.flag(2),
            },
            "take-pending" => Event::TakePending {
                space: self.space(1),
            },
            "new-path" => Event::NewPath {
                now: self.moment(1),
                remote: SocketAddr::new(IpAddr::V4(Ipv4Addr::new(192, 0, 2, 1)), self.short(2)),
                fresh: self.flag(3),
            },
            "reset-path" => Event::ResetPath {
                now: self.moment(1),
            },
            "drop-previous" => Event::DropPrevious,
            "revert-path" => Event::RevertPath,
            other => panic!("no event is named {other}"),
        }
    }
}

fn word(flag: bool) -> &'static str {
    if flag {
        "yes"
    } else {
        "no"
    }
}

fn answer(answer: &Answer) -> String {
    match answer {
        Answer::New { arm } => String::from(if *arm { "new arm" } else { "new" }),
        Answer::Duplicate => "duplicate".into(),
        Answer::Sent {
            number,
            forgotten: None,
        } => format!("sent {number}"),
        Answer::Sent {
            number,
            forgotten: Some(forgotten),
        } => format!("sent {number} forgot {forgotten}"),
        Answer::Acked { probe } => String::from(if *probe { "acked probe" } else { "acked" }),
        Answer::Lost { probe } => String::from(if *probe { "lost probe" } else { "lost" }),
        Answer::Retire(Some(numbers)) => format!("retire {} {}", numbers.start, numbers.end),
        Answer::Retire(None) => "retire none".into(),
        Answer::Flag(flag) => word(*flag).into(),
        Answer::Timeout(Some(time)) => format!("timeout {}", time.as_nanos()),
        Answer::Timeout(None) => "timeout none".into(),
        Answer::InFlight {
            bytes,
            ack_eliciting,
        } => format!("in-flight {bytes} {ack_eliciting}"),
        Answer::Transmitted => "transmitted".into(),
        Answer::Blocked => "blocked".into(),
        Answer::Delayed(until) => format!("delayed {}", until.as_nanos()),
        Answer::Ready => "ready".into(),
        Answer::Probe { number, size } => format!("probe {number} {size}"),
        Answer::NoProbe => "no probe".into(),
        Answer::BlackHole(found) => format!("black-hole {}", word(*found)),
        Answer::Sendable(frames) => {
            format!("sendable {} {}", word(frames.acks), word(frames.other))
        }
        Answer::Queue(items) => items.iter().fold(String::from("queue"), |mut text, it| {
            write!(text, " {it}").unwrap();
            text
        }),
        Answer::Done => "done".into(),
        other => panic!("no line says {other:?}"),
    }
}

/// Returns the reply to an event as the program writes it.
pub fn written(reply: &Result<Answer, Refusal>) -> String {
    match reply {
        Ok(given) => answer(given),
        Err(Refusal::Ecn(fault)) => format!("refused 17 Ecn {fault}"),
        Err(refusal) => format!("refused {} {refusal:?}", refusal.number()),
    }
}

/// Returns the settings of the programs with this seed and this window.
pub fn config(seed: Option<u64>, window: Option<u64>) -> RecoveryConfig {
    let mut config = RecoveryConfig {
        skips: seed.map_or(Skips::Disabled, Skips::Drawn),
        ..RecoveryConfig::default()
    };
    if let Some(window) = window {
        config.transport.congestion = Congestion::Fixed(window);
    }
    config
}

/// Returns a recovery as the program makes it with this seed and this window.
pub fn fresh(seed: Option<u64>, window: Option<u64>) -> Recovery {
    Recovery::new(&config(seed, window), Instant::from_nanos(0)).unwrap()
}

/// Returns the answers of a recovery to lines.
pub fn answers(recovery: &mut Recovery, lines: &[String]) -> Vec<String> {
    let reply = |line: &String| written(&recovery.apply(Line::new(line).event()));
    lines.iter().map(reply).collect()
}

/// Returns the top of the repository.
pub fn root() -> PathBuf {
    Path::new(env!("CARGO_MANIFEST_DIR")).join("../..")
}

/// Returns the proved program: the one that `./prove` built, else the prebuilt one.
pub fn program() -> Option<PathBuf> {
    let built = root().join("crates/recovery_program/out/recovery_program");
    let prebuilt = root().join("prebuilt/x86_64-unknown-linux-gnu/bin/recovery-replay");
    [built, prebuilt].into_iter().find(|it| it.is_file())
}

/// Returns the answers of the program to lines, with this seed and this window.
pub fn answers_of(
    program: &Path,
    seed: Option<u64>,
    window: Option<u64>,
    lines: &[String],
) -> Vec<String> {
    use std::io::Write;
    let mut call = Command::new(program);
    call.arg(seed.map_or("-".into(), |it| it.to_string()));
    call.args(window.map(|it| it.to_string()));
    call.stdin(Stdio::piped()).stdout(Stdio::piped());
    let mut child = call.spawn().unwrap();
    let mut input = child.stdin.take().unwrap();
    let text = lines.join("\n");
    let writer = std::thread::spawn(move || input.write_all(text.as_bytes()).unwrap());
    let output = child.wait_with_output().unwrap();
    writer.join().unwrap();
    assert!(output.status.success(), "{}", output.status);
    let text = String::from_utf8(output.stdout).unwrap();
    text.lines().map(str::to_owned).collect()
}

/// Random events that mostly fit those before.
pub struct Events {
    state: u64,
    now: u64,
    sent: [u64; 3],
    heard: [u64; 3],
    issued: u64,
    held: u64,
}

impl Events {
    pub fn new(seed: u64) -> Self {
        Events {
            state: seed.wrapping_mul(0x9E37_79B9_7F4A_7C15) | 1,
            now: 0,
            sent: [0; 3],
            heard: [0; 3],
            issued: 1,
            held: 0,
        }
    }

    /// Returns a number below a bound (xorshift).
    fn below(&mut self, bound: u64) -> u64 {
        self.state ^= self.state << 13;
        self.state ^= self.state >> 7;
        self.state ^= self.state << 17;
        (self.state >> 11) % bound
    }

    /// Returns a number near another one, and sometimes any number.
    fn near(&mut self, number: u64, width: u64) -> u64 {
        match self.below(200) {
            0 => u64::MAX,
            1 => (1 << 62) - 1 + self.below(3),
            _ => number.saturating_sub(self.below(width)),
        }
    }

    fn space(&mut self) -> usize {
        match self.below(40) {
            0 => 0,
            1..=3 => 1,
            _ => 2,
        }
    }

    fn any_timer(&mut self) -> &'static str {
        Timer::VALUES[self.below(9) as usize].name()
    }

    fn path(&mut self) -> &'static str {
        if self.below(6) == 0 {
            "previous"
        } else {
            "current"
        }
    }

    fn items(&mut self) -> String {
        let count = self.below(4);
        (0..count).fold(String::new(), |mut text, _| {
            write!(text, " {}", self.below(1000)).unwrap();
            text
        })
    }

    fn of_packets(&mut self, which: u64, space: usize) -> String {
        let name = SPACES[space].0;
        let now = self.now;
        match which {
            0..=29 => {
                self.sent[space] += 1;
                let size = [0, 40, 1200, 1452][self.below(4) as usize];
                let largest = match self.below(3) {
                    0 => self.heard[space].to_string(),
                    _ => "-".into(),
                };
                let eliciting = u64::from(self.below(5) > 0);
                let items = self.items();
                format!("send {name} {now} {size} {eliciting} {largest}{items}")
            }
            30..=49 => {
                let number = self.near(self.sent[space], 12);
                let limited = u64::from(self.below(4) == 0);
                format!("acked {name} {now} {number} {limited}")
            }
            50..=56 => format!("lost {name} {}", self.near(self.sent[space], 15)),
            57..=74 => {
                self.heard[space] += self.below(3);
                let number = self.near(self.heard[space], 6);
                let eliciting = u64::from(self.below(4) > 0);
                format!("received {name} {now} {number} {eliciting}")
            }
            75..=80 => format!("acks-sent {name}"),
            81..=83 => format!("ack-delay-timeout {name}"),
            84..=88 => {
                let low = self.near(self.sent[space], 9);
                let high = self.near(low.saturating_add(4), 6);
                format!("check-ack {name} {low} {high}")
            }
            89..=93 => format!("queue-probe {name} {}", self.below(2)),
            94..=97 => format!("take-pending {name}"),
            _ => {
                let ect0 = self.near(self.sent[space], 5);
                let (newly, ect1, ce) = (self.below(3), self.below(2), self.below(20));
                format!("ecn {name} {newly} {ect0} {ect1} {ce}")
            }
        }
    }

    fn of_paths(&mut self, which: u64) -> String {
        let now = self.now;
        match which {
            0..=9 => format!("in-flight {}", self.path()),
            10..=19 => {
                let (delay, rtt) = (self.below(30_000_000), self.below(200_000_000));
                format!("sample {delay} {rtt}")
            }
            20..=29 => {
                let bytes = self.near(1500, 1400);
                format!("datagram-in {} {bytes}", self.path())
            }
            30 => format!("validated {}", self.path()),
            31..=54 => {
                let checked = u64::from(self.below(3) > 0);
                format!("transmit {now} {} {checked}", 1200 + self.below(300))
            }
            55..=61 => format!("pacer-check {now} {}", self.near(20_000, 19_000)),
            62..=66 => {
                let sent = self.near(now, 1_000_000_000);
                let persistent = u64::from(self.below(20) == 0);
                format!("congestion {now} {sent} {persistent} {}", self.below(5000))
            }
            67..=73 => format!("end-acks {now} {} {}", self.below(2), self.sent[2]),
            74..=83 => format!("poll-mtu {now}"),
            84..=86 => format!("peer-limit {}", self.below(1600)),
            87 => format!("mtu-found {}", self.below(1600)),
            88..=93 => format!("losses-done {now}"),
            94..=96 => format!("new-path {now} {} {}", 4433 + self.below(9), self.below(2)),
            97 => format!("reset-path {now}"),
            98 => "revert-path".into(),
            _ => "drop-previous".into(),
        }
    }

    fn of_ids_and_timers(&mut self, which: u64) -> String {
        let now = self.now;
        match which {
            0..=19 => {
                self.held += self.below(2);
                let far = if self.below(20) == 0 { 8 } else { 0 };
                let sequence = self.near(self.held + 2 + far, 4);
                let prior = self.near(sequence, 12);
                format!("new-id {sequence} {prior} {}", self.below(3))
            }
            20..=29 => "next-id".into(),
            30..=31 => format!("initial-id {}", self.below(256)),
            32..=41 => {
                let first = self.issued.saturating_sub(self.below(20) / 19);
                let count = self.below(3);
                self.issued += count;
                format!("issue-ids {now} {first} {count}")
            }
            42..=46 => "id-timeout".into(),
            47..=56 => format!(
                "peer-retired {} {}",
                self.near(self.issued, 5),
                self.below(8)
            ),
            57..=64 => {
                let micros = self.below(40_000);
                format!(
                    "ack-frequency {} {} {micros} {}",
                    self.below(99),
                    self.below(9),
                    self.below(5)
                )
            }
            65..=79 => {
                let timer = self.any_timer();
                format!("set-timer {timer} {}", now + self.below(1_000_000_000))
            }
            80..=86 => format!("stop-timer {}", self.any_timer()),
            _ => "next-timeout".into(),
        }
    }

    /// Returns the line of the next event.
    pub fn line(&mut self) -> String {
        self.now += self.below(3_000_000);
        let which = self.below(100);
        match self.below(20_000) {
            0 => return "discard initial".into(),
            1 => return "discard handshake".into(),
            _ => {}
        }
        match self.below(10) {
            0..=5 => {
                let space = self.space();
                self.of_packets(which, space)
            }
            6..=8 => self.of_paths(which),
            _ => self.of_ids_and_timers(which),
        }
    }

    pub fn lines(&mut self, count: usize) -> Vec<String> {
        (0..count).map(|_| self.line()).collect()
    }
}
