//! A tiny stack over UDP on the loopback interface. Numbered items are sent in packets, and the receiver acknowledges
//! them. The sender decides how fast to send, what is lost and retransmitted, and when to probe.
//!
//!     sender              the receiver drops every ninth datagram
//!     sender PERCENT      this percentage of datagrams is dropped, both ways: 0 to 30
use quic_recovery::*;
use std::collections::{BTreeSet, VecDeque};
use std::error::Error;
use std::io::ErrorKind;
use std::net::{SocketAddr, UdpSocket};
use std::thread;
use std::time::{Duration, Instant as Clock};

const ITEMS: u64 = 200;
const SIZE: u16 = 1200;
const SPACE: SpaceId = SpaceId::Data;

type Outcome<T> = Result<T, Box<dyn Error + Send + Sync>>;

fn config(remote: SocketAddr) -> RecoveryConfig {
    let mut config = RecoveryConfig::new(remote, ConnectionId::from([7; 8]));
    config.allow_mtud = false;
    config.transport.initial_rtt = Duration::from_millis(20);
    config
}

fn now(began: Clock) -> Instant {
    Instant::from_nanos(0).saturating_add(began.elapsed())
}

fn words(datagram: &[u8]) -> impl Iterator<Item = u64> + '_ {
    let number = |it: &[u8]| {
        it.iter()
            .rev()
            .fold(0, |sum, byte| sum << 8 | u64::from(*byte))
    };
    datagram.chunks_exact(8).map(number)
}

fn bytes(words: impl IntoIterator<Item = u64>) -> Vec<u8> {
    words.into_iter().flat_map(u64::to_le_bytes).collect()
}

/// Which datagrams the path drops.
enum Thrown {
    /// Each ninth one towards the receiver: how many were sent there.
    EveryNinth(u64),
    /// This percentage, both ways, drawn at random (xorshift).
    Percent(u64, u64),
}

impl Thrown {
    fn drawn(state: &mut u64) -> u64 {
        *state ^= *state << 13;
        *state ^= *state >> 7;
        *state ^= *state << 17;
        (*state >> 11) % 100
    }

    fn there(&mut self) -> bool {
        match self {
            Thrown::EveryNinth(count) => {
                *count += 1;
                *count % 9 == 0
            }
            Thrown::Percent(percent, state) => Thrown::drawn(state) < *percent,
        }
    }

    fn back(&mut self) -> bool {
        match self {
            Thrown::EveryNinth(_) => false,
            Thrown::Percent(percent, state) => Thrown::drawn(state) < *percent,
        }
    }
}

/// The receiver: acknowledges at once, until it receives a datagram of no bytes. An ACK has the first and last number
/// of each range, the highest first.
fn receive(
    socket: &UdpSocket,
    sender: SocketAddr,
    began: Clock,
    mut thrown: Thrown,
) -> Outcome<BTreeSet<u64>> {
    let mut recovery = Recovery::new(&config(sender), Instant::from_nanos(0))?;
    let (mut items, mut buffer) = (BTreeSet::new(), [0; 2048]);
    loop {
        let (len, _) = socket.recv_from(&mut buffer)?;
        let mut said = words(&buffer[..len]);
        let Some(number) = said.next() else {
            return Ok(items);
        };
        if thrown.there() {
            continue;
        }
        let received = Event::Received {
            space: SPACE,
            now: now(began),
            number,
            ack_eliciting: true,
        };
        if recovery.apply(received)? == Answer::Duplicate {
            continue;
        }
        let held = said.next().unwrap_or(0) as usize;
        items.extend(said.take(held));
        let mut ranges: Vec<_> = recovery.ranges(SPACE).collect();
        ranges.reverse();
        recovery.apply(Event::AcksSent { space: SPACE })?;
        if !thrown.back() {
            let ends = ranges.into_iter().flat_map(|it| [it.start, it.end - 1]);
            socket.send_to(&bytes(ends), sender)?;
        }
    }
}

/// The sending endpoint. It detects no losses itself, and has no list of its packets.
struct Stack {
    sender: Sender,
    socket: UdpSocket,
    began: Clock,
    waiting: VecDeque<u64>,
    told: Acknowledged,
    acked: BTreeSet<u64>,
    packets: u64,
    lost: u64,
    probes: u64,
}

impl Stack {
    fn new(socket: UdpSocket, remote: SocketAddr, began: Clock) -> Outcome<Self> {
        let start = Instant::from_nanos(0);
        Ok(Stack {
            sender: Sender::established(Side::Client, &config(remote), start)?,
            socket,
            began,
            waiting: (0..ITEMS).collect(),
            told: Acknowledged::default(),
            acked: BTreeSet::new(),
            packets: 0,
            lost: 0,
            probes: 0,
        })
    }

    /// Returns up to four items to be sent.
    fn next_items(&mut self) -> Vec<u64> {
        let count = self.waiting.len().min(4);
        self.waiting.drain(..count).collect()
    }

    /// Sends a packet with these items, or a PING without one.
    fn send(&mut self, items: &[u64]) -> Outcome<()> {
        let sent = self
            .sender
            .send(SPACE, now(self.began), SIZE, true, None, items)?;
        let head = [sent.number, items.len() as u64];
        let mut datagram = bytes(head.into_iter().chain(items.iter().copied()));
        datagram.resize(usize::from(SIZE), 0);
        self.socket.send(&datagram)?;
        self.packets += 1;
        Ok(())
    }

    /// Sends what limit, window and pacer permit. Returns when to ask the pacer again, if it delays a datagram.
    fn send_all(&mut self) -> Outcome<Option<Instant>> {
        while !self.waiting.is_empty() {
            match self.sender.transmit(now(self.began), SIZE, SPACE, true)? {
                Transmission::Transmitted => {
                    let items = self.next_items();
                    self.send(&items)?;
                }
                Transmission::Delayed { until, .. } => return Ok(Some(until)),
                Transmission::Full { .. } | Transmission::Blocked => return Ok(None),
            }
        }
        Ok(None)
    }

    /// Queues retransmissions.
    fn take_pending(&mut self) -> Outcome<()> {
        if let Answer::Queue(items) = self.sender.on_event(Event::TakePending { space: SPACE })? {
            self.waiting.extend(items);
        }
        Ok(())
    }

    /// Records that packets were lost, and queues their items.
    fn lose(&mut self, count: usize) -> Outcome<()> {
        self.lost += count as u64;
        self.take_pending()
    }

    /// Processes a received ACK.
    fn hear(&mut self, ranges: &[(u64, u64)]) -> Outcome<()> {
        let (now, ack) = (now(self.began), Ack::default());
        let mut told = std::mem::take(&mut self.told);
        self.sender
            .on_ack_into(SPACE, now, &ack, ranges, &mut told)?;
        for (_, items) in told.packets() {
            self.acked.extend(items);
        }
        self.lose(told.losses.numbers.len())?;
        self.told = told;
        Ok(())
    }

    /// Handles the timer, which may be due: packets may be lost, or probes are sent, whatever the window is (RFC 9002,
    /// 6.2.4).
    fn time_out(&mut self) -> Outcome<()> {
        match self.sender.on_timeout(now(self.began))? {
            Timeout::Nothing => Ok(()),
            Timeout::Lost { losses, .. } => self.lose(losses.numbers.len()),
            Timeout::Probe { space, count } => (0..count).try_for_each(|_| self.probe(space)),
        }
    }

    /// Sends a probe: with retransmissions, or with the items of a packet in flight, or else with new ones. Of more
    /// than four, the others are queued.
    fn probe(&mut self, space: SpaceId) -> Outcome<()> {
        let sent = self.sender.transmit(now(self.began), SIZE, space, true)?;
        if sent != Transmission::Transmitted {
            return Ok(());
        }
        let mut items = self.sender.probe(space, false)?;
        self.waiting.extend(items.drain(items.len().min(4)..));
        if items.is_empty() {
            items = self.next_items();
        }
        self.send(&items)?;
        self.probes += 1;
        Ok(())
    }

    fn run(&mut self) -> Outcome<()> {
        let mut buffer = [0; 2048];
        while (self.acked.len() as u64) < ITEMS {
            let paced = self.send_all()?;
            let until = [paced, self.sender.timer()].into_iter().flatten().min();
            let until = until.ok_or("something is in flight, or waits")?;
            let wait = until.saturating_duration_since(now(self.began));
            self.socket
                .set_read_timeout(Some(wait.max(Duration::from_micros(50))))?;
            match self.socket.recv(&mut buffer) {
                Ok(len) => {
                    let ends: Vec<u64> = words(&buffer[..len]).collect();
                    let ranges = ends.chunks_exact(2).map(|it| (it[0], it[1]));
                    self.hear(&ranges.collect::<Vec<_>>())?;
                }
                Err(it) if matches!(it.kind(), ErrorKind::WouldBlock | ErrorKind::TimedOut) => {}
                Err(it) => return Err(it.into()),
            }
            self.time_out()?;
        }
        Ok(())
    }
}

/// Parses the argument, if there is one.
fn thrown() -> Outcome<Thrown> {
    let Some(word) = std::env::args().nth(1) else {
        return Ok(Thrown::EveryNinth(0));
    };
    match word.parse() {
        Ok(percent @ 0..=30) => Ok(Thrown::Percent(percent, 0x9E37_79B9_7F4A_7C15)),
        _ => Err("usage: sender [PERCENT], of datagrams thrown away: 0 to 30".into()),
    }
}

fn main() -> Outcome<()> {
    let thrown = thrown()?;
    println!("{VERSION}");
    let (socket, other) = (
        UdpSocket::bind("127.0.0.1:0")?,
        UdpSocket::bind("127.0.0.1:0")?,
    );
    let (address, began) = (socket.local_addr()?, Clock::now());
    socket.connect(other.local_addr()?)?;
    let mut stack = Stack::new(socket, other.local_addr()?, began)?;
    let receiver = thread::spawn(move || receive(&other, address, began, thrown));
    stack.run()?;
    stack.socket.send(&[])?;
    let items = receiver.join().map_err(|_| "the receiver ended early")??;
    let Stack {
        packets,
        lost,
        probes,
        acked,
        ..
    } = stack;
    println!("{packets} packets, {lost} of them lost, {probes} probes");
    println!(
        "{} items came, and all {} were acknowledged",
        items.len(),
        acked.len()
    );
    Ok(())
}
