//! Two endpoints over UDP on the loopback interface: one sends BYTES bytes to the other, and DROPPED of a thousand
//! datagrams are dropped, both ways.
//!
//!     cargo run --release --example transfer -- BYTES DROPPED
//!
//! The recoveries decide how fast to send, what to acknowledge and when, and what to retransmit. The example itself
//! detects losses (RFC 9002, 6.1), which a recovery leaves to its caller.
use quic_recovery::*;
use std::collections::BTreeMap;
use std::error::Error;
use std::io::ErrorKind::{TimedOut, WouldBlock};
use std::net::UdpSocket;
use std::thread;
use std::time::{Duration, Instant as Clock};

const SPACE: SpaceId = SpaceId::Data;
const HEAD: usize = 17; // what a datagram is, its number, and that of its piece
const PIECE: usize = 1100;
const ACK_DELAY: Duration = Duration::from_millis(5);

type Outcome<T> = Result<T, Box<dyn Error + Send + Sync>>;

/// Returns the byte at an offset of the stream.
fn byte_at(place: usize) -> u8 {
    (place % 251) as u8
}

fn word(datagram: &[u8], at: usize) -> Outcome<u64> {
    let bytes = datagram.get(at..at + 8).ok_or("a datagram is too short")?;
    Ok(u64::from_le_bytes(bytes.try_into()?))
}

/// One endpoint: its recovery, its socket, and the random generator for drops.
struct End {
    recovery: Recovery,
    socket: UdpSocket,
    began: Clock,
    thrown: u64,
    dice: u64,
}

impl End {
    fn new(socket: UdpSocket, peer: &UdpSocket, began: Clock, thrown: u64) -> Outcome<End> {
        let remote = peer.local_addr()?;
        let mut config = RecoveryConfig::new(remote, ConnectionId::from([7; 8]));
        config.validated = true;
        config.max_ack_delay = ACK_DELAY;
        config.skips = Skips::Drawn(u64::from(remote.port()));
        config.transport.initial_rtt = Duration::from_millis(50);
        let recovery = Recovery::new(&config, Instant::from_nanos(0))?;
        socket.connect(remote)?;
        let dice = u64::from(remote.port());
        Ok(End {
            recovery,
            socket,
            began,
            thrown,
            dice,
        })
    }

    fn now(&self) -> Instant {
        Instant::from_nanos(0) + self.began.elapsed()
    }

    /// Sends a datagram, or drops it.
    fn put(&mut self, datagram: &[u8]) -> Outcome<()> {
        self.dice = self.dice.wrapping_mul(6364136223846793005).wrapping_add(1);
        if (self.dice >> 33) % 1000 >= self.thrown {
            match self.socket.send(datagram) {
                Err(it) if it.kind() != WouldBlock => return Err(it.into()),
                _ => {}
            }
        }
        Ok(())
    }

    /// Returns the size of the next datagram, if one is received in time.
    fn next(&self, until: Option<Instant>, buffer: &mut [u8]) -> Outcome<Option<usize>> {
        let wait = until.map_or(ACK_DELAY, |it| it - self.now());
        self.socket
            .set_read_timeout(Some(wait.max(Duration::from_micros(20))))?;
        match self.socket.recv(buffer) {
            Ok(len) => Ok(Some(len)),
            Err(it) if matches!(it.kind(), WouldBlock | TimedOut) => Ok(None),
            Err(it) => Err(it.into()),
        }
    }

    fn timeout(&mut self) -> Outcome<Option<Instant>> {
        match self.recovery.apply(Event::NextTimeout)? {
            Answer::Timeout(time) => Ok(time),
            other => Err(format!("{other:?}").into()),
        }
    }

    fn is_due(&self, timer: Timer) -> bool {
        self.recovery
            .timer(timer)
            .is_some_and(|it| it <= self.now())
    }

    /// Records a sent packet. Returns its number.
    fn send(&mut self, size: u16, largest: Option<u64>, queue: &[u64]) -> Outcome<u64> {
        let event = Event::Send {
            space: SPACE,
            now: self.now(),
            size,
            ack_eliciting: size > 0,
            largest_acked: largest,
            queue,
        };
        match self.recovery.apply(event)? {
            Answer::Sent { number, .. } => Ok(number),
            other => Err(format!("{other:?}").into()),
        }
    }
}

/// Records a received packet. Returns whether it is new. Starts the ACK delay timer if the answer requires it.
fn hear(end: &mut End, number: u64, bytes: u64) -> Outcome<bool> {
    let path = PathName::Current;
    end.recovery.apply(Event::DatagramIn { path, bytes })?;
    let now = end.now();
    let answer = end.recovery.apply(Event::Received {
        space: SPACE,
        now,
        number,
        ack_eliciting: true,
    })?;
    if answer == (Answer::New { arm: true }) {
        let time = now + end.recovery.ids().max_ack_delay;
        end.recovery.apply(Event::SetTimer {
            timer: Timer::MaxAckDelay,
            time,
        })?;
    }
    Ok(answer != Answer::Duplicate)
}

/// Sends an ACK: the delay of the largest number, and the ranges, the highest first.
fn acknowledge(end: &mut End) -> Outcome<()> {
    let mut ranges: Vec<_> = end.recovery.ranges(SPACE).collect();
    ranges.reverse();
    let delay = end.recovery.ack_delay(SPACE, end.now()).unwrap_or_default();
    let number = end.send(0, ranges.first().map(|it| it.end - 1), &[])?;
    let mut datagram = vec![b'A'];
    datagram.extend(number.to_le_bytes());
    datagram.extend((delay.as_nanos() as u64).to_le_bytes());
    for range in ranges {
        datagram.extend(range.start.to_le_bytes());
        datagram.extend((range.end - 1).to_le_bytes());
    }
    end.recovery.apply(Event::AcksSent { space: SPACE })?;
    let timer = Timer::MaxAckDelay;
    end.recovery.apply(Event::StopTimer { timer })?;
    end.put(&datagram)
}

/// The receiver: returns the bytes that it received before a datagram of one byte.
fn receive(mut end: End, bytes: usize) -> Outcome<Vec<u8>> {
    let (mut received, mut buffer) = (vec![0; bytes], vec![0; 65536]);
    loop {
        let until = end.timeout()?;
        match end.next(until, &mut buffer)? {
            Some(1) => return Ok(received),
            Some(len) => {
                let (number, piece) = (word(&buffer, 1)?, word(&buffer, 9)? as usize);
                if hear(&mut end, number, len as u64)? && piece <= bytes / PIECE {
                    let room = &mut received[piece * PIECE..];
                    let len = room.len().min(PIECE).min(len - HEAD);
                    room[..len].copy_from_slice(&buffer[HEAD..HEAD + len]);
                }
            }
            None if end.is_due(Timer::MaxAckDelay) => {
                end.recovery
                    .apply(Event::AckDelayTimeout { space: SPACE })?;
            }
            None => {}
        }
        if end.recovery.space(SPACE).is_some_and(|it| it.can_send.acks) {
            acknowledge(&mut end)?;
        }
    }
}

/// A packet that is neither acknowledged nor lost.
#[derive(Clone, Copy)]
struct Packet {
    sent: Instant,
    size: u16,
}

/// The sender.
struct Sender {
    end: End,
    bytes: usize,
    next: usize,
    again: Vec<u64>,
    packets: BTreeMap<u64, Packet>,
    largest_acked: Option<u64>,
    /// When a packet is lost, if it is not acknowledged (RFC 9002, 6.1.2).
    loss_time: Option<Instant>,
    /// How many consecutive probe timeouts there were (RFC 9002, 6.2.1).
    timeouts: u32,
    first_sample: Option<Instant>,
    sent: u64,
    lost: u64,
    probes: u64,
}

impl Sender {
    fn new(end: End, bytes: usize) -> Sender {
        Sender {
            end,
            bytes,
            next: 0,
            again: Vec::new(),
            packets: BTreeMap::new(),
            largest_acked: None,
            loss_time: None,
            timeouts: 0,
            first_sample: None,
            sent: 0,
            lost: 0,
            probes: 0,
        }
    }

    fn path(&self) -> Outcome<PathStats> {
        Ok(self
            .end
            .recovery
            .path(PathName::Current)
            .ok_or("a path lives")?)
    }

    fn pieces(&self) -> usize {
        self.bytes.div_ceil(PIECE)
    }

    fn is_done(&self) -> bool {
        self.next >= self.pieces() && self.again.is_empty() && self.packets.is_empty()
    }

    /// Sends a packet with a piece; one after the last has no bytes.
    fn send_piece(&mut self, piece: u64) -> Outcome<()> {
        let size = (HEAD + PIECE) as u16;
        let now = self.end.now();
        let number = self.end.send(size, None, &[piece])?;
        let mut datagram = vec![b'D'];
        datagram.extend(number.to_le_bytes());
        datagram.extend(piece.to_le_bytes());
        let first = piece as usize * PIECE;
        datagram.extend((first..self.bytes.min(first + PIECE)).map(byte_at));
        datagram.resize(usize::from(size), 0);
        self.packets.insert(number, Packet { sent: now, size });
        self.sent += 1;
        self.end.put(&datagram)?;
        self.set_timer()
    }

    /// Sends an MTU probe if one is due (RFC 9000, 14.3): a piece after the last.
    fn probe_mtu(&mut self) -> Outcome<()> {
        let now = self.end.now();
        if let Answer::Probe { number, size } = self.end.recovery.apply(Event::PollMtu { now })? {
            let mut datagram = vec![b'D'];
            datagram.extend(number.to_le_bytes());
            datagram.extend(u64::MAX.to_le_bytes());
            datagram.resize(usize::from(size), 0);
            self.packets.insert(number, Packet { sent: now, size });
            self.probes += 1;
            self.end.put(&datagram)?;
            self.set_timer()?;
        }
        Ok(())
    }

    /// Sets the loss detection timer (RFC 9002, A.8).
    fn set_timer(&mut self) -> Outcome<()> {
        let timer = Timer::LossDetection;
        let wait = self.path()?.rtt.pto_base + self.end.recovery.ids().peer_max_ack_delay;
        let probe = self.packets.values().map(|it| it.sent).max();
        let probe = probe.map(|it| it + wait.saturating_mul(1 << self.timeouts.min(20)));
        let event = match self.loss_time.or(probe) {
            Some(time) => Event::SetTimer { timer, time },
            None => Event::StopTimer { timer },
        };
        self.end.recovery.apply(event)?;
        Ok(())
    }

    fn next_piece(&mut self) -> Option<u64> {
        self.again.pop().or_else(|| {
            let piece = self.next as u64;
            (self.next < self.pieces()).then(|| {
                self.next += 1;
                piece
            })
        })
    }

    /// Sends what window and pacer permit. Returns when to ask the pacer again, if it delays a datagram.
    fn send_all(&mut self) -> Outcome<Option<Instant>> {
        let bytes = (HEAD + PIECE) as u16;
        while self.next < self.pieces() || !self.again.is_empty() {
            let path = self.path()?;
            if path.in_flight + u64::from(bytes) > path.window {
                break;
            }
            let now = self.end.now();
            let datagram = Event::Transmit {
                now,
                bytes,
                checked: true,
            };
            match self.end.recovery.apply(datagram)? {
                Answer::Transmitted => {
                    let piece = self.next_piece().ok_or("a piece waits")?;
                    self.send_piece(piece)?;
                }
                Answer::Delayed(until) => return Ok(Some(until)),
                other => return Err(format!("{other:?}").into()),
            }
        }
        Ok(None)
    }

    /// Queues retransmissions; an MTU probe has none.
    fn take_pending(&mut self) -> Outcome<()> {
        if let Answer::Queue(items) = self
            .end
            .recovery
            .apply(Event::TakePending { space: SPACE })?
        {
            self.again.extend(items);
        }
        Ok(())
    }

    /// Returns the packets that an ACK newly acknowledges: the largest of them, and when it was sent.
    fn acked(
        &mut self,
        ranges: &[(u64, u64)],
        app_limited: bool,
    ) -> Outcome<Option<(u64, Instant)>> {
        let (now, space) = (self.end.now(), SPACE);
        let mut largest = None;
        for &(low, high) in ranges {
            let event = Event::CheckAck { space, low, high };
            self.end.recovery.apply(event)?;
            let numbers: Vec<u64> = self.packets.range(low..=high).map(|it| *it.0).collect();
            for number in numbers {
                let packet = self
                    .packets
                    .remove(&number)
                    .ok_or("the packet is tracked")?;
                self.end.recovery.apply(Event::Acked {
                    space,
                    now,
                    number,
                    app_limited,
                })?;
                largest = largest.max(Some((number, packet.sent)));
            }
        }
        Ok(largest)
    }

    /// Processes a received ACK.
    fn hear_ack(&mut self, datagram: &[u8]) -> Outcome<()> {
        let delay = Duration::from_nanos(word(datagram, 9)?);
        let ranges: Vec<(u64, u64)> = datagram[HEAD..]
            .chunks_exact(16)
            .map(|it| Ok((word(it, 0)?, word(it, 8)?)))
            .collect::<Outcome<_>>()?;
        let (path, now) = (self.path()?, self.end.now());
        let app_limited = path.in_flight * 2 < path.window;
        let Some((number, sent)) = self.acked(&ranges, app_limited)? else {
            return Ok(());
        };
        self.timeouts = 0;
        if ranges.first().is_some_and(|it| it.1 == number) {
            let delay = delay.min(self.end.recovery.ids().peer_max_ack_delay);
            let rtt = now - sent;
            self.end.recovery.apply(Event::Sample { delay, rtt })?;
            self.first_sample.get_or_insert(now);
        }
        self.largest_acked = self.largest_acked.max(Some(number));
        let largest = self.largest_acked;
        self.end.recovery.apply(Event::EndAcks {
            now,
            app_limited,
            largest,
        })?;
        self.find_lost()?;
        self.set_timer()
    }

    /// Returns the packets that are lost by now (RFC 9002, 6.1), and stores when the next one is lost.
    fn lost_by_now(&mut self) -> Outcome<Vec<(u64, Packet)>> {
        let (rtt, now) = (self.path()?.rtt, self.end.now());
        let wait = (rtt.conservative * 9 / 8).max(Duration::from_millis(1));
        let largest = self.largest_acked.unwrap_or(0);
        let below = self.packets.range(..largest).map(|it| (*it.0, *it.1));
        let (lost, left): (Vec<_>, Vec<_>) =
            below.partition(|it| it.0 + 3 <= largest || it.1.sent + wait <= now);
        self.loss_time = left.iter().map(|it| it.1.sent + wait).min();
        Ok(lost)
    }

    fn find_lost(&mut self) -> Outcome<()> {
        let (rtt, lost) = (self.path()?.rtt, self.lost_by_now()?);
        let (mut bytes, mut first, mut last) = (0, None, None);
        for (number, packet) in &lost {
            let (space, number) = (SPACE, *number);
            self.packets.remove(&number);
            self.lost += 1;
            if self.end.recovery.apply(Event::Lost { space, number })?
                == (Answer::Lost { probe: false })
            {
                bytes += u64::from(packet.size);
                first = first.or(Some(packet.sent));
                last = Some(packet.sent);
            }
        }
        let now = self.end.now();
        if !lost.is_empty() {
            self.end.recovery.apply(Event::LossesDone { now })?;
        }
        if let (Some(first), Some(sent)) = (first, last) {
            let long = 3 * (rtt.pto_base + self.end.recovery.ids().peer_max_ack_delay);
            let is_row = lost.windows(2).all(|it| it[1].0 == it[0].0 + 1);
            let is_sampled = self.first_sample.is_some_and(|it| it < first);
            self.end.recovery.apply(Event::Congestion {
                now,
                sent,
                persistent: is_row && is_sampled && sent - first > long,
                bytes,
            })?;
        }
        self.take_pending()
    }

    /// Sends a probe, whatever window and pacer say, with retransmissions or with the piece of a packet in flight (RFC
    /// 9002, 6.2.4). Takes its contents only if the datagram is sent.
    fn probe(&mut self) -> Outcome<()> {
        let goes = self.end.recovery.apply(Event::Transmit {
            now: self.end.now(),
            bytes: (HEAD + PIECE) as u16,
            checked: false,
        })?;
        if goes != Answer::Transmitted {
            return Ok(());
        }
        self.end.recovery.apply(Event::QueueProbe {
            space: SPACE,
            immediate_ack: false,
        })?;
        self.take_pending()?;
        let piece = self.next_piece().unwrap_or(u64::MAX / PIECE as u64);
        self.send_piece(piece)
    }

    /// Handles the timer: packets are lost, or two probes are sent.
    fn timed_out(&mut self) -> Outcome<()> {
        if self.loss_time.is_some() {
            self.find_lost()?;
        } else {
            self.timeouts += 1;
            for _ in 0..2 {
                self.probe()?;
            }
        }
        self.set_timer()
    }

    fn run(&mut self) -> Outcome<()> {
        let mut buffer = vec![0; 65536];
        while !self.is_done() {
            self.probe_mtu()?;
            let paced = self.send_all()?;
            let until = [paced, self.end.timeout()?].into_iter().flatten().min();
            if let Some(len) = self.end.next(until, &mut buffer)? {
                self.hear_ack(&buffer[..len])?;
            }
            if self.end.is_due(Timer::LossDetection) {
                self.timed_out()?;
            }
        }
        Ok(())
    }
}

fn main() -> Outcome<()> {
    let mut words = std::env::args().skip(1).map(|it| it.parse());
    let bytes: usize = words.next().unwrap_or(Ok(10_000_000))?;
    let thrown = words.next().unwrap_or(Ok(10))? as u64;
    let (one, other) = (
        UdpSocket::bind("127.0.0.1:0")?,
        UdpSocket::bind("127.0.0.1:0")?,
    );
    let (began, again) = (Clock::now(), one.try_clone()?);
    let receiver = End::new(other.try_clone()?, &one, began, thrown)?;
    let mut sender = Sender::new(End::new(one, &other, began, thrown)?, bytes);
    let received = thread::spawn(move || receive(receiver, bytes));
    sender.run()?;
    let took = began.elapsed();
    while !received.is_finished() {
        again.send(b"X").or_else(|it| match it.kind() {
            std::io::ErrorKind::ConnectionRefused => Ok(0), // the other end is done
            _ => Err(it),
        })?;
        thread::sleep(Duration::from_millis(1));
    }
    let received = received.join().map_err(|_| "the receiver ended early")??;
    let same = received
        .iter()
        .enumerate()
        .all(|(at, it)| *it == byte_at(at));
    println!(
        "{} bytes came, {} they were sent",
        received.len(),
        if same { "as" } else { "but not as" }
    );
    println!(
        "{} packets, {} lost, {} probes of the MTU, in {took:.2?}",
        sender.sent, sender.lost, sender.probes
    );
    Ok(())
}
