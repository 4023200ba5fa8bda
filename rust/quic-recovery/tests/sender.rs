//! A sender through the crate: the worked rows and recordings of the repository, and what the lines do not show.
mod common;

use common::{config, root, written, Line};
use quic_recovery::*;
use std::fs;
use std::time::Duration;

fn at(millis: u64) -> Instant {
    Instant::from_nanos(millis * 1_000_000)
}

fn numbers(list: &[u64]) -> String {
    list.iter().map(|it| format!(" {it}")).collect()
}

/// Writes losses after other words.
fn lost(losses: &Losses) -> String {
    let mut text = format!("lost{}", numbers(&losses.numbers));
    text += &losses.probe.map_or(String::new(), |it| format!(" {it}"));
    if text == "lost" {
        text += " none";
    }
    let kind = if losses.is_persistent {
        "persistent"
    } else {
        "congestion"
    };
    text += &losses
        .congestion
        .map_or(String::new(), |it| format!(" {kind} {it}"));
    if losses.is_black_hole {
        text += " black-hole";
    }
    text + if losses.is_cut { " cut" } else { "" }
}

/// Writes the packets of a space that were declared lost.
fn retransmitted(all: Retransmitted) -> String {
    lost(&Losses {
        numbers: all.numbers,
        is_cut: all.is_cut,
        ..Losses::default()
    })
}

fn acked(found: &Acknowledged) -> String {
    if found.numbers.is_empty() {
        return "acked none".into();
    }
    let mut text = format!("acked{}", numbers(&found.numbers));
    if !found.losses.numbers.is_empty() || found.losses.probe.is_some() || found.losses.is_cut {
        text += &format!(" {}", lost(&found.losses));
    }
    text + match found.ecn {
        EcnOutcome::Quiet => "",
        EcnOutcome::Marked => " ecn-congestion",
        EcnOutcome::Failed => " ecn-failed",
    }
}

/// Returns the ACK frame of a line: its ranges, and its other fields.
fn frame(line: &Line) -> (Vec<(u64, u64)>, Ack) {
    let place = |name| line.words.iter().position(|it| it == name);
    let (end, received) = (place("ecn"), place("received"));
    let last = end.or(received).unwrap_or(line.words.len());
    let ranges = (5..last).step_by(2);
    let ranges = ranges.map(|it| (line.number(it), line.number(it + 1)));
    let ecn = end.map(|it| EcnCounts {
        ect0: line.number(it + 1),
        ect1: line.number(it + 2),
        ce: line.number(it + 3),
    });
    let ack = Ack {
        delay: line.span(3),
        ecn,
        app_limited: line.flag(4),
        received: received.map(|it| line.moment(it + 1)),
    };
    (ranges.collect(), ack)
}

/// Returns the word after a datagram that is held back, if an ACK is required.
fn required(ack: bool) -> &'static str {
    if ack {
        " ack"
    } else {
        ""
    }
}

fn transmitted(sent: Transmission) -> String {
    match sent {
        Transmission::Transmitted => "transmitted".into(),
        Transmission::Blocked => "blocked".into(),
        Transmission::Full { ack } => format!("full{}", required(ack)),
        Transmission::Delayed { until, ack } => {
            format!("delayed {}{}", until.as_nanos(), required(ack))
        }
    }
}

fn timed_out(timeout: Timeout) -> String {
    match timeout {
        Timeout::Nothing => "nothing".into(),
        Timeout::Lost { losses, .. } => lost(&losses),
        Timeout::Probe { space, count } => {
            format!("probe {} {count}", space.to_string().to_lowercase())
        }
    }
}

fn sent(packet: Sent) -> String {
    let forgot = packet.forgotten.map(|it| format!(" forgot {it}"));
    format!("sent {}{}", packet.number, forgot.unwrap_or_default())
}

/// Makes a line's call that cannot fail, if it is one.
fn said(sender: &mut Sender, line: &Line) -> bool {
    match (line.words[0].as_str(), line.words.len()) {
        ("keys", _) => sender.on_handshake_keys(),
        ("confirmed", _) => sender.on_handshake_confirmed(),
        ("validated", 1) => sender.on_address_validated(),
        ("peer-delay", _) => sender.set_peer_max_ack_delay(line.span(1)),
        _ => return false,
    }
    true
}

/// Makes a line's call. Returns its reply.
fn called(sender: &mut Sender, line: &Line) -> Result<String, SenderError> {
    let done = |()| String::from("done");
    if said(sender, line) {
        return Ok("done".into());
    }
    match line.words[0].as_str() {
        "transmit" => sender
            .transmit(line.moment(2), line.short(3), line.space(1), line.flag(4))
            .map(transmitted),
        "send" => sender
            .send(
                line.space(1),
                line.moment(2),
                line.short(3),
                line.flag(4),
                line.largest(5),
                &line.items,
            )
            .map(sent),
        "poll-mtu" => sender.poll_mtu(line.moment(1)).map(|it| match it {
            Some(probe) => format!("probe {} {}", probe.number, probe.size),
            None => "no probe".into(),
        }),
        "ack" => {
            let (ranges, ack) = frame(line);
            sender
                .on_ack(line.space(1), line.moment(2), &ack, &ranges)
                .map(|it| acked(&it))
        }
        "timeout" => sender.on_timeout(line.moment(1)).map(timed_out),
        "probe" => sender
            .probe(line.space(1), false)
            .map(|it| written(&Ok(Answer::Queue(it)))),
        "datagram" => sender.on_datagram(line.number(1)).map(done),
        "discard" => sender.discard(line.space(1), line.moment(2)).map(done),
        "abandon" => sender
            .retransmit_all(line.space(1), line.moment(2))
            .map(retransmitted),
        _ => sender.on_event(line.event()).map(|it| written(&Ok(it))),
    }
}

/// Returns a line of the program `recovery-sender`, with the timer after a reply that is no error.
fn answer(sender: &mut Sender, line: &str) -> String {
    let reply = called(sender, &Line::new(line));
    let timer = sender.timer().map(|it| it.as_nanos().to_string());
    let timer = timer.unwrap_or("none".into());
    match reply {
        Ok(text) => format!("{text} timer {timer}"),
        Err(SenderError::Event(refusal)) => written(&Err(refusal)),
        Err(SenderError::Unsent) => "refused 128 Unsent".into(),
        Err(SenderError::DataSpace) => "refused 129 DataSpace".into(),
        Err(other) => panic!("{line}: {other}"),
    }
}

/// Returns a sender with the arguments of the program.
fn sender_of(words: &[&str]) -> Sender {
    let number = |at: usize| words.get(at).and_then(|it| it.parse().ok());
    let mut config = config(number(1), number(2));
    if words.get(2) == Some(&"cubic") {
        config.transport.congestion = Congestion::Cubic(CubicConfig::default());
    }
    if let [packets, numerator, denominator, periods] = words.get(3..).unwrap_or_default() {
        config.transport.packet_threshold = packets.parse().unwrap();
        config.transport.time_threshold =
            (numerator.parse().unwrap(), denominator.parse().unwrap());
        config.transport.persistent_congestion_threshold = periods.parse().unwrap();
    }
    let made = match words[0] {
        "client" => Sender::new(Side::Client, &config, at(0)),
        "established" => Sender::established(Side::Server, &config, at(0)),
        _ => Sender::new(Side::Server, &config, at(0)),
    };
    made.unwrap()
}

/// Returns how many lines a row stands for, and the row of one: `4 times: LINE => ANSWER` is four lines, in whose answers
/// {} is the number.
fn lines_of(row: &str) -> (u64, &str) {
    let many = row.split_once(" times: ");
    let many = many.and_then(|(count, row)| Some((count.parse().ok()?, row)));
    many.unwrap_or((1, row))
}

/// The worked rows of the repository, whose answers come from an independent model: each line with its answer.
#[test]
fn rows() {
    let text = fs::read_to_string(root().join("tests/sender/rows.txt")).unwrap();
    let (mut sender, mut seen) = (sender_of(&["server"]), 0);
    for (count, row) in text.lines().map(lines_of) {
        if let Some(words) = row.strip_prefix("recovery-sender ") {
            sender = sender_of(&words.split(' ').collect::<Vec<_>>());
        } else if let Some((line, wanted)) = row.split_once(" => ") {
            for number in 0..count {
                let wanted = wanted.replace("{}", &number.to_string());
                assert_eq!(answer(&mut sender, line), wanted, "{row}");
            }
            seen += count;
        }
    }
    assert!(seen > 400, "{seen} rows");
}

/// Real connections that were recorded, a client's and a server's.
#[test]
fn recordings() {
    for (side, name) in [("client", "handshakes-client"), ("server", "losses-server")] {
        let file =
            |kind| fs::read_to_string(root().join(format!("tests/sender/{name}.{kind}"))).unwrap();
        let mut sender = sender_of(&[side]);
        let (script, wanted) = (file("txt"), file("out"));
        for (at, (line, wanted)) in script.lines().zip(wanted.lines()).enumerate() {
            assert_eq!(answer(&mut sender, line), wanted, "{name}, line {}", at + 1);
        }
    }
}

/// Returns a server whose handshake is confirmed, with `count` packets sent a millisecond apart.
fn with_packets(count: u64) -> Sender {
    let mut sender = sender_of(&["server"]);
    sender.on_address_validated();
    sender.on_handshake_confirmed();
    for number in 0..count {
        let sent = sender.send(SpaceId::Data, at(number), 1000, true, None, &[number]);
        let wanted = Sent {
            number,
            forgotten: None,
        };
        assert_eq!(sent, Ok(wanted));
    }
    sender
}

fn ack(sender: &mut Sender, millis: u64, ranges: &[(u64, u64)], into: &mut Acknowledged) {
    let now = at(millis);
    let done = sender.on_ack_into(SpaceId::Data, now, &Ack::default(), ranges, into);
    assert_eq!(done, Ok(()));
}

/// The vectors of an answer are filled again, and allocate nothing if they need not grow.
#[test]
fn vectors_that_are_kept() {
    let mut sender = with_packets(8);
    let mut told = Acknowledged::default();
    told.numbers.reserve(8);
    told.losses.numbers.reserve(8);
    let held = |it: &Acknowledged| (it.numbers.as_ptr(), it.losses.numbers.as_ptr());
    let before = held(&told);
    ack(&mut sender, 110, &[(7, 7), (4, 5)], &mut told);
    assert_eq!(told.numbers, [4, 5, 7]);
    assert_eq!(told.losses.numbers, [0, 1, 2, 3]);
    assert_eq!(told.losses.congestion, Some(4000));
    assert_eq!(held(&told), before);
    let mut again = Acknowledged::default();
    assert_eq!(sender.last_outcome(&mut again), Ok(()));
    assert_eq!(again, told);
    ack(&mut sender, 111, &[(6, 7)], &mut told);
    assert_eq!(told.numbers, [6]);
    assert!(told.losses.numbers.is_empty() && told.losses.congestion.is_none());
    assert_eq!(held(&told), before);
}

/// Acknowledged packets come with the items that they carried; lost items are queued, and come with none.
#[test]
fn packets_come_with_their_items() {
    let (mut sender, space) = (with_packets(2), SpaceId::Data);
    for items in [&[20, 21, 22][..], &[]] {
        let sent = sender.send(space, at(2), 1000, true, None, items);
        assert!(sent.is_ok());
    }
    let mut told = Acknowledged::default();
    ack(&mut sender, 102, &[(2, 3), (0, 0)], &mut told);
    let packets: Vec<(u64, &[u64])> = told.packets().collect();
    assert_eq!(packets, [(0, &[0][..]), (2, &[20, 21, 22]), (3, &[])]);
    assert_eq!(told.numbers, [0, 2, 3]);
    ack(&mut sender, 103, &[(3, 3)], &mut told);
    assert_eq!((told.packets().count(), told.numbers.len()), (0, 0));
}

/// While a challenge of the path in use is outstanding, an ACK does not increase the window (RFC 9000, 9.4).
#[test]
fn a_challenge_keeps_the_window() {
    let mut sender = with_packets(3);
    let window = |it: &Sender| it.recovery().path(PathName::Current).unwrap().window;
    let before = window(&sender);
    sender.set_challenge(Some(7), false);
    ack(&mut sender, 100, &[(0, 0)], &mut Acknowledged::default());
    assert_eq!(window(&sender), before);
    let marks = sender.recovery().marks(PathName::Current).unwrap();
    assert_eq!(marks.challenge, Some(7));
    sender.set_challenge(None, false);
    ack(&mut sender, 101, &[(1, 1)], &mut Acknowledged::default());
    assert_eq!(window(&sender), before + 1000);
}

/// Probe timeouts are counted until the peer acknowledges something (RFC 9002, 6.2.1).
#[test]
fn probe_timeouts() {
    let mut sender = with_packets(1);
    let (now, space) = (sender.timer().unwrap(), SpaceId::Data);
    let probes = Timeout::Probe { space, count: 2 };
    assert_eq!(sender.pto_count(), 0);
    assert_eq!(sender.on_timeout(now), Ok(probes));
    assert_eq!(sender.pto_count(), 1);
    assert_eq!(sender.on_timeout(now), Ok(Timeout::Nothing));
    ack(&mut sender, 2000, &[(0, 0)], &mut Acknowledged::default());
    assert_eq!(sender.pto_count(), 0);
}

/// Each probe of a timeout carries the contents of another packet; if none has any, it is a PING (RFC 9002, 6.2.4).
#[test]
fn probes_carry_contents() {
    let (mut sender, space) = (with_packets(2), SpaceId::Data);
    let now = sender.timer().unwrap();
    let probes = Timeout::Probe { space, count: 2 };
    assert_eq!(sender.on_timeout(now), Ok(probes));
    for items in [vec![0], vec![1]] {
        let goes = sender.transmit(now, 1000, space, true);
        assert_eq!(goes, Ok(Transmission::Transmitted));
        assert_eq!(sender.probe(space, false), Ok(items.clone()));
        assert!(sender.send(space, now, 1000, true, None, &items).is_ok());
    }
    for items in [vec![0], vec![1]] {
        assert_eq!(sender.probe(space, true), Ok(items));
    }
    assert_eq!(sender.probe(space, false), Ok(vec![]));
    let space = SpaceId::Initial;
    assert_eq!(sender.discard(space, now), Ok(()));
    let gone = SenderError::Event(Refusal::SpaceDiscarded);
    assert_eq!(sender.probe(space, false), Err(gone));
}

/// A timeout that finds losses names their space.
#[test]
fn losses_by_time() {
    let mut sender = with_packets(2);
    ack(&mut sender, 101, &[(1, 1)], &mut Acknowledged::default());
    let now = sender.timer().unwrap();
    let Ok(Timeout::Lost { space, losses }) = sender.on_timeout(now) else {
        panic!("packet 0 is lost by now");
    };
    assert_eq!((space, losses.numbers), (SpaceId::Data, vec![0]));
}

/// All packets of a space are lost, and queued for retransmission; a discarded space has none.
#[test]
fn all_packets_of_a_space() {
    let (mut sender, space) = (with_packets(3), SpaceId::Data);
    let all = Retransmitted {
        numbers: vec![0, 1, 2],
        is_cut: false,
    };
    assert_eq!(sender.retransmit_all(space, at(5)), Ok(all));
    assert_eq!(sender.timer(), None);
    let pending = sender.on_event(Event::TakePending { space });
    assert_eq!(pending, Ok(Answer::Queue(vec![0, 1, 2])));
    let none = sender.retransmit_all(space, at(6));
    assert_eq!(none, Ok(Retransmitted::default()));
    assert_eq!(sender.discard(SpaceId::Initial, at(7)), Ok(()));
    let gone = SenderError::Event(Refusal::SpaceDiscarded);
    assert_eq!(sender.retransmit_all(SpaceId::Initial, at(8)), Err(gone));
}

/// An established sender sends and probes for 1-RTT packets alone.
#[test]
fn an_established_connection() {
    let config = RecoveryConfig::default();
    let mut sender = Sender::established(Side::Server, &config, at(5)).unwrap();
    assert_eq!((sender.timer(), sender.pto_count()), (None, 0));
    for space in [SpaceId::Initial, SpaceId::Handshake] {
        assert_eq!(sender.recovery().space(space), None);
    }
    let path = sender.recovery().path(PathName::Current).unwrap();
    assert!(path.validated);
    let sent = sender.send(SpaceId::Data, at(5), 1200, true, None, &[7]);
    assert!(sent.is_ok());
    let now = sender.timer().unwrap();
    let (space, count) = (SpaceId::Data, 2);
    assert_eq!(sender.on_timeout(now), Ok(Timeout::Probe { space, count }));
}

/// A sender's recovery has all readings of a recovery; lost contents are queued there.
#[test]
fn the_recovery_can_be_read() {
    let mut sender = with_packets(4);
    let path = sender.recovery().path(PathName::Current).unwrap();
    assert_eq!((path.in_flight, path.validated), (4000, true));
    assert_eq!(sender.recovery().next_packet_number(SpaceId::Data), Some(4));
    ack(&mut sender, 103, &[(3, 3)], &mut Acknowledged::default());
    let space = SpaceId::Data;
    let can_send = sender.recovery().space(space).unwrap().can_send;
    assert!(can_send.other);
    let pending = sender.on_event(Event::TakePending { space });
    assert_eq!(pending, Ok(Answer::Queue(vec![0])));
    assert_eq!(sender.recovery().last_items(), Ok(vec![0]));
    let loss = sender.recovery().timer(Timer::LossDetection);
    assert!(loss.is_some() && loss == sender.timer());
    let marks = sender.recovery().marks(PathName::Current).unwrap();
    // the packet number after those that were sent before the sample (RFC 9002, 7.6.2)
    assert_eq!(marks.first_packet_after_rtt_sample, Some((space, 4)));
}

/// Events that only the sender itself makes.
fn decided() -> Vec<Event<'static>> {
    let (space, now, number) = (SpaceId::Data, at(200), 1);
    let (delay, timer) = (Duration::ZERO, Timer::LossDetection);
    let counts = EcnCounts::default();
    vec![
        Event::Acked {
            space,
            now,
            number,
            app_limited: false,
        },
        Event::Lost { space, number },
        Event::LossesDone { now },
        Event::Sample { delay, rtt: delay },
        Event::EndAcks {
            now,
            app_limited: false,
            largest: None,
        },
        Event::Congestion {
            now,
            sent: now,
            persistent: false,
            bytes: 1,
        },
        Event::Ecn {
            space,
            newly_acked: 0,
            counts,
        },
        Event::QueueProbe {
            space,
            immediate_ack: false,
        },
        Event::Transmit {
            now,
            bytes: 1,
            checked: true,
        },
        Event::DiscardSpace { space },
        Event::SetTimer { timer, time: now },
        Event::StopTimer { timer },
    ]
}

/// Returns all readings of a sender as text.
fn seen(sender: &Sender) -> String {
    let (recovery, path) = (sender.recovery(), PathName::Current);
    let space = recovery.space(SpaceId::Data);
    let kept = (recovery.path(path), space, recovery.marks(path));
    format!("{kept:?} {:?}", sender.timer())
}

/// A call that fails changes nothing.
#[test]
fn refusals() {
    let mut sender = with_packets(4);
    let before = seen(&sender);
    for event in decided() {
        assert_eq!(
            sender.on_event(event),
            Err(SenderError::Decided),
            "{event:?}"
        );
    }
    let rows: [(&[(u64, u64)], SenderError); 4] = [
        (&[], Refusal::BadRange.into()),
        (&[(3, 2)], Refusal::BadRange.into()),
        (&[(1, 1), (3, 3)], Refusal::BadRange.into()),
        (&[(0, 4)], SenderError::Unsent),
    ];
    let now = at(200);
    for (ranges, wanted) in rows {
        let found = sender.on_ack(SpaceId::Data, now, &Ack::default(), ranges);
        assert_eq!(found, Err(wanted), "{ranges:?}");
    }
    assert_eq!(seen(&sender), before);
    let space = SpaceId::Initial;
    assert_eq!(sender.discard(space, now), Ok(()));
    let gone = SenderError::Event(Refusal::SpaceDiscarded);
    assert_eq!(sender.discard(space, now), Err(gone));
    assert_eq!(sender.transmit(now, 1200, space, true), Err(gone));
    assert_eq!(sender.send(space, now, 1, true, None, &[]), Err(gone));
    let found = sender.on_ack(space, now, &Ack::default(), &[(0, 0)]);
    assert_eq!(found, Err(gone));
    let far = sender.on_datagram(u64::MAX);
    assert_eq!(far, Ok(()));
    assert_eq!(sender.on_datagram(1), Err(Refusal::Overflow.into()));
}

/// Invalid settings make no sender.
#[test]
fn settings() {
    let mut config = RecoveryConfig::default();
    config.transport.min_mtu = 0;
    let made = Sender::new(Side::Client, &config, at(0));
    assert_eq!(made.err(), Some(ConfigError::ZeroMtu));
    let mut config = RecoveryConfig::default();
    config.transport.time_threshold = (9, 0);
    let made = Sender::established(Side::Client, &config, at(0));
    assert_eq!(made.err(), Some(ConfigError::ZeroDenominator));
}

/// The packet threshold applies (RFC 9002, 6.1.1).
#[test]
fn a_packet_threshold() {
    for (packet_threshold, lost) in [(3, vec![0]), (1, vec![0, 1, 2]), (9, vec![])] {
        let mut config = RecoveryConfig::default();
        config.transport.packet_threshold = packet_threshold;
        let mut sender = Sender::established(Side::Client, &config, at(0)).unwrap();
        for _ in 0..4 {
            let sent = sender.send(SpaceId::Data, at(0), 1000, true, None, &[]);
            assert!(sent.is_ok());
        }
        let mut told = Acknowledged::default();
        ack(&mut sender, 10, &[(3, 3)], &mut told);
        assert_eq!(told.losses.numbers, lost);
    }
}

/// A probe has all items that wait, which may be more than a packet holds. Those that it does not carry go into the
/// second probe and into the next packet, and each is acknowledged once (RFC 9002, 6.2.4).
#[test]
fn the_rest_of_a_probe() {
    let (space, mut told) = (SpaceId::Data, Acknowledged::default());
    let mut sender = Sender::established(Side::Client, &RecoveryConfig::default(), at(1)).unwrap();
    let send = |sender: &mut Sender, now: Instant, items: &[u64]| {
        let goes = sender.transmit(now, 1000, space, true).unwrap();
        assert_eq!(goes, Transmission::Transmitted);
        sender.send(space, now, 1000, true, None, items).unwrap();
    };
    for item in 0..6 {
        send(&mut sender, at(1), &[2 * item, 2 * item + 1]);
    }
    ack(&mut sender, 101, &[(5, 5)], &mut told);
    let lost = sender.on_timeout(sender.timer().unwrap()).unwrap();
    assert!(matches!(lost, Timeout::Lost { .. }), "{lost:?}");
    send(&mut sender, at(120), &[12]);
    let now = sender.timer().unwrap();
    let due = sender.on_timeout(now).unwrap();
    assert_eq!(due, Timeout::Probe { space, count: 2 });
    let items = sender.probe(space, false).unwrap();
    assert_eq!(items, [0, 1, 2, 3, 4, 5, 6, 7, 8, 9]);
    for carried in items.chunks(4) {
        send(&mut sender, now, carried);
    }
    ack(&mut sender, 600, &[(6, 9)], &mut told);
    let acked: Vec<_> = told.packets().flat_map(|it| it.1.to_vec()).collect();
    assert_eq!(acked, [12, 0, 1, 2, 3, 4, 5, 6, 7, 8, 9]);
    let waiting = sender.on_event(Event::TakePending { space });
    assert_eq!(waiting, Ok(Answer::Queue(vec![])));
}

/// A sender may move to another thread.
#[test]
fn moves() {
    let sender = with_packets(2);
    let timer = sender.timer();
    let other = std::thread::spawn(move || sender.timer()).join().unwrap();
    assert_eq!(other, timer);
}

/// What a stack reads of a server: at most three times the bytes received (RFC 9000, 8.1), and ten datagrams in the window (RFC
/// 9002, 7.2). The probe timeout is three times the initial RTT (RFC 9002, 6.2.2), plus the peer's delay for 1-RTT packets.
#[test]
fn rooms_and_the_timer() {
    let mut sender =
        Sender::new(Side::Server, &config(None, None), at(0)).expect("there is memory");
    assert_eq!(sender.timer_state(), TimerState::Blocked);
    assert_eq!(sender.amplification_room(), Some(0));
    sender.on_datagram(400).expect("it fits");
    assert_eq!(
        (sender.amplification_room(), sender.window_room()),
        (Some(1200), 12_000)
    );
    sender.set_initial_rtt(Duration::from_millis(100));
    assert_eq!(sender.timer_state(), TimerState::Idle);
    sender
        .send(SpaceId::Initial, at(0), 1200, true, None, &[])
        .expect("it goes");
    assert_eq!(sender.smallest_tracked(SpaceId::Initial), Some(0));
    assert_eq!(sender.smallest_tracked(SpaceId::Data), None);
    assert_eq!(sender.window_room(), 10_800);
    let (space, expires) = (SpaceId::Initial, at(300));
    assert_eq!(
        sender.timer_state(),
        TimerState::Probes { space, at: expires }
    );
    sender.on_address_validated();
    assert_eq!(sender.amplification_room(), None);
    sender
        .discard(SpaceId::Initial, at(0))
        .expect("it is not discarded yet");
    sender
        .send(SpaceId::Data, at(0), 1000, true, None, &[])
        .expect("it goes");
    assert_eq!(sender.timer_state(), TimerState::Unconfirmed);
    sender.on_handshake_confirmed();
    let (space, expires) = (SpaceId::Data, at(325));
    assert_eq!(
        sender.timer_state(),
        TimerState::Probes { space, at: expires }
    );
    assert_eq!(sender.timer(), Some(expires));
}
