//! The program of docs/TUTORIAL.md: four packets are sent, one is acknowledged, three are lost, and the retransmission is
//! probed for.
use quic_recovery::*;
use std::error::Error;
use std::time::Duration;

const SPACE: SpaceId = SpaceId::Data;
const SIZE: u16 = 1000;

fn at(micros: u64) -> Instant {
    Instant::from_nanos(micros * 1000)
}

fn timer(sender: &Sender) -> String {
    match sender.timer() {
        Some(time) => format!("{:?}", Duration::from_nanos(time.as_nanos())),
        None => "off".into(),
    }
}

fn main() -> Result<(), Box<dyn Error>> {
    let config = RecoveryConfig::new("192.0.2.1:4433".parse()?, ConnectionId::from([7; 8]));
    let mut sender = Sender::established(Side::Client, &config, at(1000))?;

    for item in 1..=4 {
        let now = at(item * 1000);
        if sender.transmit(now, SIZE, SPACE, true)? == Transmission::Transmitted {
            let sent = sender.send(SPACE, now, SIZE, true, None, &[item])?;
            println!("packet {} carries item {item}", sent.number);
        }
    }
    println!("timer: {}", timer(&sender));

    let acked = sender.on_ack(SPACE, at(104_000), &Ack::default(), &[(3, 3)])?;
    for (number, items) in acked.packets() {
        println!("packet {number} is acknowledged with items {items:?}");
    }
    println!("lost: {:?}", acked.losses.numbers);
    println!("window: {}", sender.recovery().window_and_flight().0);
    println!("timer: {}", timer(&sender));

    for now in [114_499, 114_500, 115_500] {
        match sender.on_timeout(at(now))? {
            Timeout::Lost { losses, .. } => println!("lost: {:?}", losses.numbers),
            other => println!("{other:?}"),
        }
    }
    if let Answer::Queue(items) = sender.on_event(Event::TakePending { space: SPACE })? {
        let sent = sender.send(SPACE, at(120_000), SIZE, true, None, &items)?;
        println!("packet {} carries items {items:?}", sent.number);
    }
    println!("timer: {}", timer(&sender));

    let now = at(445_000);
    if let Timeout::Probe { space, count } = sender.on_timeout(now)? {
        for _ in 0..count {
            if sender.transmit(now, SIZE, space, true)? == Transmission::Transmitted {
                let items = sender.probe(space, false)?;
                let sent = sender.send(space, now, SIZE, true, None, &items)?;
                println!("probe {} carries items {items:?}", sent.number);
            }
        }
    }
    println!("timer: {}", timer(&sender));
    Ok(())
}
