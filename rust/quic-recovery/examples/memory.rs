//! Sends until allocation fails: the error is an answer, and the recovery continues. Run it with little memory, as by
//! `ulimit -v 65536`.
use quic_recovery::*;

fn packet(nanos: u64) -> Event<'static> {
    Event::Send {
        space: SpaceId::Data,
        now: Instant::from_nanos(nanos),
        size: 1200,
        ack_eliciting: true,
        largest_acked: None,
        queue: &[1, 2, 3],
    }
}

fn main() -> Result<(), ConfigError> {
    let mut recovery = Recovery::new(&RecoveryConfig::default(), Instant::from_nanos(0))?;
    let mut sent = 0;
    let refusal = loop {
        match recovery.apply(packet(sent)) {
            Ok(_) => sent += 1,
            Err(refusal) => break refusal,
        }
    };
    println!("{sent} packets sent, then: {refusal}");
    let path = recovery.path(PathName::Current);
    let in_flight = path.map_or(0, |it| it.ack_eliciting);
    println!("{in_flight} are in flight");
    let acked = |number| Event::Acked {
        space: SpaceId::Data,
        now: Instant::from_nanos(sent),
        number,
        app_limited: false,
    };
    let count = (0..sent)
        .filter(|it| recovery.apply(acked(*it)).is_ok())
        .count();
    println!("{count} are acknowledged");
    match recovery.apply(packet(sent)) {
        Ok(_) if in_flight == sent && count as u64 == sent => println!("it goes on"),
        other => println!("it does not go on: {other:?}"),
    }
    Ok(())
}
