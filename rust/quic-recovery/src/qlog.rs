//! qlog of a live [`Sender`], for qvis: JSON text sequences (RFC 7464) of version 0.3, with the names of events that
//! draft-ietf-quic-qlog-quic-events has.
use crate::{
    Ack, Acknowledged, EcnOutcome, Instant, Losses, PathName, PathStats, Sender, Side, SpaceId,
    Timeout,
};
use std::io::{self, Write};

/// Writes what a [`Sender`] does, one record for each event. A call writes what the sender's call before it did: packets
/// sent, acknowledged and lost, the state of congestion control, the expired timer, and then the metrics of the path in
/// use. Times are exact milliseconds. It needs the crate's feature `qlog`.
///
/// ```
/// use quic_recovery::{Ack, Instant, Qlog, RecoveryConfig, Sender, Side, SpaceId};
///
/// let at = |millis: u64| Instant::from_nanos(1 + millis * 1_000_000);
/// let space = SpaceId::Data;
/// let mut sender = Sender::established(Side::Client, &RecoveryConfig::default(), at(0))?;
/// let mut qlog = Qlog::new(Vec::new(), Side::Client, "a connection")?;
/// for item in 0..4 {
///     sender.transmit(at(1), 1200, space, true)?;
///     let sent = sender.send(space, at(1), 1200, true, None, &[item])?;
///     qlog.sent(&sender, at(1), space, sent.number, 1200, true)?;
/// }
/// let (ack, ranges) = (Ack::default(), [(3, 3)]);
/// let acked = sender.on_ack(space, at(101), &ack, &ranges)?;
/// qlog.acknowledged(&sender, at(101), space, &ack, &ranges, &acked)?;
/// let text = String::from_utf8(qlog.into_inner())?;
/// assert_eq!(text.matches("transport:packet_sent").count(), 4);
/// // packet 0 is lost: it is three below the largest acknowledged (RFC 9002, 6.1.1)
/// assert!(text.contains(r#""recovery:packet_lost","data":{"header":{"packet_type":"1RTT","packet_number":0}}"#));
/// // the window grows from ten packets to eleven, and is halved (RFC 9002, 7.3.1 and 7.3.2)
/// assert!(text.contains(r#""congestion_window":6600"#));
/// # Ok::<(), Box<dyn std::error::Error>>(())
/// ```
#[derive(Debug)]
pub struct Qlog<W> {
    output: W,
    state: &'static str,
    window: u64,
}

/// The name of a packet's type.
fn kind(space: SpaceId) -> &'static str {
    match space {
        SpaceId::Initial => "initial",
        SpaceId::Handshake => "handshake",
        SpaceId::Data => "1RTT",
    }
}

/// A text of JSON.
fn quoted(text: &str) -> String {
    let mut quoted = String::from("\"");
    for it in text.chars() {
        match it {
            '"' | '\\' => quoted.extend(['\\', it]),
            '\0'..='\u{1f}' => quoted.push_str(&format!("\\u{:04x}", u32::from(it))),
            _ => quoted.push(it),
        }
    }
    quoted.push('"');
    quoted
}

impl<W: Write> Qlog<W> {
    /// Begins a recording of one endpoint, and writes its first record.
    pub fn new(mut output: W, side: Side, title: &str) -> io::Result<Self> {
        let side = match side {
            Side::Client => "client",
            Side::Server => "server",
        };
        let title = quoted(title);
        writeln!(
            output,
            "\u{1e}{{\"qlog_version\":\"0.3\",\"qlog_format\":\"JSON-SEQ\",\"title\":{title},\"trace\":{{\
             \"vantage_point\":{{\"type\":\"{side}\"}},\"common_fields\":{{\"time_format\":\"relative\",\
             \"reference_time\":0}}}}}}"
        )?;
        Ok(Qlog {
            output,
            state: "slow_start",
            window: 0,
        })
    }

    /// Returns the output. It was not flushed.
    pub fn into_inner(self) -> W {
        self.output
    }

    fn event(&mut self, now: Instant, name: &str, data: &str) -> io::Result<()> {
        let nanos = now.as_nanos();
        writeln!(
            self.output,
            "\u{1e}{{\"time\":{nanos}e-6,\"name\":\"{name}\",\"data\":{{{data}}}}}"
        )
    }

    /// Writes the packet of this number, which [`Sender::send`] returned.
    pub fn sent(
        &mut self,
        sender: &Sender,
        now: Instant,
        space: SpaceId,
        number: u64,
        size: u16,
        ack_eliciting: bool,
    ) -> io::Result<()> {
        let frame = if ack_eliciting { "ping" } else { "padding" };
        let data = format!(
            "\"header\":{{\"packet_type\":\"{}\",\"packet_number\":{number}}},\"raw\":{{\"length\":{size}}},\
             \"frames\":[{{\"frame_type\":\"{frame}\"}}]",
            kind(space)
        );
        self.event(now, "transport:packet_sent", &data)?;
        self.metrics(sender, now)
    }

    /// Writes an ACK frame, the highest of its ranges first, and what [`Sender::on_ack`] returned for it.
    pub fn acknowledged(
        &mut self,
        sender: &Sender,
        now: Instant,
        space: SpaceId,
        ack: &Ack,
        ranges: &[(u64, u64)],
        outcome: &Acknowledged,
    ) -> io::Result<()> {
        let shown: Vec<String> = ranges
            .iter()
            .rev()
            .map(|(first, last)| format!("[{first},{last}]"))
            .collect();
        let marks = match &ack.ecn {
            Some(it) => format!(
                ",\"ect0\":{},\"ect1\":{},\"ce\":{}",
                it.ect0, it.ect1, it.ce
            ),
            None => String::new(),
        };
        let data = format!(
            "\"header\":{{\"packet_type\":\"{}\"}},\"frames\":[{{\"frame_type\":\"ack\",\"ack_delay\":{}e-6,\
             \"acked_ranges\":[{}]{marks}}}]",
            kind(space),
            ack.delay.as_nanos(),
            shown.join(",")
        );
        self.event(now, "transport:packet_received", &data)?;
        if outcome.ecn == EcnOutcome::Marked {
            self.turn(now, "recovery", ",\"trigger\":\"ECN\"")?;
        }
        self.lost(now, space, &outcome.losses)?;
        self.metrics(sender, now)
    }

    /// Writes what [`Sender::on_timeout`] returned.
    pub fn timed_out(
        &mut self,
        sender: &Sender,
        now: Instant,
        timeout: &Timeout,
    ) -> io::Result<()> {
        self.event(now, "recovery:timer_updated", "\"event_type\":\"expired\"")?;
        if let Timeout::Lost { space, losses } = timeout {
            self.lost(now, *space, losses)?;
        }
        self.metrics(sender, now)
    }

    fn lost(&mut self, now: Instant, space: SpaceId, losses: &Losses) -> io::Result<()> {
        for number in losses.numbers.iter().chain(&losses.probe) {
            let data = format!(
                "\"header\":{{\"packet_type\":\"{}\",\"packet_number\":{number}}}",
                kind(space)
            );
            self.event(now, "recovery:packet_lost", &data)?;
        }
        match losses.congestion {
            Some(_) if losses.is_persistent => {
                self.turn(now, "recovery", ",\"trigger\":\"persistent_congestion\"")
            }
            Some(_) => self.turn(now, "recovery", ""),
            None => Ok(()),
        }
    }

    fn turn(&mut self, now: Instant, state: &'static str, why: &str) -> io::Result<()> {
        let old = std::mem::replace(&mut self.state, state);
        let data = format!("\"old\":\"{old}\",\"new\":\"{state}\"{why}");
        self.event(now, "recovery:congestion_state_updated", &data)
    }

    /// Writes the metrics of the path in use, and the state of congestion control if the window grows in another one.
    fn metrics(&mut self, sender: &Sender, now: Instant) -> io::Result<()> {
        let Some(path) = sender.recovery().path(PathName::Current) else {
            return Ok(());
        };
        let PathStats {
            window,
            in_flight,
            ack_eliciting,
            ..
        } = path;
        let (rtt, count) = (path.rtt, sender.pto_count());
        let (smoothed, least) = (rtt.get.as_nanos(), rtt.min.as_nanos());
        let (latest, variance) = (rtt.latest.as_nanos(), rtt.variance.as_nanos());
        let ssthresh = path.ssthresh.filter(|it| *it < u64::MAX);
        let shown = ssthresh.map_or(String::new(), |it| format!(",\"ssthresh\":{it}"));
        let data = format!(
            "\"bytes_in_flight\":{in_flight},\"packets_in_flight\":{ack_eliciting},\"congestion_window\":{window},\
             \"pto_count\":{count},\"smoothed_rtt\":{smoothed}e-6,\"rtt_variance\":{variance}e-6,\"min_rtt\":{least}e-6,\"latest_rtt\":{latest}e-6{shown}"
        );
        self.event(now, "recovery:metrics_updated", &data)?;
        let grows = window > self.window;
        self.window = window;
        let state = match ssthresh {
            Some(it) if window >= it => "congestion_avoidance",
            _ => "slow_start",
        };
        if grows && state != self.state {
            return self.turn(now, state, "");
        }
        Ok(())
    }
}
