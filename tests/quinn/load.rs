//! Transfers over a link that loses, delays and marks packets, and whose client moves: more of a connection's recovery
//! is used than by the tests beside.
use super::*;
use crate::congestion::NewRenoConfig;
use rand::{rngs::StdRng, Rng, SeedableRng};
use std::collections::VecDeque;

/// A link, of which chances are in thousandths.
#[derive(Clone, Copy)]
struct Link {
    bytes: usize,
    /// Bytes in a millisecond
    rate: u64,
    latency: Duration,
    /// What may wait at its entry, in bytes
    queue: u64,
    loss: u32,
    late: u32,
    marked: u32,
    twice: u32,
    /// How often the client gets another address, and whether only the port is another one
    moves: usize,
    port_alone: bool,
    /// Whether the server sends
    down: bool,
}

const PLAIN: Link = Link {
    bytes: 2_000_000,
    rate: 2_500,
    latency: Duration::from_millis(10),
    queue: 60_000,
    loss: 0,
    late: 0,
    marked: 0,
    twice: 0,
    moves: 0,
    port_alone: true,
    down: false,
};

fn size_of_load() -> usize {
    let given = std::env::var("QUINN_LOAD").ok();
    given.map_or(1, |it| it.parse().unwrap())
}

type Inbound = VecDeque<(Instant, Option<EcnCodepoint>, Vec<u8>)>;

/// One direction of the link.
struct Way {
    free: Instant,
    rng: StdRng,
}

impl Way {
    /// What came behind the first `old` datagrams goes over the link.
    fn carry(&mut self, link: &Link, now: Instant, old: usize, inbound: &mut Inbound) {
        let fresh = inbound.split_off(old);
        for (_, ecn, contents) in fresh {
            let mut chance = |of: u32| self.rng.gen_ratio(of, 1000);
            let (lost, late) = (chance(link.loss), chance(link.late));
            let (marked, twice) = (chance(link.marked), chance(link.twice));
            self.free = self.free.max(now);
            let waits = (self.free - now).as_micros() as u64 * link.rate / 1000;
            if lost || waits > link.queue {
                continue;
            }
            self.free += Duration::from_nanos(contents.len() as u64 * 1_000_000 / link.rate);
            let more = Duration::from_millis(if late { 7 } else { 0 });
            let ecn = if marked { Some(EcnCodepoint::Ce) } else { ecn };
            let arrives = self.free + link.latency + more;
            inbound.push_back((arrives, ecn, contents.clone()));
            if twice {
                inbound.push_back((arrives + Duration::from_millis(3), ecn, contents));
            }
        }
        inbound.make_contiguous().sort_by_key(|it| it.0);
    }
}

fn reno() -> Arc<TransportConfig> {
    let mut config = TransportConfig::default();
    config.congestion_controller_factory(Arc::new(NewRenoConfig::default()));
    Arc::new(config)
}

fn transfer(link: Link, seed: u64) {
    let mut server = server_config();
    server.transport = reno();
    let mut pair = Pair::new(Default::default(), server);
    let mut config = client_config();
    config.transport_config(reno());
    let (client_ch, server_ch) = pair.connect_with(config);
    let way = |seed| Way { free: pair.time, rng: StdRng::seed_from_u64(seed) };
    let (mut there, mut back) = (way(seed), way(seed + 1_000));
    let began = pair.time;
    let piece: Vec<u8> = (0..65_536u32).map(|it| (it ^ it >> 8) as u8).collect();
    let (from, to) = if link.down { (server_ch, client_ch) } else { (client_ch, server_ch) };
    macro_rules! sender {
        () => {
            if link.down { &mut pair.server } else { &mut pair.client }.connections.get_mut(&from).unwrap()
        };
    }
    macro_rules! receiver {
        () => {
            if link.down { &mut pair.client } else { &mut pair.server }.connections.get_mut(&to).unwrap()
        };
    }
    let s = sender!().streams().open(Dir::Uni).unwrap();
    let (mut written, mut read, mut steps, mut moved) = (0, 0, 0u64, 0);
    while read < link.bytes {
        let finished = written == link.bytes;
        while written < link.bytes {
            let at = written % piece.len();
            let most = (link.bytes - written).min(piece.len() - at);
            match sender!().send_stream(s).write(&piece[at..at + most]) {
                Ok(n) => written += n,
                Err(_) => break,
            }
        }
        if written == link.bytes && !finished {
            sender!().send_stream(s).finish().unwrap();
        }
        if moved < link.moves && read > link.bytes / (link.moves + 1) * (moved + 1) {
            moved += 1;
            let port = CLIENT_PORTS.lock().unwrap().next().unwrap();
            let host = if link.port_alone { 1 } else { 1 + moved as u8 };
            pair.client.addr = SocketAddr::new(Ipv4Addr::new(127, 0, 0, host).into(), port);
        }

        let old = pair.server.inbound.len();
        pair.drive_client();
        there.carry(&link, pair.time, old, &mut pair.server.inbound);
        let old = pair.client.inbound.len();
        pair.drive_server();
        back.carry(&link, pair.time, old, &mut pair.client.inbound);

        if let Ok(mut chunks) = receiver!().recv_stream(s).read(true).map_err(|_| ()) {
            while let Ok(Some(chunk)) = chunks.next(usize::MAX) {
                for byte in &chunk.bytes[..] {
                    assert_eq!(*byte, piece[read % piece.len()]);
                    read += 1;
                }
            }
            let _ = chunks.finalize();
        }
        while pair.server_conn_mut(server_ch).poll().is_some() {}
        while let Some(event) = pair.client_conn_mut(client_ch).poll() {
            assert!(!matches!(event, Event::ConnectionLost { .. }), "{:?}", event);
        }
        let wakes = [pair.client.next_wakeup(), pair.server.next_wakeup()];
        let next = wakes.into_iter().flatten().min().expect("something is to come");
        pair.time = pair.time.max(next);
        steps += 1;
        assert!(steps < 2_000_000, "{} of {} bytes came", read, link.bytes);
    }
    let stats = sender!().stats();
    println!(
        "load: {} bytes in {:?} of the link's time, {} packets, {} lost, {} events of congestion, window {}, rtt {:?}",
        read,
        pair.time - began,
        stats.path.sent_packets,
        stats.path.lost_packets,
        stats.path.congestion_events,
        stats.path.cwnd,
        stats.path.rtt
    );
}

fn several(link: Link) {
    let bytes = link.bytes * size_of_load();
    for seed in 0..3 {
        transfer(Link { bytes, ..link }, seed);
    }
}

#[test]
fn load_plain() {
    several(PLAIN);
}

#[test]
fn load_unlimited() {
    several(Link { rate: 1_000_000, queue: 10_000_000, ..PLAIN });
}

#[test]
fn load_lossy() {
    several(Link { loss: 20, ..PLAIN });
}

#[test]
fn load_late() {
    several(Link { late: 30, twice: 10, ..PLAIN });
}

#[test]
fn load_marked() {
    several(Link { marked: 5, ..PLAIN });
}

#[test]
fn load_all() {
    several(Link { loss: 10, late: 10, marked: 2, twice: 10, ..PLAIN });
}

#[test]
fn load_long() {
    several(Link { latency: Duration::from_millis(150), loss: 2, queue: 200_000, ..PLAIN });
}

#[test]
fn load_down() {
    several(Link { loss: 5, down: true, ..PLAIN });
}

#[test]
fn load_port_moves() {
    several(Link { loss: 5, moves: 5, down: true, ..PLAIN });
}

#[test]
fn load_address_moves() {
    several(Link { loss: 5, moves: 5, port_alone: false, down: true, ..PLAIN });
}

/// A peer that seems to move, and is not heard of at the new address: what was known of the old one is used again.
#[test]
fn gone_back() {
    let mut server = server_config();
    server.transport = reno();
    let mut pair = Pair::new(Default::default(), server);
    pair.latency = Duration::from_millis(10);
    let (client_ch, server_ch) = pair.connect();
    let s = pair.server_streams(server_ch).open(Dir::Uni).unwrap();
    for _ in 0..20 {
        let _ = pair.server_send(server_ch, s).write(&[7; 20_000]);
        pair.drive();
        let mut recv = pair.client_recv(client_ch, s);
        if let Ok(mut chunks) = recv.read(true) {
            while let Ok(Some(_)) = chunks.next(usize::MAX) {}
            let _ = chunks.finalize();
        };
    }
    let known = |pair: &mut Pair| {
        let stats = pair.server_conn_mut(server_ch).stats();
        (stats.path.rtt.as_millis(), stats.path.cwnd)
    };
    let (before, old) = (known(&mut pair), pair.client.addr);
    let port = CLIENT_PORTS.lock().unwrap().next().unwrap();
    pair.client.addr = SocketAddr::new(Ipv4Addr::LOCALHOST.into(), port);
    pair.client_conn_mut(client_ch).ping();
    pair.drive_client();
    pair.time += pair.latency;
    pair.drive_server();
    assert_ne!(pair.server_conn_mut(server_ch).remote_address(), old);
    let meanwhile = known(&mut pair);
    while pair.server_conn_mut(server_ch).remote_address() != old {
        pair.client.inbound.clear();
        pair.time = pair.server.next_wakeup().unwrap();
        pair.drive_server();
        assert!(!pair.server_conn_mut(server_ch).is_closed());
    }
    let after = known(&mut pair);
    println!("load: rtt in ms and window: {before:?} before, {meanwhile:?} meanwhile, {after:?} after");
    assert_eq!(before, after);
}

/// A peer that seems to move twice, and is not heard of at either new address: the server goes back to the address that
/// was validated last (RFC 9000, 9.3.2), and sends there as fast as before.
#[test]
fn gone_back_twice() {
    let mut server = server_config();
    server.transport = reno();
    let mut pair = Pair::new(Default::default(), server);
    pair.latency = Duration::from_millis(10);
    pair.client.addr = SocketAddr::new(Ipv4Addr::LOCALHOST.into(), pair.client.addr.port());
    let (client_ch, server_ch) = pair.connect();
    let s = pair.server_streams(server_ch).open(Dir::Uni).unwrap();
    let piece = |pair: &mut Pair| {
        let (began, mut left) = (pair.time, 20_000);
        while left > 0 {
            left -= pair.server_send(server_ch, s).write(&[7; 20_000][..left]).unwrap_or(0);
            pair.drive();
            let mut recv = pair.client_recv(client_ch, s);
            if let Ok(mut chunks) = recv.read(true) {
                while let Ok(Some(_)) = chunks.next(usize::MAX) {}
                let _ = chunks.finalize();
            };
        }
        pair.time - began
    };
    for _ in 0..20 {
        piece(&mut pair);
    }
    let (before, old) = (piece(&mut pair), pair.client.addr);
    for _ in 0..2 {
        let port = CLIENT_PORTS.lock().unwrap().next().unwrap();
        pair.client.addr = SocketAddr::new(Ipv4Addr::LOCALHOST.into(), port);
        pair.client_conn_mut(client_ch).ping();
        pair.drive_client();
        pair.time += pair.latency;
        pair.drive_server();
        pair.client.inbound.clear();
        assert_eq!(pair.server_conn_mut(server_ch).remote_address(), pair.client.addr);
    }
    while pair.server_conn_mut(server_ch).remote_address() != old {
        pair.client.inbound.clear();
        pair.time = pair.server.next_wakeup().unwrap();
        pair.drive_server();
        assert!(!pair.server_conn_mut(server_ch).is_closed());
    }
    pair.client.addr = old;
    let after = piece(&mut pair);
    println!("load: 20,000 bytes in {before:?} before, {after:?} after");
    assert!(after < 4 * before);
}
