//! A client sends so many megabytes to a server over UDP on the loopback interface, by quinn: what came, how fast, and
//! at what cost of processors.
//!
//!     transfer MEGABYTES CONTROLLER [WINDOW]      CONTROLLER: reno, proved, cubic, or both, whose windows are
//!                                                 compared
mod both;
use quinn::{congestion, ClientConfig, Connection, Endpoint, ServerConfig, TransportConfig};
use quinn_congestion::{CubicConfig, NewRenoConfig};
use std::sync::{atomic::Ordering::Relaxed, mpsc, Arc};
use std::{net::SocketAddr, thread, time::Instant};

/// Seconds of a processor that this thread took, the system's among them.
fn processor() -> f64 {
    // SAFETY: all zeros is one, and it is written.
    let it = unsafe {
        let mut it: libc::rusage = std::mem::zeroed();
        libc::getrusage(libc::RUSAGE_THREAD, &mut it);
        it
    };
    let seconds = |it: libc::timeval| it.tv_sec as f64 + it.tv_usec as f64 / 1e6;
    seconds(it.ru_utime) + seconds(it.ru_stime)
}

/// By the name of a controller, and its window at the start.
fn transport(controller: &str, window: u64) -> Arc<TransportConfig> {
    let mut config = TransportConfig::default();
    let mut own = congestion::NewRenoConfig::default();
    own.initial_window(window);
    own.max_datagram_size(1200).minimum_window(2400);
    let (own, proved) = (Arc::new(own), NewRenoConfig { initial_window: window, ..Default::default() });
    match controller {
        "reno" => config.congestion_controller_factory(own),
        "proved" => config.congestion_controller_factory(proved),
        "cubic" => {
            config.congestion_controller_factory(CubicConfig { initial_window: window, ..Default::default() })
        }
        "both" => config.congestion_controller_factory(both::BothConfig { proved, own }),
        _ => panic!("no controller {controller}"),
    };
    Arc::new(config)
}

fn block_on<T>(work: impl std::future::Future<Output = T>) -> T {
    let runtime = tokio::runtime::Builder::new_current_thread().enable_all().build();
    runtime.unwrap().block_on(work)
}

fn sum(of: u64, bytes: &[u8]) -> u64 {
    bytes.iter().fold(of, |sum, &it| sum.wrapping_mul(31).wrapping_add(it.into()))
}

/// Reads all of a stream, and answers its sum.
async fn serve(connection: Connection) -> (usize, u64) {
    let (mut answer, mut stream) = connection.accept_bi().await.unwrap();
    let (mut got, mut summed) = (0, 0);
    while let Some(chunk) = stream.read_chunk(usize::MAX, true).await.unwrap() {
        got += chunk.bytes.len();
        summed = sum(summed, &chunk.bytes);
    }
    answer.write_all(&summed.to_le_bytes()).await.unwrap();
    answer.finish().await.unwrap();
    connection.closed().await;
    (got, connection.stats().frame_tx.acks)
}

/// Sends a piece so many times: the seconds until the answer came.
async fn send(connection: &Connection, piece: bytes::Bytes, count: usize) -> f64 {
    let (mut stream, answer) = connection.open_bi().await.unwrap();
    let began = Instant::now();
    for _ in 0..count {
        stream.write_chunk(piece.clone()).await.unwrap();
    }
    stream.finish().await.unwrap();
    let answered = answer.read_to_end(8).await.unwrap();
    let seconds = began.elapsed().as_secs_f64();
    let wanted = (0..count).fold(0, |summed, _| sum(summed, &piece));
    assert_eq!(answered, wanted.to_le_bytes());
    seconds
}

fn main() {
    let args: Vec<String> = std::env::args().collect();
    let megabytes: usize = args[1].parse().unwrap();
    let window = args.get(3).map_or(12_000, |it| it.parse().unwrap());
    let transport = transport(&args[2], window);
    let certified = rcgen::generate_simple_self_signed(vec!["localhost".into()]).unwrap();
    let key = rustls::PrivateKey(certified.serialize_private_key_der());
    let certificate = rustls::Certificate(certified.serialize_der().unwrap());

    let (tell, told) = mpsc::channel();
    let (shown, settings) = (certificate.clone(), transport.clone());
    let server = thread::spawn(move || {
        block_on(async move {
            let mut config = ServerConfig::with_single_cert(vec![shown], key).unwrap();
            config.transport = settings;
            let end = Endpoint::server(config, "127.0.0.1:0".parse().unwrap()).unwrap();
            tell.send(end.local_addr().unwrap()).unwrap();
            let connection = end.accept().await.unwrap().await.unwrap();
            (serve(connection).await, processor())
        })
    });
    let address: SocketAddr = told.recv().unwrap();
    let (seconds, path) = block_on(async {
        let mut roots = rustls::RootCertStore::empty();
        roots.add(&certificate).unwrap();
        let mut config = ClientConfig::with_root_certificates(roots);
        config.transport_config(transport);
        let mut end = Endpoint::client("127.0.0.1:0".parse().unwrap()).unwrap();
        end.set_default_client_config(config);
        let connection = end.connect(address, "localhost").unwrap().await.unwrap();
        let piece: Vec<u8> = (0..1 << 20).map(|it: u32| (it ^ it >> 8) as u8).collect();
        let seconds = send(&connection, piece.into(), megabytes).await;
        let path = connection.stats().path;
        connection.close(0u32.into(), b"");
        end.wait_idle().await;
        (seconds, path)
    });
    let client = processor();
    let ((got, acks), server) = server.join().unwrap();
    assert_eq!(got, megabytes << 20);
    let (compared, differed) = (both::COMPARED.load(Relaxed), both::DIFFERED.load(Relaxed));
    assert_eq!(differed, 0, "windows differ, of {compared}");
    let beside = if compared > 0 { format!(", {compared} windows compared and none differs") } else { String::new() };
    println!(
        "{megabytes} MB, and all came as sent: {:.0} MB/s, {:.2} s of processors, {} packets, {} lost, {acks} ACKs\
         {beside}",
        megabytes as f64 / seconds, client + server, path.sent_packets, path.lost_packets
    );
}
