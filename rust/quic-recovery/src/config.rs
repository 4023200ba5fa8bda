//! The configuration of a recovery.
use crate::ffi;
use crate::types::ConnectionId;
use std::error::Error;
use std::fmt;
use std::net::{IpAddr, Ipv4Addr, SocketAddr};
use std::time::Duration;

/// The configuration of MTU discovery (RFC 8899, 5.1; RFC 9000, 14.3).
///
/// ```
/// # use quic_recovery::*;
/// # let at = |secs: u64| Instant::from_nanos(1 + secs * 1_000_000_000);
/// let mut mtu = MtuDiscovery::new(&TransportConfig::default(), None)?;
/// let mut number = 0;
/// while mtu.poll_transmit(at(0), number).is_some() {
///     mtu.on_probe_lost();
///     number += 1;
/// }
/// // no probe arrived; the next search begins after ten minutes (RFC 8899, 5.1.1)
/// assert_eq!(mtu.current_mtu(), 1200);
/// assert_eq!(mtu.poll_transmit(at(599), number), None);
/// assert!(mtu.poll_transmit(at(600), number).is_some());
/// # Ok::<(), Box<dyn std::error::Error>>(())
/// ```
#[derive(Clone, Copy, Debug, PartialEq, Eq)]
pub struct MtuDiscoveryConfig {
    /// The time from the end of a search to the next one.
    pub interval: Duration,
    /// The largest size that is probed, in bytes; a larger value counts as 65,527.
    pub upper_bound: u16,
    /// The time from the report of a black hole to the next search.
    pub black_hole_cooldown: Duration,
    /// The smallest difference of sizes that is worth a probe, in bytes; 0 counts as 1.
    pub minimum_change: u16,
}

impl Default for MtuDiscoveryConfig {
    /// Returns ten minutes, 1452 bytes, one minute, 20 bytes.
    fn default() -> Self {
        MtuDiscoveryConfig {
            interval: Duration::from_secs(600),
            upper_bound: 1452,
            black_hole_cooldown: Duration::from_secs(60),
            minimum_change: 20,
        }
    }
}

/// The configuration of NewReno (RFC 9002, 7).
#[derive(Clone, Copy, Debug, PartialEq, Eq)]
pub struct NewRenoConfig {
    /// The initial window, in bytes, above zero (RFC 9002, 7.2).
    pub initial_window: u64,
    /// The factor by which a loss reduces the window: numerator and denominator, which is above zero (RFC 9002, 7.3.2).
    pub loss_reduction_factor: (u64, u64),
}

impl Default for NewRenoConfig {
    /// Returns 12,000 bytes, and a half.
    fn default() -> Self {
        NewRenoConfig {
            initial_window: 12_000,
            loss_reduction_factor: (1, 2),
        }
    }
}

/// The configuration of CUBIC (RFC 9438).
#[derive(Clone, Copy, Debug, PartialEq, Eq)]
pub struct CubicConfig {
    /// The initial window, in bytes, above zero (RFC 9002, 7.2).
    pub initial_window: u64,
}

impl Default for CubicConfig {
    /// Returns 12,000 bytes.
    fn default() -> Self {
        CubicConfig {
            initial_window: 12_000,
        }
    }
}

/// Which congestion controller paths have.
///
/// ```
/// # use quic_recovery::*;
/// # let at = |millis: u64| Instant::from_nanos(1 + millis * 1_000_000);
/// # let (mut config, space) = (RecoveryConfig::default(), SpaceId::Data);
/// config.transport.congestion = Congestion::NewReno(NewRenoConfig::default());
/// let mut sender = Sender::established(Side::Client, &config, at(0))?;
/// for item in 0..4 {
///     sender.send(space, at(1), 1200, true, None, &[item])?;
/// }
/// // the ACK adds the 1200 bytes that it acknowledges (RFC 9002, 7.3.1); the loss then halves the window (7.3.2)
/// let acked = sender.on_ack(space, at(51), &Ack::default(), &[(3, 3)])?;
/// assert_eq!(acked.losses.congestion, Some(1200));
/// assert_eq!(sender.recovery().window_and_flight().0, (12_000 + 1200) / 2);
/// # Ok::<(), Box<dyn std::error::Error>>(())
/// ```
#[derive(Clone, Copy, Debug, PartialEq, Eq)]
pub enum Congestion {
    /// NewReno (RFC 9002, 7).
    NewReno(NewRenoConfig),
    /// A fixed window of this many bytes, above zero.
    Fixed(u64),
    /// CUBIC (RFC 9438).
    Cubic(CubicConfig),
}

impl Default for Congestion {
    /// Returns NewReno with its defaults.
    fn default() -> Self {
        Congestion::NewReno(NewRenoConfig::default())
    }
}

/// The configuration of paths.
///
/// ```
/// # use quic_recovery::*;
/// # let at = |millis: u64| Instant::from_nanos(1 + millis * 1_000_000);
/// # use std::time::Duration;
/// let mut config = RecoveryConfig::default();
/// config.transport.initial_rtt = Duration::from_millis(50);
/// config.transport.congestion = Congestion::Cubic(CubicConfig { initial_window: 14_720 });
/// config.transport.mtu_discovery_config = None;
/// let mut sender = Sender::established(Side::Client, &config, at(0))?;
/// // ten datagrams of 1472 bytes (RFC 9002, 7.2)
/// assert_eq!(sender.recovery().window_and_flight(), (14_720, 0));
/// // the RTT before the first sample, and four times half of it (RFC 9002, 5.3 and 6.2)
/// assert_eq!(sender.recovery().pto_base(), Duration::from_millis(150));
/// assert_eq!(sender.poll_mtu(at(0))?, None);
/// # Ok::<(), Box<dyn std::error::Error>>(())
/// ```
#[derive(Clone, Copy, Debug, PartialEq, Eq)]
pub struct TransportConfig {
    /// The RTT that a path uses before its first sample (RFC 9002, 6.2.2).
    pub initial_rtt: Duration,
    /// The datagram size before the MTU search, in bytes, above zero (RFC 9000, 14).
    pub initial_mtu: u16,
    /// The datagram size that the path is known to carry, in bytes, above zero (RFC 9000, 14).
    pub min_mtu: u16,
    /// The configuration of MTU discovery; `None` disables it.
    pub mtu_discovery_config: Option<MtuDiscoveryConfig>,
    /// The congestion controller of each path.
    pub congestion: Congestion,
    /// The packet threshold of a [`Sender`](crate::Sender): a packet is lost if one with a number at least this much
    /// larger is acknowledged. RFC 9002, 6.1.1 recommends at least 3; 0 counts as 1.
    ///
    /// ```
    /// # use quic_recovery::*;
    /// # let at = |millis: u64| Instant::from_nanos(1 + millis * 1_000_000);
    /// # let (mut config, space) = (RecoveryConfig::default(), SpaceId::Data);
    /// config.transport.packet_threshold = 4;
    /// let mut sender = Sender::established(Side::Client, &config, at(0))?;
    /// for item in 0..5 {
    ///     sender.send(space, at(0), 1200, true, None, &[item])?;
    /// }
    /// // a packet is lost if one at least four above it is acknowledged (RFC 9002, 6.1.1)
    /// let acked = sender.on_ack(space, at(50), &Ack::default(), &[(4, 4)])?;
    /// assert_eq!(acked.losses.numbers, [0]);
    /// # Ok::<(), Box<dyn std::error::Error>>(())
    /// ```
    pub packet_threshold: u32,
    /// The time threshold of a [`Sender`](crate::Sender), in RTTs: numerator and denominator, which is above zero. A
    /// packet is lost this long after it was sent, if a later one is acknowledged (RFC 9002, 6.1.2). A smaller fraction
    /// than 1 counts as 1.
    ///
    /// ```
    /// # use quic_recovery::*;
    /// # let at = |millis: u64| Instant::from_nanos(1 + millis * 1_000_000);
    /// # let (mut config, space) = (RecoveryConfig::default(), SpaceId::Data);
    /// config.transport.time_threshold = (5, 4);
    /// let mut sender = Sender::established(Side::Client, &config, at(0))?;
    /// for item in 0..2 {
    ///     sender.send(space, at(0), 1200, true, None, &[item])?;
    /// }
    /// sender.on_ack(space, at(100), &Ack::default(), &[(1, 1)])?;
    /// // packet 0 is lost after 5/4 of the RTT of 100 ms (RFC 9002, 6.1.2)
    /// assert_eq!(sender.timer(), Some(at(125)));
    /// # Ok::<(), Box<dyn std::error::Error>>(())
    /// ```
    pub time_threshold: (u64, u64),
    /// How many probe timeouts persistent congestion lasts, for a [`Sender`](crate::Sender) (RFC 9002, 7.6.1); 0 counts
    /// as 1.
    pub persistent_congestion_threshold: u32,
}

impl Default for TransportConfig {
    /// Returns 333 ms, 1200 bytes, 1200 bytes, the defaults of MTU discovery and of NewReno, 3 packets, 9/8 of an RTT,
    /// and 3 probe timeouts.
    fn default() -> Self {
        TransportConfig {
            initial_rtt: Duration::from_millis(333),
            initial_mtu: 1200,
            min_mtu: 1200,
            mtu_discovery_config: Some(MtuDiscoveryConfig::default()),
            congestion: Congestion::default(),
            packet_threshold: 3,
            time_threshold: (9, 8),
            persistent_congestion_threshold: 3,
        }
    }
}

/// How 1-RTT packet numbers are skipped (RFC 9000, 21.4).
///
/// ```
/// # use quic_recovery::*;
/// # let at = |millis: u64| Instant::from_nanos(1 + millis * 1_000_000);
/// # let (mut config, space) = (RecoveryConfig::default(), SpaceId::Data);
/// config.skips = Skips::Starting(1, 7);
/// let mut sender = Sender::established(Side::Client, &config, at(0))?;
/// assert_eq!(sender.send(space, at(0), 1200, true, None, &[])?.number, 0);
/// assert_eq!(sender.send(space, at(0), 1200, true, None, &[])?.number, 2);
/// // number 1 was skipped, so that the peer cannot have received it (RFC 9000, 21.4)
/// let guessed = sender.on_ack(space, at(50), &Ack::default(), &[(0, 2)]);
/// assert_eq!(guessed, Err(Refusal::SkippedAcked.into()));
/// # Ok::<(), Box<dyn std::error::Error>>(())
/// ```
#[derive(Clone, Copy, Debug, PartialEq, Eq)]
pub enum Skips {
    /// No number is skipped.
    Disabled,
    /// PCG32 draws the skips with this seed. Use a seed that peers cannot guess.
    Drawn(u64),
    /// The first skip is the first number, below 64; the following ones are drawn with the second number as the seed.
    Starting(u64, u64),
}

/// The configuration of a recovery.
///
/// ```
/// # use quic_recovery::*;
/// # let at = |millis: u64| Instant::from_nanos(1 + millis * 1_000_000);
/// # use std::time::Duration;
/// let config = RecoveryConfig {
///     max_ack_delay: Duration::from_millis(10),
///     cid_lifetime: None,
///     ..RecoveryConfig::new("192.0.2.1:4433".parse()?, ConnectionId::from([7; 8]))
/// };
/// let sender = Sender::new(Side::Server, &config, at(0))?;
/// // the local endpoint announces this delay (RFC 9000, 18.2)
/// assert_eq!(sender.recovery().ids().max_ack_delay, Duration::from_millis(10));
/// // no ID is to be retired at some time (RFC 9000, 5.1.2)
/// assert_eq!(sender.recovery().next_id_timeout(), None);
/// # Ok::<(), Box<dyn std::error::Error>>(())
/// ```
#[derive(Clone, Copy, Debug, PartialEq, Eq)]
pub struct RecoveryConfig {
    /// The configuration of paths.
    pub transport: TransportConfig,
    /// The peer's address on the first path.
    pub remote: SocketAddr,
    /// Whether the peer's address is validated at the start (RFC 9000, 8.1).
    pub validated: bool,
    /// Whether MTU discovery is allowed, if the configuration of paths enables it.
    pub allow_mtud: bool,
    /// The local max_ack_delay, until the peer requests another (RFC 9000, 18.2).
    pub max_ack_delay: Duration,
    /// The connection ID of the peer that is used first (RFC 9000, 5.1.1).
    pub initial_cid: ConnectionId,
    /// The length of local connection IDs; 0 if there are none.
    pub cid_len: u8,
    /// The lifetime of local connection IDs before the peer is to retire them; `None` if they do not expire.
    pub cid_lifetime: Option<Duration>,
    /// How many connection IDs the local endpoint has issued at the start, at most 2^62. Memory grows with it, by 16
    /// bytes per ID: at 2^40, [`Recovery::new`](crate::Recovery::new) fails with `NoMemory` on most machines.
    pub issued: u64,
    /// How packet numbers are skipped.
    pub skips: Skips,
}

impl RecoveryConfig {
    /// Returns the default configuration for a peer at this address, with this connection ID.
    pub fn new(remote: SocketAddr, initial_cid: ConnectionId) -> Self {
        RecoveryConfig {
            remote,
            initial_cid,
            ..RecoveryConfig::default()
        }
    }
}

impl Default for RecoveryConfig {
    /// Returns the configuration of the program `recovery-replay`. The peer's address is 192.0.2.1, port 4433, and is
    /// not validated. The max_ack_delay is 25 ms. One connection ID of 8 bytes is issued, with a lifetime of 10 s. No
    /// packet numbers are skipped.
    fn default() -> Self {
        RecoveryConfig {
            transport: TransportConfig::default(),
            remote: SocketAddr::new(IpAddr::V4(Ipv4Addr::new(192, 0, 2, 1)), 4433),
            validated: false,
            allow_mtud: true,
            max_ack_delay: Duration::from_millis(25),
            initial_cid: ConnectionId::from([255; 8]),
            cid_len: 8,
            cid_lifetime: Some(Duration::from_secs(10)),
            issued: 1,
            skips: Skips::Disabled,
        }
    }
}

/// Why no recovery was made.
#[derive(Clone, Copy, Debug, PartialEq, Eq)]
#[non_exhaustive]
pub enum ConfigError {
    /// Allocation failed.
    NoMemory,
    /// More than 2^62 connection IDs were issued at the start.
    TooManyIssued,
    /// The first skip is 64 or more.
    SkipTooLarge,
    /// An MTU is zero.
    ZeroMtu,
    /// The initial window is zero.
    ZeroWindow,
    /// The denominator of the loss reduction factor, or of the time threshold, is zero.
    ZeroDenominator,
}

impl fmt::Display for ConfigError {
    fn fmt(&self, f: &mut fmt::Formatter<'_>) -> fmt::Result {
        f.write_str(match self {
            ConfigError::NoMemory => "out of memory",
            ConfigError::TooManyIssued => "more than 2^62 ids are issued",
            ConfigError::SkipTooLarge => "the first skip is 64 or more",
            ConfigError::ZeroMtu => "an MTU is zero",
            ConfigError::ZeroWindow => "the initial window is zero",
            ConfigError::ZeroDenominator => {
                "the denominator of the loss reduction factor or of the time threshold is zero"
            }
        })
    }
}

impl Error for ConfigError {}

/// Returns a duration in nanoseconds, at most `u64::MAX`.
pub(crate) fn nanos(span: Duration) -> u64 {
    u64::try_from(span.as_nanos()).unwrap_or(u64::MAX)
}

/// Returns an address in the library's form.
pub(crate) fn address(given: SocketAddr) -> ffi::Address {
    let mut octets = [0; 16];
    let (flowinfo, scope_id, v6) = match given {
        SocketAddr::V4(given) => {
            octets[..4].copy_from_slice(&given.ip().octets());
            (0, 0, false)
        }
        SocketAddr::V6(given) => {
            octets = given.ip().octets();
            (given.flowinfo(), given.scope_id(), true)
        }
    };
    ffi::Address {
        octets,
        flowinfo,
        scope_id,
        port: given.port(),
        v6,
    }
}

impl ConfigError {
    /// Returns the error with this number of the library; `None` if a recovery was made.
    pub(crate) fn from_number(number: u8) -> Option<Self> {
        match number {
            ffi::NEW_MADE => None,
            ffi::NEW_TOO_MANY_ISSUED => Some(ConfigError::TooManyIssued),
            ffi::NEW_SKIP_TOO_LARGE => Some(ConfigError::SkipTooLarge),
            ffi::NEW_ZERO_MTU => Some(ConfigError::ZeroMtu),
            ffi::NEW_ZERO_WINDOW => Some(ConfigError::ZeroWindow),
            ffi::NEW_ZERO_DENOMINATOR => Some(ConfigError::ZeroDenominator),
            ffi::NEW_NO_MEMORY => Some(ConfigError::NoMemory),
            // this crate's configuration cannot cause the others
            number => unreachable!("the library makes no recovery, by {number}"),
        }
    }
}

impl RecoveryConfig {
    /// Returns the settings in the library's form.
    pub(crate) fn settings(&self) -> ffi::Settings {
        let transport = &self.transport;
        let search = transport.mtu_discovery_config.unwrap_or_default();
        // other controllers than NewReno have only an initial window
        let with_window = |initial_window| NewRenoConfig {
            initial_window,
            ..NewRenoConfig::default()
        };
        let (controller, reno) = match transport.congestion {
            Congestion::NewReno(reno) => (ffi::CONTROLLER_NEW_RENO, reno),
            Congestion::Fixed(window) => (ffi::CONTROLLER_FIXED, with_window(window)),
            Congestion::Cubic(cubic) => (ffi::CONTROLLER_CUBIC, with_window(cubic.initial_window)),
        };
        let (skips, first_skip, seed) = match self.skips {
            Skips::Disabled => (ffi::SKIPS_DISABLED, 0, 0),
            Skips::Drawn(seed) => (ffi::SKIPS_DRAWN, 0, seed),
            Skips::Starting(first, seed) => (ffi::SKIPS_STARTING, first, seed),
        };
        ffi::Settings {
            max_ack_delay: nanos(self.max_ack_delay),
            cid_lifetime: self.cid_lifetime.map_or(0, nanos),
            issued: self.issued,
            seed,
            first_skip,
            initial_rtt: nanos(transport.initial_rtt),
            mtu_interval: nanos(search.interval),
            black_hole_cooldown: nanos(search.black_hole_cooldown),
            initial_window: reno.initial_window,
            loss_numerator: reno.loss_reduction_factor.0,
            loss_denominator: reno.loss_reduction_factor.1,
            time_numerator: transport.time_threshold.0,
            time_denominator: transport.time_threshold.1,
            packet_threshold: transport.packet_threshold,
            persistent_congestion_threshold: transport.persistent_congestion_threshold,
            initial_mtu: transport.initial_mtu,
            min_mtu: transport.min_mtu,
            mtu_upper_bound: search.upper_bound,
            mtu_minimum_change: search.minimum_change,
            cid_len: self.cid_len,
            controller,
            skips,
            ids_end: self.cid_lifetime.is_some(),
            validated: self.validated,
            allow_mtud: self.allow_mtud,
            searches: transport.mtu_discovery_config.is_some(),
        }
    }
}

#[cfg(test)]
mod tests {
    use super::*;

    /// The default settings of C and Rust are the same.
    #[test]
    fn defaults_are_the_library_s() {
        // SAFETY: it has no precondition.
        let library = unsafe { ffi::recovery_ffi_default_settings() };
        assert_eq!(RecoveryConfig::default().settings(), library);
    }

    /// Each number that this crate's configuration can cause has its error.
    #[test]
    fn errors_have_numbers() {
        assert_eq!(ConfigError::from_number(ffi::NEW_MADE), None);
        let numbers = [
            (ffi::NEW_NO_MEMORY, ConfigError::NoMemory),
            (ffi::NEW_TOO_MANY_ISSUED, ConfigError::TooManyIssued),
            (ffi::NEW_SKIP_TOO_LARGE, ConfigError::SkipTooLarge),
            (ffi::NEW_ZERO_MTU, ConfigError::ZeroMtu),
            (ffi::NEW_ZERO_WINDOW, ConfigError::ZeroWindow),
            (ffi::NEW_ZERO_DENOMINATOR, ConfigError::ZeroDenominator),
        ];
        for (number, error) in numbers {
            assert_eq!(ConfigError::from_number(number), Some(error));
        }
    }
}
