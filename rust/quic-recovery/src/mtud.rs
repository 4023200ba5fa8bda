//! MTU discovery of one path, without a recovery.
use crate::config::{ConfigError, RecoveryConfig, TransportConfig};
use crate::ffi;
use crate::types::Instant;
use std::error::Error;
use std::fmt;
use std::ptr::null_mut;

/// An argument is out of range, or the call is not allowed at this time. Nothing changed.
#[derive(Clone, Copy, Debug, PartialEq, Eq, Hash)]
pub struct InvalidArgument;

impl fmt::Display for InvalidArgument {
    fn fmt(&self, f: &mut fmt::Formatter<'_>) -> fmt::Result {
        f.write_str("an argument lies out of its range, or the call comes at the wrong time")
    }
}

impl Error for InvalidArgument {}

/// MTU discovery of one path with black hole detection (RFC 8899), without a recovery: for a tunnel, or another
/// datagram protocol. The caller numbers all packets in increasing order, probes included. Sizes are in bytes.
///
/// For every input, a search probes at most 16 sizes by at most 48 probes. If the link carries exactly the packets up
/// to some size, the search ends less than twice `minimum_change` below the best one (the laws of the crate
/// `recovery_mtud`).
///
/// ```
/// # use quic_recovery::*;
/// let mut mtu = MtuDiscovery::new(&TransportConfig::default(), None)?;
/// let (now, mut number) = (Instant::from_nanos(1), 0);
/// while let Some(size) = mtu.poll_transmit(now, number) {
///     if size <= 1400 {
///         assert!(mtu.on_acked(number, size));
///     } else {
///         mtu.on_probe_lost();
///     }
///     number += 1;
/// }
/// // the link carries 1400 bytes; the search ends less than twice `minimum_change` of 20 bytes below
/// assert!((1361..=1400).contains(&mtu.current_mtu()));
/// # Ok::<(), Box<dyn std::error::Error>>(())
/// ```
pub struct MtuDiscovery {
    /// It holds a discovery from `new` to `drop`. The reader gets a copy of it.
    handle: ffi::MtuHandle,
}

// SAFETY: the handle owns one block of memory, as that of a `Recovery` does.
unsafe impl Send for MtuDiscovery {}

// SAFETY: what `&self` permits is one reader of the library, which only reads, as those of a `Recovery` do.
unsafe impl Sync for MtuDiscovery {}

impl Drop for MtuDiscovery {
    fn drop(&mut self) {
        // SAFETY: the handle holds a discovery, and is not used again.
        unsafe { ffi::recovery_ffi_mtu_drop(&mut self.handle) }
    }
}

impl fmt::Debug for MtuDiscovery {
    fn fmt(&self, f: &mut fmt::Formatter<'_>) -> fmt::Result {
        f.debug_struct("MtuDiscovery")
            .field("current_mtu", &self.current_mtu())
            .field("in_flight_mtu_probe", &self.in_flight_mtu_probe())
            .finish_non_exhaustive()
    }
}

impl MtuDiscovery {
    /// Returns a discovery that begins to search at the first poll, with `initial_mtu`, `min_mtu` and
    /// `mtu_discovery_config` of these settings. Without the last it never probes, and still detects black holes. No
    /// probe exceeds the peer's `max_udp_payload_size`, if it is known (RFC 9000, 18.2); 0 counts as unknown.
    pub fn new(
        config: &TransportConfig,
        peer_max_udp_payload_size: Option<u16>,
    ) -> Result<Self, ConfigError> {
        let settings = RecoveryConfig {
            transport: *config,
            ..RecoveryConfig::default()
        }
        .settings();
        let mut handle = ffi::MtuHandle {
            ptr: null_mut(),
            holds: false,
        };
        // SAFETY: the handle is all zeros. The first call does nothing; a library of another layout does not have it.
        let code = unsafe {
            ffi::recovery_ffi_layout();
            let limit = peer_max_udp_payload_size.unwrap_or(0);
            ffi::recovery_ffi_mtu_new(&mut handle, &settings, limit)
        };
        match ConfigError::from_number(code) {
            Some(error) => Err(error),
            None => Ok(MtuDiscovery { handle }),
        }
    }

    fn view(&self) -> ffi::MtuView {
        let mut copy = ffi::MtuHandle {
            ptr: self.handle.ptr,
            holds: self.handle.holds,
        };
        // SAFETY: the handle holds a discovery, and the call only reads.
        unsafe { ffi::recovery_ffi_mtu(&mut copy) }
    }

    /// Returns the MTU in use.
    pub fn current_mtu(&self) -> u16 {
        self.view().mtu
    }

    /// Returns the number of the probe in flight, if any.
    pub fn in_flight_mtu_probe(&self) -> Option<u64> {
        let view = self.view();
        view.probes.then_some(view.probe)
    }

    /// Returns whether a search is running.
    pub fn is_searching(&self) -> bool {
        self.view().searches
    }

    /// Returns the size of the probe to send now as the packet of this number, if one is due: never while a probe is in
    /// flight, or before the next search.
    pub fn poll_transmit(&mut self, now: Instant, next_packet_number: u64) -> Option<u16> {
        let handle = &mut self.handle;
        // SAFETY: the handle holds a discovery.
        let reply =
            unsafe { ffi::recovery_ffi_mtu_poll(handle, now.as_nanos(), next_packet_number) };
        match reply.kind {
            ffi::ANSWER_PROBE => Some(reply.size),
            ffi::ANSWER_NO_PROBE => None,
            kind => unreachable!("the library answers a poll with {kind}"),
        }
    }

    /// Sets the largest packet that the peer accepts. Fails if it is 0, or while a search is running: set the limit
    /// before the first poll.
    ///
    /// ```
    /// # use quic_recovery::*;
    /// # let mut mtu = MtuDiscovery::new(&TransportConfig::default(), None)?;
    /// # let now = Instant::from_nanos(1);
    /// mtu.on_peer_max_udp_payload_size_received(1300)?;
    /// // the peer does not process larger datagrams (RFC 9000, 18.2)
    /// let size = mtu.poll_transmit(now, 0).expect("a search begins at the first poll");
    /// assert!(1200 < size && size <= 1300);
    /// assert_eq!(mtu.on_peer_max_udp_payload_size_received(1400), Err(InvalidArgument));
    /// # Ok::<(), Box<dyn std::error::Error>>(())
    /// ```
    pub fn on_peer_max_udp_payload_size_received(
        &mut self,
        size: u16,
    ) -> Result<(), InvalidArgument> {
        // SAFETY: the handle holds a discovery.
        taken(unsafe { ffi::recovery_ffi_mtu_limit(&mut self.handle, size) })
    }

    /// Records that a packet of this many bytes was acknowledged. Returns whether it was the probe in flight, whose
    /// size is then the MTU.
    pub fn on_acked(&mut self, packet_number: u64, packet_bytes: u16) -> bool {
        let handle = &mut self.handle;
        // SAFETY: the handle holds a discovery.
        unsafe { ffi::recovery_ffi_mtu_acked(handle, packet_number, packet_bytes) }.flag
    }

    /// Records that the probe in flight was lost. Changes nothing if there is none.
    pub fn on_probe_lost(&mut self) {
        // SAFETY: the handle holds a discovery.
        let _done = unsafe { ffi::recovery_ffi_mtu_probe_lost(&mut self.handle) };
    }

    /// Records that a packet other than the probe in flight was lost. Report packets that are lost together in
    /// increasing order, then call `black_hole_detected`.
    pub fn on_non_probe_lost(&mut self, packet_number: u64, packet_bytes: u16) {
        let handle = &mut self.handle;
        // SAFETY: the handle holds a discovery.
        let _done = unsafe { ffi::recovery_ffi_mtu_lost(handle, packet_number, packet_bytes) };
    }

    /// Ends the losses of packets that were lost together. Returns whether they are a black hole, which resets the MTU
    /// to the minimum and delays the next search by the cooldown (RFC 8899, 4.3).
    ///
    /// ```
    /// # use quic_recovery::*;
    /// # let mut mtu = MtuDiscovery::new(&TransportConfig::default(), None)?;
    /// # let now = Instant::from_nanos(1);
    /// // a probe is acknowledged, and then the path no longer carries packets of its size
    /// let size = mtu.poll_transmit(now, 0).expect("a search begins at the first poll");
    /// mtu.on_acked(0, size);
    /// let found = (0..4).any(|burst| {
    ///     mtu.on_non_probe_lost(10 * (burst + 1), size);
    ///     mtu.black_hole_detected(now)
    /// });
    /// assert!(found);
    /// // the smallest size that QUIC requires of a path (RFC 8899, 4.3; RFC 9000, 14)
    /// assert_eq!(mtu.current_mtu(), 1200);
    /// # Ok::<(), Box<dyn std::error::Error>>(())
    /// ```
    pub fn black_hole_detected(&mut self, now: Instant) -> bool {
        let handle = &mut self.handle;
        // SAFETY: the handle holds a discovery.
        unsafe { ffi::recovery_ffi_mtu_losses_done(handle, now.as_nanos()) }.flag
    }

    /// Resets the discovery with these sizes; fails if one is 0. The peer's limit is unchanged.
    pub fn reset(&mut self, current_mtu: u16, min_mtu: u16) -> Result<(), InvalidArgument> {
        let handle = &mut self.handle;
        // SAFETY: the handle holds a discovery.
        taken(unsafe { ffi::recovery_ffi_mtu_reset(handle, current_mtu, min_mtu) })
    }
}

/// Returns an error unless the library accepted the call.
pub(crate) fn taken(reply: ffi::EncodedReply) -> Result<(), InvalidArgument> {
    if reply.kind == ffi::ANSWER_REFUSED {
        Err(InvalidArgument)
    } else {
        Ok(())
    }
}
