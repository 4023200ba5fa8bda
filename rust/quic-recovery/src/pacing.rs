//! The pacer of one path, without a recovery.
use crate::config::nanos;
use crate::ffi;
use crate::mtud::{taken, InvalidArgument};
use crate::types::Instant;
use std::time::Duration;

/// A bucket of tokens, one per byte. Sending takes tokens, and time adds them at 5/4 of a window in each RTT (RFC 9002,
/// 7.7). It needs no recovery, and so serves a tunnel or another datagram protocol. It allocates nothing.
///
/// The RTT is in nanoseconds, at most `u64::MAX`; window, MTU and packets are in bytes.
///
/// ```
/// # use quic_recovery::*;
/// # use std::time::Duration;
/// let (rtt, start) = (Duration::from_millis(333), Instant::from_nanos(1));
/// let mut pacer = Pacer::new(rtt, 12_000, 1200, start)?;
/// for _ in 0..10 {
///     assert_eq!(pacer.delay(rtt, 1200, 1200, 12_000, start)?, None);
///     pacer.on_transmit(1200);
/// }
/// // 5/4 of the window in each RTT (RFC 9002, 7.7): the bucket of 12,000 bytes is full again after 4/5 of 333 ms
/// let full = start + Duration::from_micros(266_400);
/// assert_eq!(pacer.delay(rtt, 1200, 1200, 12_000, start)?, Some(full));
/// assert_eq!(pacer.delay(rtt, 1200, 1200, 12_000, full)?, None);
/// # Ok::<(), Box<dyn std::error::Error>>(())
/// ```
#[derive(Clone, Copy, Debug, PartialEq, Eq)]
pub struct Pacer {
    bucket: ffi::Bucket,
}

impl Pacer {
    /// Returns a full bucket at time `now`. Fails if the window or the MTU is 0.
    pub fn new(
        rtt: Duration,
        window: u64,
        mtu: u16,
        now: Instant,
    ) -> Result<Self, InvalidArgument> {
        // SAFETY: it has no precondition.
        let bucket = unsafe { ffi::recovery_ffi_pacer(nanos(rtt), window, mtu, now.as_nanos()) };
        if bucket.mtu == 0 {
            return Err(InvalidArgument);
        }
        Ok(Pacer { bucket })
    }

    /// Returns the most bytes that may be sent at once, as of the last call of `delay`: 10 to 256 times its MTU.
    pub fn capacity(&self) -> u64 {
        self.bucket.capacity
    }

    /// Returns the bytes in the bucket after the last call.
    pub fn tokens(&self) -> u64 {
        self.bucket.tokens
    }

    /// Takes the tokens of a sent packet, at most all.
    pub fn on_transmit(&mut self, packet_length: u16) {
        // SAFETY: it has no precondition.
        let _done = unsafe { ffi::recovery_ffi_pacer_transmit(&mut self.bucket, packet_length) };
    }

    /// Returns when to ask again whether this many bytes may be sent, or `None` if they may be sent now. The RTT, the
    /// MTU and the congestion window are those at time `now`. Fails if the window or the MTU is 0. Nothing is delayed
    /// at an RTT of 0 or a window above `u32::MAX`.
    pub fn delay(
        &mut self,
        rtt: Duration,
        bytes: u64,
        mtu: u16,
        window: u64,
        now: Instant,
    ) -> Result<Option<Instant>, InvalidArgument> {
        let bucket = &mut self.bucket;
        // SAFETY: it has no precondition.
        let reply = unsafe {
            ffi::recovery_ffi_pacer_delay(bucket, nanos(rtt), bytes, mtu, window, now.as_nanos())
        };
        taken(reply)?;
        match reply.kind {
            ffi::ANSWER_DELAYED => Ok(Some(Instant::from_nanos(reply.first))),
            ffi::ANSWER_READY => Ok(None),
            kind => unreachable!("the library answers a pacer with {kind}"),
        }
    }
}
