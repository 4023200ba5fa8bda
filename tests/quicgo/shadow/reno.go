package ackhandler

import (
	"time"

	"github.com/lucas-clemente/quic-go/internal/protocol"
)

// reno is the congestion controller of RFC 9002, appendix B, written from its text, in bytes. Two things are as in the
// library: in congestion avoidance acknowledged bytes are counted, and each window of them is worth a datagram
// (7.3.3); the slow start threshold is no smaller than the smallest window.
type reno struct {
	datagram, window, threshold, counted uint64
	recovery                             time.Time
	pacer                                bucket
	rtt                                  func() time.Duration
	now                                  func() time.Time
	wait                                 time.Time
}

func newReno(datagram uint64, now time.Time, rtt func() time.Duration, clock func() time.Time) *reno {
	r := &reno{datagram: datagram, window: 10 * datagram, threshold: 1<<64 - 1, rtt: rtt, now: clock}
	r.recovery = now.Add(-time.Nanosecond) // what is sent at that time counts as later
	r.pacer = newBucket(rtt(), r.window, datagram, r.recovery)
	return r
}

// acked is OnPacketAcked (B.5).
func (r *reno) acked(sent time.Time, bytes uint64, limited bool) {
	switch {
	case limited || !sent.After(r.recovery):
	case r.window < r.threshold:
		if r.window += bytes; r.window >= r.threshold {
			r.counted = r.window - r.threshold
		}
	default:
		if r.counted += bytes; r.counted >= r.window {
			r.counted -= r.window
			r.window += r.datagram
		}
	}
}

// lost is OnPacketsLost (B.8), of packets of which the last was sent then. Persistent congestion leaves the smallest
// window, and the time of its recovery is this one.
func (r *reno) lost(sent, now time.Time, persistent bool) {
	if !sent.After(r.recovery) && !persistent {
		return
	}
	r.recovery = now
	r.window /= 2
	if r.window < 2*r.datagram {
		r.window = 2 * r.datagram
	}
	r.threshold = r.window
	if persistent {
		r.window = 2 * r.datagram
	}
}

// ---- what quic-go asks of a controller; what was acknowledged and lost the shadow reports

func (r *reno) CanSend(inFlight protocol.ByteCount) bool {
	return uint64(inFlight)+r.datagram <= r.window
}

func (r *reno) HasPacingBudget() bool {
	r.wait = r.pacer.wait(r.rtt(), r.window, r.datagram, r.now())
	return r.wait.IsZero()
}

func (r *reno) TimeUntilSend(protocol.ByteCount) time.Time { return r.wait }

func (r *reno) OnPacketSent(
	_ time.Time, _ protocol.ByteCount, _ protocol.PacketNumber, size protocol.ByteCount, _ bool,
) {
	r.pacer.take(uint64(size))
}

func (r *reno) MaybeExitSlowStart() {}

func (r *reno) OnPacketAcked(protocol.PacketNumber, protocol.ByteCount, protocol.ByteCount, time.Time) {
}

func (r *reno) OnPacketLost(protocol.PacketNumber, protocol.ByteCount, protocol.ByteCount) {}

func (r *reno) OnRetransmissionTimeout(bool) {}

func (r *reno) SetMaxDatagramSize(protocol.ByteCount) {}

func (r *reno) InSlowStart() bool { return r.window < r.threshold }

func (r *reno) InRecovery() bool { return false }

func (r *reno) GetCongestionWindow() protocol.ByteCount { return protocol.ByteCount(r.window) }
