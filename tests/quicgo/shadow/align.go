package utils

import (
	"os"
	"strconv"
	"time"
)

// How the RTT goes by RFC 9002: the bits 1 and 2 of QUIC_ALIGN, of those in rfc.go.
var (
	AlignRTT     = aligns(1)
	AlignInitial = aligns(2)
)

// UsualInitialRTT is that by which the first probe timeout comes after 200 ms, as in quic-go.
const UsualInitialRTT = 66666667 * time.Nanosecond

func aligns(bit int) bool {
	bits, _ := strconv.Atoi(os.Getenv("QUIC_ALIGN"))
	return bits&bit != 0
}

// Take stores the values of another estimator.
func (r *RTTStats) Take(least, latest, smoothed, variance time.Duration) {
	r.hasMeasurement = true
	r.minRTT, r.latestRTT, r.smoothedRTT, r.meanDeviation = least, latest, smoothed, variance
}

// Restored is what an earlier connection, or a Retry, left as the RTT before the first sample; else 0.
func (r *RTTStats) Restored() time.Duration {
	switch {
	case r.hasMeasurement:
		return 0
	case AlignInitial:
		return r.restored
	default:
		return r.smoothedRTT
	}
}

// Restore sets it, if it is to go by RFC 9002.
func (r *RTTStats) Restore(d time.Duration) bool {
	if AlignInitial {
		r.restored = d
	}
	return AlignInitial
}

// firstPTO is the probe timeout before the first sample (RFC 9002, 6.2.2).
func (r *RTTStats) firstPTO(includeMaxAckDelay bool) time.Duration {
	d := r.restored
	if d == 0 {
		d = UsualInitialRTT
	}
	if d += 4 * (d / 2); includeMaxAckDelay {
		d += r.maxAckDelay
	}
	return d
}
