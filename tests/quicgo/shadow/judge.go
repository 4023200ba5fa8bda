package ackhandler

import (
	"sort"
	"time"
)

// judge decides about persistent congestion by what quic-go sent, and by what quic-go found acknowledged and lost. It
// asks nothing of the library.
type judge struct {
	spaces  [3]map[uint64]*record
	sampled time.Time // of the first sample of the RTT, in the space of sampledIn
	in      int
	order   int64 // of packets, as they were sent
	first   int64 // of the first packet behind that sample
	pass    []uint64
}

// record is what the judge has of a packet.
type record struct {
	sent                        time.Time
	order                       int64
	size                        uint64
	elicits, acked, isLost, now bool // now: declared lost by the last pass
}

func newJudge() *judge {
	j := &judge{}
	for at := range j.spaces {
		j.spaces[at] = map[uint64]*record{}
	}
	return j
}

func (j *judge) sends(space int, number uint64, sent time.Time, size uint64, elicits bool) {
	j.order++
	j.spaces[space][number] = &record{sent: sent, order: j.order, size: size, elicits: elicits}
}

func (j *judge) samples(space int, at time.Time) {
	if j.sampled.IsZero() {
		j.sampled, j.in, j.first = at, space, j.order+1
	}
}

// sampledBefore says whether a sample existed when a packet was sent: in the space of the first sample by the order of
// packets, elsewhere by time.
func (j *judge) sampledBefore(space int, it *record) bool {
	if j.sampled.IsZero() {
		return false
	}
	if space == j.in {
		return it.order >= j.first
	}
	return it.sent.After(j.sampled)
}

// isPersistent is RFC 9002, 7.6, of one space and one pass, as docs/SENDER.md states the library's rule: two packets of
// the pass that elicit an ACK, each sent behind a sample, farther apart than the period, and each number between them
// lost in the pass too.
func (j *judge) isPersistent(space int, period time.Duration) bool {
	var first *record
	prior := uint64(0)
	for _, number := range j.pass {
		it := j.spaces[space][number]
		if first != nil && number != prior+1 {
			first = nil
		}
		prior = number
		if !it.elicits || it.size == 0 || !j.sampledBefore(space, it) {
			continue
		}
		if first == nil {
			first = it
		} else if it.sent.Sub(first.sent) > period {
			return true
		}
	}
	return false
}

// mayPersist is the widest reading of 7.6.2: two packets that elicit an ACK and are lost, in this pass or before, each
// sent behind a sample and farther apart than the period, and nothing acknowledged in the space that was sent between.
func (j *judge) mayPersist(space int, period time.Duration) bool {
	all := []*record{}
	for _, it := range j.spaces[space] {
		all = append(all, it)
	}
	sort.Slice(all, func(a, b int) bool { return all[a].order < all[b].order })
	var first *record
	for _, it := range all {
		switch {
		case it.acked:
			first = nil
		case !it.isLost || !it.elicits || !it.sent.After(j.sampled) || j.sampled.IsZero():
		case first == nil:
			first = it
		case it.now && it.sent.Sub(first.sent) > period:
			return true
		}
	}
	return false
}

// loses notes what a pass declared lost, in increasing order.
func (j *judge) loses(space int, lost []uint64) {
	for _, it := range j.spaces {
		for _, number := range j.pass {
			if it[number] != nil {
				it[number].now = false
			}
		}
	}
	j.pass = lost
	for _, number := range lost {
		if it := j.spaces[space][number]; it != nil {
			it.isLost, it.now = true, true
		}
	}
}

// lastLost is when the last of the packets of the pass was sent that count in flight; the zero time if none does.
func (j *judge) lastLost(space int) time.Time {
	var last time.Time
	for _, number := range j.pass {
		if it := j.spaces[space][number]; it.size > 0 && it.sent.After(last) {
			last = it.sent
		}
	}
	return last
}
