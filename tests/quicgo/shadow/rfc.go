package ackhandler

import (
	"os"
	"strconv"
	"time"

	"github.com/lucas-clemente/quic-go/internal/protocol"
	"github.com/lucas-clemente/quic-go/internal/utils"
)

// The places in which quic-go leaves RFC 9002, each with quic-go's rule, and with the RFC's, by which it goes if the
// bit is in QUIC_ALIGN. The library has the RFC's rule, except where docs/SENDER.md says otherwise. Sections are those
// of RFC 9002 if no other is named.
const (
	// RTTs are cut to microseconds, and the latest RTT lacks the ACK delay. Neither is so in 5.1 and 5.3.
	alRTT = 1
	// A resumed connection begins with the RTT of an earlier one as its estimate: its first probe timeout is that and a
	// millisecond. By 6.2.2 that is an initial RTT: three times as much.
	alInitial = 2
	// Only ack-eliciting packets are tracked. By A.1 and 5.1 all are: an ACK of one that elicits none may give a sample,
	// if it newly acknowledges another that does.
	alSilent = 4
	// An ACK of a packet that was declared lost is news. By A.10 such a packet is no longer tracked.
	alLate = 8
	// A probe declares the packet lost whose frames it carries, and takes it out of flight. 6.2.4: SHOULD NOT.
	alProbe = 16
	// A packet that was sent exactly the loss delay ago is not lost. By A.10 it is.
	alBound = 32
	// The timer may be that of a space with nothing in flight, which keeps what is in flight elsewhere from being probed
	// for: of 240 resumptions with lost handshake packets 3 ended so, and none with this bit alone. By A.8 such a space
	// has no timer.
	alPTO = 64
	// At a client that waits for validation, ACKs alone restart the timer. By A.5 only what is in flight does.
	alDeadlock = 128
	// Numbers are skipped, some at random and one at each probe timeout (RFC 9000, 21.4). The RFC leaves that open; here
	// none is, since the library learns of a skip late, and the numbers count for its packet threshold.
	alSkip = 256
	// An ACK of a 1-RTT packet shows a client that its address is validated. By A.6 one in Handshake does, or
	// HANDSHAKE_DONE.
	alPeer = 512
	// A Retry gives a sample. By 6.3 it gives an initial RTT.
	alRetry = 1024
	// A datagram may begin below the limit against amplification and end past it. RFC 9000, 8.1: MUST NOT. With a third
	// of the handshake's datagrams lost half of all connections take 0.47 s so, and 0.62 s by the RFC; with 40 % lost
	// the slowest of 200 takes 5 s, and 12 s by the RFC, over the library as well.
	alLimit = 2048
	// The window grows by a datagram for each packet acknowledged in slow start; a datagram may end past it (7: MUST
	// NOT); a recovery is known by packet numbers, though each space has its own; persistent congestion is not detected
	// (7.6); padding without frames is not in flight (2). By appendix B otherwise: window and pacer are then those of
	// reno.go and pacer.go.
	alWindow = 4096
)

var alignment, _ = strconv.Atoi(os.Getenv("QUIC_ALIGN"))

func aligned(bit int) bool { return alignment&bit != 0 }

// shadowed is what the shadow has of a handler beside its own state.
type shadowed struct {
	at   time.Time // of the call that is being made
	lost []protocol.PacketNumber
}

func (s *shadowed) now() time.Time {
	if s.at.IsZero() {
		return time.Now()
	}
	return s.at
}

func anyElicits(packets []*Packet) bool {
	for _, p := range packets {
		if !p.silent {
			return true
		}
	}
	return false
}

const leastDatagram = 1200

// rfcPTO is GetPtoTimeAndSpace of A.8. With nothing but 0-RTT in flight a client waits as with nothing (6.2.2.1). A
// server has no timer while it may not send a datagram of 1200 bytes (6.2.2.1; RFC 9000, 14.1).
func (h *sentPacketHandler) rfcPTO() (pto time.Time, level protocol.EncryptionLevel, deadlock, ok bool) {
	if !h.peerAddressValidated && h.bytesSent+leastDatagram > amplificationFactor*h.bytesReceived {
		return
	}
	try := func(space *packetNumberSpace, its protocol.EncryptionLevel) {
		if space == nil || !space.history.HasOutstandingPackets() {
			return
		}
		t := space.lastAckElicitingPacketTime.Add(h.rttStats.PTO(its == protocol.Encryption1RTT) << h.ptoCount)
		if !ok || t.Before(pto) {
			pto, level, ok = t, its, true
		}
	}
	try(h.initialPackets, protocol.EncryptionInitial)
	try(h.handshakePackets, protocol.EncryptionHandshake)
	if h.handshakeConfirmed {
		try(h.appDataPackets, protocol.Encryption1RTT)
	}
	if ok || h.peerCompletedAddressValidation {
		return
	}
	switch {
	case h.handshakePackets != nil && h.hasHandshakeKeys():
		level = protocol.EncryptionHandshake
	case h.initialPackets != nil:
		level = protocol.EncryptionInitial
	default:
		return
	}
	return h.now().Add(h.rttStats.PTO(false) << h.ptoCount), level, true, true
}

// hasHandshakeKeys says whether a Handshake packet was sent: before, the handler does not know of keys.
func (h *sentPacketHandler) hasHandshakeKeys() bool {
	return h.initialPackets == nil || h.handshakePackets.largestSent != protocol.InvalidPacketNumber
}

func (h *sentPacketHandler) rfcTimeout() error {
	_, level, deadlock, ok := h.rfcPTO()
	if !ok {
		return nil
	}
	h.ptoCount++
	h.numProbesToSend = 2
	if deadlock {
		h.numProbesToSend--
	}
	switch level {
	case protocol.EncryptionInitial:
		h.ptoMode = SendPTOInitial
	case protocol.EncryptionHandshake:
		h.ptoMode = SendPTOHandshake
	default:
		if !aligned(alSkip) {
			h.PopPacketNumber(level)
		}
		h.ptoMode = SendPTOAppData
	}
	return nil
}

// rfcQueueProbe sends again what the oldest packet carried, which stays in flight (6.2.4).
func (h *sentPacketHandler) rfcQueueProbe(level protocol.EncryptionLevel) bool {
	found := false
	h.getPacketNumberSpace(level).history.Iterate(func(p *Packet) (bool, error) {
		if p.outstanding() && len(p.Frames) > 0 {
			h.queueFramesForRetransmission(p)
			found = true
		}
		return !found, nil
	})
	return found
}

func (h *sentPacketHandler) passesLimit() bool {
	return aligned(alLimit) && !h.peerAddressValidated &&
		h.bytesSent+protocol.InitialPacketSizeIPv4 > amplificationFactor*h.bytesReceived
}

// restoresRTT takes the time since the first packet as an initial RTT, when a Retry came.
func (h *sentPacketHandler) restoresRTT(first time.Time) bool {
	if aligned(alRetry) {
		h.rttStats.Restore(utils.Max(minRTTAfterRetry, h.now().Sub(first)))
	}
	return aligned(alRetry)
}
