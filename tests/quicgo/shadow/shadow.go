package ackhandler

// #include "recovery_ffi.h"
// #include <stdlib.h>
import "C"

import (
	"fmt"
	"os"
	"runtime"
	"sort"
	"sync"
	"sync/atomic"
	"time"
	"unsafe"

	"github.com/lucas-clemente/quic-go/internal/protocol"
	"github.com/lucas-clemente/quic-go/internal/utils"
	"github.com/lucas-clemente/quic-go/internal/wire"
)

// Counts over all connections: of values compared, and of those that differ, by kind.
var (
	values, connections int64
	differences         = map[string]int64{}
	largest             = map[string]int64{}
	events              = map[string]int64{}
	mutex               sync.Mutex
)

const mostExamples = 3

// ShadowReport writes what was counted, a line for each count.
func ShadowReport() {
	mutex.Lock()
	defer mutex.Unlock()
	fmt.Printf("values %d\nconnections %d\n", values, connections)
	for _, counts := range []struct {
		what string
		by   map[string]int64
	}{{"event", events}, {"differ", differences}} {
		kinds := []string{}
		for kind := range counts.by {
			kinds = append(kinds, kind)
		}
		sort.Strings(kinds)
		for _, kind := range kinds {
			fmt.Printf("%s %d %s", counts.what, counts.by[kind], kind)
			if counts.what == "differ" {
				fmt.Printf(", by at most %d", largest[kind])
			}
			fmt.Println()
		}
	}
}

// shadow reports each call of quic-go's handler to a sender of the library too, and compares all that can be read of
// both. What quic-go sends and does is as without it.
type shadow struct {
	*sentPacketHandler
	handle  *C.struct_recovery_handle
	base    time.Time
	next    [3]uint64
	dummies [3]map[uint64]bool // numbers that quic-go skips; the library sends a packet of size 0 for each
	delay   time.Duration
	initial time.Duration
	number  int64
	calls   int64
	room    []C.uint64_t
	ranges  []C.struct_recovery_ack_range
	client  bool
	hasKeys bool
	size    protocol.ByteCount
	judge   *judge
	reno    *reno // with alWindow
}

func newShadow(h *sentPacketHandler, size protocol.ByteCount, validated bool, pers protocol.Perspective) *shadow {
	now := time.Now()
	s := &shadow{sentPacketHandler: h, base: now.Add(-time.Hour), room: make([]C.uint64_t, 4096), size: size, delay: -1}
	s.client = pers == protocol.PerspectiveClient
	s.number = atomic.AddInt64(&connections, 1)
	s.judge = newJudge()
	s.handle = (*C.struct_recovery_handle)(C.calloc(1, C.sizeof_struct_recovery_handle))
	settings := C.recovery_ffi_default_settings()
	settings.validated = C.bool(validated)
	settings.initial_rtt = C.uint64_t(utils.UsualInitialRTT)
	settings.initial_mtu = C.uint16_t(size)
	settings.initial_window = 10 * C.uint64_t(size)
	var remote C.struct_recovery_address
	id := [8]C.uint8_t{}
	made := C.recovery_ffi_sender_new(s.handle, C.bool(s.client), &settings, &remote, &id[0], 8, s.nanos(now))
	if made != C.RECOVERY_NEW_MADE {
		panic("no sender")
	}
	if aligned(alWindow) {
		s.reno = newReno(uint64(size), now, s.smoothed, h.now)
		h.congestion = s.reno
	}
	s.sync()
	for at := range s.dummies {
		s.dummies[at] = map[uint64]bool{}
	}
	for s.next[0] < uint64(h.initialPackets.pns.Peek()) {
		s.dummy(0, now)
	}
	runtime.SetFinalizer(s, func(s *shadow) {
		C.recovery_ffi_drop(s.handle)
		C.free(unsafe.Pointer(s.handle))
	})
	return s
}

func (s *shadow) nanos(t time.Time) C.uint64_t { return C.uint64_t(t.Sub(s.base)) }

// smoothed is the RTT by which the library paces: its estimate, and before the first sample that of the settings. An
// initial RTT that is set later is for timers alone.
func (s *shadow) smoothed() time.Duration {
	if s.rttStats.MinRTT() != 0 {
		return s.rttStats.SmoothedRTT()
	}
	return utils.UsualInitialRTT
}

// sync reports the peer's max_ack_delay, and an initial RTT, which quic-go stores where its handler finds them.
func (s *shadow) sync() {
	if d := s.rttStats.MaxAckDelay(); d != s.delay {
		s.delay = d
		seconds, rest := C.uint64_t(d/time.Second), C.uint32_t(d%time.Second)
		s.must("peer_delay", C.recovery_ffi_sender_peer_delay(s.handle, seconds, rest))
	}
	if d := s.rttStats.Restored(); d != 0 && d != s.initial && aligned(alInitial) {
		s.initial = d
		count("initial RTT")
		seconds, rest := C.uint64_t(d/time.Second), C.uint32_t(d%time.Second)
		s.must("initial_rtt", C.recovery_ffi_sender_initial_rtt(s.handle, seconds, rest))
		s.setLossDetectionTimer()
	}
}

func (s *shadow) begin(now time.Time) {
	s.at = now
	s.calls++
	s.sync()
	s.lost = s.lost[:0]
}

func (s *shadow) must(what string, reply C.struct_recovery_encoded_reply) C.struct_recovery_encoded_reply {
	if reply.kind == C.RECOVERY_ANSWER_REFUSED {
		s.differs(what+" fails", C.GoString(C.recovery_ffi_text(reply.refusal)), "does not", 0)
	}
	return reply
}

func count(what string) {
	mutex.Lock()
	events[what]++
	mutex.Unlock()
}

func (s *shadow) differs(kind, ours, theirs string, by int64) {
	mutex.Lock()
	defer mutex.Unlock()
	differences[kind]++
	if by < 0 {
		by = -by
	}
	if by > largest[kind] {
		largest[kind] = by
	}
	if differences[kind] <= mostExamples {
		fmt.Fprintf(os.Stderr, "connection %d, client %v, call %d: %s: the library %s, quic-go %s\n",
			s.number, s.client, s.calls, kind, ours, theirs)
	}
}

func (s *shadow) compare(kind string, ours, theirs int64) {
	atomic.AddInt64(&values, 1)
	if ours != theirs {
		s.differs(kind, fmt.Sprint(ours), fmt.Sprint(theirs), ours-theirs)
	}
}

// told are the numbers that were newly acknowledged, or declared lost, without those that quic-go skipped.
func (s *shadow) told(space int, lost bool) []uint64 {
	n := int(C.recovery_ffi_told_numbers(s.handle, C.bool(lost), &s.room[0], C.size_t(len(s.room))))
	if n > len(s.room) {
		s.room = make([]C.uint64_t, 2*n)
		return s.told(space, lost)
	}
	out := []uint64{}
	for _, it := range s.room[:n] {
		if s.dummies[space][uint64(it)] {
			delete(s.dummies[space], uint64(it))
		} else {
			out = append(out, uint64(it))
		}
	}
	return out
}

func (s *shadow) compareNumbers(kind string, ours, theirs []uint64) {
	atomic.AddInt64(&values, int64(len(theirs))+1)
	if fmt.Sprint(ours) != fmt.Sprint(theirs) {
		s.differs(kind, fmt.Sprint(ours), fmt.Sprint(theirs), int64(len(ours)-len(theirs)))
	}
}

func (s *shadow) compareState(call string) {
	path := C.recovery_ffi_path(s.handle, false)
	s.compare("in flight", int64(path.in_flight), int64(s.bytesInFlight))
	s.compare("PTO count", int64(C.recovery_ffi_pto_count(s.handle)), int64(s.ptoCount))
	if s.rttStats.MinRTT() != 0 {
		s.compare("RTT min", int64(path.rtt_min), int64(s.rttStats.MinRTT()))
		s.compare("RTT smoothed", int64(path.rtt), int64(s.rttStats.SmoothedRTT()))
		s.compare("RTT variance", int64(path.rtt_variance), int64(s.rttStats.MeanDeviation()))
		s.compare("RTT latest", int64(path.rtt_latest), int64(s.rttStats.LatestRTT()))
	}
	if s.reno != nil {
		s.compare("window", int64(path.window), int64(s.reno.window))
		s.compare("threshold", int64(path.ssthresh), int64(s.reno.threshold))
		s.compareTokens(path)
	}
	s.compareTimer(call)
	// what waits for retransmission is taken, so that it does not grow
	for at := 0; at < 3; at++ {
		C.recovery_ffi_take_pending(s.handle, C.uint8_t(at))
	}
}

func (s *shadow) compareTokens(path C.struct_recovery_path_view) {
	s.compare("pacer's capacity", int64(path.pacer_capacity), int64(s.reno.pacer.capacity))
	s.compare("pacer's tokens", int64(path.pacer_tokens), int64(s.reno.pacer.tokens))
}

func (s *shadow) compareTimer(call string) {
	if aligned(alPTO) && !s.peerAddressValidated { // each datagram changes the room below the limit
		s.setLossDetectionTimer()
	}
	timer := C.recovery_ffi_timer(s.handle, C.RECOVERY_TIMER_LOSS_DETECTION)
	alarm := s.GetLossDetectionTimeout()
	atomic.AddInt64(&values, 1)
	switch {
	case bool(timer.some) != !alarm.IsZero():
		s.differs("timer set after "+call, fmt.Sprint(timer.some), fmt.Sprint(!alarm.IsZero()), 0)
	case bool(timer.some):
		s.compare("timer after "+call, int64(timer.nanos), int64(s.nanos(alarm)))
	}
	if view := C.recovery_ffi_sender_view(s.handle); aligned(alLimit) && !s.client && !s.peerAddressValidated {
		s.compare("amplification room", int64(view.amplification_room), int64(3*s.bytesReceived-s.bytesSent))
	}
}

// compareLowest compares the smallest number that is tracked.
func (s *shadow) compareLowest(space int) {
	here := s.getPacketNumberSpace(levelOf[space])
	if here == nil || !aligned(alSilent) || !aligned(alLate) || !aligned(alSkip) {
		return
	}
	lowest, ours := int64(-1), int64(-1)
	here.history.Iterate(func(p *Packet) (bool, error) {
		if p.declaredLost || p.skippedPacket {
			return true, nil
		}
		lowest = int64(p.PacketNumber)
		return false, nil
	})
	if tracked := C.recovery_ffi_smallest_tracked(s.handle, C.uint8_t(space)); tracked.is_some {
		ours = int64(tracked.number)
	}
	s.compare("smallest tracked number", ours, lowest)
}

// dummy takes a number that quic-go skips.
func (s *shadow) dummy(space int, now time.Time) {
	reply := s.must("skip", C.recovery_ffi_send(s.handle, C.uint8_t(space), s.nanos(now), 0, false, false, 0, nil, 0))
	s.sent(space, reply)
	s.dummies[space][uint64(reply.first)] = true
}

func (s *shadow) sent(space int, reply C.struct_recovery_encoded_reply) {
	if reply.kind != C.RECOVERY_ANSWER_SENT {
		return
	}
	s.next[space] = uint64(reply.first) + 1
	if reply.flag {
		count("forgotten")
		delete(s.dummies[space], uint64(reply.second))
		if here := s.getPacketNumberSpace(levelOf[space]); here != nil && aligned(alSilent) {
			here.history.Remove(protocol.PacketNumber(reply.second))
		}
	}
}

func (s *shadow) SentPacket(p *Packet) {
	s.begin(p.SendTime)
	space, now := spaceOf(p.EncryptionLevel), s.nanos(p.SendTime)
	if space == C.RECOVERY_SPACE_HANDSHAKE && !s.hasKeys {
		s.hasKeys = true
		s.must("handshake_keys", C.recovery_ffi_sender_handshake_keys(s.handle))
	}
	if s.client && space == C.RECOVERY_SPACE_HANDSHAKE && s.initialPackets != nil {
		s.must("discard", C.recovery_ffi_sender_discard(s.handle, C.RECOVERY_SPACE_INITIAL, now))
	}
	elicits := len(p.Frames) > 0
	number, length := uint64(p.PacketNumber), p.Length
	s.sentPacketHandler.SentPacket(p)
	for s.next[space] < number {
		s.dummy(space, p.SendTime)
	}
	reply := s.must("transmit", C.recovery_ffi_sender_transmit(s.handle, now, C.uint16_t(length), C.uint8_t(space), false))
	if reply.kind == C.RECOVERY_ANSWER_BLOCKED {
		room := C.recovery_ffi_sender_view(s.handle).amplification_room
		more := int64(length) - int64(room)
		s.differs("sent past the amplification limit", fmt.Sprint("room ", room), fmt.Sprint("sent ", length), more)
		if room > 0 {
			s.must("transmit", C.recovery_ffi_sender_transmit(s.handle, now, C.uint16_t(room), C.uint8_t(space), false))
		}
	}
	size := C.uint16_t(length)
	if !elicits {
		size = 0
	}
	reply = s.must("send", C.recovery_ffi_send(s.handle, C.uint8_t(space), now, size, C.bool(elicits), false, 0, nil, 0))
	s.compare("number", int64(reply.first), int64(number))
	s.judge.sends(space, number, p.SendTime, uint64(size), elicits)
	s.sent(space, reply)
	count("sent")
	s.compareLowest(space)
	s.compareState("send")
}

// isLimited is RFC 9002, 7.8, as quic-go has it.
func (s *shadow) isLimited() bool {
	window, inFlight := s.congestion.GetCongestionWindow(), s.bytesInFlight
	if inFlight >= window || (s.congestion.InSlowStart() && inFlight > window/2) {
		return false
	}
	return window-inFlight > 3*s.size
}

func (s *shadow) ReceivedAck(ack *wire.AckFrame, level protocol.EncryptionLevel, at time.Time) (bool, error) {
	s.begin(at)
	space, limited := spaceOf(level), s.isLimited()
	s.ackedPackets = s.ackedPackets[:0]
	is1RTT, err := s.sentPacketHandler.ReceivedAck(ack, level, at)
	frame := C.struct_recovery_ack_frame{
		delay_secs: C.uint64_t(ack.DelayTime / time.Second), delay_nanos: C.uint32_t(ack.DelayTime % time.Second),
		app_limited: C.bool(limited),
	}
	s.ranges = s.ranges[:0]
	for _, it := range ack.AckRanges {
		s.ranges = append(s.ranges, C.struct_recovery_ack_range{first: C.uint64_t(it.Smallest), last: C.uint64_t(it.Largest)})
	}
	ranges := C.size_t(len(s.ranges))
	reply := C.recovery_ffi_sender_ack(s.handle, C.uint8_t(space), s.nanos(at), &frame, &s.ranges[0], ranges)
	if (reply.kind == C.RECOVERY_ANSWER_REFUSED) != (err != nil) {
		s.differs("ACK fails", fmt.Sprint(reply.kind, reply.refusal), fmt.Sprint(err), 0)
	}
	if reply.kind == C.RECOVERY_ANSWER_REFUSED {
		return is1RTT, err
	}
	count("ACK")
	theirs := make([]uint64, 0, len(s.ackedPackets))
	for _, p := range s.ackedPackets {
		theirs = append(theirs, uint64(p.PacketNumber))
		if it := s.judge.spaces[space][uint64(p.PacketNumber)]; it != nil {
			it.acked = true
			if s.reno != nil && !p.silent {
				s.reno.acked(p.SendTime, uint64(p.Length), limited)
			}
		}
	}
	s.compareNumbers("acknowledged", s.told(space, false), theirs)
	if s.rttStats.MinRTT() != 0 {
		s.judge.samples(space, at)
	}
	s.judgeLosses("ACK", space, at, true)
	s.compareLowest(space)
	s.compareState("ACK")
	return is1RTT, err
}

// judgeLosses compares what a pass declared lost, and whether congestion persists.
func (s *shadow) judgeLosses(call string, space int, at time.Time, mayPersist bool) {
	theirs := make([]uint64, 0, len(s.lost))
	for _, it := range s.lost {
		theirs = append(theirs, uint64(it))
	}
	s.compareNumbers("lost by "+call, s.told(space, true), theirs)
	if len(theirs) == 0 {
		return
	}
	count("losses by " + call)
	s.judge.loses(space, theirs)
	last, persists := s.judge.lastLost(space), false
	if mayPersist && s.rttStats.MinRTT() != 0 {
		period := 3 * s.rttStats.PTO(true)
		persists = s.judge.isPersistent(space, period)
		widely := s.judge.mayPersist(space, period)
		if persists {
			count("persistent congestion")
			s.compare("persistent congestion has cause", 1, number(widely))
		} else if widely {
			count("persistent congestion by the widest reading alone")
		}
	}
	s.compare("persistent congestion", number(bool(C.recovery_ffi_last_outcome(s.handle).is_persistent)), number(persists))
	if s.reno != nil && !last.IsZero() {
		s.reno.lost(last, at, persists)
	}
}

func number(is bool) int64 {
	if is {
		return 1
	}
	return 0
}

func (s *shadow) OnLossDetectionTimeout() error {
	now := time.Now()
	s.begin(now)
	pto, before := s.ptoCount, s.numProbesToSend
	if aligned(alPTO) {
		before = 0
	}
	lossTime, lossLevel := s.getLossTimeAndSpace()
	err := s.sentPacketHandler.OnLossDetectionTimeout()
	reply := s.must("timeout", C.recovery_ffi_sender_on_timeout(s.handle, s.nanos(now)))
	theirs := "nothing"
	switch {
	case !lossTime.IsZero():
		theirs = "losses"
	case s.ptoCount != pto:
		theirs = fmt.Sprintf("%d probes, mode %d", s.numProbesToSend-before, s.ptoMode)
	}
	ours := "nothing"
	switch reply.kind {
	case C.RECOVERY_ANSWER_LOSSES:
		ours = "losses"
		if !lossTime.IsZero() {
			s.judgeLosses("timer", spaceOf(lossLevel), now, false)
		}
	case C.RECOVERY_ANSWER_PROBES:
		ours = fmt.Sprintf("%d probes, mode %d", reply.second, modeOf[reply.first])
	}
	count("timeout: " + ours)
	atomic.AddInt64(&values, 1)
	if ours != theirs {
		s.differs("timeout", ours, theirs, 0)
	}
	s.compareState("timeout")
	return err
}

// HasPacingBudget compares both pacers, if both go by the same rule.
func (s *shadow) HasPacingBudget() bool {
	s.begin(time.Now())
	may := s.sentPacketHandler.HasPacingBudget()
	if s.reno == nil {
		return may
	}
	reply := s.must("pacer_check", C.recovery_ffi_pacer_check(s.handle, s.nanos(s.at), C.uint64_t(s.size)))
	wait := int64(0)
	if !s.reno.wait.IsZero() {
		wait = int64(s.nanos(s.reno.wait))
		count("paced")
	}
	s.compare("pacer", int64(reply.first), wait)
	s.compareTokens(C.recovery_ffi_path(s.handle, false))
	return may
}

func (s *shadow) ReceivedBytes(n protocol.ByteCount) {
	s.begin(time.Now())
	s.sentPacketHandler.ReceivedBytes(n)
	s.must("datagram_in", C.recovery_ffi_datagram_in(s.handle, false, C.uint64_t(n)))
	s.compareTimer("datagram")
}

func (s *shadow) ReceivedPacket(level protocol.EncryptionLevel) {
	was := s.peerAddressValidated
	s.begin(time.Now())
	s.sentPacketHandler.ReceivedPacket(level)
	if !was && s.peerAddressValidated {
		s.must("validated", C.recovery_ffi_validated(s.handle, false))
	}
	s.compareTimer("packet")
}

func (s *shadow) DropPackets(level protocol.EncryptionLevel) {
	now := time.Now()
	s.begin(now)
	s.sentPacketHandler.DropPackets(level)
	switch {
	case s.client && level == protocol.EncryptionInitial:
		return
	case level == protocol.Encryption0RTT:
		count("0-RTT rejected")
		s.must("retransmit_all", C.recovery_ffi_sender_retransmit_all(s.handle, C.RECOVERY_SPACE_DATA, s.nanos(now)))
	default:
		s.must("discard", C.recovery_ffi_sender_discard(s.handle, C.uint8_t(spaceOf(level)), s.nanos(now)))
	}
	s.compareState("drop")
}

func (s *shadow) ResetForRetry() error {
	s.begin(time.Now())
	err := s.sentPacketHandler.ResetForRetry()
	count("Retry")
	for _, space := range []C.uint8_t{C.RECOVERY_SPACE_INITIAL, C.RECOVERY_SPACE_DATA} {
		s.must("retransmit_all", C.recovery_ffi_sender_retransmit_all(s.handle, space, s.nanos(s.at)))
		s.judge.spaces[space] = map[uint64]*record{}
	}
	s.sync()
	return err
}

func (s *shadow) SetHandshakeConfirmed() {
	s.begin(time.Now())
	s.sentPacketHandler.SetHandshakeConfirmed()
	s.must("confirmed", C.recovery_ffi_sender_handshake_confirmed(s.handle))
	if aligned(alPeer) {
		s.peerCompletedAddressValidation = true
		s.setLossDetectionTimer()
	}
	s.compareTimer("confirmed")
}

// cross is the shortest call of the library, for the benchmarks.
func (o *over) cross() { C.recovery_ffi_pto_count(&o.c.handle) }
