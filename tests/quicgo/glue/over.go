// The library's sender, in place of quic-go's loss detection, RTT, congestion control, pacer and MTU search, as an
// embedder in Go does it.
//
// The walk. Streams, frames, keys and packets as bytes stay quic-go's. What was done, by quic-go's SentPacketHandler:
//
//  1. Frames stay in Go. A packet's one item is its number, the key of a map. The item comes back with the packet's
//     ACK, or waits for retransmission once the packet is lost.
//  2. quic-go builds a datagram first and knows its size last. So SendMode asks for room for a whole one, and
//     SentPacket reports each packet by transmit, which asks neither window nor pacer here, and by send.
//  3. QueueProbePacket takes what a probe carries, once SendMode has found room. An empty queue makes quic-go send a
//     PING. Before a 1-RTT probe a number is skipped, so that the peer acknowledges at once: send, with size 0. An ACK
//     of that number closes the connection.
//  4. Handshake keys are reported by both endpoints, with the first packet that has them. Without that, a server's
//     probe against a deadlock is in Initial, and there is none once that space is discarded: its 0.5-RTT data may then
//     fill the window for ever.
//  5. What a ticket or a Retry says of the RTT is an initial RTT, set when it is known, after the sender was made.
//  6. A probe of the MTU takes its number before it is built, which the next packet then has.
//  7. The timer of a client runs from the beginning (RFC 9002, 6.2.2.1). It is ignored until a packet was sent.
//  8. An ACK frame that fails closes the connection, by one conversion of the library's error into quic-go's.
//
// What a garbage collector needs. One structure for each connection, in memory of C, holds the handle, what was read
// of it, and arrays for results. Go passes its address, and C holds no pointer of Go's. A finalizer frees it, and may
// run while the last call for it is being made: so each call ends with runtime.KeepAlive. One goroutine calls a handle,
// that of the connection. go build sees no change outside of a package: so the header is copied into it, and the
// folder of the library is named by a checksum.
//
// What cgo costs. A call from Go to C and back takes 105 to 140 ns (BenchmarkCross), more than most calls of the
// library. So each call of quic-go's is one crossing, with all that is read afterwards (glue.h): one for a packet, one
// for an ACK frame. Timer, window and tokens are read from memory, and the pacer is asked only if its last tokens are
// too few. A packet with half an ACK takes 1.9 microseconds over the library and 1.0 without, the fastest of ten runs
// on a busy machine, with as many allocations (over_test.go).
//
// What quic-go does better. It leaves slow start when the RTT grows, and bounds window and tracked packets (10,000
// and 25,000). It skips numbers at random: the library does too, but send then chooses the number, which here is in
// the header already. It sends while the limit against amplification leaves less than a whole datagram; here it waits
// for a whole one, where RFC 9000, 8.1 lets a smaller one pass. It knows an outcome by callbacks, without a map.
package ackhandler

// #include "glue.h"
import "C"

import (
	"fmt"
	"runtime"
	"time"
	"unsafe"

	"github.com/lucas-clemente/quic-go/internal/protocol"
	"github.com/lucas-clemente/quic-go/internal/qerr"
	"github.com/lucas-clemente/quic-go/internal/utils"
	"github.com/lucas-clemente/quic-go/internal/wire"
)

// over is the library's sender, in place of quic-go's loss detection, RTT, congestion control, pacer and MTU search. It
// is called from the goroutine of its connection alone. What a packet carries is one item, its number, under which
// its frames are in a map.
type over struct {
	c         *C.struct_glue
	base      time.Time // a second before the connection began: the library's time 0
	client    bool
	size      protocol.ByteCount // of a whole datagram
	rtt       *utils.RTTStats
	delay     time.Duration // the peer's max_ack_delay, as the library has it
	initial   time.Duration // and the RTT before the first sample
	began     time.Time     // when the first packet was sent
	packets   [3]map[protocol.PacketNumber]*Packet
	next      [3]protocol.PacketNumber
	acked     [3]protocol.PacketNumber
	first     protocol.PacketNumber   // Initial number of this connection: a version negotiation came before it
	skipped   []protocol.PacketNumber // in Data
	confirmed protocol.PacketNumber   // below it, ACKs that this endpoint sent were received
	due       int                     // probes, in the space of dueIn
	dueIn     int
	timeouts  int
	hasKeys   bool // of Handshake packets
	wait      time.Time
	probe     protocol.PacketNumber // of the MTU, before it is sent
	probeSize protocol.ByteCount
	asked     time.Time // for such a probe
	resized   func(protocol.ByteCount)
}

const mostSkipped = 16

var (
	levelOf = [3]protocol.EncryptionLevel{
		protocol.EncryptionInitial, protocol.EncryptionHandshake, protocol.Encryption1RTT,
	}
	modeOf = [3]SendMode{SendPTOInitial, SendPTOHandshake, SendPTOAppData}
)

func spaceOf(level protocol.EncryptionLevel) int {
	switch level {
	case protocol.EncryptionInitial:
		return C.RECOVERY_SPACE_INITIAL
	case protocol.EncryptionHandshake:
		return C.RECOVERY_SPACE_HANDSHAKE
	default:
		return C.RECOVERY_SPACE_DATA
	}
}

func newOver(
	first protocol.PacketNumber, size protocol.ByteCount, rtt *utils.RTTStats, validated bool, pers protocol.Perspective,
) *over {
	now := time.Now()
	o := &over{
		base: now.Add(-time.Second), client: pers == protocol.PerspectiveClient, size: size, rtt: rtt, delay: -1,
		first: first, probe: protocol.InvalidPacketNumber,
	}
	settings := C.recovery_ffi_default_settings()
	settings.validated = C.bool(validated)
	settings.initial_mtu = C.uint16_t(size)
	settings.mtu_upper_bound = C.uint16_t(protocol.MaxPacketBufferSize)
	settings.allow_mtud, settings.searches = true, true
	settings.initial_window = 32 * C.uint64_t(size) // as quic-go has it, and so the next two
	settings.loss_numerator, settings.loss_denominator = 7, 10
	settings.initial_rtt = C.uint64_t(utils.UsualInitialRTT)
	var remote C.struct_recovery_address
	var id C.uint8_t
	o.c = (*C.struct_glue)(C.memset(C.malloc(C.sizeof_struct_glue), 0, C.sizeof_struct_glue))
	code := C.recovery_ffi_sender_new(&o.c.handle, C.bool(o.client), &settings, &remote, &id, 0, o.nanos(now))
	if code != C.RECOVERY_NEW_MADE {
		panic(C.GoString(C.recovery_ffi_new_text(code)))
	}
	runtime.SetFinalizer(o, func(o *over) { C.glue_drop(o.c) })
	C.glue_read(o.c)
	for at := range o.packets {
		o.packets[at] = map[protocol.PacketNumber]*Packet{}
		o.acked[at] = protocol.InvalidPacketNumber
	}
	for o.next[0] < first {
		o.skip(C.RECOVERY_SPACE_INITIAL, o.nanos(now))
	}
	return o
}

func (o *over) nanos(t time.Time) C.uint64_t { return C.uint64_t(t.Sub(o.base)) }

func (o *over) moment(nanos C.uint64_t) time.Time { return o.base.Add(time.Duration(nanos)) }

// done ends a call of the library: until then the finalizer must not run.
func (o *over) done() {
	refused := o.c.reply.kind == C.RECOVERY_ANSWER_REFUSED
	text := ""
	if refused {
		text = C.GoString(C.recovery_ffi_text(o.c.reply.refusal))
	}
	runtime.KeepAlive(o)
	if refused {
		panic("the library: " + text)
	}
}

func numbers(list *C.struct_glue_list) []C.uint64_t { return unsafe.Slice(list.at, int(list.len)) }

// sync reports what quic-go stores where the library cannot read it.
func (o *over) sync() {
	if d := o.rtt.MaxAckDelay(); d != o.delay {
		o.delay = d
		o.c.reply = C.recovery_ffi_sender_peer_delay(
			&o.c.handle, C.uint64_t(d/time.Second), C.uint32_t(d%time.Second))
		C.glue_read(o.c)
		o.done()
	}
	if d := o.rtt.Restored(); d != 0 && d != o.initial {
		o.startFrom(d)
	}
}

// startFrom sets the RTT before the first sample.
func (o *over) startFrom(d time.Duration) {
	o.initial = d
	o.c.reply = C.recovery_ffi_sender_initial_rtt(
		&o.c.handle, C.uint64_t(d/time.Second), C.uint32_t(d%time.Second))
	C.glue_read(o.c)
	o.done()
}

func (o *over) skip(space int, now C.uint64_t) {
	C.glue_skip(o.c, C.uint8_t(space), now)
	number := protocol.PacketNumber(o.c.reply.first)
	o.done()
	o.next[space] = number + 1
	if space == C.RECOVERY_SPACE_DATA {
		o.skipped = append(o.skipped, number)
		if len(o.skipped) > mostSkipped {
			o.skipped = o.skipped[1:]
		}
	}
}

// again queues the frames of the items that the library returned, or drops them, and forgets lost packets. It returns
// whether a frame is queued.
func (o *over) again(space int, queues bool) bool {
	queued := false
	for _, item := range numbers(&o.c.items) {
		if p := o.packets[space][protocol.PacketNumber(item)]; p != nil {
			for _, f := range p.Frames {
				if queues {
					f.OnLost(f.Frame)
					queued = true
				}
			}
			p.Frames = nil
		}
	}
	for _, number := range numbers(&o.c.lost) {
		delete(o.packets[space], protocol.PacketNumber(number))
	}
	runtime.KeepAlive(o)
	return queued
}

func (o *over) SentPacket(p *Packet) {
	o.sync()
	space, now := spaceOf(p.EncryptionLevel), o.nanos(p.SendTime)
	if o.began.IsZero() {
		o.began = p.SendTime
	}
	if space == C.RECOVERY_SPACE_HANDSHAKE && !o.hasKeys {
		o.hasKeys = true
		o.c.reply = C.recovery_ffi_sender_handshake_keys(&o.c.handle)
		o.done()
		if o.client {
			o.discard(C.RECOVERY_SPACE_INITIAL, now)
		}
	}
	if p.PacketNumber == o.probe && space == C.RECOVERY_SPACE_DATA { // the library counts it as sent already
		o.probe = protocol.InvalidPacketNumber
		o.c.reply = C.recovery_ffi_sender_transmit(&o.c.handle, now, C.uint16_t(p.Length), C.uint8_t(space), false)
		C.glue_read(o.c)
		o.done()
		return
	}
	elicits := len(p.Frames) > 0
	C.glue_send(o.c, C.uint8_t(space), now, C.uint16_t(p.Length), C.bool(elicits), C.uint64_t(p.PacketNumber))
	kind, number := o.c.reply.kind, protocol.PacketNumber(o.c.reply.first)
	o.done()
	if kind != C.RECOVERY_ANSWER_SENT || number != p.PacketNumber {
		panic(fmt.Sprint("packet ", p.PacketNumber, ": answer ", kind, " and number ", number))
	}
	o.next[space] = number + 1
	if elicits {
		kept := *p
		o.packets[space][number] = &kept
		if o.due > 0 && o.dueIn == space {
			o.due--
		}
	}
}

// isLimited is RFC 9002, 7.8, as quic-go has it: much of the window is unused.
func (o *over) isLimited() bool {
	path := &o.c.path
	if path.in_flight >= path.window || (path.window < path.ssthresh && 2*path.in_flight > path.window) {
		return false
	}
	return path.window-path.in_flight > 3*C.uint64_t(o.size)
}

func (o *over) ReceivedAck(ack *wire.AckFrame, level protocol.EncryptionLevel, at time.Time) (bool, error) {
	o.sync()
	space := spaceOf(level)
	C.glue_ranges(o.c, C.size_t(len(ack.AckRanges)))
	ranges := unsafe.Slice(o.c.ranges, len(ack.AckRanges))
	for at, it := range ack.AckRanges {
		ranges[at] = C.struct_recovery_ack_range{first: C.uint64_t(it.Smallest), last: C.uint64_t(it.Largest)}
	}
	latest, smoothed := o.c.path.rtt_latest, o.c.path.rtt
	C.glue_ack(o.c, C.uint8_t(space), o.nanos(at), C.uint64_t(ack.DelayTime), C.bool(o.isLimited()), C.size_t(len(ranges)))
	reply, path := o.c.reply, o.c.path
	runtime.KeepAlive(o)
	if reply.kind != C.RECOVERY_ANSWER_ACKNOWLEDGED {
		return false, o.refused(reply.refusal)
	}
	o.acked[space] = utils.Max(o.acked[space], ack.LargestAcked())
	is1RTT := false
	words := numbers(&o.c.acked)
	for at := 0; at < len(words); at += 2 + int(words[at+1]) {
		number := protocol.PacketNumber(words[at])
		if p := o.packets[space][number]; p != nil {
			is1RTT = is1RTT || p.EncryptionLevel == protocol.Encryption1RTT
			if p.LargestAcked != protocol.InvalidPacketNumber && level == protocol.Encryption1RTT {
				o.confirmed = utils.Max(o.confirmed, p.LargestAcked+1)
			}
			for _, f := range p.Frames {
				if f.OnAcked != nil {
					f.OnAcked(f.Frame)
				}
			}
			delete(o.packets[space], number)
		} else if o.wasSkipped(space, number) {
			return false, &qerr.TransportError{
				ErrorCode:    qerr.ProtocolViolation,
				ErrorMessage: fmt.Sprintf("received an ACK for skipped packet number: %d (%s)", number, level),
			}
		}
	}
	o.again(space, true)
	if path.rtt_latest != latest || path.rtt != smoothed {
		o.rtt.Take(time.Duration(path.rtt_min), time.Duration(path.rtt_latest), time.Duration(path.rtt),
			time.Duration(path.rtt_variance))
	}
	if mtu := protocol.ByteCount(path.mtu); mtu != o.size && o.resized != nil {
		o.size = mtu
		o.resized(mtu)
	}
	return is1RTT, nil
}

func (o *over) wasSkipped(space int, number protocol.PacketNumber) bool {
	if space == C.RECOVERY_SPACE_INITIAL {
		return number < o.first
	}
	for _, it := range o.skipped {
		if it == number && space == C.RECOVERY_SPACE_DATA {
			return true
		}
	}
	return false
}

// refused is the error that closes the connection, if one does.
func (o *over) refused(refusal C.uint8_t) error {
	text := C.GoString(C.recovery_ffi_text(refusal))
	switch refusal {
	case C.RECOVERY_REFUSAL_SPACE_DISCARDED:
		return nil
	case C.RECOVERY_REFUSAL_UNSENT:
		text = "received ACK for an unsent packet" // by which quic-go's tests ask for it
	case C.RECOVERY_REFUSAL_BAD_RANGE, C.RECOVERY_REFUSAL_SKIPPED_ACKED:
	default:
		return &qerr.TransportError{ErrorCode: qerr.InternalError, ErrorMessage: text}
	}
	return &qerr.TransportError{ErrorCode: qerr.ProtocolViolation, ErrorMessage: text}
}

func (o *over) OnLossDetectionTimeout() error {
	o.sync()
	now := o.nanos(time.Now())
	C.glue_timeout(o.c, now)
	reply := o.c.reply
	o.done()
	switch reply.kind {
	case C.RECOVERY_ANSWER_LOSSES:
		o.again(int(C.recovery_losses_space(reply)), true)
	case C.RECOVERY_ANSWER_PROBES:
		o.timeouts++
		o.due, o.dueIn = int(C.recovery_probes_count(reply)), int(C.recovery_probes_space(reply))
		if o.dueIn == C.RECOVERY_SPACE_DATA { // so that the peer acknowledges at once
			o.skip(o.dueIn, now)
		}
	}
	return nil
}

// QueueProbePacket queues what a probe carries. SendMode has let its datagram pass.
func (o *over) QueueProbePacket(level protocol.EncryptionLevel) bool {
	space := spaceOf(level)
	o.c.lost.len = 0
	C.glue_probe(o.c, C.uint8_t(space), o.nanos(time.Now()))
	o.done()
	return o.again(space, true)
}

// GetLossDetectionTimeout is no time before the first packet: the library's timer runs at once at a client, and a slow
// first flight would double the next timeout.
func (o *over) GetLossDetectionTimeout() time.Time {
	if o.c.view.timer == 0 || o.began.IsZero() {
		return time.Time{}
	}
	return o.moment(o.c.view.timer)
}

func (o *over) SendMode() SendMode {
	if o.c.view.is_limited && o.c.view.amplification_room < C.uint64_t(o.size) {
		return SendNone
	}
	if o.due > 0 {
		return modeOf[o.dueIn]
	}
	if o.c.view.window_room < C.uint64_t(o.size) {
		return SendAck
	}
	return SendAny
}

// Waiting asks for a packet of the handshake that SendMode may hold back, so that the library probes for its space.
func Waiting(h SentPacketHandler, level protocol.EncryptionLevel, waits bool) {
	o, ok := h.(*over)
	if !ok || !waits || o.packets[spaceOf(level)] == nil || o.c.view.window_room >= C.uint64_t(o.size) {
		return
	}
	C.glue_wait(o.c, C.uint8_t(spaceOf(level)), o.nanos(time.Now()), C.uint16_t(o.size))
	o.done()
}

// HasPacingBudget does not ask the library while the tokens that it read last are enough: time only adds to them.
func (o *over) HasPacingBudget() bool {
	if o.c.path.pacer_tokens >= C.uint64_t(o.size) {
		return true
	}
	o.c.reply = C.recovery_ffi_pacer_check(&o.c.handle, o.nanos(time.Now()), C.uint64_t(o.size))
	o.wait = time.Time{}
	if o.c.reply.kind == C.RECOVERY_ANSWER_DELAYED {
		o.wait = o.moment(C.recovery_delayed_until(o.c.reply))
	}
	o.done()
	return o.wait.IsZero()
}

func (o *over) TimeUntilSend() time.Time { return o.wait }

func (o *over) PeekPacketNumber(level protocol.EncryptionLevel) (protocol.PacketNumber, protocol.PacketNumberLen) {
	number, lowest := o.PopPacketNumber(level), o.acked[spaceOf(level)]+1
	if tracked := o.c.lowest[spaceOf(level)]; tracked.is_some {
		lowest = protocol.PacketNumber(tracked.number)
	}
	return number, protocol.GetPacketNumberLengthForHeader(number, lowest)
}

func (o *over) PopPacketNumber(level protocol.EncryptionLevel) protocol.PacketNumber {
	if level == protocol.Encryption1RTT && o.probe != protocol.InvalidPacketNumber {
		return o.probe
	}
	return o.next[spaceOf(level)]
}

// ReceivedBytes counts a datagram while that sets the limit of RFC 9000, 8.1.
func (o *over) ReceivedBytes(n protocol.ByteCount) {
	if o.c.view.is_limited {
		o.c.reply = C.recovery_ffi_datagram_in(&o.c.handle, false, C.uint64_t(n))
		C.glue_read(o.c)
		o.done()
	}
}

func (o *over) ReceivedPacket(level protocol.EncryptionLevel) {
	if level == protocol.EncryptionHandshake && o.c.view.is_limited {
		o.c.reply = C.recovery_ffi_validated(&o.c.handle, false)
		C.glue_read(o.c)
		o.done()
	}
}

func (o *over) discard(space int, now C.uint64_t) {
	o.c.reply = C.recovery_ffi_sender_discard(&o.c.handle, C.uint8_t(space), now)
	C.glue_read(o.c)
	o.done()
	o.packets[space] = nil
	if o.dueIn == space {
		o.due = 0
	}
}

// retransmitAll sends all of a space again, or drops it.
func (o *over) retransmitAll(space int, queues bool) {
	C.glue_retransmit_all(o.c, C.uint8_t(space), o.nanos(time.Now()))
	o.done()
	o.again(space, queues)
	if o.dueIn == space {
		o.due = 0
	}
}

func (o *over) DropPackets(level protocol.EncryptionLevel) {
	switch {
	case o.client && level == protocol.EncryptionInitial: // with the first Handshake packet that is sent
	case level == protocol.Encryption0RTT:
		o.retransmitAll(C.RECOVERY_SPACE_DATA, false)
	default:
		o.discard(spaceOf(level), o.nanos(time.Now()))
	}
}

// ResetForRetry takes the time since the first packet as the RTT until there is a sample (RFC 9002, 6.3).
func (o *over) ResetForRetry() error {
	o.retransmitAll(C.RECOVERY_SPACE_INITIAL, true)
	o.retransmitAll(C.RECOVERY_SPACE_DATA, true)
	if o.timeouts == 0 {
		o.startFrom(utils.Max(minRTTAfterRetry, time.Since(o.began)))
	}
	return nil
}

func (o *over) SetHandshakeConfirmed() {
	o.c.reply = C.recovery_ffi_sender_handshake_confirmed(&o.c.handle)
	C.glue_read(o.c)
	o.done()
}

func (o *over) SetMaxDatagramSize(size protocol.ByteCount) {} // the library has the MTU

func (o *over) GetLowestPacketNotConfirmedAcked() protocol.PacketNumber { return o.confirmed }

// MTUSearch is what a connection asks for probes of the MTU.
type MTUSearch interface {
	ShouldSendProbe(now time.Time) bool
	GetPing() (Frame, protocol.ByteCount)
}

// SearchOver is the library's MTU search, if the connection has the library.
func SearchOver(handler SentPacketHandler, most protocol.ByteCount, resized func(protocol.ByteCount)) MTUSearch {
	o, ok := handler.(*over)
	if !ok {
		return nil
	}
	o.resized = resized
	o.c.reply = C.recovery_ffi_peer_limit(&o.c.handle, C.uint16_t(most))
	o.done()
	return o
}

// ShouldSendProbe asks for a probe of the MTU, at most once a round trip.
func (o *over) ShouldSendProbe(now time.Time) bool {
	if now.Sub(o.asked) < time.Duration(o.c.path.rtt) {
		return false
	}
	o.asked = now
	o.c.reply = C.recovery_ffi_poll_mtu(&o.c.handle, o.nanos(now))
	C.glue_read(o.c)
	reply := o.c.reply
	o.done()
	if reply.kind != C.RECOVERY_ANSWER_PROBE {
		return false
	}
	o.probe = protocol.PacketNumber(C.recovery_probe_number(reply))
	o.probeSize = protocol.ByteCount(C.recovery_probe_size(reply))
	o.next[C.RECOVERY_SPACE_DATA] = o.probe + 1
	return true
}

// GetPing is what the probe carries: nothing that is sent again.
func (o *over) GetPing() (Frame, protocol.ByteCount) {
	nothing := func(wire.Frame) {}
	return Frame{Frame: &wire.PingFrame{}, OnLost: nothing, OnAcked: nothing}, o.probeSize
}
