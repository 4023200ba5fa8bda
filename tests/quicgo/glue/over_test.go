package ackhandler

import (
	"fmt"
	"os"
	"testing"
	"time"

	"github.com/lucas-clemente/quic-go/internal/protocol"
	"github.com/lucas-clemente/quic-go/internal/utils"
	"github.com/lucas-clemente/quic-go/internal/wire"
)

// benchmark is what quic-go's connection asks of its handler for a data packet, with an ACK for every second one, while
// sixteen are in flight.
func benchmark(b *testing.B, mode string) {
	os.Setenv("QUIC_MODE", mode)
	rtt := &utils.RTTStats{}
	rtt.SetMaxAckDelay(25 * time.Millisecond)
	own := newSentPacketHandler(0, 1252, rtt, true, protocol.PerspectiveServer, nil, utils.DefaultLogger)
	h := handlerBy(own, 0, 1252, rtt, true, protocol.PerspectiveServer)
	now := time.Now()
	h.SetHandshakeConfirmed()
	numbers := []protocol.PacketNumber{}
	frames := 0
	count := func(wire.Frame) { frames++ }
	b.ReportAllocs()
	b.ResetTimer()
	for i := 0; i < b.N; i++ {
		now = now.Add(100 * time.Microsecond)
		h.SendMode()
		h.HasPacingBudget()
		h.PeekPacketNumber(protocol.Encryption1RTT)
		number := h.PopPacketNumber(protocol.Encryption1RTT)
		h.SentPacket(&Packet{
			PacketNumber: number, Length: 1252, EncryptionLevel: protocol.Encryption1RTT, SendTime: now,
			LargestAcked: protocol.InvalidPacketNumber,
			Frames:       []Frame{{Frame: &wire.PingFrame{}, OnAcked: count, OnLost: func(wire.Frame) {}}},
		})
		h.GetLossDetectionTimeout()
		numbers = append(numbers, number)
		if len(numbers) >= 16 && i%2 == 1 {
			first, second := numbers[0], numbers[1]
			ack := &wire.AckFrame{AckRanges: []wire.AckRange{{Smallest: first, Largest: second}}, DelayTime: time.Millisecond}
			if second != first+1 {
				ack.AckRanges = []wire.AckRange{{Smallest: second, Largest: second}, {Smallest: first, Largest: first}}
			}
			if _, err := h.ReceivedAck(ack, protocol.Encryption1RTT, now); err != nil {
				b.Fatal(err)
			}
			h.GetLossDetectionTimeout()
			numbers = numbers[2:]
		}
	}
}

func BenchmarkOwn(b *testing.B)  { benchmark(b, "own") }
func BenchmarkOver(b *testing.B) { benchmark(b, "over") }

// TestOver sends a packet that nobody acknowledges: behind the timeout two probes carry its frame and that of the next,
// and a number is skipped, whose ACK is an error, as that of a number that was not sent (RFC 9000, 13.1 and 21.4). An
// ACK of a probe acknowledges its own frame.
func TestOver(t *testing.T) {
	o := newOver(0, 1252, &utils.RTTStats{}, true, protocol.PerspectiveServer)
	o.SetHandshakeConfirmed()
	acked, lost := []int{}, []int{}
	send := func(frame int) {
		number := o.PopPacketNumber(protocol.Encryption1RTT)
		o.SentPacket(&Packet{
			PacketNumber: number, Length: 1252, EncryptionLevel: protocol.Encryption1RTT, SendTime: time.Now(),
			LargestAcked: protocol.InvalidPacketNumber,
			Frames: []Frame{{
				Frame:   &wire.PingFrame{},
				OnAcked: func(wire.Frame) { acked = append(acked, frame) },
				OnLost:  func(wire.Frame) { lost = append(lost, frame) },
			}},
		})
	}
	receive := func(number protocol.PacketNumber) error {
		ack := &wire.AckFrame{AckRanges: []wire.AckRange{{Smallest: number, Largest: number}}}
		_, err := o.ReceivedAck(ack, protocol.Encryption1RTT, time.Now())
		return err
	}
	send(10)
	send(11)
	time.Sleep(time.Until(o.GetLossDetectionTimeout()))
	if o.OnLossDetectionTimeout(); o.SendMode() != SendPTOAppData {
		t.Fatal("no probe is due")
	}
	for frame := 12; o.SendMode() == SendPTOAppData; frame++ {
		if !o.QueueProbePacket(protocol.Encryption1RTT) {
			t.Fatal("a probe carries nothing")
		}
		send(frame)
	}
	if fmt.Sprint(lost) != "[10 11]" || o.PopPacketNumber(protocol.Encryption1RTT) != 5 {
		t.Fatal("the probes carry", lost, "and the next number is", o.PopPacketNumber(protocol.Encryption1RTT))
	}
	if err := receive(4); err != nil || fmt.Sprint(acked) != "[13]" {
		t.Fatal("the ACK of the second probe:", err, acked)
	}
	if receive(2) == nil || receive(5) == nil {
		t.Fatal("an ACK of a number that was not sent passes")
	}
}

// TestWaiting fills the window with 1-RTT packets before the handshake is confirmed. A Handshake packet that finds no
// room has no timer then (RFC 9002, 6.2.1), until it is asked for: the library probes for its space.
func TestWaiting(t *testing.T) {
	o := newOver(0, 1252, &utils.RTTStats{}, true, protocol.PerspectiveServer)
	nothing := func(wire.Frame) {}
	send := func(level protocol.EncryptionLevel) {
		o.SentPacket(&Packet{
			PacketNumber: o.PopPacketNumber(level), Length: 1252, EncryptionLevel: level, SendTime: time.Now(),
			LargestAcked: protocol.InvalidPacketNumber,
			Frames:       []Frame{{Frame: &wire.PingFrame{}, OnAcked: nothing, OnLost: nothing}},
		})
	}
	o.DropPackets(protocol.EncryptionInitial)
	for o.SendMode() == SendAny {
		send(protocol.Encryption1RTT)
	}
	Waiting(o, protocol.EncryptionInitial, true)
	Waiting(o, protocol.EncryptionHandshake, false)
	if o.SendMode() != SendAck || !o.GetLossDetectionTimeout().IsZero() {
		t.Fatal("a space waits that has nothing to send")
	}
	Waiting(o, protocol.EncryptionHandshake, true)
	time.Sleep(time.Until(o.GetLossDetectionTimeout()))
	if o.OnLossDetectionTimeout(); o.SendMode() != SendPTOHandshake {
		t.Fatal("no probe is due")
	}
	o.QueueProbePacket(protocol.EncryptionHandshake)
	send(protocol.EncryptionHandshake)
	send(protocol.EncryptionHandshake)
	if o.SendMode() != SendAck || o.GetLossDetectionTimeout().IsZero() {
		t.Fatal("the probes have no timer")
	}
}

// BenchmarkCross is a call from Go to C and back.
func BenchmarkCross(b *testing.B) {
	o := newOver(0, 1252, &utils.RTTStats{}, true, protocol.PerspectiveServer)
	for i := 0; i < b.N; i++ {
		o.cross()
	}
}
