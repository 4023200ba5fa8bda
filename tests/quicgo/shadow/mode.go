package ackhandler

import (
	"os"

	"github.com/lucas-clemente/quic-go/internal/protocol"
	"github.com/lucas-clemente/quic-go/internal/utils"
)

type bothHandler interface {
	SentPacketHandler
	sentPacketTracker
}

// handlerBy is what QUIC_MODE asks for: quic-go's own handler, the library beside it (shadow), or the library alone.
func handlerBy(
	own *sentPacketHandler, first protocol.PacketNumber, size protocol.ByteCount, rtt *utils.RTTStats, validated bool,
	pers protocol.Perspective,
) bothHandler {
	switch os.Getenv("QUIC_MODE") {
	case "own":
		return own
	case "shadow":
		return newShadow(own, size, validated, pers)
	default:
		return newOver(first, size, rtt, validated, pers)
	}
}
