package ackhandler

import (
	"math/big"
	"time"
)

// bucket is a token bucket (RFC 9002, 7.7) as the library describes its own: it holds what the window is worth for two
// milliseconds, but 10 datagrams or more and 256 or fewer, and fills at five fourths of a window for each RTT. Products
// are computed as big numbers.
type bucket struct {
	capacity, window, datagram, tokens uint64
	last                               time.Time
}

const (
	burst         = 2 * time.Millisecond
	mostPaced     = 1<<32 - 1 // bytes of a window
	leastCapacity = 10
	mostCapacity  = 256
)

// times is a * b / c, rounded down.
func times(a, b, c uint64) uint64 {
	product := new(big.Int).Mul(new(big.Int).SetUint64(a), new(big.Int).SetUint64(b))
	return product.Div(product, new(big.Int).SetUint64(c)).Uint64()
}

func (b *bucket) measure(rtt time.Duration, window, datagram uint64) {
	b.capacity, b.window, b.datagram = times(window, uint64(burst), uint64(rtt)), window, datagram
	if b.capacity < leastCapacity*datagram {
		b.capacity = leastCapacity * datagram
	}
	if b.capacity > mostCapacity*datagram {
		b.capacity = mostCapacity * datagram
	}
}

func newBucket(rtt time.Duration, window, datagram uint64, now time.Time) bucket {
	b := bucket{last: now}
	b.measure(rtt, window, datagram)
	b.tokens = b.capacity
	return b
}

func (b *bucket) take(bytes uint64) {
	if bytes > b.tokens {
		bytes = b.tokens
	}
	b.tokens -= bytes
}

// wait is when to ask again whether a datagram may be sent; the zero time if it may be sent now.
func (b *bucket) wait(rtt time.Duration, window, datagram uint64, now time.Time) time.Time {
	if window != b.window || datagram != b.datagram {
		b.measure(rtt, window, datagram)
		if b.tokens > b.capacity {
			b.tokens = b.capacity
		}
	}
	if b.tokens >= datagram || window > mostPaced {
		return time.Time{}
	}
	if now.After(b.last) {
		b.tokens += times(5*window, uint64(now.Sub(b.last)), 4*uint64(rtt))
		b.last = now
	}
	if b.tokens > b.capacity {
		b.tokens = b.capacity
	}
	if b.tokens >= datagram {
		return time.Time{}
	}
	short := b.capacity - b.tokens
	return b.last.Add(time.Duration(4 * (times(uint64(rtt), short, window) / 5)))
}
