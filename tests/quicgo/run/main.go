// Transfers between two endpoints over quic-go's own proxy, which loses, delays and reorders here.
package main

import (
	"context"
	"crypto/tls"
	"errors"
	"flag"
	"fmt"
	"io"
	"math/rand"
	"net"
	"os"
	"sort"
	"sync"
	"sync/atomic"
	"time"

	"github.com/lucas-clemente/quic-go"
	quicproxy "github.com/lucas-clemente/quic-go/integrationtests/tools/proxy"
	"github.com/lucas-clemente/quic-go/internal/ackhandler"
	"github.com/lucas-clemente/quic-go/internal/testdata"
)

var (
	loss    = flag.Float64("loss", 0, "of a hundred datagrams, each way")
	hsLoss  = flag.Float64("hsloss", 0, "of a hundred of the first twelve each way, in place of it")
	delay   = flag.Duration("delay", 5*time.Millisecond, "one way")
	jitter  = flag.Duration("jitter", 0, "at most, one way")
	size    = flag.Int("size", 1<<20, "bytes a connection, from the server")
	up      = flag.Int("up", 0, "bytes a connection, from the client")
	conns   = flag.Int("conns", 1, "connections, one behind the other")
	workers = flag.Int("workers", 1, "that many at once")
	seed    = flag.Int64("seed", 1, "")
	retry   = flag.Bool("retry", false, "the server asks for a token")
	mtud    = flag.Bool("mtud", false, "the MTU is searched for")
	pause   = flag.Duration("pause", 0, "between the parts that the server writes")
	part    = flag.Int("part", 1<<16, "bytes of a part")
	resume  = flag.Bool("resume", false, "with tickets and 0-RTT")
	reject  = flag.Bool("reject", false, "with tickets, and every second server rejects 0-RTT")
	long    = flag.Bool("long", false, "the server has a long chain of certificates")
	outage  = flag.Duration("outage", 0, "all is lost so long, 30 ms behind the first 1-RTT datagrams")
	limit   = flag.Duration("limit", 60*time.Second, "for a connection")
	idle    = flag.Duration("idle", 20*time.Second, "so long an endpoint waits for the other")
)

var largest int64 // bytes of a datagram

func check(err error) {
	if err != nil {
		panic(err)
	}
}

func main() {
	flag.Parse()
	config := &quic.Config{
		DisablePathMTUDiscovery: !*mtud, HandshakeIdleTimeout: *idle, MaxIdleTimeout: *idle + 10*time.Second,
	}
	server := config.Clone()
	if *retry {
		server.RequireAddressValidation = func(net.Addr) bool { return true }
	}
	conf := testdata.GetTLSConfig()
	conf.NextProtos = []string{"x"}
	if *long {
		chain := &conf.Certificates[0]
		for len(chain.Certificate) < 8 {
			chain.Certificate = append(chain.Certificate, chain.Certificate[0])
		}
	}
	ports := []int{listen(conf, server)}
	if *reject { // by transport parameters that allow less than those that a ticket stands for
		less := server.Clone()
		less.MaxIncomingStreams = 10
		ports = append(ports, listen(conf, less))
	}
	var failed, done int64
	var mutex sync.Mutex
	var took []time.Duration
	var wait sync.WaitGroup
	began := time.Now()
	turns := make(chan int)
	cache := tls.NewLRUClientSessionCache(100)
	for w := 0; w < *workers; w++ {
		wait.Add(1)
		go func() {
			defer wait.Done()
			for turn := range turns {
				start := time.Now()
				err := fetch(ports[turn%len(ports)], config, cache, *seed+int64(turn))
				mutex.Lock()
				took = append(took, time.Since(start))
				mutex.Unlock()
				if err != nil {
					fmt.Fprintln(os.Stderr, "connection:", err)
					atomic.AddInt64(&failed, 1)
				} else {
					atomic.AddInt64(&done, 1)
				}
			}
		}()
	}
	for turn := 0; turn < *conns; turn++ {
		turns <- turn
	}
	close(turns)
	wait.Wait()
	fmt.Printf("done %d failed %d in %v\n", done, failed, time.Since(began).Round(time.Millisecond))
	sort.Slice(took, func(a, b int) bool { return took[a] < took[b] })
	at := func(percent int) time.Duration { return took[(len(took)-1)*percent/100].Round(time.Millisecond) }
	fmt.Printf("largest %d\n", largest)
	fmt.Printf("took %v, %v, %v, %v (half, nine tenths, 99 of 100, all)\n", at(50), at(90), at(99), at(100))
	ackhandler.ShadowReport()
}

// listen starts a server, and returns its port.
func listen(conf *tls.Config, config *quic.Config) int {
	listener, err := quic.ListenAddrEarly("127.0.0.1:0", conf, config)
	check(err)
	go func() {
		for {
			conn, err := listener.Accept(context.Background())
			if err != nil {
				return
			}
			go serve(conn)
		}
	}()
	return listener.Addr().(*net.UDPAddr).Port
}

func serve(conn quic.Connection) {
	stream, err := conn.AcceptStream(context.Background())
	if err != nil {
		return
	}
	io.Copy(io.Discard, stream)
	data := make([]byte, *part)
	for sent := 0; sent < *size; sent += *part {
		if _, err := stream.Write(data); err != nil {
			return
		}
		if *pause > 0 {
			time.Sleep(*pause)
		}
	}
	stream.Close()
}

func fetch(port int, config *quic.Config, cache tls.ClientSessionCache, seed int64) error {
	random := rand.New(rand.NewSource(seed))
	var mutex sync.Mutex
	var seen [3]int
	most := 0
	var outageFrom time.Time
	proxy, err := quicproxy.NewQuicProxy("127.0.0.1:0", &quicproxy.Opts{
		RemoteAddr: fmt.Sprintf("127.0.0.1:%d", port),
		DropPacket: func(dir quicproxy.Direction, b []byte) bool {
			mutex.Lock()
			defer mutex.Unlock()
			seen[dir]++
			if len(b) > most {
				most = len(b)
			}
			if *outage > 0 && b[0]&0x80 == 0 {
				if outageFrom.IsZero() {
					outageFrom = time.Now().Add(30 * time.Millisecond)
				}
				if gone := time.Since(outageFrom); gone > 0 && gone < *outage {
					return true
				}
			}
			p := *loss
			if *hsLoss > 0 && seen[dir] <= 12 {
				p = *hsLoss
			}
			return random.Float64()*100 < p
		},
		DelayPacket: func(quicproxy.Direction, []byte) time.Duration {
			mutex.Lock()
			defer mutex.Unlock()
			d := *delay
			if *jitter > 0 {
				d += time.Duration(random.Int63n(int64(*jitter)))
			}
			return d
		},
	})
	if err != nil {
		return err
	}
	defer proxy.Close()
	defer func() {
		mutex.Lock()
		defer mutex.Unlock()
		for {
			was := atomic.LoadInt64(&largest)
			if int64(most) <= was || atomic.CompareAndSwapInt64(&largest, was, int64(most)) {
				return
			}
		}
	}()
	ctx, cancel := context.WithTimeout(context.Background(), *limit)
	defer cancel()
	conf := &tls.Config{RootCAs: testdata.GetRootCA(), NextProtos: []string{"x"}, ServerName: "localhost"}
	address := fmt.Sprintf("127.0.0.1:%d", proxy.LocalPort())
	if !*resume && !*reject {
		conn, err := quic.DialAddrContext(ctx, address, conf, config)
		if err != nil {
			return err
		}
		return transfer(ctx, conn)
	}
	conf.ClientSessionCache = cache
	conn, err := quic.DialAddrEarlyContext(ctx, address, conf, config)
	if err != nil {
		return err
	}
	if err = transfer(ctx, conn); errors.Is(err, quic.Err0RTTRejected) {
		err = transfer(ctx, conn.NextConnection())
	}
	return err
}

// transfer sends, receives and counts.
func transfer(ctx context.Context, conn quic.Connection) (err error) {
	defer func() {
		if !errors.Is(err, quic.Err0RTTRejected) {
			conn.CloseWithError(0, "")
		}
	}()
	stream, err := conn.OpenStreamSync(ctx)
	if err != nil {
		return err
	}
	if deadline, ok := ctx.Deadline(); ok {
		stream.SetDeadline(deadline)
	}
	if _, err := stream.Write(append([]byte("x"), make([]byte, *up)...)); err != nil {
		return err
	}
	stream.Close()
	n, err := io.Copy(io.Discard, stream)
	if err != nil {
		return err
	}
	if want := (*size + *part - 1) / *part * *part; int(n) != want {
		return fmt.Errorf("%d bytes and not %d", n, want)
	}
	return nil
}
