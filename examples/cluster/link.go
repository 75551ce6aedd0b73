package main

import (
	"errors"
	"math/rand"
	"net"
	"os"
	"sync/atomic"
	"syscall"
	"time"

	"github.com/pion/rtcp"
)

const (
	beat    = 250 * time.Millisecond
	silence = time.Second
)

// A link carries one track's RTP to the other end, and NACKs and PLIs back, on a UDP socket that is connected to the other end's socket. Both ends send
// an empty receiver report every 250 ms, and a BYE at the end. A link ends when a BYE comes, when nothing comes for a second, or when the other end's
// socket is closed.
type link struct {
	conn           *net.UDPConn
	packets, bytes int64 // of RTP, sent
	lost           int64 // packets dropped because of -lose
	lossy          bool
}

// Returns one end of a link, not connected yet, and its address.
func newLink() (*link, string, error) {
	conn, err := net.ListenUDP("udp4", &net.UDPAddr{IP: net.ParseIP(*address)})
	if err != nil {
		return nil, "", err
	}
	conn.SetReadBuffer(1 << 20)
	return &link{conn: conn}, conn.LocalAddr().String(), nil
}

// Connects the socket to the other end: from now on it receives only from there.
func (l *link) connect(to string) error {
	at, err := net.ResolveUDPAddr("udp4", to)
	if err != nil {
		return err
	}
	raw, err := l.conn.SyscallConn()
	if err != nil {
		return err
	}
	peer := &syscall.SockaddrInet4{Port: at.Port}
	copy(peer.Addr[:], at.IP.To4())
	var failed error
	err = raw.Control(func(socket uintptr) { failed = syscall.Connect(int(socket), peer) })
	if err == nil {
		err = failed
	}
	return err
}

// Waits for the first datagram, without reading it.
func (l *link) hears(within time.Duration) error {
	l.conn.SetReadDeadline(time.Now().Add(within))
	raw, err := l.conn.SyscallConn()
	if err != nil {
		return err
	}
	var failed error
	err = raw.Read(func(socket uintptr) bool {
		_, _, failed = syscall.Recvfrom(int(socket), make([]byte, 1), syscall.MSG_PEEK)
		return failed != syscall.EAGAIN
	})
	if err == nil {
		err = failed
	}
	return err
}

func isRTCP(bytes []byte) bool { return len(bytes) > 1 && bytes[1] >= 192 && bytes[1] < 224 } // RFC 5761, section 4

// Passes received packets to `rtp` and `feedback`, until the link has ended.
func (l *link) run(rtp func([]byte), feedback func([]rtcp.Packet)) {
	defer l.close()
	report, _ := (&rtcp.ReceiverReport{}).Marshal()
	bytes := make([]byte, 2048)
	for heard, said := time.Now(), (time.Time{}); ; {
		now := time.Now()
		if now.Sub(said) >= beat {
			l.conn.Write(report)
			said = now
		}
		l.conn.SetReadDeadline(now.Add(beat))
		n, err := l.conn.Read(bytes)
		if err != nil && (!errors.Is(err, os.ErrDeadlineExceeded) || time.Since(heard) > silence) {
			return
		}
		if err != nil {
			continue
		}
		heard = time.Now()
		if !isRTCP(bytes[:n]) {
			rtp(bytes[:n])
			continue
		}
		packets, _ := rtcp.Unmarshal(bytes[:n])
		for _, packet := range packets {
			if _, is := packet.(*rtcp.Goodbye); is {
				return
			}
		}
		feedback(packets)
	}
}

// Sends one RTP packet. With -lose a link between nodes drops some.
func (l *link) send(bytes []byte) {
	if l.lossy && rand.Intn(100) < *lose {
		atomic.AddInt64(&l.lost, 1)
		return
	}
	l.conn.Write(bytes)
	atomic.AddInt64(&l.packets, 1)
	atomic.AddInt64(&l.bytes, int64(len(bytes)))
}

func (l *link) ask(packets []rtcp.Packet) {
	if bytes, err := rtcp.Marshal(packets); err == nil {
		l.conn.Write(bytes)
	}
}

func (l *link) close() {
	l.ask([]rtcp.Packet{&rtcp.Goodbye{Sources: []uint32{0}}})
	l.conn.Close()
}

func toAll([]rtcp.Packet) {}
func toNone([]byte)       {}
