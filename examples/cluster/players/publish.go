package main

import (
	"bufio"
	"encoding/binary"
	"encoding/hex"
	"fmt"
	"log"
	"math/rand"
	"net"
	"net/url"
	"os"
	"strings"
	"time"

	"github.com/pion/rtcp"
	"github.com/pion/rtp"
)

type packet struct {
	at    time.Duration
	bytes []byte
}

// A stream that is played in a loop, as one stream: sequence numbers, timestamps and the frame numbers of its descriptors go on.
type stream struct {
	id      uint8
	packets []packet
	next    int
	began   time.Time
	again   bool // from the start, since somebody wants a key frame
	ssrc    uint32
	number  uint16            // sequence numbers
	stamp   uint32            // added to timestamps
	frame   uint16            // added to frame numbers
	last    [3]uint32         // the latest timestamp and frame number that went out, and the timestamp as it stands in the file
	kept    map[uint16][]byte // for NACKs
}

func readStream(file string, id int) *stream {
	s := &stream{id: uint8(id), ssrc: rand.Uint32(), number: uint16(rand.Uint32()), kept: map[uint16][]byte{}}
	in, err := os.Open(file)
	must(err)
	for lines := bufio.NewScanner(in); lines.Scan(); {
		words := strings.Fields(lines.Text())
		bytes, err := hex.DecodeString(words[1])
		must(err)
		s.packets = append(s.packets, packet{time.Duration(number(words[0])) * time.Millisecond, bytes})
	}
	return s
}

// The next packet, if its time has come.
func (s *stream) due() []byte {
	now := time.Now()
	stampOf := func(n int) uint32 { return binary.BigEndian.Uint32(s.packets[n].bytes[4:]) }
	if s.next == len(s.packets) || s.again && now.Sub(s.began) > 200*time.Millisecond && s.next > 0 && stampOf(s.next) != stampOf(s.next-1) {
		s.began, s.next, s.again = now, 0, false
		s.stamp = s.last[0] + 3000 - stampOf(0)
		s.frame = uint16(s.last[1]) + 1 - s.frameOf(s.packets[0].bytes, 0)
	}
	p := s.packets[s.next]
	if now.Sub(s.began) < p.at {
		return nil
	}
	s.next++
	bytes := append([]byte(nil), p.bytes...)
	s.last = [3]uint32{binary.BigEndian.Uint32(bytes[4:]) + s.stamp, uint32(s.frameOf(bytes, s.frame))}
	s.number++
	binary.BigEndian.PutUint16(bytes[2:], s.number)
	binary.BigEndian.PutUint32(bytes[4:], s.last[0])
	binary.BigEndian.PutUint32(bytes[8:], s.ssrc)
	s.kept[s.number] = bytes
	delete(s.kept, s.number-1024)
	return bytes
}

// The frame number of a packet's descriptor, to which so much is added; 0 without a descriptor.
func (s *stream) frameOf(bytes []byte, add uint16) uint16 {
	var h rtp.Header
	h.Unmarshal(bytes)
	d := h.GetExtension(s.id)
	if len(d) < 3 {
		return 0
	}
	n := binary.BigEndian.Uint16(d[1:]) + add
	binary.BigEndian.PutUint16(d[1:], n)
	return n
}

// Publishes a stream at a node, again and again, as a publisher's page does.
func publish(node, label string, id int, file string) {
	s := readStream(file, id)
	for ; ; time.Sleep(500 * time.Millisecond) {
		conn := socket(node)
		words := url.Values{"at": {conn.LocalAddr().String()}, "label": {label}, "id": {fmt.Sprint(id)}, "payload": {fmt.Sprint(s.packets[0].bytes[1] & 127)}, "ssrc": {fmt.Sprint(s.ssrc)}}
		var answer struct{ Track, At string }
		if err := call("POST", node, "/rtp/publish", words, &answer); err != nil {
			conn.Close()
			continue
		}
		at, _ := net.ResolveUDPAddr("udp4", answer.At)
		log.Print(label, " is ", answer.Track)
		run(conn, at, nil, func([]byte) {}, func(p rtcp.Packet) {
			switch asks := p.(type) {
			case *rtcp.PictureLossIndication:
				s.again = true
			case *rtcp.TransportLayerNack:
				for _, pair := range asks.Nacks {
					for _, n := range pair.PacketList() {
						if bytes := s.kept[n]; bytes != nil {
							conn.WriteToUDP(bytes, at)
						}
					}
				}
			}
		}, func() {
			for bytes := s.due(); bytes != nil; bytes = s.due() {
				conn.WriteToUDP(bytes, at)
			}
		})
		conn.Close()
	}
}
