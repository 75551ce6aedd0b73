package main

/*
#cgo CFLAGS: -I${SRCDIR}/../../libzoftemar
#cgo LDFLAGS: ${SRCDIR}/../../crates/room_c/out/libroom_c.a
#include "zoftemar.h"
#include "heap.c"
*/
import "C"

import (
	"errors"
	"log"
	"math/rand"
	"sync"
	"sync/atomic"
	"time"

	"github.com/pion/rtcp"
)

const (
	hold         = 300 * time.Millisecond // how long a room waits for a missing packet
	mostHere     = 250                    // subscribers of a track at one node
	keepsNumbers = 8 * time.Second        // how long packets from before a change of source can be retransmitted
)

// The fields of a track that are the same at every node.
type description struct {
	Name     string // NODE.NUMBER, where NODE is its publisher's
	Label    string // for people
	ID       uint8  // header extension id of Dependency Descriptors; 0: a plain track
	Payload  uint8  // the RTP payload type
	Spatial  int    // the highest layers seen
	Temporal int
}

// A subscriber of a track at this node: a browser, a player, or another node.
type subscriber struct {
	send     func([]byte) // sends one packet
	end      func()       // called when the track has ended
	node     bool
	waits    bool // nothing may be sent to it yet
	ssrc     uint32
	spatial  uint8 // its wish
	temporal uint8

	next           uint16 // the sequence number of its next packet
	number, before C.uint32_t
	changed        time.Time
}

func newSubscriber(spatial, temporal uint8) *subscriber {
	return &subscriber{ssrc: rand.Uint32(), next: uint16(rand.Uint32()), spatial: spatial, temporal: temporal, end: func() {}}
}

// A track at this node, with a room of its own. When the packets come from another source, a new track begins in the room; subscribers' streams keep
// their SSRCs, and their sequence numbers go on.
type track struct {
	sync.Mutex
	description
	level       int // how many nodes its packets pass before this one
	room        C.zoftemar_room
	number      C.uint32_t // the track's number in the room; 0 before the first source
	newest      C.uint32_t // the last subscriber's number in the room
	subscribers map[*subscriber]bool
	left        time.Time // when a subscriber last left

	ask           func([]rtcp.Packet) // sends feedback to the source; nil if there is none
	ssrc          uint32              // of the source's packets
	nacked, plied time.Time
	plead         bool // a plain track's subscriber has sent a PLI
	out           [C.ZOFTEMAR_PACKET_ROOM]byte
	missing       [C.ZOFTEMAR_NAMES_ROOM]uint16

	feed // if the track comes from another node: feeds.go
}

var (
	begun = time.Now()
	sent  int64 // packets to subscribers, of all tracks
)

func moment() C.uint64_t { return C.uint64_t(time.Since(begun).Milliseconds()) }

func newTrack(d description) *track {
	t := &track{description: d, subscribers: map[*subscriber]bool{}, left: time.Now()}
	t.news = make(chan struct{})
	if C.zoftemar_open(&t.room) != C.ZOFTEMAR_DONE {
		log.Fatal("there is no memory for a room")
	}
	return t
}

// Begins a new track in the room, for another source.
func (t *track) begin(ssrc uint32, level int, ask func([]rtcp.Packet)) {
	t.Lock()
	defer t.Unlock()
	if t.number > 0 {
		t.flush()
		C.zoftemar_unpublish(&t.room, 0, t.number)
	}
	t.number++
	t.ssrc, t.level, t.ask, t.plied = ssrc, level, ask, time.Time{}
	if t.ID > 0 {
		C.zoftemar_publish_layered(&t.room, 0, t.number, C.uint8_t(t.ID), C.uint32_t(ssrc), C.uint32_t(hold.Milliseconds()))
	} else {
		C.zoftemar_publish_plain(&t.room, 0, t.number, C.uint32_t(ssrc), C.uint32_t(hold.Milliseconds()))
	}
	for s := range t.subscribers {
		t.join(s)
	}
	t.tell()
}

// Joins a subscriber to the room's track. Its number on the track before is kept for a while, for NACKs, if the limit of 256 subscribers allows it.
func (t *track) join(s *subscriber) {
	if s.waits || t.number == 0 {
		return
	}
	t.forget(s)
	s.before, s.changed = s.number, time.Now()
	if len(t.subscribers) > mostHere/2 {
		t.forget(s)
	}
	t.newest++
	s.number = t.newest
	if r := C.zoftemar_join(&t.room, 0, s.number, t.number, C.uint32_t(s.ssrc), C.uint16_t(s.next), C.uint8_t(s.spatial), C.uint8_t(s.temporal)); r.code != 0 {
		log.Printf("%s: a join is refused by code %d", t.Name, r.code)
	}
}

func (t *track) forget(s *subscriber) {
	if s.before > 0 {
		C.zoftemar_leave(&t.room, 0, s.before)
	}
	s.before = 0
}

func (t *track) add(s *subscriber) error {
	t.Lock()
	defer t.Unlock()
	switch {
	case t.ended:
		return errEnded
	case len(t.subscribers) >= mostHere:
		return errors.New("this node has as many subscribers of the track as it may have")
	case s.node && t.ask == nil:
		return errors.New("this node has no source of the track itself")
	case s.node && t.level >= deepest:
		return errors.New("this node is as deep in the tree as a node may be")
	case s.node && t.nodes() >= *feeds:
		return errors.New("this node feeds as many nodes as it may")
	}
	t.subscribers[s] = true
	t.join(s)
	t.tell()
	return nil
}

// Starts to send packets to a subscriber.
func (t *track) start(s *subscriber) {
	t.Lock()
	defer t.Unlock()
	if s.waits && t.subscribers[s] {
		s.waits = false
		t.join(s)
	}
}

func (t *track) leave(s *subscriber) {
	t.Lock()
	defer t.Unlock()
	if t.subscribers[s] {
		t.forget(s)
		if s.number > 0 {
			C.zoftemar_leave(&t.room, 0, s.number)
		}
		delete(t.subscribers, s)
		t.left = time.Now()
		t.tell()
	}
}

func (t *track) aim(s *subscriber, spatial, temporal uint8) {
	t.Lock()
	defer t.Unlock()
	s.spatial, s.temporal = spatial, temporal
	if s.number > 0 {
		C.zoftemar_aim(&t.room, 0, s.number, C.uint8_t(spatial), C.uint8_t(temporal))
	}
	t.tell()
}

// Returns how many nodes this one feeds. The lock is held.
func (t *track) nodes() (n int) {
	for s := range t.subscribers {
		if s.node {
			n++
		}
	}
	return
}

// Adds a packet of the source to the room.
func (t *track) packet(bytes []byte) {
	t.Lock()
	defer t.Unlock()
	if len(bytes) > 0 && t.number > 0 {
		C.zoftemar_packet(&t.room, 0, t.number, moment(), (*C.uint8_t)(&bytes[0]), C.size_t(len(bytes)))
		t.flush()
	}
}

// Sends each subscriber its queued packets, and requests a key frame if its wish isn't reached.
func (t *track) flush() {
	for s := range t.subscribers {
		if s.number == 0 {
			continue
		}
		for t.sends(s, C.zoftemar_take(&t.room, 0, s.number, (*C.uint8_t)(&t.out[0]), C.size_t(len(t.out)))) {
			s.next = uint16(t.out[2])<<8 + uint16(t.out[3]) + 1
		}
		if t.ID > 0 && !C.zoftemar_reaches_wish(&t.room, s.number).has {
			C.zoftemar_plead(&t.room, 0, s.number)
		}
	}
}

// Sends the packet of a reply. Returns whether there was one.
func (t *track) sends(s *subscriber, r C.zoftemar_reply) bool {
	if r.code != C.ZOFTEMAR_PACKET {
		return false
	}
	s.send(t.out[:r.first])
	atomic.AddInt64(&sent, 1)
	return true
}

// Runs every 20 ms: ticks the room's track, which gives up gaps, and requests missing packets and key frames from the source.
func (t *track) tick() {
	t.Lock()
	defer t.Unlock()
	for s := range t.subscribers {
		if time.Since(s.changed) > keepsNumbers {
			t.forget(s)
		}
	}
	if t.ask == nil {
		return
	}
	C.zoftemar_tick(&t.room, 0, t.number, moment())
	t.flush()
	var asks []rtcp.Packet
	n := C.zoftemar_missing(&t.room, 0, t.number, (*C.uint16_t)(&t.missing[0]), C.size_t(len(t.missing))).first
	if n > 0 && n < 400 && time.Since(t.nacked) > 40*time.Millisecond {
		t.nacked = time.Now()
		asks = append(asks, &rtcp.TransportLayerNack{MediaSSRC: t.ssrc, Nacks: rtcp.NackPairsFromSequenceNumbers(t.missing[:n])})
	}
	if (t.plead || bool(C.zoftemar_key_wanted(&t.room, 0, t.number).has)) && time.Since(t.plied) > 500*time.Millisecond {
		t.plied, t.plead = time.Now(), false
		asks = append(asks, &rtcp.PictureLossIndication{MediaSSRC: t.ssrc})
	}
	if len(asks) > 0 {
		t.ask(asks)
	}
}

// Handles a subscriber's feedback.
func (t *track) hear(s *subscriber, packets []rtcp.Packet) {
	t.Lock()
	defer t.Unlock()
	for _, packet := range packets {
		switch p := packet.(type) {
		case *rtcp.PictureLossIndication:
			if t.ID == 0 {
				t.plead = true
			} else if s.number > 0 {
				C.zoftemar_plead(&t.room, 0, s.number)
			}
		case *rtcp.TransportLayerNack:
			for _, pair := range p.Nacks {
				for _, n := range pair.PacketList() {
					t.again(s, n)
				}
			}
		}
	}
}

// Retransmits a packet, which may be from before the last change of source.
func (t *track) again(s *subscriber, n uint16) {
	for _, number := range []C.uint32_t{s.number, s.before} {
		if number > 0 && t.sends(s, C.zoftemar_resend(&t.room, 0, number, C.uint16_t(n), (*C.uint8_t)(&t.out[0]), C.size_t(len(t.out)))) {
			return
		}
	}
}

// Handles the loss of the source: the room gives up the gaps that are left.
func (t *track) lose() {
	t.Lock()
	defer t.Unlock()
	if t.number > 0 {
		C.zoftemar_tick(&t.room, 0, t.number, moment()+C.uint64_t(hold.Milliseconds()))
		t.flush()
	}
	t.ask = nil
	t.tell()
}

// Ends the track for all its subscribers.
func (t *track) close() {
	t.Lock()
	defer t.Unlock()
	for s := range t.subscribers {
		go s.end()
	}
	t.subscribers, t.ask, t.ended = map[*subscriber]bool{}, nil, true
	C.zoftemar_close(&t.room)
	t.number = 0
	t.tell()
}
