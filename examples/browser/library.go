//go:build library

// The rooms: the static library of crates/room_c, in this process, whose sessions send and answer NACKs and PLIs. docs/EMBEDDING.md has the loop.
package main

/*
#cgo CFLAGS: -I${SRCDIR}/../../libzoftemar
#cgo LDFLAGS: ${SRCDIR}/../../crates/room_c/out/libroom_c.a
#include "zoftemar.h"
#include "heap.c"
*/
import "C"

import "time"

var (
	room    = open() // of conferences; all below needs the lock: one call at a time
	out     [C.ZOFTEMAR_PACKET_ROOM]byte
	began   = time.Now()
	numbers C.uint32_t // of tracks, subscribers and bundles, which rise
	tracks  = map[*source]bool{}
)

type handle = *C.zoftemar_room

// A session with a publisher or a subscriber of a room.
type session struct {
	room   handle
	at     C.zoftemar_session
	number C.uint32_t   // of the track or the subscriber
	send   func([]byte) // a datagram to the browser
}

func open() handle {
	room := new(C.zoftemar_room)
	if C.zoftemar_open(room) != C.ZOFTEMAR_DONE {
		panic("there is no memory for a room")
	}
	return room
}

// Hears a datagram that came, or without one that time has passed, and sends what there is to be sent; to a subscriber at most 32 packets of the track.
func (s *session) hear(bytes []byte) {
	moment := C.uint64_t(time.Since(began).Milliseconds())
	if len(bytes) > 0 {
		C.zoftemar_session_received(&s.at, moment, (*C.uint8_t)(&bytes[0]), C.size_t(len(bytes)))
	} else {
		C.zoftemar_session_waited(&s.at, moment)
	}
	work := func() C.zoftemar_reply {
		return C.zoftemar_session_work(&s.at, s.room, 0, (*C.uint8_t)(&out[0]), C.size_t(len(out)))
	}
	for reply := work(); reply.code == C.ZOFTEMAR_PACKET; reply = work() {
		s.send(out[:reply.first])
	}
}

// Begins a track. Sound isn't asked for again, so a gap in it is waited for no longer than a tick.
func (s *session) publish(room handle, ssrc uint32, plain bool) {
	numbers++
	s.room, s.number = room, numbers
	if plain {
		C.zoftemar_publish_plain(room, 0, s.number, C.uint32_t(ssrc), 20)
	} else {
		C.zoftemar_publish_layered(room, 0, s.number, descriptorID, C.uint32_t(ssrc), C.uint32_t(*hold))
	}
	_ = C.zoftemar_open_publisher(&s.at, s.number, C.uint32_t(ssrc))
}

// Whether no key frame came whole since one was pleaded for.
func (s *session) wantsKey() bool { return bool(C.zoftemar_key_wanted(s.room, 0, s.number).has) }

func (t *source) begin(ssrc uint32) {
	tracks[t] = true
	t.publish(room, ssrc, t.plain)
}

func (t *source) end() {
	C.zoftemar_unpublish(room, 0, t.number)
	t.close()
	delete(tracks, t)
}

// Brings a packet of the publisher's, or none. What waits for subscribers goes out, and one whose wish isn't reached pleads for a key frame.
func (t *source) packet(bytes []byte) {
	t.hear(bytes)
	for s := range t.seats {
		if s.hear(nil); !t.plain && !s.reaches() {
			s.plead()
		}
	}
}

// Whether two NACKs for a packet have brought nothing: it has been waited for longer than twice the way there and back and 30 ms.
func (t *source) torn() bool {
	due := C.zoftemar_due(room, t.number)
	return bool(due.has) && float64(due.first) < time.Since(began).Seconds()*1000+float64(*hold)-30-2000*t.whose.path.trip
}

// The room is told those layers that were chosen before the browser could be sent the track.
func (s *seat) join(ssrc uint32) {
	numbers++
	s.room, s.number, s.ssrc, s.of.seats[s] = room, numbers, ssrc, true
	C.zoftemar_join(room, 0, s.number, s.of.number, C.uint32_t(ssrc), 1, C.uint8_t(s.now/8), C.uint8_t(s.now%8))
	_ = C.zoftemar_open_subscriber(&s.at, s.number, C.uint32_t(ssrc))
}

func (s *seat) leave() {
	C.zoftemar_leave(room, 0, s.number)
	s.close()
	delete(s.of.seats, s)
}

func (s *seat) aim() { C.zoftemar_aim(room, 0, s.number, C.uint8_t(s.now/8), C.uint8_t(s.now%8)) }

func (s *seat) plead() { C.zoftemar_plead(room, 0, s.number) }

// Whether what is sent now is the best of the wish, and its highest layers.
func (s *seat) reaches() bool { return bool(C.zoftemar_reaches_wish(room, s.number).has) }

func (s *seat) sent() (target C.zoftemar_target) {
	C.zoftemar_target_of(room, s.number, &target)
	return
}

// What the room counts of the subscriber and of its track.
func (s *seat) counted() (is C.zoftemar_subscriber_counts, of C.zoftemar_track_counts) {
	C.zoftemar_counts_of_subscriber(room, s.number, &is)
	C.zoftemar_counts_of_track(room, s.of.number, &of)
	return
}

// ---- simulcast: bundles

func shut(room handle) { C.zoftemar_close(room) }

func (s *session) close() { C.zoftemar_close_session(&s.at) }

// One stream of a scene's sizes.
type bundle struct {
	*player // none while no page plays it
	room    handle
	number  C.uint32_t
	legs    []C.uint32_t // a subscriber of each size
	chosen  int          // of them
	goesOn  bool         // whether frame numbers go on where the size changes
}

// The SSRC is exchanged behind the room.
func newBundle(s *scene, goesOn bool) *bundle {
	b := &bundle{room: s.room, goesOn: goesOn}
	for _, z := range s.sizes {
		numbers++
		C.zoftemar_join(b.room, 0, numbers, z.number, numbers, 1, 3, 7)
		b.legs = append(b.legs, numbers)
	}
	numbers++
	b.number = numbers
	made, id, legs, count := C.zoftemar_reply{}, C.uint8_t(descriptorID), &b.legs[0], C.size_t(len(b.legs))
	if goesOn {
		made = C.zoftemar_bundle_renumbered(b.room, b.number, id, b.number, 1, legs, count)
	} else {
		made = C.zoftemar_bundle(b.room, b.number, id, b.number, 1, legs, count)
	}
	if made.code != C.ZOFTEMAR_DONE {
		return nil
	}
	return b
}

// Another size, counted from 0, is sent from its next key frame on, which is asked for.
func (b *bundle) choose(size int) {
	if C.zoftemar_choose(b.room, b.number, C.uint8_t(size+1)).code == C.ZOFTEMAR_DONE {
		b.chosen = size
	}
}

// Takes what waits for all legs, and sends what goes out.
func (b *bundle) pump() {
	C.zoftemar_pump(b.room, b.number)
	draw := func() C.zoftemar_reply {
		return C.zoftemar_draw(b.room, b.number, (*C.uint8_t)(&out[0]), C.size_t(len(out)))
	}
	for reply := draw(); reply.code == C.ZOFTEMAR_PACKET; reply = draw() {
		if b.player != nil {
			b.hand(out[:reply.first])
		}
	}
}

// Sends a packet again.
func (b *bundle) redraw(number uint16) {
	reply := C.zoftemar_redraw(b.room, b.number, C.uint16_t(number), (*C.uint8_t)(&out[0]), C.size_t(len(out)))
	if reply.code == C.ZOFTEMAR_PACKET && b.player != nil {
		b.hand(out[:reply.first])
	}
}

// A key frame of the chosen size mends the picture, also where another size is sent until then.
func (b *bundle) plead() { C.zoftemar_plead(b.room, 0, b.legs[b.chosen]) }
