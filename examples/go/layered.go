// layered.go: makes the first calls of examples/layered.script from Go with the library. One C call makes all takes of a subscriber.
package main

/*
#cgo CFLAGS: -I${SRCDIR}/../../libzoftemar
#cgo LDFLAGS: ${SRCDIR}/../../crates/room_c/out/libroom_c.a
#include "zoftemar.h"
#include "heap.c"

// Takes at most `most` queued packets of a subscriber. Each is copied to its own 2,048 bytes of `out`, and its length to `lengths`.
static size_t take_all(zoftemar_room *room, uint32_t subscriber, uint8_t *out, uint16_t *lengths, size_t most) {
    size_t count = 0;
    for (; count < most; count++) {
        zoftemar_reply r = zoftemar_take(room, 0, subscriber, out + ZOFTEMAR_PACKET_ROOM * count, ZOFTEMAR_PACKET_ROOM);
        if (r.code != ZOFTEMAR_PACKET) break;
        lengths[count] = (uint16_t)r.first;
    }
    return count;
}
*/
import "C"

import (
	"encoding/hex"
	"fmt"
	"sync"
)

// Room is a room with a lock, since a room allows one call at a time.
type Room struct {
	lock    sync.Mutex
	handle  C.zoftemar_room
	out     [64][C.ZOFTEMAR_PACKET_ROOM]byte
	lengths [64]C.uint16_t
}

// Packet adds a packet to a track, then takes each subscriber's queued packets and passes them to `send`.
func (r *Room) Packet(track uint32, moment uint64, packet []byte, subscribers []uint32, send func(uint32, []byte)) C.zoftemar_reply {
	r.lock.Lock()
	defer r.lock.Unlock()
	reply := C.zoftemar_packet(&r.handle, 0, C.uint32_t(track), C.uint64_t(moment), (*C.uint8_t)(&packet[0]), C.size_t(len(packet)))
	for _, subscriber := range subscribers {
		count := C.take_all(&r.handle, C.uint32_t(subscriber), (*C.uint8_t)(&r.out[0][0]), &r.lengths[0], C.size_t(len(r.out)))
		for i, length := range r.lengths[:count] {
			send(subscriber, r.out[i][:length])
		}
	}
	return reply
}

func main() {
	room := new(Room)
	if C.zoftemar_open(&room.handle) != C.ZOFTEMAR_DONE {
		panic("no memory")
	}
	defer C.zoftemar_close(&room.handle)
	C.zoftemar_publish_layered(&room.handle, 0, 1, 4, 0x11111111, 100)
	C.zoftemar_join(&room.handle, 0, 1, 1, 0x22222222, 65534, 1, 1)
	C.zoftemar_join(&room.handle, 0, 2, 1, 0x33333333, 100, 0, 0)
	for _, text := range []string{
		"906000000000000011111111100000070419c000008003187fafac4a0a0404d14109a1158008642222264000183000",
		"90e000010000000011111111bede000142c30001103001",
	} {
		packet, _ := hex.DecodeString(text)
		room.Packet(1, 0, packet, []uint32{1, 2}, func(subscriber uint32, sent []byte) { fmt.Printf("packet %x\n", sent) })
	}
}
