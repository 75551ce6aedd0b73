// rate.go: how many calls a second from Go, each take a call of C, and all takes of a packet in one. usage: rate PACKETS SUBSCRIBERS [ROUNDS]
package main

/*
#cgo CFLAGS: -I${SRCDIR}/../../../libzoftemar
#cgo LDFLAGS: ${SRCDIR}/../../../crates/room_c/out/libroom_c.a
#include "zoftemar.h"
#include "heap.c"

// A take of each subscriber: 2,048 bytes for each, and its length, 0 where nothing waits.
static void take_all(zoftemar_room *room, uint32_t subscribers, uint8_t *out, uint16_t *lengths) {
    for (uint32_t s = 0; s < subscribers; s++) {
        zoftemar_reply r = zoftemar_take(room, 0, s + 1, out + 2048 * (size_t)s, 2048);
        lengths[s] = r.code == ZOFTEMAR_PACKET ? (uint16_t)r.first : 0;
    }
}
*/
import "C"

import (
	"fmt"
	"os"
	"strconv"
	"time"
)

// One round: how long it took, and how many packets were handed out.
func round(packets []byte, n int, together bool, out []byte, lengths []C.uint16_t) (time.Duration, int) {
	var room C.zoftemar_room
	C.zoftemar_open(&room)
	defer C.zoftemar_close(&room)
	C.zoftemar_publish_layered(&room, 0, 1, 4, 0x11111111, 50)
	for s := 1; s <= n; s++ {
		C.zoftemar_join(&room, 0, C.uint32_t(s), 1, C.uint32_t(0x22222200+s), 0, 1, 1)
	}
	given := 0
	begin := time.Now()
	for at := 0; at+2 <= len(packets); {
		count := int(packets[at]) | int(packets[at+1])<<8
		C.zoftemar_packet(&room, 0, 1, 0, (*C.uint8_t)(&packets[at+2]), C.size_t(count))
		at += 2 + count
		if together {
			C.take_all(&room, C.uint32_t(n), (*C.uint8_t)(&out[0]), &lengths[0])
			for _, length := range lengths {
				if length > 0 {
					given++
				}
			}
		} else {
			for s := 1; s <= n; s++ {
				if C.zoftemar_take(&room, 0, C.uint32_t(s), (*C.uint8_t)(&out[0]), 2048).code == C.ZOFTEMAR_PACKET {
					given++
				}
			}
		}
	}
	return time.Since(begin), given
}

func main() {
	packets, err := os.ReadFile(os.Args[1])
	if err != nil {
		panic(err)
	}
	n, _ := strconv.Atoi(os.Args[2])
	rounds := 5
	if len(os.Args) > 3 {
		rounds, _ = strconv.Atoi(os.Args[3])
	}
	count := 0
	for at := 0; at+2 <= len(packets); count++ {
		at += 2 + (int(packets[at]) | int(packets[at+1])<<8)
	}
	out, lengths := make([]byte, 2048*n), make([]C.uint16_t, n)
	for _, together := range []bool{false, true} {
		best, given := time.Duration(1<<62), 0
		for i := 0; i < rounds; i++ {
			var took time.Duration
			if took, given = round(packets, n, together, out, lengths); took < best {
				best = took
			}
		}
		name := map[bool]string{false: "Go, each take a call of C", true: "Go, takes of a packet in one call of C"}[together]
		calls := float64(count * (1 + n))
		fmt.Printf("%s, %d subscribers: %.2f million calls a second, %.0f ns a call, %d packets out\n", name, n,
			calls/best.Seconds()/1e6, best.Seconds()*1e9/calls, given)
	}
}
