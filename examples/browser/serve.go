//go:build !library

// Who publishes and who plays, in a room of `sfu serve`: a process beside this one, with the tracks and ports of serve.lines.
package main

import (
	"encoding/binary"
	"errors"
	"flag"
	"fmt"
	"net"
	"net/url"
	"strings"
	"sync"

	"github.com/pion/interceptor/pkg/report"
	"github.com/pion/webrtc"
)

// serve.lines has ports for so many, which lie behind the controller's, and SSRCs above these.
const publishers, players, trackSSRC, playerSSRC = 15, 48, 0x10000000, 0x20000000

var (
	dump    = flag.Bool("dump", false, "write each packet that comes from the room: whom it is for, and its bytes in hex")
	control *net.UDPConn
	asking  sync.Mutex

	published, joined int // how many ever did
	tracks            = map[int]*track{}
)

type track struct {
	number int
	media  *webrtc.TrackRemote
	latest int            // of its frames, counted on from the first key frame without wrapping, as the room counts; -1 before it
	pages  map[*page]bool // the publisher's and the players'
}

func start() map[string]answerer {
	control = portOf(0)
	return map[string]answerer{"/publish": publish, "/play": play}
}

// Tells pages of a frame that begins with a packet, by its number and its descriptor (RTP Payload Format For AV1 v1.0, Appendix A.8).
func (t *track) tell(word string, descriptor []byte, pages map[*page]bool) {
	if len(descriptor) < 3 || descriptor[0]&0x80 == 0 || t.latest < 0 && (len(descriptor) < 6 || descriptor[3]&0x80 == 0) {
		return
	}
	number := int(descriptor[1])<<8 | int(descriptor[2])
	if t.latest >= 0 {
		number = t.latest + int(int16(number-t.latest))
	}
	t.latest = number
	for p := range pages {
		p.say("%s %d %x", word, number, descriptor)
	}
}

// Brings the room what a browser publishes.
func publish(offer string, words url.Values) (int, string, error) {
	if words.Has("simulcast") {
		return 0, "", errors.New("serve has no bundles: build the gateway with -tags library")
	}
	t := &track{latest: -1}
	locked(func() { published++; t.number = published })
	if t.number > publishers {
		return 0, "", fmt.Errorf("all %d ports for publishers were used: start room and gateway again", publishers)
	}
	p := newPage(false)
	p.pc.OnTrack(func(media *webrtc.TrackRemote, receiver *webrtc.RTPReceiver) {
		room := portOf(t.number)
		locked(func() { t.media, t.pages, tracks[t.number] = media, map[*page]bool{p: true}, t })
		go fromRoom(room, fmt.Sprint("track", t.number), func(bytes []byte) { p.request(under(uint32(media.SSRC()), bytes)) })
		bring(media, receiver, trackSSRC+uint32(t.number), func(bytes, descriptor []byte) {
			t.tell("came", descriptor, t.pages)
			room.Write(bytes)
		}, nil)
		ask("unpublish", t.number)
		room.Close()
		lock.Lock()
		defer lock.Unlock()
		delete(tracks, t.number)
		for p := range t.pages {
			go p.pc.Close()
		}
	})
	return p.answer(t.number, offer)
}

// Plays the track of a number, or the newest for 0. Joins once the browser is connected, since what goes out before is lost. The room takes numbers in
// rising order alone.
func play(offer string, words url.Values) (int, string, error) {
	var t *track
	word := func(name string) (n int) { fmt.Sscan(words.Get(name), &n); return }
	lock.Lock()
	for number, live := range tracks {
		if n := word("track"); n == number || n == 0 && (t == nil || number > t.number) {
			t = live
		}
	}
	lock.Unlock()
	if t == nil || joined >= players {
		return 0, "", fmt.Errorf("nobody publishes that now, or all %d ports for players were used: start room and gateway again", players)
	}
	p := newPage(false, must(report.NewSenderInterceptor())).play(t.media, "room") // by its reports a browser finds its clock
	p.stay = func(uint32) {
		lock.Lock()
		joined++
		n := joined
		t.pages[p.page] = true
		room, ssrc := portOf(publishers+n), uint32(playerSSRC+n)
		if ask("join", n, t.number, fmt.Sprintf("%08x", ssrc), 1, word("spatial"), word("temporal")) != "ok" {
			go p.pc.Close()
		}
		lock.Unlock()
		p.channel.OnMessage(func(m webrtc.DataChannelMessage) { p.hear(n, string(m.Data)) })
		go fromRoom(room, fmt.Sprint("player", n), func(bytes []byte) {
			descriptor, _ := p.hand(bytes)
			t.tell("went", descriptor, map[*page]bool{p.page: true})
		})
		p.listen(func(bytes []byte) { room.Write(under(ssrc, bytes)) })
		ask("leave", n)
		room.Close()
		locked(func() { delete(t.pages, p.page) })
	}
	return p.answer(t.number, offer)
}

// Hears a line for the control port that leaves the subscriber's number out: `aim 2 2`, `why 812` or `plead`.
func (p *player) hear(subscriber int, line string) {
	word, rest, _ := strings.Cut(line, " ")
	if len(line) < 30 && (word == "aim" || word == "why" || word == "plead") {
		p.say("%s: %s", line, ask(word, subscriber, rest))
	}
}

// The socket that is the peer of the room's port n: publishers' from 1 on, and behind them players'.
func portOf(n int) *net.UDPConn {
	at := func(port int) *net.UDPAddr { return &net.UDPAddr{IP: net.IPv4(127, 0, 0, 1), Port: *base + port} }
	return must(net.DialUDP("udp4", at(500+n), at(n)))
}

// Each packet that comes out of a port, under the lock, until that is closed. A read fails, too, while nobody has a port of `serve`.
func fromRoom(room *net.UDPConn, name string, each func([]byte)) {
	bytes := make([]byte, 2000)
	for n, err := room.Read(bytes); !errors.Is(err, net.ErrClosed); n, err = room.Read(bytes) {
		if *dump && n > 0 {
			fmt.Printf("%s %x\n", name, bytes[:n])
		}
		if n > 0 {
			locked(func() { each(bytes[:n]) })
		}
	}
}

// Feedback under the SSRC that the media has on the other side (RFC 4585, section 6.1).
func under(ssrc uint32, feedback []byte) []byte {
	binary.BigEndian.PutUint32(feedback[8:], ssrc)
	return feedback
}

// One line to the control port, and its answer. An answer doesn't say which line it is for, so each is waited for, however long it takes.
func ask(words ...interface{}) string {
	asking.Lock()
	defer asking.Unlock()
	answer := make([]byte, 200)
	control.Write([]byte(strings.TrimSpace(fmt.Sprintln(words...))))
	n, _ := control.Read(answer)
	return string(answer[:n])
}
