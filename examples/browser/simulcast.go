//go:build library

// Simulcast: a page publishes a scene in two or three sizes, each a track, and other pages play it as one stream: a bundle of these tracks.
package main

import (
	"errors"
	"fmt"
	"net/url"
	"regexp"
	"strings"
	"time"

	"github.com/pion/interceptor/pkg/report"
	"github.com/pion/rtcp"
	"github.com/pion/webrtc"
)

// What a page publishes. Bundles and their subscribers stay until their room is closed, so each scene has a room of its own.
type scene struct {
	*page
	room    handle
	number  int
	names   []string // of its sizes, as offered: the smallest first
	sizes   []*size  // in the same order, none for those of which nothing has come
	bundles []*bundle
}

// A track of the scene's room.
type size struct {
	session
	media *webrtc.TrackRemote
	came  time.Time // the latest packet
}

var (
	scenes    = map[*scene]bool{}
	published int // how many ever were
	sending   = regexp.MustCompile(`a=rid:(\S+) send`)
)

func publish(offer string, _ url.Values) (int, string, error) {
	s := &scene{page: newPage(true)}
	for _, rid := range sending.FindAllStringSubmatch(offer, -1) {
		s.names = append(s.names, rid[1])
	}
	if len(s.names) < 2 || len(s.names) > 3 {
		return 0, "", errors.New("this gateway takes two or three sizes: publish.html?simulcast=1")
	}
	s.sizes = make([]*size, len(s.names))
	locked(func() { published++; s.number = published })
	s.pc.OnTrack(s.bring)
	return s.answer(s.number, offer)
}

// Brings the room one size, until the page has gone.
func (s *scene) bring(media *webrtc.TrackRemote, receiver *webrtc.RTPReceiver) {
	place := 0
	for place < len(s.names) && s.names[place] != media.RID() {
		place++
	}
	if place == len(s.names) {
		return
	}
	z := &size{media: media}
	z.send = s.request
	locked(func() {
		if s.room == nil {
			s.room, scenes[s] = open(), true
		}
		s.sizes[place] = z
		z.publish(s.room, uint32(media.SSRC()), false)
	})
	bring(media, receiver, uint32(media.SSRC()), func(bytes, descriptor []byte) {
		if len(descriptor) > 2 && descriptor[0]&0x80 != 0 {
			s.say("frame: %d %d", place, int(descriptor[1])<<8|int(descriptor[2]))
		}
		z.came = time.Now()
		z.hear(bytes)
		for _, b := range s.bundles {
			b.pump()
		}
	}, nil)
	locked(s.end)
}

// Once one size ends, all do. A closed room and a closed session refuse what still comes.
func (s *scene) end() {
	delete(scenes, s)
	for _, z := range s.sizes {
		if z != nil {
			z.close()
		}
	}
	shut(s.room)
	for _, b := range s.bundles {
		if b.player != nil {
			go b.pc.Close()
		}
	}
}

// 20 milliseconds have passed. A browser makes a key frame each 300 ms and passes over all other PLIs, so they are repeated until one came whole. A size of
// which nothing comes has been paused: a PLI for it would only make key frames of the others.
func (s *scene) pass() {
	for _, z := range s.sizes {
		if z == nil || time.Since(z.came) > time.Second/2 {
			continue
		}
		if z.hear(nil); z.wantsKey() {
			s.pc.WriteRTCP([]rtcp.Packet{&rtcp.PictureLossIndication{MediaSSRC: uint32(z.media.SSRC())}})
		}
	}
	for _, b := range s.bundles {
		b.pump()
	}
}

// Whether something of each size has come.
func (s *scene) complete() bool {
	for _, z := range s.sizes {
		if z == nil {
			return false
		}
	}
	return true
}

// Plays the scene of a number, or the newest for 0. Frame numbers go on where the size changes, unless the page asks for those of each size.
func play(offer string, words url.Values) (int, string, error) {
	var s *scene
	n := 0
	fmt.Sscan(words.Get("track"), &n)
	locked(func() {
		for live := range scenes {
			if live.complete() && (live.number == n || n == 0 && (s == nil || live.number > s.number)) {
				s = live
			}
		}
	})
	if s == nil {
		return 0, "", errors.New("nobody publishes that in all sizes now")
	}
	var b *bundle
	p := newPage(false, must(report.NewSenderInterceptor())).play(s.sizes[0].media, "scene") // by its reports a browser finds its clock
	p.channel.OnOpen(func() { p.say("sizes: %s", strings.Join(s.names, " ")) })
	p.channel.OnMessage(func(m webrtc.DataChannelMessage) {
		size := 0
		fmt.Sscanf(string(m.Data), "choose %d", &size)
		locked(func() {
			if b != nil {
				b.choose(size)
			}
		})
	})
	p.stay = func(uint32) {
		locked(func() {
			if scenes[s] {
				b = s.seat(p, words.Get("numbers") != "own")
			}
		})
		if b == nil {
			p.pc.Close()
			return
		}
		p.listen(b.hear)
		locked(func() { b.player = nil })
	}
	return p.answer(s.number, offer)
}

// A bundle for a page: one whose page has gone, or another one, of which a room has 64.
func (s *scene) seat(p *player, goesOn bool) (b *bundle) {
	for _, idle := range s.bundles {
		if idle.player == nil && idle.goesOn == goesOn {
			b = idle
		}
	}
	if b == nil {
		if b = newBundle(s, goesOn); b == nil {
			return
		}
		s.bundles = append(s.bundles, b)
	}
	b.player = p
	b.choose(0)
	b.plead()
	return
}

// Hears what a page asks for: packets again, or a key frame.
func (b *bundle) hear(feedback []byte) {
	packets, _ := rtcp.Unmarshal(feedback)
	for _, packet := range packets {
		if nack, is := packet.(*rtcp.TransportLayerNack); is {
			for _, pair := range nack.Nacks {
				pair.Range(func(number uint16) bool { b.redraw(number); return true })
			}
		} else {
			b.plead()
		}
	}
}
