//go:build library

// A conference: everybody who comes publishes a picture and sound, and is sent those of all others, on one connection.
package main

import (
	"fmt"
	"net/url"
	"strings"
	"time"

	"github.com/pion/rtcp"
	"github.com/pion/webrtc"
)

type person struct {
	*page
	path *path
	id   string // number and name in hex, which is the name of the stream that others are sent
	gets map[*source]*seat
}

// A track of the room: what one publisher sends of a kind.
type source struct {
	session
	rates
	media *webrtc.TrackRemote
	whose *person
	plain bool
	seats map[*seat]bool
}

// A subscriber of the room: what one person is sent of a source.
type seat struct {
	session
	*player
	of          *source
	ssrc        uint32
	wish, place int       // the highest spatial layer, and the picture's place: the one in place 0 comes first
	best, now   int       // the highest layers that fit, and those that the room was told
	fits        time.Time // since when more fits, if more does
	bytes       int       // that were sent since the page was told
}

var people = map[*person]bool{}

func start() map[string]answerer {
	go func() {
		for turn := 0; ; turn++ {
			time.Sleep(20 * time.Millisecond)
			locked(func() { pass(turn) })
		}
	}()
	return map[string]answerer{"/meet": meet, "/publish": publish, "/sizes": play}
}

// 20 milliseconds have passed: gaps that were waited for are given up. A PLI is said each time while no key frame came whole: a browser makes one each 300 ms
// and passes over all others, so where one came torn, its page is asked, too. Sees who came and went and chooses layers each fifth time, and tells the pages
// each 25th.
func pass(turn int) {
	for t := range tracks {
		if t.packet(nil); t.wantsKey() {
			t.whose.pc.WriteRTCP([]rtcp.Packet{&rtcp.PictureLossIndication{MediaSSRC: uint32(t.media.SSRC())}})
			if t.torn() {
				t.whose.say("key")
			}
		}
	}
	for s := range scenes {
		s.pass()
	}
	for p := range people {
		if turn%5 == 0 {
			p.arrange()
			p.path.watch()
			p.choose()
		}
		if turn%25 == 0 {
			p.tell()
		}
	}
}

func meet(sdp string, words url.Values) (int, string, error) {
	path, estimator := newPath()
	p := &person{newPage(false, estimator), path, fmt.Sprintf("%d-%x", time.Now().UnixNano(), words.Get("name")), map[*source]*seat{}}
	p.pc.OnTrack(p.bring)
	p.channel.OnMessage(func(m webrtc.DataChannelMessage) { p.hear(string(m.Data)) })
	p.channel.OnOpen(func() { locked(func() { people[p] = true }) })
	return p.answer(0, sdp)
}

// Gives a person what all others give, and nothing else; a transceiver whose track went has the next one. One offer after the other: the browser makes none
// after its first.
func (p *person) arrange() {
	changed, stable := false, p.pc.SignalingState() == webrtc.SignalingStateStable
	for t, s := range p.gets {
		if stable && !tracks[t] {
			p.pc.RemoveTrack(s.sender)
			delete(p.gets, t)
			changed = true
		}
	}
	for t := range tracks {
		if stable && t.whose != p && p.gets[t] == nil {
			p.get(t)
			changed = true
		}
	}
	if !changed {
		return
	}
	offer, err := p.pc.CreateOffer(nil)
	if err != nil || p.pc.SetLocalDescription(offer) != nil {
		go p.pc.Close()
	}
	p.channel.SendText(offer.SDP)
}

// Begins to send a person a track.
func (p *person) get(t *source) {
	s := &seat{player: p.play(t.media, t.whose.id), of: t, place: 1}
	s.send = func(bytes []byte) {
		s.bytes += len(bytes)
		if _, begins := s.hand(bytes); begins && !t.plain {
			p.say("unit %s", t.whose.id)
		}
	}
	s.stay = func(ssrc uint32) {
		locked(func() { s.join(ssrc) })
		s.listen(s.hear)
		locked(s.leave)
	}
	p.gets[t] = s
}

// Brings the room what a person publishes of one kind. Sender reports go around the room, with the SSRC that a player knows: timestamps go through it as
// they are, so lips and voice agree.
func (p *person) bring(media *webrtc.TrackRemote, receiver *webrtc.RTPReceiver) {
	t := &source{media: media, whose: p, plain: media.Kind() == webrtc.RTPCodecTypeAudio, seats: map[*seat]bool{}}
	if t.send = p.request; t.plain {
		t.send = func([]byte) {}
	}
	locked(func() { t.begin(uint32(media.SSRC())) })
	bring(media, receiver, uint32(media.SSRC()), func(bytes, descriptor []byte) {
		t.count(descriptor, len(bytes))
		t.packet(bytes)
	}, func(report *rtcp.SenderReport) {
		report.Reports = nil
		for s := range t.seats {
			report.SSRC = s.ssrc
			s.pc.WriteRTCP([]rtcp.Packet{report})
		}
	})
	locked(func() { t.end(); delete(people, p) })
}

// Hears an answer to an offer, `wish PERSON SPATIAL PLACE`, where the picture in place 0 is the big one, or `plead PERSON`.
func (p *person) hear(line string) {
	if strings.HasPrefix(line, "v=0") && p.pc.SetRemoteDescription(webrtc.SessionDescription{Type: webrtc.SDPTypeAnswer, SDP: line}) != nil {
		go p.pc.Close()
	}
	var word, id string
	var spatial, place int
	fmt.Sscan(line, &word, &id, &spatial, &place)
	lock.Lock()
	defer lock.Unlock()
	for t, s := range p.gets {
		if t.whose.id == id && word == "plead" {
			s.plead()
		} else if t.whose.id == id {
			s.wish, s.place, s.fits = spatial, place, time.Now().Add(-patience) // who wishes for more waits no longer where it fits
		}
	}
}
