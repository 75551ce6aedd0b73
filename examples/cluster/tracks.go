package main

import (
	"errors"
	"fmt"
	"time"

	"github.com/pion/rtcp"
	"github.com/pion/rtp"
)

var (
	tracks    = map[string]*track{} // at this node
	published int                   // how many tracks were ever published here
)

func locked(do func()) { lock.Lock(); defer lock.Unlock(); do() }

func get(name string) (t *track) { locked(func() { t = tracks[name] }); return }

func all() (list []*track) {
	lock.Lock()
	defer lock.Unlock()
	for _, t := range tracks {
		list = append(list, t)
	}
	return
}

func remove(t *track) {
	locked(func() {
		if tracks[t.Name] == t {
			delete(tracks, t.Name)
		}
	})
}

// Ticks the track every 20 ms.
func (t *track) run() {
	for {
		time.Sleep(20 * time.Millisecond)
		if get(t.Name) != t {
			return
		}
		t.tick()
	}
}

// Begins a track whose publisher is at this node. Returns the track, and the function that adds a packet to it.
func publish(d description, ssrc uint32, ask func([]rtcp.Packet)) (*track, func([]byte)) {
	var t *track
	locked(func() {
		published++
		d.Name = fmt.Sprintf("%s.%d", me, published)
		t = newTrack(d)
		tracks[d.Name] = t
	})
	t.begin(ssrc, 0, ask)
	announce(false)
	go t.run()
	return t, func(bytes []byte) {
		var h rtp.Header
		if _, err := h.Unmarshal(bytes); err != nil {
			return
		}
		if spatial, temporal, is := layers(h.GetExtension(t.ID)); is {
			t.Lock()
			t.Spatial, t.Temporal = spatial, temporal
			t.Unlock()
		}
		t.packet(bytes)
	}
}

func (t *track) unpublish() { remove(t); t.close(); announce(false) }

// Adds a subscriber to a track. If the track isn't here, it is requested from other nodes. Waits until it has a source, or fails.
func subscribeTo(name string, s *subscriber) (*track, error) {
	var t *track
	for err := errEnded; err == errEnded; {
		var fault error
		if t, fault = here(name); fault != nil {
			return nil, fault
		}
		if err = t.add(s); err == errEnded {
			remove(t)
		} else if err != nil {
			return nil, err
		}
	}
	for {
		t.Lock()
		news, has, fault := t.news, t.ask != nil, t.fault
		if t.ended {
			fault = errEnded
		}
		t.Unlock()
		if has {
			return t, nil
		}
		if fault != nil {
			t.leave(s)
			return nil, fault
		}
		<-news
	}
}

// Returns the track at this node. It is created if another node announces it.
func here(name string) (*track, error) {
	if t := get(name); t != nil {
		return t, nil
	}
	for _, d := range conference() {
		if d.Name != name {
			continue
		}
		lock.Lock()
		defer lock.Unlock()
		if tracks[name] == nil {
			tracks[name] = newTrack(d)
			go tracks[name].run()
			go tracks[name].keep()
		}
		return tracks[name], nil
	}
	return nil, errors.New("nobody publishes that now")
}

// Returns the highest layers of a Dependency Descriptor that has a structure. Each template has the layers of the one before it, or the next temporal
// layer, or the next spatial one (RTP Payload Format For AV1 v1.0, Appendix A.8).
func layers(d []byte) (spatial, temporal int, is bool) {
	if len(d) < 6 || d[3]&0x80 == 0 {
		return
	}
	t := 0
	for at := 20; at < len(d)*4; at++ {
		switch d[at/4] >> (6 - at%4*2) & 3 {
		case 1:
			t++
		case 2:
			spatial, t = spatial+1, 0
		case 3:
			return spatial, temporal, true
		}
		if t > temporal {
			temporal = t
		}
	}
	return 0, 0, false
}
