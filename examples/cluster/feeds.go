package main

import (
	"encoding/json"
	"errors"
	"log"
	"sync/atomic"
	"time"

	"github.com/nats-io/nats.go"
	"github.com/pion/rtcp"
)

const (
	deepest = 2                      // the level of a track that comes through two nodes
	answers = 500 * time.Millisecond // how long to wait for a node's reply to a request
	lingers = 10 * time.Second       // how long a feed that nobody watches is kept
)

var errEnded = errors.New("the track has ended")

// On `feed.NODE`: requests a track from that node. The answer is the address of its end of a link, or an error.
type request struct {
	Track, Node, At   string
	Spatial, Temporal uint8
}

type answer struct {
	At    string `json:",omitempty"`
	SSRC  uint32
	Level int
	Error string `json:",omitempty"`
}

// On `wish.NODE`: the highest layers that anybody behind a link wants. At is the address of the link's other end.
type wish struct {
	At                string
	Spatial, Temporal uint8
}

// The feed by which another node's track comes here.
type feed struct {
	link     *link
	from     string // the node that sends it
	said     wish   // the wish that was sent to that node, and when
	saidAt   time.Time
	fault    error         // why no node sends it
	ended    bool          // the track takes no more subscribers
	news     chan struct{} // closed when any of this or the subscribers change
	received int64         // bytes
}

// Wakes whoever waits for a change. The lock is held.
func (t *track) tell() {
	close(t.news)
	t.news = make(chan struct{})
}

// Keeps a feed of the track while anybody watches it and for ten seconds more, or until the track is no longer published.
func (t *track) keep() {
	for retry := time.Now(); ; {
		t.Lock()
		news, link := t.news, t.link
		t.ended = len(t.subscribers) == 0 && time.Since(t.left) > lingers
		ended := t.ended
		t.Unlock()
		switch {
		case ended || link == nil && !isPublished(t.Name):
			remove(t)
			t.close()
			if link != nil {
				link.close()
			}
			return
		case link == nil && time.Now().After(retry):
			if fault := t.find(); fault != nil {
				retry = time.Now().Add(time.Second)
				t.Lock()
				t.fault = fault
				t.tell()
				t.Unlock()
				log.Printf("%s: %v", t.Name, fault)
			}
		case link != nil:
			t.wish()
		}
		select {
		case <-news:
		case <-time.After(200 * time.Millisecond):
		}
	}
}

// Requests the track from one node after the other, until one sends it. A node that feeds others never takes the track from a deeper level than before,
// so that nodes never form a loop. If no node at an allowed level has it, this node ends the feeds that it gives: the nodes behind them look elsewhere,
// and this one may then take the track from any node that may feed.
func (t *track) find() error {
	t.Lock()
	level, avoid, children := deepest-1, t.from, t.nodes() > 0
	if children {
		level = t.level - 1
	}
	t.Unlock()
	fault := errors.New("no node that is here has the track and may send it")
	for _, node := range nodesWith(t.Name, level, avoid) {
		if fault = t.take(node, level); fault == nil {
			return nil
		}
	}
	if children {
		t.dismiss()
	}
	return fault
}

func (t *track) dismiss() {
	t.Lock()
	defer t.Unlock()
	for s := range t.subscribers {
		if s.node {
			go s.end()
		}
	}
}

// Takes the track from a node, if that has it at `level` or above.
func (t *track) take(node string, level int) error {
	l, at, err := newLink()
	if err != nil {
		return err
	}
	l.conn.SetReadBuffer(4 << 20)
	w := t.wished()
	atomic.AddInt64(&requests, 1)
	bytes, _ := json.Marshal(request{Track: t.Name, Node: me, At: at, Spatial: w.Spatial, Temporal: w.Temporal})
	reply, err := bus.Request("feed."+node, bytes, answers)
	var a answer
	if err == nil {
		err = json.Unmarshal(reply.Data, &a)
	}
	if err == nil && a.Error != "" {
		err = errors.New(a.Error)
	}
	if err == nil {
		err = l.connect(a.At)
	}
	if err == nil {
		err = l.hears(answers)
	}
	if err == nil && a.Level > level {
		err = errors.New("it has the track at a deeper level")
	}
	if err != nil {
		l.close()
		return errors.New(node + ": " + err.Error())
	}
	w.At = at
	t.Lock()
	t.link, t.from, t.said, t.saidAt, t.fault = l, node, w, time.Now(), nil
	t.Unlock()
	t.begin(a.SSRC, a.Level+1, l.ask)
	announce(false)
	log.Printf("%s comes from %s, at level %d", t.Name, node, a.Level+1)
	go func() {
		l.run(func(bytes []byte) { atomic.AddInt64(&t.received, int64(len(bytes))); t.packet(bytes) }, toAll)
		t.lose()
		t.Lock()
		t.link = nil
		t.tell()
		t.Unlock()
	}()
	return nil
}

// Returns the highest layers that any subscriber wants.
func (t *track) wished() (w wish) {
	t.Lock()
	defer t.Unlock()
	for s := range t.subscribers {
		if s.spatial > w.Spatial {
			w.Spatial = s.spatial
		}
		if s.temporal > w.Temporal {
			w.Temporal = s.temporal
		}
	}
	return
}

// Sends the wish to the node that sends the track, when it changes and every five seconds.
func (t *track) wish() {
	w := t.wished()
	w.At = t.said.At
	if w == t.said && time.Since(t.saidAt) < 5*time.Second {
		return
	}
	bytes, _ := json.Marshal(w)
	if bus.Publish("wish."+t.from, bytes) == nil {
		t.said, t.saidAt = w, time.Now()
	}
}

// Replies to another node's request for a track.
func give(m *nats.Msg) {
	var q request
	var a answer
	err := json.Unmarshal(m.Data, &q)
	if t := get(q.Track); err == nil && t != nil {
		a, err = t.linkTo(q.At, q.Spatial, q.Temporal, q.Node)
	} else if err == nil {
		err = errors.New("this node doesn't have the track")
	}
	if err != nil {
		a.Error = err.Error()
	}
	bytes, _ := json.Marshal(a)
	m.Respond(bytes)
}

// Sends the track to the address `at` of another node or of a player, once a datagram has come from there.
func (t *track) linkTo(at string, spatial, temporal uint8, node string) (answer, error) {
	l, here, err := newLink()
	if err == nil {
		err = l.connect(at)
	}
	if err != nil {
		return answer{}, err
	}
	s := newSubscriber(spatial, temporal)
	s.node, s.waits, s.send, s.end, l.lossy = node != "", true, l.send, l.close, node != ""
	if err := t.add(s); err != nil {
		l.conn.Close()
		return answer{}, err
	}
	locked(func() { links[at] = &linked{t, s, l, node} })
	go func() {
		l.run(toNone, func(packets []rtcp.Packet) {
			t.start(s)
			t.hear(s, packets)
		})
		t.leave(s)
		locked(func() { delete(links, at) })
	}()
	return answer{At: here, SSRC: s.ssrc, Level: t.level}, nil
}

// A link by which this node sends a track, to a node or to a player.
type linked struct {
	track      *track
	subscriber *subscriber
	link       *link
	node       string
}

var (
	links    = map[string]*linked{} // by the other end's address
	requests int64                  // that this node made
)

func hearWish(m *nats.Msg) {
	var w wish
	if json.Unmarshal(m.Data, &w) != nil {
		return
	}
	var l *linked
	locked(func() { l = links[w.At] })
	if l != nil {
		l.track.aim(l.subscriber, w.Spatial, w.Temporal)
	}
}
