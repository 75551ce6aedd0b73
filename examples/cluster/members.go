// NATS: the nodes that are here, and their tracks. All messages are JSON:
//
//	nodes      from each node, every second, and when it gets a track: Node, Load (share of its processors), Tracks; Gone at its end. Each of its Tracks
//	           has Name, Label, ID (of the descriptors' extension; 0: a plain track), Payload, Spatial and Temporal (layers seen), Level, Room (whether it
//	           may feed one more node)
//	feed.NODE  requests a track from NODE: Track, Node (which requests it), At (its UDP address for this feed), Spatial, Temporal. NODE's reply, within
//	           500 ms: At, SSRC, Level, or Error
//	wish.NODE  when a feed's wish changes, and every 5 s: At (the address of the feed's end), Spatial, Temporal

package main

import (
	"encoding/json"
	"log"
	"math"
	"os"
	"runtime"
	"sort"
	"strings"
	"sync"
	"syscall"
	"time"

	"github.com/nats-io/nats.go"
)

const (
	heartbeat = time.Second
	late      = heartbeat + 300*time.Millisecond
	forgotten = 2*heartbeat + 300*time.Millisecond
)

// A node's heartbeat on the subject `nodes`, every second and when it has a new track.
type announcement struct {
	Node   string
	Load   float64 // share of its processors in use
	Tracks []offer
	Gone   bool // the node is ending
}

// A track that a node offers.
type offer struct {
	description
	Level int
	Room  bool // whether it may feed one more node
}

type member struct {
	announcement
	heard time.Time
}

var (
	bus     *nats.Conn
	me      string // this node's name, new at each start
	lock    sync.Mutex
	members = map[string]*member{}
	echo    time.Time // when this node's own last heartbeat came
	back    time.Time // since when its own heartbeats have come without a gap
	load    float64
)

// Connects to NATS, and reconnects however long it is away. Messages sent meanwhile are lost, since old heartbeats and requests are of no use.
func connectBus() {
	var err error
	options := []nats.Option{nats.Name(me), nats.MaxReconnects(-1), nats.RetryOnFailedConnect(true), nats.ReconnectWait(250 * time.Millisecond),
		nats.ReconnectJitter(0, 0), nats.ReconnectBufSize(-1),
		nats.DisconnectErrHandler(func(_ *nats.Conn, err error) { log.Print("NATS is away: ", err) }),
		nats.ClosedHandler(func(bus *nats.Conn) { log.Fatal("NATS doesn't take this node: ", bus.LastError()) }),
		nats.ReconnectHandler(func(*nats.Conn) {
			log.Print("NATS is here")
			locked(func() { back = time.Now() })
			announce(false)
		})}
	if token := os.Getenv("NATS_TOKEN"); token != "" {
		options = append(options, nats.Token(token))
	} else if user := os.Getenv("NATS_USER"); user != "" {
		options = append(options, nats.UserInfo(user, os.Getenv("NATS_PASSWORD")))
	}
	bus, err = nats.Connect(*server, options...)
	must(err)
	if !bus.IsConnected() {
		log.Printf("NATS isn't at %s: trying again", *server)
	}
	subscribe("nodes", hearNode)
	subscribe("feed."+me, give)
	subscribe("wish."+me, hearWish)
}

func subscribe(subject string, handler nats.MsgHandler) {
	_, err := bus.Subscribe(subject, handler)
	must(err)
}

func announce(gone bool) {
	a := announcement{Node: me, Gone: gone, Tracks: []offer{}}
	locked(func() { a.Load = load })
	for _, t := range all() {
		t.Lock()
		if t.ask != nil {
			a.Tracks = append(a.Tracks, offer{t.description, t.level, t.level < deepest && t.nodes() < *feeds})
		}
		t.Unlock()
	}
	bytes, _ := json.Marshal(a)
	bus.Publish("nodes", bytes)
}

func hearNode(m *nats.Msg) {
	var a announcement
	if json.Unmarshal(m.Data, &a) != nil {
		return
	}
	lock.Lock()
	defer lock.Unlock()
	switch {
	case a.Node == me:
		if time.Since(echo) > late {
			back = time.Now()
		}
		echo = time.Now()
	case a.Gone:
		delete(members, a.Node)
	default:
		if members[a.Node] == nil {
			log.Print("here is ", a.Node)
		}
		members[a.Node] = &member{a, time.Now()}
	}
}

// Forgets nodes without a heartbeat for 2.3 s, if this node's own heartbeats came in that time: else it is NATS that is away.
func forgetNodes() {
	lock.Lock()
	defer lock.Unlock()
	for name, m := range members {
		if time.Since(m.heard) > forgotten && time.Since(echo) < late && time.Since(back) > forgotten && bus.IsConnected() {
			log.Print("gone is ", name)
			delete(members, name)
		}
	}
}

// Sends this node's heartbeat every second, with the share of its processors used since the last one.
func live() {
	var used time.Duration
	for range time.Tick(heartbeat) {
		was := used
		used = processorTime()
		locked(func() { load = float64(used-was) / float64(heartbeat) / float64(runtime.NumCPU()) })
		announce(false)
	}
}

func processorTime() time.Duration {
	var u syscall.Rusage
	syscall.Getrusage(syscall.RUSAGE_SELF, &u)
	return time.Duration(u.Utime.Nano() + u.Stime.Nano())
}

// Whether the node at which a track was published is here and still announces the track.
func isPublished(track string) bool {
	lock.Lock()
	defer lock.Unlock()
	node, _, _ := strings.Cut(track, ".")
	if members[node] != nil {
		for _, o := range members[node].Tracks {
			if o.Name == track {
				return true
			}
		}
	}
	return false
}

// Returns the nodes that have a track at `level` or above and may feed one more node: fewest hops first, then least load; `avoid` is last.
func nodesWith(name string, level int, avoid string) (found []string) {
	lock.Lock()
	defer lock.Unlock()
	rank := map[string]float64{}
	for node, m := range members {
		for _, o := range m.Tracks {
			if o.Name == name && o.Level <= level && o.Room {
				rank[node] = float64(o.Level) + math.Min(m.Load, 0.99)
				if node == avoid {
					rank[node] += 100
				}
				found = append(found, node)
			}
		}
	}
	sort.Slice(found, func(i, j int) bool { return rank[found[i]] < rank[found[j]] })
	return
}

// Returns the conference's tracks: this node's, and those that other nodes announce as published there.
func conference() (list []description) {
	for _, t := range all() {
		t.Lock()
		if t.level == 0 && t.ask != nil {
			list = append(list, t.description)
		}
		t.Unlock()
	}
	lock.Lock()
	defer lock.Unlock()
	for _, m := range members {
		for _, o := range m.Tracks {
			if o.Level == 0 {
				list = append(list, o.description)
			}
		}
	}
	sort.Slice(list, func(i, j int) bool { return list[i].Name < list[j].Name })
	return
}
