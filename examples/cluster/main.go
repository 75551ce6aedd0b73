// cluster is one node of a conference over several machines. It has its own browsers and RTP clients, and feeds from and to other nodes, which it finds
// through NATS. Each track at a node has a room of the library. Only the library is proved; nothing here is.
//
//   - room.go: a track at this node, with its room, source and subscribers
//   - link.go: the connected UDP socket of a feed
//   - feeds.go: requesting, giving and keeping feeds
//   - members.go: NATS: the nodes that are here, and their tracks
//   - tracks.go: the tracks of this node and of the conference
//   - browser.go, pages: browsers, with pion
//   - main.go: flags, and calls by HTTP
//   - players: publishers and players of plain RTP, for test.py
//
// Its calls:
//
//	GET /tracks         the conference's tracks
//	POST /browser/publish?label=, POST /browser/play?track=&spatial=&temporal=
//	                    the request has an SDP offer with its candidates, the reply the answer
//	POST /rtp/publish?label=&id=&payload=&ssrc=&at=
//	                    begins a track of plain RTP from the UDP address `at`; the reply has the address to send to. The track ends when nothing has
//	                    come for a second, so a publisher that pauses must send reports
//	POST /rtp/play?track=&at=&spatial=&temporal=
//	                    sends a track to the UDP address `at`, with the reports of a feed
//	GET /figures        viewers, packets, processor time, feeds in and out with their bytes, nodes that are here
package main

import (
	"encoding/json"
	"flag"
	"fmt"
	"io"
	"log"
	"math/rand"
	"net/http"
	"os"
	"os/signal"
	"sort"
	"strings"
	"sync/atomic"
	"syscall"
	"time"
)

var (
	name    = flag.String("name", "node", "what this node is called; it gets a number of its own at each start")
	address = flag.String("address", "127.0.0.1", "the address of this machine, for browsers and other nodes")
	web     = flag.Int("http", 8080, "the TCP port of the pages")
	media   = flag.Int("media", 7000, "the UDP port of all browsers; each feed has a port of its own")
	server  = flag.String("nats", "nats://127.0.0.1:4222", "the NATS server; NATS_USER and NATS_PASSWORD, or NATS_TOKEN, come from the environment")
	feeds   = flag.Int("feeds", 8, "how many nodes this one feeds with one track")
	lose    = flag.Int("lose", 0, "loses so many per cent of the packets to other nodes, for a test")
)

func must(err error) {
	if err != nil {
		log.Fatal(err)
	}
}

// A request's query parameters.
type words struct{ *http.Request }

func (w words) text(name string) string { return w.URL.Query().Get(name) }
func (w words) number(name string) (n int) {
	fmt.Sscan(w.text(name), &n)
	return
}

// Registers a call that returns JSON, or an error that a page can show. Requests from pages of other servers are refused.
func serve(method, path string, do func(words, string) (interface{}, error)) {
	http.HandleFunc(path, func(w http.ResponseWriter, r *http.Request) {
		if origin := r.Header.Get("Origin"); r.Method != method || origin != "" && !strings.HasSuffix(origin, "://"+r.Host) {
			http.Error(w, "this is for pages of this server", http.StatusForbidden)
			return
		}
		body, _ := io.ReadAll(io.LimitReader(r.Body, 100000))
		answer, err := do(words{r}, string(body))
		if err != nil {
			http.Error(w, err.Error(), http.StatusServiceUnavailable)
			return
		}
		w.Header().Set("Content-Type", "application/json")
		json.NewEncoder(w).Encode(answer)
	})
}

// Begins a track of plain RTP, with the publisher's address and SSRC from the request.
func publishRTP(w words, _ string) (interface{}, error) {
	l, at, err := newLink()
	if err == nil {
		err = l.connect(w.text("at"))
	}
	if err != nil {
		return nil, err
	}
	t, bring := publish(description{Label: w.text("label"), ID: uint8(w.number("id")), Payload: uint8(w.number("payload"))}, uint32(w.number("ssrc")), l.ask)
	go func() {
		l.run(bring, toAll)
		t.unpublish()
	}()
	return map[string]string{"Track": t.Name, "At": at}, nil
}

// Sends a track as plain RTP to the player's address from the request.
func playRTP(w words, _ string) (interface{}, error) {
	s := newSubscriber(uint8(w.number("spatial")), uint8(w.number("temporal")))
	s.waits = true // a placeholder for the player until the track is here
	t, err := subscribeTo(w.text("track"), s)
	if err != nil {
		return nil, err
	}
	defer t.leave(s)
	return t.linkTo(w.text("at"), s.spatial, s.temporal, "")
}

type feedIn struct {
	Track, Node string // the node that sends it
	Level       int
	Bytes       int64
}

type feedOut struct {
	Track, Node          string // the node that it is sent to
	Packets, Bytes, Lost int64
}

// This node's figures.
func figures(words, string) (interface{}, error) {
	f := struct {
		Node      string
		Nodes     []string
		Processor int64 // milliseconds
		Sent      int64 // packets
		Viewers   int
		Requests  int64
		FeedsIn   []feedIn
		FeedsOut  []feedOut
	}{Node: me, Processor: processorTime().Milliseconds(), Sent: atomic.LoadInt64(&sent), Requests: atomic.LoadInt64(&requests), Nodes: []string{}}
	for _, t := range all() {
		t.Lock()
		f.Viewers += len(t.subscribers) - t.nodes()
		if t.link != nil {
			f.FeedsIn = append(f.FeedsIn, feedIn{t.Name, t.from, t.level, atomic.LoadInt64(&t.received)})
		}
		t.Unlock()
	}
	locked(func() {
		for node := range members {
			f.Nodes = append(f.Nodes, node)
		}
		for _, l := range links {
			if l.node != "" {
				f.FeedsOut = append(f.FeedsOut, feedOut{l.track.Name, l.node, atomic.LoadInt64(&l.link.packets), atomic.LoadInt64(&l.link.bytes), atomic.LoadInt64(&l.link.lost)})
			}
		}
	})
	sort.Strings(f.Nodes)
	return f, nil
}

func main() {
	flag.Parse()
	rand.Seed(time.Now().UnixNano())
	me = fmt.Sprintf("%s-%04x", strings.NewReplacer(".", "-", " ", "-", "*", "-", ">", "-").Replace(*name), rand.Intn(1<<16))
	connectBus()
	go live()
	go func() {
		for range time.Tick(100 * time.Millisecond) {
			forgetNodes()
		}
	}()
	stop := make(chan os.Signal, 1)
	signal.Notify(stop, os.Interrupt, syscall.SIGTERM)
	go func() {
		<-stop
		announce(true)
		bus.Flush()
		bus.SetClosedHandler(nil)
		bus.Close()
		for _, t := range all() {
			t.close()
		}
		time.Sleep(100 * time.Millisecond)
		os.Exit(0)
	}()
	startBrowsers()
	serve("GET", "/tracks", func(words, string) (interface{}, error) { return conference(), nil })
	serve("GET", "/figures", figures)
	serve("POST", "/rtp/publish", publishRTP)
	serve("POST", "/rtp/play", playRTP)
	serve("POST", "/browser/publish", publishBrowser)
	serve("POST", "/browser/play", playBrowser)
	http.Handle("/", http.FileServer(http.Dir("pages")))
	for _, shared := range []string{"/shared.js", "/style.css"} {
		http.Handle(shared, http.FileServer(http.Dir("../browser/pages")))
	}
	at := fmt.Sprintf("%s:%d", *address, *web)
	log.Printf("%s: open http://%s", me, at)
	log.Fatal(http.ListenAndServe(at, nil))
}
