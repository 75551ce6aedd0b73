// gateway puts browsers into a room: it speaks ICE, DTLS and SRTP with them, and plain RTP and RTCP with a room. Nothing of it is proved.
//
// gateway.go has the flags, and who answers an offer; page.go a browser's connection: codecs, header extensions, the answer to its offer; tracks.go a track
// on its way from a browser or to one: markers, repeated NACKs. Built without a tag it serves those who publish and play, by `serve`: serve.go. Built with
// -tags library it serves conferences and simulcast: library.go has every call of the library, and nothing else; meet.go who comes and goes, offers, sender
// reports; layers.go which layers each person is sent; path.go what their path bears; simulcast.go who publishes in several sizes, and who plays that. pages
// has the four pages, what they share, and their style.
package main

import (
	"encoding/json"
	"flag"
	"fmt"
	"io"
	"log"
	"net"
	"net/http"
	"net/url"
	"strings"
	"sync"

	"github.com/pion/webrtc"
)

// Answers an offer that is posted to a path: with the number of a track, and a description.
type answerer func(offer string, words url.Values) (int, string, error)

var (
	address = flag.String("address", "127.0.0.1", "this machine's address, at which browsers find it")
	web     = flag.Int("http", 8080, "the TCP port of the pages")
	base    = flag.Int("port", 7000, "1,000 below the UDP port of all browsers; of serve, the room's first, and this program's ports lie 500 above")
	hold    = flag.Int("hold", 80, "milliseconds for which lost packets are waited for: more than the way there and back and 50")
	setting webrtc.SettingEngine // puts all connections on one socket
	lock    sync.Mutex           // of tracks, players and people, and of what they hold
)

func check(err error) {
	if err != nil {
		log.Fatal(err)
	}
}

func must[T any](made T, err error) T { check(err); return made }

func locked(do func()) { lock.Lock(); defer lock.Unlock(); do() }

// Pages of other hosts, by Origin, may not post.
func (a answerer) ServeHTTP(w http.ResponseWriter, r *http.Request) {
	if origin := r.Header.Get("Origin"); r.Method != "POST" || origin != "" && !strings.HasSuffix(origin, "://"+r.Host) {
		http.Error(w, "this is for pages of this server", http.StatusForbidden)
		return
	}
	body, _ := io.ReadAll(io.LimitReader(r.Body, 100000))
	if number, sdp, err := a(string(body), r.URL.Query()); err != nil {
		http.Error(w, err.Error(), http.StatusServiceUnavailable)
	} else {
		json.NewEncoder(w).Encode(map[string]interface{}{"track": number, "sdp": sdp, "hold": *hold})
	}
}

func main() {
	flag.Parse()
	socket := must(net.ListenUDP("udp4", &net.UDPAddr{IP: net.ParseIP(*address), Port: *base + 1000}))
	setting.SetIncludeLoopbackCandidate(true)
	setting.SetNetworkTypes([]webrtc.NetworkType{webrtc.NetworkTypeUDP4})
	setting.SetICEUDPMux(webrtc.NewICEUDPMux(nil, socket))
	http.Handle("/", http.FileServer(http.Dir("pages")))
	for path, answer := range start() {
		http.Handle(path, answer)
		log.Printf("open http://%s:%d%s.html", *address, *web, path)
	}
	log.Fatal(http.ListenAndServe(fmt.Sprintf("%s:%d", *address, *web), nil))
}
