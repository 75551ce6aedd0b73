package main

import (
	"bufio"
	"encoding/binary"
	"encoding/hex"
	"encoding/json"
	"fmt"
	"io"
	"math/rand"
	"net"
	"net/url"
	"os"
	"strings"
	"sync"
	"time"

	"github.com/pion/rtcp"
)

// What a player has to tell of one visit: of one track at one node. Moments are milliseconds since 1970.
type visit struct {
	Node, Track       string
	ID                uint8
	Spatial, Temporal int
	Asked             int64
	First             int64 // milliseconds from the request to the first packet
	Ended             int64
	Why               string // stop, bye, silence, or why the node refused
	Packets, Asks     int
	Lost              int        // packets that never came
	Gaps              [][2]int64 // between two packets, of more than 150 ms: the moment of its end, and its length
	File              string

	next  uint16
	began bool
	wait  map[uint16][]byte
	gap   time.Time // since when a packet is missing
	asked time.Time
	last  time.Time
	file  *bufio.Writer
}

func now() int64 { return time.Now().UnixMilli() }

// Players come within some seconds, and stay until the standard input ends. One whose track ends, or whose node is gone, comes again elsewhere.
func play(folder string, count, seconds int, track string, nodes []string) {
	stop := make(chan struct{})
	var all sync.WaitGroup
	var lock sync.Mutex
	var visits []*visit
	for n := 0; n < count; n++ {
		all.Add(1)
		go func(n int) {
			defer all.Done()
			wait := time.Duration(rand.Int63n(int64(seconds)*int64(time.Second) + 1))
			for turn := 0; ; turn++ {
				select {
				case <-stop:
					return
				case <-time.After(wait):
				}
				wait = 300 * time.Millisecond
				v := &visit{Node: nodes[rand.Intn(len(nodes))], Spatial: rand.Intn(3), Temporal: rand.Intn(3), wait: map[uint16][]byte{}}
				words := strings.Split(track, "/") // the track, and perhaps the wish
				if v.Track = words[0]; len(words) == 3 {
					v.Spatial, v.Temporal = number(words[1]), number(words[2])
				}
				v.File = fmt.Sprintf("%s/%d.%d", folder, n, turn)
				v.stay(stop)
				if v.Asked > 0 {
					lock.Lock()
					visits = append(visits, v)
					lock.Unlock()
				}
			}
		}(n)
	}
	io.Copy(io.Discard, os.Stdin)
	close(stop)
	all.Wait()
	json.NewEncoder(os.Stdout).Encode(visits)
}

// One visit: asks a node for one of the conference's tracks, and takes down what it sends.
func (v *visit) stay(stop <-chan struct{}) {
	var tracks []struct {
		Name string
		ID   uint8
	}
	if call("GET", v.Node, "/tracks", nil, &tracks) != nil || len(tracks) == 0 {
		return
	}
	t := tracks[rand.Intn(len(tracks))]
	for _, one := range tracks {
		if one.Name == v.Track {
			t = one
		}
	}
	conn := socket(v.Node)
	defer conn.Close()
	v.Track, v.ID, v.Asked = t.Name, t.ID, now()
	var answer struct{ At string }
	words := url.Values{"track": {t.Name}, "at": {conn.LocalAddr().String()}, "spatial": {fmt.Sprint(v.Spatial)}, "temporal": {fmt.Sprint(v.Temporal)}}
	if fault := call("POST", v.Node, "/rtp/play", words, &answer); fault != nil {
		v.Why, v.Ended = fault.Error(), now()
		return
	}
	file, err := os.Create(v.File)
	must(err)
	defer file.Close()
	v.file = bufio.NewWriter(file)
	defer v.file.Flush()
	at, err := net.ResolveUDPAddr("udp4", answer.At)
	must(err)
	v.Why = run(conn, at, stop, v.packet, func(rtcp.Packet) {}, func() { v.ask(conn, at) })
	v.Ended = now()
}

// Writes packets down in the order of their numbers.
func (v *visit) packet(bytes []byte) {
	n := binary.BigEndian.Uint16(bytes[2:])
	if !v.began {
		v.began, v.next, v.First, v.last = true, n, now()-v.Asked, time.Now()
	}
	if int16(n-v.next) < 0 || v.wait[n] != nil {
		return
	}
	v.wait[n] = append([]byte(nil), bytes...)
	for ; v.wait[v.next] != nil; v.next++ {
		hex.NewEncoder(v.file).Write(v.wait[v.next])
		v.file.WriteByte('\n')
		delete(v.wait, v.next)
		if gap := time.Since(v.last).Milliseconds(); gap > 150 {
			v.Gaps = append(v.Gaps, [2]int64{now(), gap})
		}
		v.Packets++
		v.last, v.gap = time.Now(), time.Time{}
	}
}

// Asks for what is missing, each 40 ms, for two seconds; then it is lost.
func (v *visit) ask(conn *net.UDPConn, at *net.UDPAddr) {
	if len(v.wait) == 0 || time.Since(v.asked) < 40*time.Millisecond {
		return
	}
	if v.gap.IsZero() {
		v.gap = time.Now()
	}
	var missing []uint16
	seen := 0
	for n := v.next; seen < len(v.wait); n++ {
		if v.wait[n] != nil {
			seen++
		} else {
			missing = append(missing, n)
		}
	}
	if time.Since(v.gap) > 2*time.Second {
		v.Lost++
		v.next, v.gap = v.next+1, time.Time{}
		return
	}
	v.asked = time.Now()
	v.Asks += len(missing)
	bytes, _ := (&rtcp.TransportLayerNack{Nacks: rtcp.NackPairsFromSequenceNumbers(missing)}).Marshal()
	conn.WriteToUDP(bytes, at)
}
