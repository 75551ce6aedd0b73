// players is the load of test.py: publishers that play a stream in a loop, and players that come at random nodes and write down what they get.
//
//	players publish NODE LABEL ID FILE
//	players play FOLDER COUNT SECONDS TRACK NODE..
//
// A NODE is the address of its pages. FILE has a line for each packet: its millisecond, and its bytes in hex. COUNT players come within SECONDS, and stay
// until the standard input ends. TRACK is a name, or one with a wish as in NAME/2/1; with - they come to any track, with any wish.
package main

import (
	"encoding/json"
	"errors"
	"fmt"
	"io"
	"log"
	"math/rand"
	"net"
	"net/http"
	"net/url"
	"os"
	"strconv"
	"time"

	"github.com/pion/rtcp"
)

const (
	beat    = 250 * time.Millisecond
	silence = 1500 * time.Millisecond
)

func must(err error) {
	if err != nil {
		log.Fatal(err)
	}
}

func number(text string) int { n, err := strconv.Atoi(text); must(err); return n }

// Calls a node, and reads its answer, which is JSON or an error in words.
func call(method, node, path string, words url.Values, answer interface{}) error {
	client := http.Client{Timeout: 5 * time.Second}
	asks, err := http.NewRequest(method, node+path+"?"+words.Encode(), nil)
	must(err)
	reply, err := client.Do(asks)
	if err != nil {
		return err
	}
	defer reply.Body.Close()
	bytes, err := io.ReadAll(reply.Body)
	if err == nil && reply.StatusCode != http.StatusOK {
		err = errors.New(string(bytes))
	}
	if err == nil {
		err = json.Unmarshal(bytes, answer)
	}
	return err
}

// A UDP socket that isn't connected yet; the node connects to it, and answers its own address.
func socket(node string) *net.UDPConn {
	host, err := url.Parse(node)
	must(err)
	route, err := net.Dial("udp4", host.Host)
	must(err)
	defer route.Close()
	conn, err := net.ListenUDP("udp4", &net.UDPAddr{IP: route.LocalAddr().(*net.UDPAddr).IP})
	must(err)
	conn.SetReadBuffer(1 << 20)
	return conn
}

// Hands on what comes from a node, and says that this end is here, until a BYE comes or nothing has come for a while. It says which.
func run(conn *net.UDPConn, at *net.UDPAddr, stop <-chan struct{}, rtp func([]byte), feedback func(rtcp.Packet), each func()) string {
	report, _ := (&rtcp.ReceiverReport{}).Marshal()
	heard, said, bytes := time.Now(), time.Time{}, make([]byte, 2048)
	for {
		select {
		case <-stop:
			bye, _ := (&rtcp.Goodbye{Sources: []uint32{0}}).Marshal()
			conn.WriteToUDP(bye, at)
			return "stop"
		default:
		}
		if time.Since(said) > beat {
			conn.WriteToUDP(report, at)
			said = time.Now()
		}
		each()
		conn.SetReadDeadline(time.Now().Add(20 * time.Millisecond))
		n, from, err := conn.ReadFromUDP(bytes)
		if err != nil && time.Since(heard) > silence {
			return "silence"
		}
		if err != nil || n < 8 || from.String() != at.String() {
			continue
		}
		heard = time.Now()
		if bytes[1] < 192 || bytes[1] >= 224 {
			rtp(bytes[:n])
			continue
		}
		packets, _ := rtcp.Unmarshal(bytes[:n])
		for _, packet := range packets {
			if _, is := packet.(*rtcp.Goodbye); is {
				return "bye"
			}
			feedback(packet)
		}
	}
}

func main() {
	rand.Seed(time.Now().UnixNano())
	switch os.Args[1] {
	case "publish":
		publish(os.Args[2], os.Args[3], number(os.Args[4]), os.Args[5])
	case "play":
		play(os.Args[2], number(os.Args[3]), number(os.Args[4]), os.Args[5], os.Args[6:])
	default:
		fmt.Println("players publish NODE LABEL ID FILE, or players play FOLDER COUNT SECONDS TRACK NODE..")
	}
}
