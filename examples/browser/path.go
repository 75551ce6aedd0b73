//go:build library

package main

import (
	"math"
	"time"

	"github.com/pion/interceptor"
	"github.com/pion/interceptor/pkg/cc"
	"github.com/pion/interceptor/pkg/gcc"
	"github.com/pion/interceptor/pkg/twcc"
	"github.com/pion/rtcp"
	"github.com/pion/rtp"
)

const patience, much = 2 * time.Second, 0.15 // much: of packets lost, more than single losses come to

// A person's path: pion's estimate by transport-wide feedback, and what is tried above it. Rates are in bits a second.
type path struct {
	*gcc.SendSideBWE
	numbers     twcc.HeaderExtensionInterceptor // of packets on the path
	departs     [1024]time.Time                 // of the latest packets, by their number
	bits        [1024]float64                   // of them
	next, open  uint16                          // numbers: the next packet's, and the first one behind all of which feedback came
	trip        float64                         // the least seconds from a packet's departure to feedback of it
	came, comes float64                         // bits since the latest look, and the rate that comes through
	lost        float64                         // the share of packets, over about a second
	late, falls bool                            // whether feedback is 200 ms late, and whether the path bears less than is sent
	short       bool                            // whether wishes take more than fits
	spare       float64                         // bits that may be sent again
	wait        time.Duration                   // for which the path has to be calm before more is tried
	calm        time.Time                       // since when it is

	tried, bears float64 // what is tried, or 0, and what the path is taken to bear
}

func newPath() (*path, interceptor.Factory) {
	estimator := must(gcc.NewSendSideBWE(gcc.SendSideBWEInitialBitrate(1000000), gcc.SendSideBWEPacer(gcc.NewNoOpPacer())))
	p := &path{SendSideBWE: estimator, trip: 1, wait: patience, calm: time.Now()}
	return p, must(cc.NewInterceptor(func() (cc.BandwidthEstimator, error) { return p, nil }))
}

// A resent packet has no number on the path: where another came, a browser throws it away before it counts it, and the estimator would take it for lost. All
// that is resent takes a seventh of the path, and nothing while packets are late: where layers don't fit any more, the browser asks for all that was lost of
// them, and their base comes late.
func (p *path) AddStream(info *interceptor.StreamInfo, plain interceptor.RTPWriter) interceptor.RTPWriter {
	counted, newest := p.numbers.BindLocalStream(info, p.SendSideBWE.AddStream(info, plain)), uint16(0)
	return interceptor.RTPWriterFunc(func(header *rtp.Header, payload []byte, a interceptor.Attributes) (int, error) {
		bits := float64(8 * len(payload))
		if n := p.next & 1023; int16(header.SequenceNumber-newest) > 0 {
			newest, p.departs[n], p.bits[n], p.next = header.SequenceNumber, time.Now(), bits, p.next+1
			return counted.Write(header, payload, a)
		} else if p.spare -= bits; p.late || p.spare < 0 {
			return 0, nil
		}
		return plain.Write(header, payload, a)
	})
}

// Each feedback, some 20 times a second, is of all packets up to the newest that came.
func (p *path) WriteRTCP(packets []rtcp.Packet, a interceptor.Attributes) error {
	lock.Lock()
	for _, packet := range packets {
		if f, is := packet.(*rtcp.TransportLayerCC); is && f.PacketStatusCount > 0 {
			end, came := f.BaseSequenceNumber+f.PacketStatusCount, float64(len(f.RecvDeltas))/float64(f.PacketStatusCount)
			p.trip = math.Min(p.trip+0.001, time.Since(p.departs[(end-1)&1023]).Seconds())
			for p.lost += (1 - came - p.lost) / 20; int16(end-p.open) > 0; p.open++ {
				p.came += came * p.bits[p.open&1023]
			}
		}
	}
	lock.Unlock()
	return p.SendSideBWE.WriteRTCP(packets, a)
}

// Ten times a second. pion's estimate falls with what is sent and rises by 8 % a second alone, so where wishes take more than fits and for two seconds nothing
// was late and little lost, twice as much is tried; after a try that failed it waits twice as long, up to eight seconds. pion takes 0.7 s to see that a path
// got narrow: where packets are late or many lost, the path is taken to bear 70 % of what comes through, so that what waits on it gets less.
func (p *path) watch() {
	estimate := float64(p.GetTargetBitrate())
	p.comes, p.came = p.comes+(10*p.came-p.comes)/2, 0
	p.late = p.open != p.next && time.Since(p.departs[p.open&1023]).Seconds() > p.trip+0.2
	if p.falls = p.late || p.lost > much || p.GetStats()["state"] == "decrease"; p.falls {
		if p.tried > 0 && p.wait < 4*patience {
			p.wait *= 2
		}
		p.tried, p.calm = 0, time.Now()
	} else if time.Since(p.calm) > p.wait {
		if p.calm = time.Now(); p.tried > 0 {
			p.wait = patience
		}
		if p.short {
			p.tried = 2 * math.Max(p.tried, estimate)
		}
	}
	if p.bears = math.Max(p.tried, estimate); p.late || p.lost > much {
		p.bears = math.Min(p.bears, 0.7*p.comes)
	}
	p.spare = math.Min(math.Max(p.spare, 0)+p.bears/70, p.bears/7)
}
