//go:build library

// Which layers a person is sent of each picture, so that all fit the path: down at once, and up after two seconds in which they fit.
package main

import (
	"sort"
	"time"
)

// What the layers of a track take, in bits a second, counted as they come. A layer's place is 8 times the spatial and the temporal one.
type rates struct {
	layers [64]byte  // by template
	since  time.Time // when the latest half second began

	bytes, bits [32]float64 // since then, and the mean of some seconds
}

// Sound counts as the lowest layer. A key frame brings all templates: each has the layers of the one before it, or the next temporal layer, or the next
// spatial one (RTP Payload Format For AV1 v1.0, Appendix A.8).
func (r *rates) count(d []byte, size int) {
	if len(d) > 5 && d[3]&0x80 != 0 {
		for id, layer, bit, step := d[3]<<3|d[4]>>5, byte(0), 40, byte(0); bit < len(d)*8 && step != 3; id, bit = id+1, bit+2 {
			r.layers[id&63], step = layer, d[bit/8]>>(6-bit%8)&3
			layer = [4]byte{layer, layer + 1, layer&^7 + 8}[step]
		}
	}
	r.bytes[r.layers[append(d, 0)[0]&63]&31] += float64(size)
	if took := time.Since(r.since).Seconds(); took > 0.5 {
		for n := range r.bits {
			r.bits[n] += (r.bytes[n]*8/took - r.bits[n]) / 4
		}
		r.bytes, r.since = [32]float64{}, time.Now()
	}
}

// The highest layers that may be sent, from the lowest up: first all temporal layers of the smallest picture, then larger pictures with all of theirs.
func (r *rates) highest() (layers []int) {
	rate := 0
	for rate < 7 && r.bits[rate+1] > 500 {
		rate++
	}
	for n, bits := range r.bits {
		if n <= rate || n%8 == rate && bits > 500 {
			layers = append(layers, n)
		}
	}
	return
}

// What all layers up to these take.
func (r *rates) takes(highest int) (sum float64) {
	for n, bits := range r.bits {
		if n/8 <= highest/8 && n%8 <= highest%8 {
			sum += bits
		}
	}
	return
}

// Chooses for all pictures of a person: each has its lowest layer, then the big one all that fits, and then the others.
func (p *person) choose() {
	left, seats := 0.85*p.path.bears, []*seat{}
	for t, s := range p.gets {
		left, seats, s.best = left-t.takes(0), append(seats, s), 0
	}
	sort.Slice(seats, func(a, b int) bool { return seats[a].place < seats[b].place })
	p.path.short = false
	for _, s := range seats {
		for _, layers := range s.of.highest() {
			more := s.of.takes(layers) - s.of.takes(s.best)
			if wished := layers/8 <= s.wish; !wished || more > left {
				p.path.short = p.path.short || wished
				break
			}
			left, s.best = left-more, layers
		}
		s.follow(p.path.falls)
	}
}

// Where the path bears less all of a sudden, a browser lacks packets of what it was sent, and decodes what it is sent now from a key frame on.
func (s *seat) follow(falls bool) {
	if s.best <= s.now {
		s.fits = time.Now()
	}
	if s.best < s.now || time.Since(s.fits) >= patience {
		s.now, s.fits = s.best, time.Now()
		if s.aim(); falls {
			s.plead()
		}
	}
}

// Tells the page what it is sent of each picture: layers, the highest that there are, kbit/s of it and of the path, and whether the wish is reached; then what
// the room counts: frames forwarded, withheld by the wish, and withheld else, packets waiting and sent again, and the track's whole frames and lost packets.
func (p *person) tell() {
	for t, s := range p.gets {
		if sent, layers := s.sent(), t.highest(); !t.plain {
			top := layers[len(layers)-1]
			reached := s.reaches() && (s.now == top || s.now/8 >= s.wish && s.now%8 == top%8)
			p.say("tile %s %d %d %d %d %d %.0f %t", t.whose.id, sent.spatial, sent.temporal, top/8, top%8, s.bytes*16/1000, p.path.bears/1000, reached)
			is, of := s.counted()
			withheld := is.behind + is.reference + is.full + is.link + is.unopened
			p.say("counts %s %d %d %d %d %d %d %d", t.whose.id, is.passed, is.not_of_target, withheld, is.waiting, is.resent, of.frames, of.given_up)
			s.bytes = 0
		}
	}
}
