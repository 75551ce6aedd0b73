package main

import (
	"time"

	"github.com/pion/interceptor"
	"github.com/pion/rtcp"
	"github.com/pion/rtp"
	"github.com/pion/webrtc"
)

// A track on its way to a browser, as pion knows it, and what the browser asks for.
type player struct {
	*webrtc.TrackLocalStaticRTP
	*page
	sender *webrtc.RTPSender
	stay   func(ssrc uint32) // from when the browser can be sent the track, until it has gone
	id     uint8             // of descriptors
	marked map[uint16]bool   // numbers of packets that had a marker, or got it here

	newest, kept *rtp.Packet // of the room, and the same while it waits for what is behind it
}

// Plays a browser what another one publishes.
func (p *page) play(media *webrtc.TrackRemote, stream string) *player {
	track := must(webrtc.NewTrackLocalStaticRTP(media.Codec().RTPCodecCapability, media.Kind().String(), stream))
	made := &player{TrackLocalStaticRTP: track, page: p, marked: map[uint16]bool{}}
	made.sender, _ = p.pc.AddTrack(made) // none where the browser has gone
	return made
}

// pion calls it once the browser is connected and has the track.
func (p *player) Bind(context webrtc.TrackLocalContext) (webrtc.RTPCodecParameters, error) {
	p.id = negotiatedID(context.HeaderExtensions())
	go p.stay(uint32(context.SSRC()))
	return p.TrackLocalStaticRTP.Bind(context)
}

// Hands a packet of the room on, under the lock; pion puts in the SSRC and the payload type that were negotiated. Tells its descriptor, and whether it
// begins a temporal unit. Where an upper frame was lost for good before the room, its unit ends without a marker, and a browser would wait for the rest and
// decode nothing until a key frame: so what ends a frame without one waits for the next packet, but not longer than the room waits for those lost, twice.
func (p *player) hand(bytes []byte) (descriptor []byte, begins bool) {
	packet := &rtp.Packet{}
	if packet.Unmarshal(append([]byte(nil), bytes...)) != nil {
		return
	}
	descriptor = exchangeID(packet, descriptorID, p.id)
	if p.newest != nil && int16(packet.SequenceNumber-p.newest.SequenceNumber) <= 0 { // resent
		packet.Marker = p.marked[packet.SequenceNumber]
		p.WriteRTP(packet)
		return
	}
	begins = p.newest == nil || packet.Timestamp != p.newest.Timestamp
	p.release(p.kept, begins)
	p.newest, p.kept = packet, packet
	if len(descriptor) == 0 || descriptor[0]&0x40 == 0 || packet.Marker {
		p.release(packet, packet.Marker)
	} else {
		time.AfterFunc(time.Duration(2**hold)*time.Millisecond, func() { locked(func() { p.release(packet, true) }) })
	}
	return
}

// Sends a packet that still waits.
func (p *player) release(packet *rtp.Packet, marker bool) {
	if packet != nil && p.kept == packet {
		p.kept, packet.Marker, p.marked[packet.SequenceNumber] = nil, marker, marker
		p.WriteRTP(packet)
	}
}

// Tells the room, under the lock, what the browser asks for, until that has gone. Each NACK is said three times: Chromium asks once for a packet of an upper
// layer, and not again once the next unit's base frame has come, so where the resent packet is lost too, it would decode nothing until a key frame, for three
// seconds.
func (p *player) listen(tell func([]byte)) {
	for packets, _, err := p.sender.ReadRTCP(); err == nil; packets, _, err = p.sender.ReadRTCP() {
		for _, packet := range packets {
			_, lost := packet.(*rtcp.TransportLayerNack)
			if _, stopped := packet.(*rtcp.PictureLossIndication); lost || stopped {
				bytes, _ := packet.Marshal()
				again := func() { locked(func() { tell(bytes) }) }
				if again(); lost {
					time.AfterFunc(30*time.Millisecond, again)
					time.AfterFunc(60*time.Millisecond, again)
				}
			}
		}
	}
}

// A track on its way from a browser, until that has gone: under the lock, each packet as the room takes it, with its descriptor, and each sender report,
// where they are wanted.
func bring(media *webrtc.TrackRemote, receiver *webrtc.RTPReceiver, ssrc uint32, packet func(bytes, descriptor []byte), report func(*rtcp.SenderReport)) {
	id := negotiatedID(receiver.GetParameters().HeaderExtensions)
	read := receiver.ReadRTCP
	if rid := media.RID(); rid != "" {
		read = func() ([]rtcp.Packet, interceptor.Attributes, error) { return receiver.ReadSimulcastRTCP(rid) }
	}
	go func() {
		for packets, _, err := read(); err == nil; packets, _, err = read() {
			for _, p := range packets {
				if r, is := p.(*rtcp.SenderReport); is && report != nil && r.SSRC == uint32(media.SSRC()) {
					locked(func() { report(r) })
				}
			}
		}
	}()
	for p, _, err := media.ReadRTP(); err == nil; p, _, err = media.ReadRTP() {
		descriptor := exchangeID(p, id, descriptorID)
		p.SSRC = ssrc
		bytes, _ := p.Marshal() // none of what isn't RTP, and that is a tick
		locked(func() { packet(bytes, descriptor) })
	}
}

// Asks the browser for what the room asks for: a NACK or a PLI.
func (p *page) request(feedback []byte) { p.pc.WriteRTCP([]rtcp.Packet{(*rtcp.RawPacket)(&feedback)}) }

// Leaves a packet no header extension but the descriptor, and puts that under another id: what else a browser adds (MID, the path's own numbers) is for its
// own connection alone. The descriptor of a key frame asks for the two-byte form.
func exchangeID(packet *rtp.Packet, from, to uint8) []byte {
	descriptor := append([]byte(nil), packet.GetExtension(from)...)
	packet.Extension, packet.ExtensionProfile, packet.Extensions = len(descriptor) > 0, 0x1000, nil
	if len(descriptor) > 0 {
		packet.SetExtension(to, descriptor)
	}
	return descriptor
}

// The id that was negotiated for descriptors, or 0.
func negotiatedID(extensions []webrtc.RTPHeaderExtensionParameter) (id uint8) {
	for _, e := range extensions {
		if e.URI == descriptorURI {
			id = uint8(e.ID)
		}
	}
	return
}
