package main

import (
	"fmt"

	"github.com/pion/interceptor"
	"github.com/pion/interceptor/pkg/report"
	"github.com/pion/sdp"
	"github.com/pion/webrtc"
)

const descriptorURI = "https://aomediacodec.github.io/av1-rtp-spec/#dependency-descriptor-rtp-header-extension"
const descriptorID = 4 // of descriptors in the room

// A browser's page: its connection, and the data channel by which it says its wishes and learns what happens.
type page struct {
	pc      *webrtc.PeerConnection
	channel *webrtc.DataChannel
}

// A connection for AV1 with descriptors, NACKs and PLIs, and for Opus, without a stream for retransmissions: pion can't read a publisher's. The room makes
// no reports: a publisher gets here those by which it finds its bitrate; what a player gets besides packets of the room, `plays` sends. With `rids` a page
// may send several encodings of a picture, which are told apart by an id in a header extension.
func newPage(rids bool, plays ...interceptor.Factory) *page {
	media, registry := &webrtc.MediaEngine{}, &interceptor.Registry{}
	asks := []webrtc.RTCPFeedback{{Type: "nack"}, {Type: "nack", Parameter: "pli"}}
	av1 := webrtc.RTPCodecCapability{MimeType: webrtc.MimeTypeAV1, ClockRate: 90000, RTCPFeedback: asks}
	opus := webrtc.RTPCodecCapability{MimeType: webrtc.MimeTypeOpus, ClockRate: 48000, Channels: 2, SDPFmtpLine: "minptime=10;useinbandfec=1"}
	check(media.RegisterCodec(webrtc.RTPCodecParameters{RTPCodecCapability: av1, PayloadType: 45}, webrtc.RTPCodecTypeVideo))
	check(media.RegisterCodec(webrtc.RTPCodecParameters{RTPCodecCapability: opus, PayloadType: 111}, webrtc.RTPCodecTypeAudio))
	uris := []string{descriptorURI}
	if rids {
		uris = append(uris, sdp.SDESMidURI, sdp.SDESRTPStreamIDURI)
	}
	for _, uri := range uris {
		check(media.RegisterHeaderExtension(webrtc.RTPHeaderExtensionCapability{URI: uri}, webrtc.RTPCodecTypeVideo))
	}
	check(webrtc.ConfigureTWCCSender(media, registry))
	for _, factory := range append(plays, must(report.NewReceiverInterceptor())) {
		registry.Add(factory)
	}
	api := webrtc.NewAPI(webrtc.WithMediaEngine(media), webrtc.WithInterceptorRegistry(registry), webrtc.WithSettingEngine(setting))
	pc, agreed, id := must(api.NewPeerConnection(webrtc.Configuration{})), true, uint16(0)
	return &page{pc, must(pc.CreateDataChannel("room", &webrtc.DataChannelInit{Negotiated: &agreed, ID: &id}))}
}

// Answers an offer that has all its candidates, beside the number of a track. pion answers with extmap-allow-mixed, as browsers offer: without it they leave
// out the descriptors of key frames, and the room could begin with nothing.
func (p *page) answer(number int, offer string) (int, string, error) {
	p.channel.OnClose(func() { go p.pc.Close() })
	p.pc.OnConnectionStateChange(func(state webrtc.PeerConnectionState) {
		if state == webrtc.PeerConnectionStateFailed || state == webrtc.PeerConnectionStateDisconnected {
			go p.pc.Close()
		}
	})
	gathered := webrtc.GatheringCompletePromise(p.pc)
	err := p.pc.SetRemoteDescription(webrtc.SessionDescription{Type: webrtc.SDPTypeOffer, SDP: offer})
	if err == nil {
		sdp, _ := p.pc.CreateAnswer(nil) // without one the next line has a fault
		err = p.pc.SetLocalDescription(sdp)
	}
	if err != nil {
		p.pc.Close()
		return 0, "", err
	}
	<-gathered
	return number, p.pc.LocalDescription().SDP, nil
}

// One line for the page. A page that doesn't listen gets no more.
func (p *page) say(format string, words ...interface{}) {
	if p.channel.BufferedAmount() < 50000 {
		p.channel.SendText(fmt.Sprintf(format, words...))
	}
}
