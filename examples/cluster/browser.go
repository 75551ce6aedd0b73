package main

import (
	"fmt"
	"net"

	"github.com/pion/interceptor"
	"github.com/pion/interceptor/pkg/report"
	"github.com/pion/interceptor/pkg/twcc"
	"github.com/pion/rtcp"
	"github.com/pion/rtp"
	"github.com/pion/sdp"
	"github.com/pion/webrtc"
)

const (
	descriptorURI = "https://aomediacodec.github.io/av1-rtp-spec/#dependency-descriptor-rtp-header-extension"
	descriptorID  = 4  // of browsers' packets in a room
	payloadType   = 45 // the same
)

var (
	setting webrtc.SettingEngine // all browsers use one socket
	av1     = webrtc.RTPCodecCapability{MimeType: webrtc.MimeTypeAV1, ClockRate: 90000}
)

func startBrowsers() {
	socket, err := net.ListenUDP("udp4", &net.UDPAddr{IP: net.ParseIP(*address), Port: *media})
	must(err)
	setting.SetIncludeLoopbackCandidate(true)
	setting.SetNetworkTypes([]webrtc.NetworkType{webrtc.NetworkTypeUDP4})
	setting.SetICEUDPMux(webrtc.NewICEUDPMux(nil, socket))
}

// Creates a connection for AV1 with Dependency Descriptors, NACKs and PLIs. The room makes no reports. The interceptors here send a publisher the
// reports from which it estimates its bitrate, and a player the sender reports from which it gets the clock.
func connection(publishes bool) *webrtc.PeerConnection {
	engine, registry, codec := &webrtc.MediaEngine{}, &interceptor.Registry{}, av1
	add := func(f interceptor.Factory, err error) { must(err); registry.Add(f) }
	codec.RTCPFeedback = []webrtc.RTCPFeedback{{Type: "nack"}, {Type: "nack", Parameter: "pli"}}
	must(engine.RegisterHeaderExtension(webrtc.RTPHeaderExtensionCapability{URI: descriptorURI}, webrtc.RTPCodecTypeVideo))
	if publishes {
		codec.RTCPFeedback = append(codec.RTCPFeedback, webrtc.RTCPFeedback{Type: "transport-cc"})
		must(engine.RegisterHeaderExtension(webrtc.RTPHeaderExtensionCapability{URI: sdp.TransportCCURI}, webrtc.RTPCodecTypeVideo))
		add(twcc.NewSenderInterceptor())
		add(report.NewReceiverInterceptor())
	} else {
		add(report.NewSenderInterceptor())
	}
	must(engine.RegisterCodec(webrtc.RTPCodecParameters{RTPCodecCapability: codec, PayloadType: payloadType}, webrtc.RTPCodecTypeVideo))
	api := webrtc.NewAPI(webrtc.WithMediaEngine(engine), webrtc.WithInterceptorRegistry(registry), webrtc.WithSettingEngine(setting))
	pc, err := api.NewPeerConnection(webrtc.Configuration{})
	must(err)
	return pc
}

// Answers an offer that has all its candidates. Calls `connected` when the browser is connected, and `gone` when the connection has ended.
func answerTo(pc *webrtc.PeerConnection, offer string, connected, gone func()) (string, error) {
	pc.OnConnectionStateChange(func(state webrtc.PeerConnectionState) {
		switch state {
		case webrtc.PeerConnectionStateConnected:
			connected()
		case webrtc.PeerConnectionStateClosed:
			gone()
		case webrtc.PeerConnectionStateFailed, webrtc.PeerConnectionStateDisconnected:
			gone()
			go pc.Close()
		}
	})
	gathered, text := webrtc.GatheringCompletePromise(pc), webrtc.SessionDescription{Type: webrtc.SDPTypeOffer, SDP: offer}
	err := pc.SetRemoteDescription(text)
	if err == nil {
		text, err = pc.CreateAnswer(nil)
	}
	if err == nil {
		err = pc.SetLocalDescription(text)
	}
	if err != nil {
		pc.Close()
		return "", err
	}
	<-gathered
	return pc.LocalDescription().SDP, nil
}

// Removes all header extension elements but the descriptor, and gives that another id, since browsers number them differently on each connection. A
// descriptor of more than 16 bytes needs the two-byte form.
func exchangeID(packet *rtp.Packet, from, to uint8) {
	descriptor := append([]byte(nil), packet.GetExtension(from)...)
	packet.Extension, packet.ExtensionProfile, packet.Extensions = false, 0, nil
	if len(descriptor) > 16 || to > 14 {
		packet.Extension, packet.ExtensionProfile = true, 0x1000
	}
	if len(descriptor) > 0 {
		packet.SetExtension(to, descriptor)
	}
}

// Returns the id that was negotiated for descriptors, or 0.
func negotiatedID(extensions []webrtc.RTPHeaderExtensionParameter) (id uint8) {
	for _, e := range extensions {
		if e.URI == descriptorURI {
			id = uint8(e.ID)
		}
	}
	return
}

func publishBrowser(w words, offer string) (interface{}, error) {
	pc := connection(true)
	pc.OnTrack(func(media *webrtc.TrackRemote, receiver *webrtc.RTPReceiver) {
		id := negotiatedID(receiver.GetParameters().HeaderExtensions)
		t, bring := publish(description{Label: w.text("label"), ID: descriptorID, Payload: payloadType}, uint32(media.SSRC()), func(packets []rtcp.Packet) { pc.WriteRTCP(packets) })
		go func() { // reads sender reports, which the receiver reports need, and drops them
			for _, _, err := receiver.ReadRTCP(); err == nil; _, _, err = receiver.ReadRTCP() {
			}
		}()
		for packet, _, err := media.ReadRTP(); err == nil; packet, _, err = media.ReadRTP() {
			exchangeID(packet, id, descriptorID)
			packet.PayloadType = payloadType
			if bytes, err := packet.Marshal(); err == nil {
				bring(bytes)
			}
		}
		t.unpublish()
	})
	text, err := answerTo(pc, offer, func() {}, func() {})
	return map[string]interface{}{"sdp": text}, err
}

// Plays a track for a browser, which sends its wish on a data channel.
func playBrowser(w words, offer string) (interface{}, error) {
	pc, s := connection(false), newSubscriber(uint8(w.number("spatial")), uint8(w.number("temporal")))
	media, err := webrtc.NewTrackLocalStaticRTP(av1, "video", "cluster")
	must(err)
	sender, err := pc.AddTrack(media)
	must(err)
	var id uint8
	s.waits, s.end = true, func() { pc.Close() } // before it is connected it wouldn't get the first key frame
	s.send = func(bytes []byte) {
		packet := &rtp.Packet{}
		if packet.Unmarshal(bytes) == nil { // pion sets the negotiated SSRC and payload type
			exchangeID(packet, descriptorID, id)
			media.WriteRTP(packet)
		}
	}
	t, err := subscribeTo(w.text("track"), s)
	if err != nil {
		pc.Close()
		return nil, err
	}
	agreed, zero := true, uint16(0)
	channel, err := pc.CreateDataChannel("wish", &webrtc.DataChannelInit{Negotiated: &agreed, ID: &zero})
	must(err)
	channel.OnMessage(func(m webrtc.DataChannelMessage) {
		var spatial, temporal uint8
		if _, err := fmt.Sscanf(string(m.Data), "aim %d %d", &spatial, &temporal); err == nil {
			t.aim(s, spatial, temporal)
		}
	})
	text, err := answerTo(pc, offer, func() {
		id = negotiatedID(sender.GetParameters().HeaderExtensions)
		t.start(s)
	}, func() { t.leave(s) })
	if err != nil {
		t.leave(s)
	}
	go func() {
		for packets, _, err := sender.ReadRTCP(); err == nil; packets, _, err = sender.ReadRTCP() {
			t.hear(s, packets)
		}
	}()
	return map[string]interface{}{"sdp": text}, err
}
