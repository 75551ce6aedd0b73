//! A browser's stream, captured (examples/capture/l3t3.pcap), is relayed.
use std::collections::VecDeque;
use std::thread;
use zoftemar::{unwrap, wrap, Error, Publisher, Recorder, Room, Session, Subscriber, Verdict, NAMES_ROOM, PACKET_ROOM};

const MEDIA: u32 = 0x1000_0001; // the stream's SSRC
const SENT: u32 = 0x2222_2222;
const RTX: u32 = 0x3333_3333;

/// The RTP packets of the capture, each with its moment.
fn captured() -> Vec<(u64, Vec<u8>)> {
    let file = std::fs::read(concat!(env!("CARGO_MANIFEST_DIR"), "/../../examples/capture/l3t3.pcap")).unwrap();
    let mut rest = &file[24..];
    let mut packets = Vec::new();
    while let Some(header) = rest.get(..16) {
        let number = |at: usize| u32::from_le_bytes(header[at..at + 4].try_into().unwrap());
        let moment = 1000 * u64::from(number(0)) + u64::from(number(4)) / 1000;
        let length = number(8) as usize;
        packets.push((moment, rest[16 + 42..16 + length].to_vec())); // behind the headers of Ethernet, IPv4 and UDP
        rest = &rest[16 + length..];
    }
    assert!(packets.len() > 500);
    packets
}

fn number_of(packet: &[u8]) -> u16 {
    u16::from_be_bytes([packet[2], packet[3]])
}

/// The same packet under another number and SSRC.
fn renamed(packet: &[u8], number: u16, ssrc: u32) -> Vec<u8> {
    let mut packet = packet.to_vec();
    packet[2..4].copy_from_slice(&number.to_be_bytes());
    packet[8..12].copy_from_slice(&ssrc.to_be_bytes());
    packet
}

/// A NACK of one number (RFC 4585, section 6.2.1).
fn nack(ssrc: u32, number: u16) -> Vec<u8> {
    let mut datagram = vec![0x81, 205, 0, 3, 0, 0, 0, 1];
    datagram.extend(ssrc.to_be_bytes());
    datagram.extend(number.to_be_bytes());
    datagram.extend([0, 0]);
    datagram
}

#[test]
fn a_plain_track_forwards_each_packet_as_it_is() {
    let mut room = Room::open().unwrap();
    let (mut out, mut names) = ([0; PACKET_ROOM], [0; NAMES_ROOM]);
    room.publish_plain(1, MEDIA, 300).unwrap();
    room.join(1, 1, SENT, 65534, (0, 0)).unwrap();
    for (place, (moment, packet)) in captured().iter().take(100).enumerate() {
        room.packet(1, *moment, packet).unwrap();
        let number = 65534u16.wrapping_add(place as u16);
        assert_eq!(room.take(1, &mut out).unwrap(), Some(&renamed(packet, number, SENT)[..]));
        assert_eq!(room.resend(1, number, &mut out).unwrap(), renamed(packet, number, SENT));
        assert_eq!(room.take(1, &mut out), Ok(None));
    }
    assert_eq!(room.missing(1, &mut names), Ok(&[][..]));
    assert_eq!((room.due(1), room.newest_frame(1)), (Ok(None), Ok(None)));
    assert_eq!(room.ready(1, &mut [0; 4]), Ok(&[][..]));
    assert_eq!(room.key_wanted(1), Ok(false));
    assert_eq!(room.target_of(1), Ok(None));
    let (counts, of_track) = (room.counts_of_subscriber(1).unwrap(), room.counts_of_track(1).unwrap());
    assert_eq!((counts.queued, counts.taken, counts.resent, counts.left_out, counts.waiting, counts.passed), (100, 100, 100, 0, 0, 0));
    assert_eq!((of_track.arrived, of_track.given_up, of_track.frames, of_track.unframed), (100, 0, 0, 0));
    assert_eq!((room.counts_of_subscriber(2), room.counts_of_track(2)), (Err(Error::NoSubscriber), Err(Error::NoTrack)));
}

/// The template of a packet with a Dependency Descriptor, which is the first extension element, in the one-byte or the two-byte form. A packet without
/// one is the browser's padding.
fn template(packet: &[u8]) -> Option<u8> {
    let at = if packet[12] == 0xbe { 17 } else { 18 };
    (packet[0] & 0x10 != 0).then(|| packet[at] & 63)
}

/// The first subscriber is sent each packet of a frame, the second those of templates 0 and 1: the lowest spatial and temporal layer.
#[test]
fn a_layered_track_reaches_each_wish() {
    let mut room = Room::open().unwrap();
    let mut out = [0; PACKET_ROOM];
    room.publish_layered(1, 4, MEDIA, 300).unwrap();
    room.join(1, 1, SENT, 0, (2, 2)).unwrap();
    room.join(2, 1, SENT, 0, (0, 0)).unwrap();
    assert_eq!(room.key_wanted(1), Ok(true));
    let (mut sent, mut due) = ([0, 0], [0, 0]);
    for (moment, packet) in captured().iter().take(300) {
        room.packet(1, *moment, packet).unwrap();
        due[0] += u16::from(template(packet).is_some());
        due[1] += u16::from(template(packet).map_or(false, |template| template < 2));
        for subscriber in [1, 2] {
            while let Some(packet) = room.take(subscriber, &mut out).unwrap() {
                assert_eq!(number_of(packet), sent[subscriber as usize - 1]);
                sent[subscriber as usize - 1] += 1;
            }
        }
    }
    assert_eq!((sent, due), ([110, 7], [110, 7]));
    let (high, low, of_track) = (room.counts_of_subscriber(1).unwrap(), room.counts_of_subscriber(2).unwrap(), room.counts_of_track(1).unwrap());
    assert_eq!((high.taken, low.taken, of_track.arrived - of_track.unframed, high.waiting), (110, 7, 110, 0));
    assert_eq!((high.passed, low.passed + low.not_of_target), (of_track.frames, of_track.frames));
    assert_eq!((room.reaches_wish(1), room.reaches_wish(2)), (Ok(true), Ok(true)));
    let (high, low) = (room.target_of(1).unwrap().unwrap(), room.target_of(2).unwrap().unwrap());
    assert_eq!((high.known, high.spatial, high.temporal), (true, 2, 2));
    assert_eq!((low.known, low.spatial, low.temporal), (true, 0, 0));
    let Err(Error::Ahead { newest: Some(newest) }) = room.why(1, u64::MAX) else { panic!() };
    assert_eq!((room.newest_frame(1), room.why(1, newest)), (Ok(Some(newest)), Ok(Verdict::Passed)));
    room.plead(2).unwrap();
    assert_eq!(room.key_wanted(1), Ok(true));
    room.aim(2, (2, 2)).unwrap();
    assert_eq!(room.reaches_wish(2), Ok(false));
    room.leave(2).unwrap();
    room.unpublish(1).unwrap();
}

/// What a subscriber of all layers is sent of these packets.
fn relayed(packets: &[(u64, Vec<u8>)]) -> Vec<Vec<u8>> {
    let mut room = Room::open().unwrap();
    let (mut out, mut sent) = ([0; PACKET_ROOM], Vec::new());
    room.publish_layered(1, 4, MEDIA, 300).unwrap();
    room.join(1, 1, SENT, 0, (2, 2)).unwrap();
    for (moment, packet) in packets {
        room.packet(1, *moment, packet).unwrap();
        while let Some(packet) = room.take(1, &mut out).unwrap() {
            sent.push(packet.to_vec());
        }
    }
    sent
}

/// Packet 36 is lost on the way to the room, and packet 10 to the subscriber: both are requested and sent again.
#[test]
fn sessions_ask_and_answer() {
    let (mut out, mut back) = ([0; PACKET_ROOM], [0; PACKET_ROOM]);
    let packets = captured();
    let mut room = Room::open().unwrap();
    room.publish_layered(1, 4, MEDIA, 300).unwrap();
    room.join(1, 1, SENT, 0, (2, 2)).unwrap();
    let mut publisher = Publisher::open(1, MEDIA).unwrap();
    let mut subscriber = Subscriber::open_rtx(1, SENT, RTX, 97).unwrap();
    let mut sent: Vec<Vec<u8>> = Vec::new();
    let mut coming: VecDeque<&(u64, Vec<u8>)> = packets[..300].iter().collect();
    let lost = coming.remove(36).unwrap();
    let (mut now, mut asked) = (0, false);
    while let Some((moment, packet)) = coming.pop_front() {
        now = now.max(*moment);
        publisher.received(now, packet).unwrap();
        assert_eq!(publisher.received(now, packet), Err(Error::Busy));
        while let Some(datagram) = publisher.work(&mut room, &mut out).unwrap() {
            if datagram == nack(MEDIA, number_of(&lost.1)) && !asked {
                coming.push_front(lost);
                asked = true;
            }
        }
        subscriber.waited(now).unwrap();
        while let Some(packet) = subscriber.work(&mut room, &mut out).unwrap() {
            sent.push(packet.to_vec());
        }
    }
    assert!(asked);
    assert_eq!(sent, relayed(&packets[..300]));

    subscriber.received(now, &nack(SENT, 10)).unwrap();
    let again = subscriber.work(&mut room, &mut out).unwrap().unwrap();
    assert_eq!((again[1] & 127, number_of(again), &again[8..12]), (97, 0, &RTX.to_be_bytes()[..]));
    assert_eq!(unwrap(again, SENT, 45, &mut back).unwrap(), sent[10]);
    assert_eq!(wrap(&sent[10], 0, RTX, 97, &mut back).unwrap(), again);
    assert_eq!(subscriber.work(&mut room, &mut out), Ok(None));
}

#[test]
fn a_recorder_makes_a_file_of_what_is_sent() {
    let sent = relayed(&captured()[..300]);
    let mut recorder = Recorder::open(4).unwrap();
    for packet in &sent {
        recorder.feed(packet).unwrap();
    }
    assert_eq!(recorder.feed(&[0; 2049]), Err(Error::TooLong));
    assert_eq!(recorder.feed(&sent[109]), Err(Error::OutOfSequence { got: 109, had: 109 }));
    let file = recorder.finish();
    let number = |at: usize| u32::from_le_bytes(file[at..at + 4].try_into().unwrap());
    assert_eq!(&file[..12], b"DKIF\0\0\x20\0AV01");
    let (mut at, mut units) = (32, 0);
    while at < file.len() {
        at += 12 + number(at) as usize;
        units += 1;
    }
    assert_eq!((at, units), (file.len(), number(24)));
    assert!(units > 0);
    assert!(matches!(Recorder::open(0), Err(Error::BadExtensionId)));
}

/// Two tracks with the same packets are the legs of a bundle. Frames of the first leg are sent until the second leg is chosen and its key frame, the first,
/// comes: it gets the next number.
#[test]
fn a_bundle_changes_its_leg_at_a_key_frame() {
    let packets = &captured()[..300];
    let mut room = Room::open().unwrap();
    let mut out = [0; PACKET_ROOM];
    for leg in [1, 2] {
        room.publish_layered(leg, 4, MEDIA, 300).unwrap();
        room.join(leg, leg, SENT, 0, (2, 2)).unwrap();
    }
    assert_eq!(room.bundle(1, 4, RTX, 7, &[1]), Err(Error::BadLegs));
    assert_eq!(room.bundle(1, 5, RTX, 7, &[1, 2]), Err(Error::WrongKind));
    assert_eq!(room.bundle(1, 4, RTX, 7, &[1, 1]), Err(Error::Bound { bundle: 1 }));
    room.bundle_renumbered(1, 4, RTX, 7, &[1, 2]).unwrap();
    assert_eq!(room.bundle(1, 4, RTX, 7, &[1, 2]), Err(Error::NumberUsed { highest: 1 }));
    assert_eq!((room.pump(2), room.choose(1, 3)), (Err(Error::NoBundle), Err(Error::NoLeg { legs: 2 })));
    assert_eq!((room.take(1, &mut out), room.leave(2)), (Err(Error::Bound { bundle: 1 }), Err(Error::Bound { bundle: 1 })));
    let mut subscriber = Subscriber::open(1, SENT).unwrap();
    subscriber.waited(0).unwrap();
    assert_eq!(subscriber.work(&mut room, &mut out), Err(Error::Bound { bundle: 1 }));
    assert_eq!(subscriber.waited(0), Err(Error::Busy));

    let mut sent = Vec::new();
    for leg in [1, 2] {
        room.choose(1, leg).unwrap();
        for (moment, packet) in packets {
            room.packet(leg.into(), *moment, packet).unwrap();
            room.pump(1).unwrap();
            while let Some(packet) = room.draw(1, &mut out).unwrap() {
                assert_eq!((number_of(packet), &packet[8..12]), (7 + sent.len() as u16, &RTX.to_be_bytes()[..]));
                sent.push(packet.to_vec());
            }
        }
    }
    assert_eq!(sent.len(), 2 * 110);
    assert_eq!(room.redraw(1, 7, &mut out).unwrap(), sent[0]);
    assert_eq!(room.redraw(1, 6, &mut out), Err(Error::NotKept { oldest: 7, next: 227 }));
    let mut recorder = Recorder::open(4).unwrap();
    for packet in &sent {
        recorder.feed(packet).unwrap();
    }
}

#[test]
fn refusals_have_their_numbers_and_names() {
    let (packets, mut out) = (captured(), [0; PACKET_ROOM]);
    let mut room = Room::open().unwrap();
    assert_eq!(room.tick(1, 0), Err(Error::NoTrack));
    assert_eq!(room.publish_layered(1, 15, MEDIA, 300), Err(Error::BadExtensionId));
    room.publish_plain(2, MEDIA, 300).unwrap();
    assert_eq!(room.publish_plain(1, MEDIA, 300), Err(Error::NumberUsed { highest: 2 }));
    assert_eq!(room.packet(2, 0, &[]), Err(Error::Unreadable { part: 0 }));
    assert_eq!(room.packet(2, 0, &[0; 2048]), Err(Error::TooBig { bytes: 2048 }));
    assert_eq!(room.packet(2, 0, &[0; 2049]), Err(Error::TooLong));
    assert_eq!(room.packet(2, 0, &renamed(&packets[0].1, 0, 5)), Err(Error::WrongSsrc { packet: 5, track: MEDIA.into() }));
    room.packet(2, 0, &renamed(&packets[0].1, 7, MEDIA)).unwrap();
    assert_eq!(room.packet(2, 0, &renamed(&packets[0].1, 7, MEDIA)), Err(Error::Late { next: 8 }));
    assert_eq!(room.take(1, &mut out), Err(Error::NoSubscriber));
    room.join(1, 2, SENT, 0, (0, 0)).unwrap();
    assert_eq!(room.plead(1), Err(Error::Plain));
    assert!(matches!(room.resend(1, 0, &mut out), Err(Error::NotKept { .. })));
    assert!(matches!(Subscriber::open_rtx(1, SENT, SENT, 97), Err(Error::BadStream)));
    assert_eq!(Error::Late { next: 8 }.to_string(), "ZOFTEMAR_LATE");
    assert_eq!(Error::Other(200).to_string(), "ZOFTEMAR_?");
}

#[test]
fn a_room_and_its_sessions_go_to_another_thread() {
    let mut room = Room::open().unwrap();
    room.publish_plain(1, MEDIA, 300).unwrap();
    let mut publisher = Publisher::open(1, MEDIA).unwrap();
    let subscriber = Subscriber::open(1, SENT).unwrap();
    thread::spawn(move || {
        publisher.waited(5).unwrap();
        assert_eq!(publisher.work(&mut room, &mut [0; PACKET_ROOM]), Ok(None));
        drop(room);
        drop(subscriber);
    })
    .join()
    .unwrap();
}
