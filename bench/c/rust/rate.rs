// rate.rs: how many calls a second from Rust. usage: rate PACKETS SUBSCRIBERS [ROUNDS]
use std::ffi::c_void;
use std::time::{Duration, Instant};

#[repr(C)]
struct Room { made: bool, at: *mut c_void }

#[repr(C)]
struct Reply { code: u32, has: bool, first: u64, second: u64 }

extern "C" {
    fn zoftemar_open(room: &mut Room) -> u32;
    fn zoftemar_close(room: &mut Room);
    fn zoftemar_publish_layered(room: &mut Room, seat: u32, track: u32, id: u8, ssrc: u32, hold: u32) -> Reply;
    fn zoftemar_join(room: &mut Room, seat: u32, subscriber: u32, track: u32, ssrc: u32, first: u16, spatial: u8, temporal: u8) -> Reply;
    fn zoftemar_packet(room: &mut Room, seat: u32, track: u32, moment: u64, bytes: *const u8, count: usize) -> Reply;
    fn zoftemar_take(room: &mut Room, seat: u32, subscriber: u32, out: *mut u8, count: usize) -> Reply;
}

// One round: how long it took, how many calls were made, and how many packets were handed out.
fn round(packets: &[u8], subscribers: u32) -> (Duration, u32, u32) {
    let mut room = Room { made: false, at: std::ptr::null_mut() };
    let mut out = [0u8; 2048];
    let (mut calls, mut given) = (0, 0);
    unsafe {
        assert_eq!(zoftemar_open(&mut room), 0);
        zoftemar_publish_layered(&mut room, 0, 1, 4, 0x1111_1111, 50);
        for s in 1..=subscribers {
            zoftemar_join(&mut room, 0, s, 1, 0x2222_2200 + s, 0, 1, 1);
        }
        let begin = Instant::now();
        let mut rest = packets;
        while let [low, high, tail @ ..] = rest {
            let length = usize::from(*low) | usize::from(*high) << 8;
            zoftemar_packet(&mut room, 0, 1, 0, tail.as_ptr(), length);
            rest = &tail[length..];
            for s in 1..=subscribers {
                given += u32::from(zoftemar_take(&mut room, 0, s, out.as_mut_ptr(), out.len()).code == 1);
            }
            calls += 1 + subscribers;
        }
        let took = begin.elapsed();
        zoftemar_close(&mut room);
        (took, calls, given)
    }
}

fn main() {
    let words: Vec<String> = std::env::args().collect();
    let packets = std::fs::read(&words[1]).unwrap();
    let subscribers: u32 = words[2].parse().unwrap();
    let rounds: u32 = words.get(3).map_or(5, |word| word.parse().unwrap());
    let (took, calls, given) = (0..rounds).map(|_| round(&packets, subscribers)).min().unwrap();
    println!(
        "Rust, {subscribers} subscribers: {:.2} million calls a second, {:.0} ns a call, {given} packets out",
        f64::from(calls) / took.as_secs_f64() / 1e6,
        took.as_secs_f64() * 1e9 / f64::from(calls)
    );
}
