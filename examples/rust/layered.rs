// layered.rs: makes the first calls of examples/layered.script from Rust with the crate libzoftemar/rust.
use zoftemar::{Error, Room, PACKET_ROOM};

fn main() -> Result<(), Error> {
    let mut room = Room::open()?;
    room.publish_layered(1, 4, 0x11111111, 100)?;
    room.join(1, 1, 0x22222222, 65534, (1, 1))?;
    room.join(2, 1, 0x33333333, 100, (0, 0))?;
    for hex in [
        "906000000000000011111111100000070419c000008003187fafac4a0a0404d14109a1158008642222264000183000",
        "90e000010000000011111111bede000142c30001103001",
    ] {
        let packet: Vec<u8> = (0..hex.len() / 2).map(|i| u8::from_str_radix(&hex[2 * i..2 * i + 2], 16).unwrap()).collect();
        room.packet(1, 0, &packet)?;
        for subscriber in [1, 2] {
            let mut out = [0; PACKET_ROOM];
            while let Some(sent) = room.take(subscriber, &mut out)? {
                println!("packet {}", sent.iter().map(|byte| format!("{byte:02x}")).collect::<String>());
            }
        }
    }
    assert!(room.reaches_wish(1)?);
    Ok(())
}
