//! Request 2.8's pass over a mouse's recording, in plain safe Rust.

#[derive(Debug, PartialEq)]
pub struct Salvaged {
    /// 0, or 30 where a packet or a position found no room.
    pub number: u64,
    pub used: usize,
    pub packet_bytes: usize,
    pub dropped: usize,
}

pub fn salvage(id: u8, bytes: &[u8], packets: &mut [u8], positions: &mut [u64]) -> Salvaged {
    match id {
        0 => salvage_packets::<3>(bytes, packets, positions),
        _ => salvage_packets::<4>(bytes, packets, positions),
    }
}

/// The pass for packets of so many bytes.
fn salvage_packets<const LENGTH: usize>(bytes: &[u8], packets: &mut [u8], positions: &mut [u64]) -> Salvaged {
    const ALWAYS_ONE: u8 = 1 << 3;
    let (mut used, mut packet_bytes, mut dropped) = (0, 0, 0);
    let number = loop {
        let Some(&first) = bytes.get(used) else { break 0 };
        if first & ALWAYS_ONE == 0 {
            let Some(place) = positions.get_mut(dropped) else { break 30 };
            *place = used as u64;
            dropped += 1;
            used += 1;
        } else {
            let Some(packet) = bytes.get(used..used + LENGTH) else { break 0 };
            let Some(room) = packets.get_mut(packet_bytes..packet_bytes + LENGTH) else { break 30 };
            room.copy_from_slice(packet);
            packet_bytes += LENGTH;
            used += LENGTH;
        }
    };
    Salvaged { number, used, packet_bytes, dropped }
}
