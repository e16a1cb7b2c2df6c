//! The datagrams of samples/traffic, which real senders sent, and what stands in them.

const FILES: [&str; 7] = [
    include_str!("../../../samples/traffic/baresip.hex"),
    include_str!("../../../samples/traffic/chr-loss.hex"),
    include_str!("../../../samples/traffic/ff-burst.hex"),
    include_str!("../../../samples/traffic/ffmpeg.hex"),
    include_str!("../../../samples/traffic/gst-bidir.hex"),
    include_str!("../../../samples/traffic/gst-loss.hex"),
    include_str!("../../../samples/traffic/ortp.hex"),
];

pub fn datagrams() -> Vec<Vec<u8>> {
    FILES
        .iter()
        .flat_map(|file| file.lines().map(bytes))
        .collect()
}

fn bytes(line: &str) -> Vec<u8> {
    (0..line.len())
        .step_by(2)
        .map(|place| u8::from_str_radix(&line[place..place + 2], 16).expect("hex digits"))
        .collect()
}

/// Where the packets of a datagram start.
pub fn places(datagram: &[u8]) -> Vec<usize> {
    let mut places = vec![];
    let mut place = 0;
    while place < datagram.len() {
        places.push(place);
        place += length(&datagram[place..]);
    }
    places
}

fn length(packet: &[u8]) -> usize {
    4 * (usize::from(u16::from_be_bytes([packet[2], packet[3]])) + 1)
}

/// The blocks of all transport feedback packets of this format: what stands between their first 12 bytes and their padding.
pub fn blocks(format: u8) -> Vec<Vec<u8>> {
    let mut blocks = vec![];
    for datagram in datagrams() {
        for place in places(&datagram) {
            let packet = &datagram[place..][..length(&datagram[place..])];
            if packet[0] & 0x1F != format || packet[1] != 205 {
                continue;
            }
            let padded = packet[0] & 0x20 != 0;
            let padding = if padded { packet[packet.len() - 1] } else { 0 };
            blocks.push(packet[12..packet.len() - usize::from(padding)].to_vec());
        }
    }
    blocks
}
