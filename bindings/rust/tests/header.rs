//! Header fields read alone, the padding byte, and the order of `check_packet`.

mod common;

use bogslipper::utils::parser::*;
use bogslipper::Refusal;
use common::{bytes, Random};

fn truncated<T>(expected: usize, actual: usize) -> Result<T, Refusal> {
    Err(Refusal::Truncated { expected, actual })
}

#[test]
fn fields_of_every_header() {
    for first in 0..=255 {
        for second in [0, 1, 200, 205, 255] {
            let header = [first, second, 0x12, 0x34];
            assert_eq!(parse_version(&header), Ok(first >> 6));
            assert_eq!(parse_padding_bit(&header), Ok(first & 0x20 != 0));
            assert_eq!(parse_count(&header), Ok(first & 0x1F));
            assert_eq!(parse_packet_type(&header), Ok(second));
            assert_eq!(parse_length(&header), Ok(4 * (0x1234 + 1)));
        }
    }
}

#[test]
fn lengths_reach_from_4_to_262144() {
    assert_eq!(parse_length(&bytes("00 00 00 00")), Ok(4));
    assert_eq!(parse_length(&bytes("00 00 FF FF")), Ok(262_144));
}

#[test]
fn a_field_needs_four_bytes() {
    for actual in 0..4 {
        let short = vec![0x80; actual];
        assert_eq!(parse_version(&short), truncated(4, actual));
        assert_eq!(parse_padding_bit(&short), truncated(4, actual));
        assert_eq!(parse_count(&short), truncated(4, actual));
        assert_eq!(parse_packet_type(&short), truncated(4, actual));
        assert_eq!(parse_length(&short), truncated(4, actual));
        assert_eq!(parse_padding(&short), truncated(4, actual));
    }
}

#[test]
fn the_padding_byte_is_the_last_of_the_packet() {
    let padded = bytes("A0 CB 00 01 00 00 00 04");
    assert_eq!(parse_padding(&padded), Ok(Some(4)));
    assert_eq!(parse_padding(&padded[..7]), truncated(8, 7));
    assert_eq!(parse_padding(&bytes("A0 CB 00 00 09")), Ok(Some(0)));
    assert_eq!(parse_padding(&bytes("80 CB 00 01")), Ok(None));
}

#[test]
fn check_packet_tests_in_its_order() {
    let check = |hex: &str, least, kind| check_packet(&bytes(hex), least, kind);

    assert_eq!(check("", 3, 205), Err(Refusal::LeastLength { least: 3 }));
    assert_eq!(
        check("", 262_145, 205),
        Err(Refusal::LeastLength { least: 262_145 })
    );
    assert_eq!(check("00 00 00 00", 12, 205), truncated(12, 4));
    assert_eq!(
        check("40 CB 00 01", 4, 205),
        Err(Refusal::UnsupportedVersion { version: 1 })
    );
    assert_eq!(
        check("A0 CB 00 01", 4, 205),
        Err(Refusal::PacketTypeMismatch {
            actual: 203,
            requested: 205
        })
    );
    assert_eq!(check("A0 CD 00 01 00", 4, 205), truncated(8, 5));
    assert_eq!(
        check("A0 CD 00 00 00", 4, 205),
        Err(Refusal::TooLarge {
            expected: 4,
            actual: 5
        })
    );
    assert_eq!(
        check("A0 CD 00 01 00 00 00 00", 4, 205),
        Err(Refusal::InvalidPadding)
    );
    assert_eq!(check("A0 CD 00 01 00 00 00 FF", 4, 205), Ok(()));
    assert_eq!(check("80 CD 00 01 00 00 00 00", 8, 205), Ok(()));
    assert_eq!(check("80 CD 00 01 00 00 00 00", 9, 205), truncated(9, 8));
}

#[test]
fn padding_counts_but_0_pass() {
    for count in 0..=255 {
        let mut packet = bytes("A0 CB 00 01 00 00 00 00");
        packet[7] = count;
        let expected = match count {
            0 => Err(Refusal::InvalidPadding),
            _ => Ok(()),
        };
        assert_eq!(check_packet(&packet, 4, 203), expected);
    }
}

#[test]
fn a_checked_packet_is_whole() {
    let mut random = Random(1);
    let mut passed = 0;
    for _ in 0..20_000 {
        let length = 4 * (1 + random.below(4));
        let mut packet: Vec<u8> = (0..length).map(|_| random.below(256) as u8).collect();
        packet[0] = [0x80, 0xA0, 0x40][random.below(3)];
        packet[1] = 205;
        packet[2..4].copy_from_slice(&[0, random.below(4) as u8]);
        if check_packet(&packet, 4, 205).is_ok() {
            passed += 1;
            assert_eq!(parse_version(&packet), Ok(2));
            assert_eq!(parse_length(&packet), Ok(packet.len()));
            assert_ne!(parse_padding(&packet), Ok(Some(0)));
        }
    }
    assert!(passed > 1_000, "{passed} packets passed");
}
