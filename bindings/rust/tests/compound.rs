//! Compounds and their walk, packets of any type, and the plain packet writer.

mod common;

use bogslipper::compound::walk_step;
use bogslipper::{Compound, Refusal, Unknown, UnknownBuilder};
use common::{bytes, Random};

fn refused(hex: &str) -> Refusal {
    Compound::parse(&bytes(hex)).expect_err("a refusal")
}

/// The bytes of a compound's packets.
fn packets(data: &[u8]) -> Result<Vec<&[u8]>, Refusal> {
    Compound::parse(data)?
        .map(|packet| Ok(packet?.data()))
        .collect()
}

/// One step: the packet's bytes and the next offset.
fn stepped(data: &[u8], offset: usize) -> Result<Option<(&[u8], usize)>, Refusal> {
    let found = walk_step(data, offset)?;
    Ok(found.map(|(packet, next)| (packet.data(), next)))
}

#[test]
fn fixed_example_second_version() {
    let data = bytes("80 CB 00 00 40 CB 00 00");
    let other = Refusal::UnsupportedVersion { version: 1 };
    assert_eq!(Compound::parse(&data).expect_err("a refusal"), other);
    assert_eq!(stepped(&data, 0), Ok(Some((&data[..4], 4))));
    assert_eq!(walk_step(&data, 4), Err(other));
}

#[test]
fn every_version_is_tested_at_its_turn() {
    let version = |version| Refusal::UnsupportedVersion { version };
    assert_eq!(refused("80 CB 00 00 C0 CB 00 09"), version(3));
    assert_eq!(refused("80 CB 00 00 80 CB 00 00 00 CB 00 00"), version(0));
    assert_eq!(refused("A0 CB 00 00 40 CB 00 00"), Refusal::InvalidPadding);
    assert_eq!(
        refused("80 CB 00 00 40 CB"),
        Refusal::Truncated {
            expected: 8,
            actual: 6
        }
    );
}

#[test]
fn a_padding_count_fits_between_the_header_and_the_end() {
    for words in 0..70 {
        for count in (0..=255).filter(|count| words > 0 || *count == 0) {
            let mut data = vec![0x80, 203, 0, 0, 0xA0, 203, 0, words];
            data.resize(8 + 4 * usize::from(words), 0);
            if words > 0 {
                *data.last_mut().unwrap() = count;
            }
            let fits = count > 0 && count % 4 == 0 && u16::from(count) <= 4 * u16::from(words);
            let expected = match fits {
                true => Ok(vec![&data[..4], &data[4..]]),
                false => Err(Refusal::InvalidPadding),
            };
            assert_eq!(packets(&data), expected, "{words} words, count {count}");
            let padding = usize::from(count);
            let shared = walk_step(&data, 4).map(|found| {
                let (packet, next) = found.expect("a packet");
                (packet.start(), packet.body(), packet.padding(), next)
            });
            let expected = match fits {
                true => Ok((4, &data[8..data.len() - padding], padding, data.len())),
                false => Err(Refusal::InvalidPadding),
            };
            assert_eq!(shared, expected, "{words} words, count {count}");
        }
    }
}

#[test]
fn fixed_examples_refused() {
    assert_eq!(refused("A0 CB 00 00 80 CB 00 00"), Refusal::InvalidPadding);
    assert_eq!(
        refused("80 CB 00 01"),
        Refusal::Truncated {
            expected: 8,
            actual: 4
        }
    );
    assert_eq!(
        refused("80 CB 00 00 80"),
        Refusal::Truncated {
            expected: 8,
            actual: 5
        }
    );
    assert_eq!(
        refused("00 CB 00 01"),
        Refusal::UnsupportedVersion { version: 0 }
    );
    assert_eq!(
        refused(""),
        Refusal::Truncated {
            expected: 4,
            actual: 0
        }
    );
}

#[test]
fn the_walk_tests_the_length_before_the_version() {
    assert_eq!(
        walk_step(&bytes("00 CB 00 01"), 0),
        Err(Refusal::Truncated {
            expected: 8,
            actual: 4
        })
    );
}

#[test]
fn the_walk_takes_any_offset() {
    let data = bytes("80 CB 00 00 80 CC 00 01 80 00 00 00");
    assert_eq!(stepped(&data, 4), Ok(Some((&data[4..12], 12))));
    assert_eq!(stepped(&data, 8), Ok(Some((&data[8..12], 12))));
    assert_eq!(
        walk_step(&data, 11),
        Err(Refusal::Truncated {
            expected: 15,
            actual: 12
        })
    );
    for past in [12, 13, usize::MAX] {
        assert_eq!(walk_step(&data, past), Ok(None));
    }
}

#[test]
fn a_padded_last_packet_passes() {
    let data = bytes("80 CB 00 00 A0 CB 00 01 00 00 00 04");
    assert_eq!(packets(&data), Ok(vec![&data[..4], &data[4..]]));
}

#[test]
fn a_compound_may_start_with_any_type() {
    for type_ in 0..=255 {
        let data = [0x80, type_, 0, 0];
        assert_eq!(packets(&data), Ok(vec![&data[..]]));
    }
}

#[test]
fn the_walk_looks_into_no_packet() {
    for type_ in 200..=207 {
        for first in [0x80, 0x9F] {
            let data = [0x80, type_, 0, 0, first, type_, 0, 0];
            assert_eq!(stepped(&data, 0), Ok(Some((&data[..4], 4))));
            assert_eq!(stepped(&data, 4), Ok(Some((&data[4..], 8))));
            assert_eq!(
                Unknown::parse(&data[4..]).map(|packet| packet.type_()),
                Ok(type_)
            );
        }
    }
}

#[test]
fn the_walk_refuses_a_padding_count_after_its_other_tests() {
    let truncated = |expected, actual| Err(Refusal::Truncated { expected, actual });
    let version = |version| Err(Refusal::UnsupportedVersion { version });
    assert_eq!(walk_step(&bytes("A0 CB 00"), 0), truncated(4, 3));
    assert_eq!(walk_step(&bytes("A0 CB 00 01"), 0), truncated(8, 4));
    assert_eq!(walk_step(&bytes("60 CB 00 00"), 0), version(1));
    for padded in [
        "A0 CB 00 00",
        "A0 CB 00 01 00 00 00 02",
        "A0 CB 00 01 00 00 00 08",
    ] {
        let mut data = bytes(padded);
        assert_eq!(walk_step(&data, 0), Err(Refusal::InvalidPadding));
        data.extend([0x80, 203, 0, 0]);
        assert_eq!(walk_step(&data, 0), Err(Refusal::InvalidPadding));
        assert!(Unknown::parse(&data[..data.len() - 4]).is_ok());
    }
}

/// The step asks about one packet: a padded one that is not the last is the first pass's to refuse.
#[test]
fn the_walk_takes_padding_that_fits_anywhere() {
    let data = bytes("A0 CB 00 01 00 00 00 04 80 CB 00 00");
    assert_eq!(packets(&data), Err(Refusal::InvalidPadding));
    assert_eq!(stepped(&data, 0), Ok(Some((&data[..8], 8))));
    assert_eq!(stepped(&data, 8), Ok(Some((&data[8..], 12))));
}

#[test]
fn one_packet_of_any_type_tests_in_its_order() {
    let parse = |hex: &str| Unknown::parse(&bytes(hex)).map(|packet| packet.length());
    let truncated = |expected, actual| Err(Refusal::Truncated { expected, actual });

    assert_eq!(parse("00 00 00"), truncated(4, 3));
    assert_eq!(
        parse("C0 00 00 01"),
        Err(Refusal::UnsupportedVersion { version: 3 })
    );
    assert_eq!(parse("80 00 00 01"), truncated(8, 4));
    assert_eq!(
        parse("80 00 00 00 00"),
        Err(Refusal::TooLarge {
            expected: 4,
            actual: 5
        })
    );
    assert_eq!(parse("A0 00 00 00"), Ok(4));
}

#[test]
fn the_writer_tests_in_its_order() {
    let odd = [0; 5];
    let write = |count, padding, body| {
        UnknownBuilder::new(0, body)
            .count(count)
            .padding(padding)
            .write_into(&mut [0; 8])
    };

    assert_eq!(
        write(32, 3, &odd[..]),
        Err(Refusal::CountOutOfRange { count: 32 })
    );
    assert_eq!(
        write(31, 3, &odd[..]),
        Err(Refusal::UnevenPadding { padding: 3 })
    );
    assert_eq!(
        write(31, 4, &odd[..]),
        Err(Refusal::BodyLength { length: 5 })
    );
    assert_eq!(
        write(31, 4, &odd[..4]),
        Err(Refusal::OutputTooSmall {
            needed: 12,
            present: 8
        })
    );
    assert_eq!(write(31, 4, &[]), Ok(8));
}

#[test]
fn the_largest_packet_is_written_and_no_larger() {
    let body = vec![7; 262_144];
    let largest = UnknownBuilder::new(210, &body[..262_140]);
    assert_eq!(largest.calculate_size(), Ok(262_144));
    assert_eq!(
        largest.padding(4).calculate_size(),
        Err(Refusal::BodyLength { length: 262_140 })
    );
    assert_eq!(
        UnknownBuilder::new(210, &body).calculate_size(),
        Err(Refusal::BodyLength { length: 262_144 })
    );
    let mut buf = vec![0; 262_144];
    assert_eq!(largest.write_into(&mut buf), Ok(262_144));
    assert_eq!(
        Unknown::parse(&buf).map(|packet| packet.length()),
        Ok(262_144)
    );
}

#[test]
fn a_refused_write_leaves_the_buffer() {
    let mut buf = [0x55; 11];
    assert!(UnknownBuilder::new(210, &[1; 8])
        .write_into(&mut buf)
        .is_err());
    assert_eq!(buf, [0x55; 11]);
}

#[test]
fn written_compounds_are_walked_back() {
    let mut random = Random(2);
    for _ in 0..2_000 {
        let number = 1 + random.below(6);
        let mut data = Vec::new();
        let mut written = Vec::new();
        for place in 0..number {
            let body: Vec<u8> = (0..4 * random.below(9))
                .map(|_| random.below(256) as u8)
                .collect();
            let (type_, count) = (random.below(256) as u8, random.below(32) as u8);
            let padding = if place + 1 == number {
                4 * random.below(64) as u8
            } else {
                0
            };
            let builder = Unknown::builder(type_, &body).count(count).padding(padding);
            let size = builder.calculate_size().expect("a size");
            let mut buf = vec![0x55; size + 5];
            assert_eq!(builder.write_into(&mut buf), Ok(size));
            assert_eq!(buf[size..], [0x55; 5]);
            buf.truncate(size);

            let packet = Unknown::parse(&buf).expect("what was written");
            assert_eq!((packet.type_(), packet.count()), (type_, count));
            assert_eq!(packet.padding(), (padding > 0).then_some(padding));
            assert_eq!(packet.data()[4..size - usize::from(padding)], body);
            written.push((
                data.len(),
                buf.clone(),
                type_,
                count,
                body,
                usize::from(padding),
            ));
            data.extend(&buf);
        }
        let walked = Compound::parse(&data).expect("a compound");
        let walked: Vec<_> = walked
            .map(|packet| packet.expect("a packet"))
            .map(|packet| {
                let length = 4 + packet.body().len() + packet.padding();
                assert_eq!(length, packet.length());
                let (data, body) = (packet.data().to_vec(), packet.body().to_vec());
                let (type_, count) = (packet.type_(), packet.count());
                (packet.start(), data, type_, count, body, packet.padding())
            })
            .collect();
        assert_eq!(walked, written);
    }
}
