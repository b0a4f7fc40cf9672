//! Packets: the check kinds, the reader and the writer (PROTOCOL.md).
//!
//! Reader and writer work out every condition by itself and then let the
//! smallest number decide; no condition relies on the ones before it.

pub mod command;

use crate::refusal::{judge, Condition, Refusal};
use std::ops::RangeInclusive;

pub const STX: u8 = 0x02;
pub const ETX: u8 = 0x03;

/// The field's place in a burst.
pub const PLACE: usize = 2;

/// The longest field.
pub const LONGEST: usize = 96;

/// A check kind.
#[derive(Clone, Copy, Debug, PartialEq, Eq)]
pub enum Kind {
    Sum,
    Xor,
}

impl Kind {
    pub const ALL: [Kind; 2] = [Kind::Sum, Kind::Xor];

    pub fn name(self) -> &'static str {
        match self {
            Kind::Sum => "sum",
            Kind::Xor => "xor",
        }
    }

    /// The number of check bytes, c.
    pub fn width(self) -> usize {
        1
    }

    /// The check bytes of the covered bytes.
    pub fn check(self, covered: &[u8]) -> Vec<u8> {
        let low = match self {
            Kind::Sum => {
                let total: usize = covered.iter().map(|&byte| usize::from(byte)).sum();
                (total % 128) as u8
            }
            // Bit by bit: a bit is set where an odd number of bytes has it.
            Kind::Xor => (0..7)
                .map(|bit| 1u8 << bit)
                .filter(|mask| covered.iter().filter(|&byte| byte & mask != 0).count() % 2 == 1)
                .sum(),
        };
        vec![0x80 + low]
    }
}

/// A letter, the lengths that its field may have, and the range of its bytes.
type Rule = (u8, RangeInclusive<usize>, RangeInclusive<u8>);

const RULES: [Rule; 6] = [
    (b'E', 0..=0, 0x00..=0xFF),
    (b'0', 1..=LONGEST, 0x20..=0x7E),
    (b'1', 1..=LONGEST, 0x20..=0x7E),
    (b'A', 1..=1, 0x30..=0x38),
    (b'B', 1..=1, 0x30..=0x38),
    (b'R', 0..=0, 0x00..=0xFF),
];

/// The conditions on letter and field that reader and writer share. Length and
/// bytes are judged under a known letter only.
fn field_conditions(letter: Option<u8>, field: &[u8]) -> [Condition; 3] {
    let rule = RULES.iter().find(|(known, ..)| letter == Some(*known));
    let length_is_wrong = rule.is_some_and(|(_, lengths, _)| !lengths.contains(&field.len()));
    let byte_is_wrong =
        rule.is_some_and(|(.., range)| field.iter().any(|byte| !range.contains(byte)));
    [
        (Refusal::Letter, rule.is_none()),
        (Refusal::FieldLength, length_is_wrong),
        (Refusal::FieldByte, byte_is_wrong),
    ]
}

/// What reading gives. The field is that part of the burst, at `PLACE`.
#[derive(Debug, PartialEq, Eq)]
pub struct Packet<'a> {
    pub letter: u8,
    pub field: &'a [u8],
}

/// Reads a burst.
pub fn read(kind: Kind, burst: &[u8]) -> Result<Packet<'_>, Refusal> {
    let c = kind.width();
    // In a burst too short for them, parts are empty and condition 1 decides.
    let end = burst.len().saturating_sub(c + 1);
    let letter = burst.get(1).copied();
    let field = burst.get(PLACE..end).unwrap_or_default();
    let covered = burst.get(1..=end).unwrap_or_default();
    let check = burst.get(end + 1..).unwrap_or_default();

    let lengths = 3 + c..=3 + LONGEST + c;
    let frame = [
        (Refusal::Check, kind.check(covered) != check),
        (Refusal::EndByte, burst.get(end) != Some(&ETX)),
        (Refusal::FirstByte, burst.first() != Some(&STX)),
        (Refusal::BurstLength, !lengths.contains(&burst.len())),
    ];
    judge(frame.into_iter().chain(field_conditions(letter, field)))?;
    Ok(Packet {
        letter: burst[1],
        field,
    })
}

/// Writes a packet to the front of `place` and answers its length.
pub fn write(kind: Kind, letter: u8, field: &[u8], place: &mut [u8]) -> Result<usize, Refusal> {
    let length = PLACE + field.len() + 1 + kind.width();
    let room = [(Refusal::Room, place.len() < length)];
    let conditions = field_conditions(Some(letter), field);
    judge(conditions.into_iter().chain(room))?;
    place[..length].copy_from_slice(&assemble(kind, letter, field));
    Ok(length)
}

/// The bytes of a packet, of any letter and field.
pub fn assemble(kind: Kind, letter: u8, field: &[u8]) -> Vec<u8> {
    let covered = [&[letter], field, &[ETX]].concat();
    [vec![STX], covered.clone(), kind.check(&covered)].concat()
}

#[cfg(test)]
mod tests {
    use super::*;
    use crate::random::Random;

    /// The worked packets: kind, letter, field, burst.
    const WORKED: [(Kind, u8, &[u8], &[u8]); 6] = [
        (Kind::Sum, b'E', b"", b"\x02\x45\x03\xC8"),
        (Kind::Xor, b'E', b"", b"\x02\x45\x03\xC6"),
        (Kind::Sum, b'R', b"", b"\x02\x52\x03\xD5"),
        (Kind::Sum, b'0', b"OK", b"\x02\x30\x4F\x4B\x03\xCD"),
        (Kind::Xor, b'0', b"OK", b"\x02\x30\x4F\x4B\x03\xB7"),
        (Kind::Sum, b'A', b"7", b"\x02\x41\x37\x03\xFB"),
    ];

    fn refused(kind: Kind, burst: &[u8]) -> Option<u8> {
        read(kind, burst).err().map(Refusal::number)
    }

    #[test]
    fn worked_packets_are_read() {
        for (kind, letter, field, burst) in WORKED {
            assert_eq!(read(kind, burst), Ok(Packet { letter, field }));
        }
    }

    #[test]
    fn worked_packets_are_written() {
        for (kind, letter, field, burst) in WORKED {
            let mut place = [0xEE; 104];
            assert_eq!(write(kind, letter, field, &mut place), Ok(burst.len()));
            let (front, beyond) = place.split_at(burst.len());
            assert_eq!(front, burst);
            assert!(beyond.iter().all(|&byte| byte == 0xEE));
        }
    }

    #[test]
    fn worked_refusals() {
        assert_eq!(refused(Kind::Sum, b"\x02\x45\x03\xC9"), Some(7));
        assert_eq!(refused(Kind::Sum, b"\x02\x58\x03\xDB"), Some(3));
        assert_eq!(refused(Kind::Sum, b"\x02\x30\x03\xB3"), Some(4));
        assert_eq!(refused(Kind::Sum, b"\x02\x41\x39\x03\xFD"), Some(5));
        assert_eq!(refused(Kind::Sum, b"\x02\x45\x02\xC8"), Some(6));
        assert_eq!(refused(Kind::Sum, b""), Some(1));
        assert_eq!(
            refused(Kind::Sum, &assemble(Kind::Sum, b'0', &[b'a'; 97])),
            Some(1)
        );
    }

    #[test]
    fn messages_of_1_and_of_96_bytes_pass() {
        for kind in Kind::ALL {
            for field in [&[b'a'; 1][..], &[b'a'; 96]] {
                let burst = assemble(kind, b'1', field);
                assert_eq!(
                    read(kind, &burst),
                    Ok(Packet {
                        letter: b'1',
                        field
                    })
                );
            }
        }
    }

    #[test]
    fn a_refused_write_leaves_the_place() {
        let cases: [(u8, &[u8], usize, u8); 7] = [
            (b'X', b"", 104, 3),
            (b'X', b"\xFF", 0, 3),
            (b'0', b"", 104, 4),
            (b'0', &[0xFF; 97], 104, 4),
            (b'B', b"9", 0, 5),
            (b'0', b"OK", 5, 29),
            (b'E', b"", 0, 29),
        ];
        for (letter, field, size, number) in cases {
            let mut place = vec![0xEE; size];
            let refusal = write(Kind::Sum, letter, field, &mut place).unwrap_err();
            assert_eq!(refusal.number(), number);
            assert_eq!(place, vec![0xEE; size]);
        }
        assert_eq!(write(Kind::Sum, b'0', b"OK", &mut [0xEE; 6]), Ok(6));
    }

    #[test]
    fn a_packet_altered_in_one_byte_is_refused() {
        for (kind, _, _, burst) in WORKED {
            for place in 0..burst.len() {
                for byte in (0..=0xFF).filter(|&byte| byte != burst[place]) {
                    let mut altered = burst.to_vec();
                    altered[place] = byte;
                    assert!(read(kind, &altered).is_err());
                }
            }
        }
    }

    /// Bursts near packets: assembled from few bytes, so that many are packets.
    #[test]
    fn a_burst_is_read_exactly_when_the_writer_makes_it() {
        let mut random = Random::new();
        let mut packets = 0;
        for _ in 0..20_000 {
            let kind = *random.pick(&Kind::ALL);
            let letter = *random.pick(b"E01ABRX");
            let field: Vec<u8> = (0..random.below(4))
                .map(|_| *random.pick(b"\x1F 0789~\x7F\x83"))
                .collect();
            let mut burst = assemble(kind, letter, &field);
            if random.below(4) == 0 {
                let at = random.below(burst.len());
                burst[at] ^= 1 << random.below(8);
            }
            let from_reading = read(kind, &burst).map(|packet| {
                let mut place = vec![0; 104];
                let length = write(kind, packet.letter, packet.field, &mut place).unwrap();
                place.truncate(length);
                place
            });
            let mut place = vec![0; 104];
            let (letter, field) = (burst[1], &burst[PLACE..burst.len() - 2]);
            let made =
                write(kind, letter, field, &mut place).is_ok_and(|length| place[..length] == burst);
            assert_eq!(from_reading.is_ok_and(|again| again == burst), made);
            assert_eq!(read(kind, &burst).is_ok(), made);
            packets += usize::from(made);
        }
        assert!(packets > 1000);
    }

    #[test]
    fn checks_of_strings_that_differ_in_one_place_differ() {
        let mut random = Random::new();
        for kind in Kind::ALL {
            for _ in 0..5_000 {
                let mut bytes: Vec<u8> = (0..1 + random.below(98))
                    .map(|_| random.below(128) as u8)
                    .collect();
                let check = kind.check(&bytes);
                assert_eq!(check.len(), kind.width());
                assert!(check.iter().all(|&byte| byte >= 0x80));
                let at = random.below(bytes.len());
                bytes[at] ^= 1 + random.below(127) as u8;
                assert_ne!(kind.check(&bytes), check);
            }
        }
    }
}
