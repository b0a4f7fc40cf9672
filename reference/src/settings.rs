//! Settings frames (PROTOCOL.md, "Settings frame").
//!
//! As in packets, every condition is worked out by itself, and the smallest
//! number decides.

pub mod command;

use crate::refusal::{judge, Condition, Refusal};
use std::fmt;

/// What a settings frame sets.
#[derive(Clone, Copy, Debug, PartialEq, Eq)]
pub struct Settings {
    /// The ENQ period, in hundredths of a second.
    pub enq: u16,
    /// The DATA period, in hundredths of a second.
    pub data: u16,
    /// M.
    pub attempts: u8,
    /// R.
    pub receive: u8,
}

impl Settings {
    /// What stands in a frame, right or wrong. In a frame too short for it a
    /// byte is 0; then the frame's length decides.
    fn of(frame: &[u8]) -> Self {
        let byte = |place| frame.get(place).copied().unwrap_or(0);
        let number = |place| u16::from(byte(place)) * 256 + u16::from(byte(place + 1));
        Settings {
            enq: number(3),
            data: number(5),
            attempts: byte(7),
            receive: byte(8),
        }
    }

    /// Reads a frame that must pass these further conditions too.
    pub fn read_where<C>(
        frame: &[u8],
        further: impl FnOnce(&Settings) -> C,
    ) -> Result<Settings, Refusal>
    where
        C: IntoIterator<Item = Condition>,
    {
        let settings = Settings::of(frame);
        let period = |period| (10..=6000).contains(&period);
        let conditions = [
            (Refusal::ReceiveLimit, !(1..=8).contains(&settings.receive)),
            (
                Refusal::AttemptLimit,
                !(1..=20).contains(&settings.attempts),
            ),
            (Refusal::Period, !period(settings.enq)),
            (Refusal::Period, !period(settings.data)),
            (Refusal::LengthField, frame.get(1..3) != Some(&[0, 6])),
            (Refusal::Version, frame.first() != Some(&1)),
            (Refusal::FrameLength, frame.len() != 9),
        ];
        judge(conditions.into_iter().chain(further(&settings)))?;
        Ok(settings)
    }

    /// Reads a frame.
    pub fn read(frame: &[u8]) -> Result<Settings, Refusal> {
        Settings::read_where(frame, |_| [])
    }
}

impl fmt::Display for Settings {
    fn fmt(&self, out: &mut fmt::Formatter) -> fmt::Result {
        let Settings {
            enq,
            data,
            attempts,
            receive,
        } = self;
        write!(out, "enq={enq} data={data} M={attempts} R={receive}")
    }
}

#[cfg(test)]
mod tests {
    use super::*;

    const FRAME: [u8; 9] = [0x01, 0x00, 0x06, 0x00, 0xC8, 0x01, 0x2C, 0x03, 0x08];

    fn refused(frame: &[u8]) -> Option<u8> {
        Settings::read(frame).err().map(Refusal::number)
    }

    /// The worked frame with a byte altered.
    fn with(place: usize, byte: u8) -> [u8; 9] {
        let mut frame = FRAME;
        frame[place] = byte;
        frame
    }

    #[test]
    fn the_worked_frame() {
        let settings = Settings {
            enq: 200,
            data: 300,
            attempts: 3,
            receive: 8,
        };
        assert_eq!(Settings::read(&FRAME), Ok(settings));
        assert_eq!(settings.to_string(), "enq=200 data=300 M=3 R=8");
    }

    #[test]
    fn each_refusal() {
        for length in (0..9).chain([10, 18]) {
            assert_eq!(refused(&[FRAME, FRAME].concat()[..length]), Some(8));
        }
        assert_eq!(refused(&with(0, 0)), Some(9));
        assert_eq!(refused(&with(1, 1)), Some(10));
        assert_eq!(refused(&with(2, 7)), Some(10));
        assert_eq!(refused(&with(3, 0x18)), Some(11));
        assert_eq!(refused(&with(5, 0x18)), Some(11));
        assert_eq!(refused(&with(7, 0)), Some(12));
        assert_eq!(refused(&with(7, 21)), Some(12));
        assert_eq!(refused(&with(8, 0)), Some(13));
        assert_eq!(refused(&with(8, 9)), Some(13));
    }

    #[test]
    fn edges_of_the_periods() {
        for place in [3, 5] {
            for (period, right) in [
                (0u16, false),
                (9, false),
                (10, true),
                (11, true),
                (5999, true),
                (6000, true),
                (6001, false),
                (u16::MAX, false),
            ] {
                let mut frame = FRAME;
                frame[place..place + 2].copy_from_slice(&period.to_be_bytes());
                assert_eq!(refused(&frame), (!right).then_some(11));
            }
        }
    }

    #[test]
    fn the_smallest_number_decides() {
        let mut frame = [0xFF; 10];
        assert_eq!(refused(&frame), Some(8));
        let frame = &mut frame[..9];
        for (number, range) in [(9, 0..1), (10, 1..3), (11, 3..7), (12, 7..8), (13, 8..9)] {
            assert_eq!(refused(frame), Some(number));
            frame[range.clone()].copy_from_slice(&FRAME[range]);
        }
        assert_eq!(refused(frame), None);
    }
}
