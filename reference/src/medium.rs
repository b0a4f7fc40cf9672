//! Media: bursts on their way (PROTOCOL.md, "Media").
//!
//! A medium is kept as what it means, the list of the bursts under way. Its
//! memory is only reckoned with: what the bursts in the list take up of it.

pub mod command;

use std::collections::VecDeque;
use std::fmt;

/// The longest burst that a medium carries, and the size of a place for one.
pub const LONGEST: usize = 104;

/// A medium's memory.
#[derive(Clone, Copy, Debug, PartialEq, Eq)]
pub enum Room {
    /// Places, each for a burst of any length.
    Places(usize),
    /// Bytes. A burst takes up its own and two for its length.
    Bytes(usize),
}

/// What a medium is made of: its memory, the pattern of its noise and that of
/// its losses.
#[derive(Clone, Copy, Debug, PartialEq, Eq)]
pub struct Spec {
    pub room: Room,
    pub noise: Option<u32>,
    pub loss: Option<u32>,
}

/// A pattern and the number of offers at which it was looked at.
#[derive(Clone, Debug)]
struct Pattern {
    bits: u32,
    offers: u32,
}

impl Pattern {
    fn new(bits: u32) -> Self {
        Pattern { bits, offers: 0 }
    }

    /// Tells whether the pattern hits this offer. Turned left by one bit at each
    /// offer, it shows its bits from the lowest, the highest, and so downwards;
    /// so it need not be turned where the offers are counted.
    fn hits(&mut self) -> bool {
        let turned = self.offers % u32::BITS;
        let bit = (u32::BITS - turned) % u32::BITS;
        self.offers = self.offers.wrapping_add(1);
        self.bits >> bit & 1 == 1
    }
}

/// What an offer answers.
#[derive(Clone, Copy, Debug, PartialEq, Eq)]
pub enum Offer {
    Whole,
    Spoilt,
}

impl fmt::Display for Offer {
    fn fmt(&self, out: &mut fmt::Formatter) -> fmt::Result {
        out.write_str(match self {
            Offer::Whole => "whole",
            Offer::Spoilt => "spoilt",
        })
    }
}

/// A medium.
#[derive(Clone, Debug)]
pub struct Medium {
    room: Room,
    noise: Option<Pattern>,
    loss: Option<Pattern>,
    /// The bursts under way, the oldest first.
    list: VecDeque<Vec<u8>>,
}

impl Medium {
    pub fn new(spec: Spec) -> Self {
        Medium {
            room: spec.room,
            noise: spec.noise.map(Pattern::new),
            loss: spec.loss.map(Pattern::new),
            list: VecDeque::new(),
        }
    }

    pub fn offer(&mut self, burst: &[u8]) -> Offer {
        if !(1..=LONGEST).contains(&burst.len()) {
            return Offer::Spoilt;
        }
        if self.loss.as_mut().is_some_and(Pattern::hits) {
            return Offer::Spoilt;
        }
        let mut burst = burst.to_vec();
        let mut answer = Offer::Whole;
        if let Some(noise) = &mut self.noise {
            let before = noise.offers as usize;
            if noise.hits() {
                let place = before % burst.len();
                burst[place] ^= 1;
                answer = Offer::Spoilt;
            }
        }
        if self.has_room(burst.len()) {
            self.list.push_back(burst);
        } else {
            answer = Offer::Spoilt;
        }
        answer
    }

    /// Whether there is memory for one more burst, of this length.
    fn has_room(&self, length: usize) -> bool {
        match self.room {
            Room::Places(places) => self.list.len() < places,
            Room::Bytes(bytes) => {
                let used: usize = self.list.iter().map(|burst| 2 + burst.len()).sum();
                used + 2 + length <= bytes
            }
        }
    }

    pub fn count(&self) -> usize {
        self.list.len()
    }

    /// The oldest burst.
    pub fn first(&self) -> Option<&[u8]> {
        self.list.front().map(Vec::as_slice)
    }

    pub fn holds_commands(&self) -> bool {
        self.holds(b"E01")
    }

    pub fn holds_answers(&self) -> bool {
        self.holds(b"ABR")
    }

    /// Whether a burst under way has one of these letters as its second byte.
    fn holds(&self, letters: &[u8]) -> bool {
        let mut seconds = self.list.iter().filter_map(|burst| burst.get(1));
        seconds.any(|second| letters.contains(second))
    }

    /// Takes the oldest burst to the front of `place` and answers its length, 0
    /// where there is none.
    pub fn take(&mut self, place: &mut [u8; LONGEST]) -> usize {
        let burst = self.list.pop_front().unwrap_or_default();
        place[..burst.len()].copy_from_slice(&burst);
        burst.len()
    }
}

#[cfg(test)]
mod tests {
    use super::Offer::{Spoilt, Whole};
    use super::*;
    use crate::random::Random;

    const QUEUE: Spec = Spec {
        room: Room::Places(4096),
        noise: None,
        loss: None,
    };

    fn taken(medium: &mut Medium) -> Vec<u8> {
        let mut place = [0xEE; LONGEST];
        let length = medium.take(&mut place);
        assert!(place[length..].iter().all(|&byte| byte == 0xEE));
        place[..length].to_vec()
    }

    #[test]
    fn a_queue_has_its_places() {
        for places in [0, 1, 2, 4096] {
            let room = Room::Places(places);
            let mut medium = Medium::new(Spec { room, ..QUEUE });
            for round in 0..3 {
                for number in 0..places {
                    assert_eq!(medium.offer(&number.to_be_bytes()), Whole);
                    assert_eq!(medium.count(), number + 1);
                }
                assert_eq!(medium.offer(b"a"), Spoilt);
                assert_eq!(medium.count(), places);
                for number in 0..places {
                    assert_eq!(taken(&mut medium), number.to_be_bytes(), "{round}");
                }
                assert_eq!(taken(&mut medium), b"");
            }
        }
    }

    #[test]
    fn packed_bursts_take_two_bytes_more() {
        let room = Room::Bytes(12);
        let mut medium = Medium::new(Spec { room, ..QUEUE });
        assert_eq!(medium.offer(&[7; 11]), Spoilt);
        assert_eq!(medium.offer(&[7; 10]), Whole);
        assert_eq!(medium.offer(&[7; 1]), Spoilt);
        assert_eq!(taken(&mut medium), [7; 10]);
        for length in [1, 2, 1] {
            assert_eq!(medium.offer(&vec![8; length]), Whole);
        }
        assert_eq!(medium.offer(&[8; 1]), Spoilt);
        assert_eq!(taken(&mut medium), [8; 1]);
        assert_eq!(medium.offer(&[9; 4]), Spoilt);
        assert_eq!(medium.offer(&[9; 3]), Whole);
        assert_eq!(medium.offer(&[9; 1]), Spoilt);
        assert_eq!(medium.count(), 3);
        let room = Room::Bytes(2);
        assert_eq!(Medium::new(Spec { room, ..QUEUE }).offer(&[1]), Spoilt);
        let room = Room::Bytes(3);
        assert_eq!(Medium::new(Spec { room, ..QUEUE }).offer(&[1]), Whole);
    }

    #[test]
    fn bursts_of_other_lengths_change_nothing() {
        let noise = Some(0x5555_5554);
        let loss = Some(0);
        let mut medium = Medium::new(Spec {
            noise,
            loss,
            ..QUEUE
        });
        assert_eq!(medium.offer(&[]), Spoilt);
        assert_eq!(medium.offer(&[1; 105]), Spoilt);
        assert_eq!(medium.count(), 0);
        assert_eq!(medium.offer(&[1; 104]), Whole);
        assert_eq!(medium.offer(&[]), Spoilt);
        assert_eq!(medium.offer(&[1; 104]), Whole);
        assert_eq!(medium.count(), 2);
        let offers = |pattern: &Option<Pattern>| pattern.as_ref().unwrap().offers;
        assert_eq!([&medium.noise, &medium.loss].map(offers), [2, 2]);
    }

    #[test]
    fn a_pattern_is_turned_left() {
        let mut random = Random::new();
        for _ in 0..200 {
            let bits = random.below(1 << 32) as u32;
            let mut pattern = Pattern::new(bits);
            let mut turned = bits;
            for _ in 0..100 {
                assert_eq!(pattern.hits(), turned % 2 == 1);
                turned = turned.rotate_left(1);
            }
        }
        let mut last = Pattern {
            bits: 3,
            offers: u32::MAX,
        };
        assert_eq!([(); 4].map(|()| last.hits()), [true, true, false, false]);
        assert_eq!(last.offers, 3);
    }

    #[test]
    fn noise_inverts_the_lowest_bit_of_a_byte() {
        let room = Room::Places(6);
        let noise = Some(u32::MAX - 4);
        let mut medium = Medium::new(Spec {
            room,
            noise,
            ..QUEUE
        });
        // The bits 0, 31, 30 and so on; bit 2 alone is clear.
        for _ in 0..6 {
            assert_eq!(medium.offer(&[0x44; 4]), Spoilt);
        }
        assert_eq!(medium.offer(&[0x44; 4]), Spoilt);
        for place in [0, 1, 2, 3, 0, 1] {
            let mut burst = [0x44; 4];
            burst[place] = 0x45;
            assert!(medium.holds_commands());
            assert_eq!(taken(&mut medium), burst);
        }
        for _ in 7..30 {
            assert_eq!(medium.offer(&[0x44; 4]), Spoilt);
        }
        taken(&mut medium);
        assert_eq!(medium.offer(&[0x44; 4]), Whole);
        assert_eq!(medium.offer(&[0x44; 4]), Spoilt);
    }

    #[test]
    fn losses_keep_bursts_from_the_medium_below() {
        let noise = Some(2);
        let loss = Some(0x8000_0000);
        let mut medium = Medium::new(Spec {
            noise,
            loss,
            ..QUEUE
        });
        let answers: Vec<Offer> = (0..34).map(|_| medium.offer(b"DDD")).collect();
        let spoilt: Vec<usize> = (0..34).filter(|&offer| answers[offer] == Spoilt).collect();
        // The second and the 34th are lost; noise hits the 32nd that it hears.
        assert_eq!(spoilt, [1, 32, 33]);
        assert_eq!(medium.count(), 32);
        assert!(medium.holds_commands());
        for _ in 0..31 {
            assert_eq!(taken(&mut medium), b"DDD");
        }
        assert_eq!(taken(&mut medium), b"DED");
    }

    #[test]
    fn letters_count_as_second_bytes() {
        for byte in 0..=0xFF {
            let mut medium = Medium::new(QUEUE);
            assert_eq!(medium.offer(&[byte]), Whole);
            assert_eq!(medium.offer(&[0x45, 0x02, byte]), Whole);
            assert!(!medium.holds_commands() && !medium.holds_answers());
            assert_eq!(medium.offer(&[0x02, byte]), Whole);
            assert_eq!(medium.holds_commands(), b"E01".contains(&byte));
            assert_eq!(medium.holds_answers(), b"ABR".contains(&byte));
        }
    }
}
