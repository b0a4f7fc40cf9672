//! The secondary station (PROTOCOL.md, "Secondary station", "Deliveries and
//! slips").
//!
//! Deliveries are kept as the list of those held. A buffer is only a number,
//! that of the message among all that were stored, modulo 8.

use super::Packet;
use crate::refusal::{judge, Refusal};
use std::collections::VecDeque;

const BUFFERS: u8 = 8;

/// A command from the other side.
#[derive(Clone, Copy, Debug, PartialEq, Eq)]
pub enum Command<'a> {
    Enq,
    Data { number: u8, message: &'a [u8] },
}

/// A secondary station.
#[derive(Clone, Debug, Default)]
pub struct Secondary {
    /// The number that was stored last.
    last: Option<u8>,
    /// The buffer that the next message goes into.
    next: u8,
    /// The buffers and messages of the deliveries held, the oldest first.
    held: VecDeque<(u8, Vec<u8>)>,
    /// The oldest one is out.
    out: bool,
}

impl Secondary {
    /// Obeys a command and answers it, under a receive limit.
    pub fn hear(&mut self, limit: u8, command: Command) -> Option<Packet> {
        if self.free(limit) == 0 {
            return None;
        }
        if let Command::Data { number, message } = command {
            self.held.push_back((self.next, message.to_vec()));
            self.next = (self.next + 1) % BUFFERS;
            self.last = Some(number);
        }
        let field = match self.last {
            Some(_) => vec![b'0' + self.free(limit)],
            None => Vec::new(),
        };
        let letter = self.last();
        Some(Packet { letter, field })
    }

    /// The receive limit less the deliveries held, which are never more.
    fn free(&self, limit: u8) -> u8 {
        limit - self.held.len() as u8
    }

    pub fn take(&mut self, place: &mut [u8]) -> Result<(usize, u8), Refusal> {
        judge([
            (Refusal::NoDelivery, self.held.is_empty()),
            (Refusal::StillOut, self.out),
            (Refusal::SmallPlace, place.len() < 96),
        ])?;
        let (buffer, message) = self.held.front().ok_or(Refusal::NoDelivery)?;
        place[..message.len()].copy_from_slice(message);
        self.out = true;
        Ok((message.len(), *buffer))
    }

    /// Frees the buffer that is out.
    pub fn free_out(&mut self) {
        self.held.pop_front();
        self.out = false;
    }

    /// The last answer's letter.
    pub fn last(&self) -> u8 {
        match self.last {
            Some(number) => b'A' + number,
            None => b'R',
        }
    }

    pub fn held(&self) -> usize {
        self.held.len()
    }

    /// The buffer that is out.
    pub fn out(&self) -> Option<u8> {
        let oldest = self.held.front().map(|(buffer, _)| *buffer);
        oldest.filter(|_| self.out)
    }
}

#[cfg(test)]
mod tests {
    use super::*;

    fn data(number: u8, message: &[u8]) -> Command<'_> {
        Command::Data { number, message }
    }

    /// The answer's letter and field as text.
    fn answer(secondary: &mut Secondary, limit: u8, command: Command) -> String {
        match secondary.hear(limit, command) {
            Some(packet) => {
                let field = String::from_utf8(packet.field).unwrap();
                format!("{}{field}", char::from(packet.letter))
            }
            None => "none".to_string(),
        }
    }

    fn taken(secondary: &mut Secondary) -> (u8, Vec<u8>) {
        let mut place = [0xEE; 200];
        let (length, buffer) = secondary.take(&mut place).unwrap();
        assert!(place[length..].iter().all(|&byte| byte == 0xEE));
        assert_eq!(secondary.out(), Some(buffer));
        (buffer, place[..length].to_vec())
    }

    #[test]
    fn commands_are_answered_while_there_is_room() {
        let mut secondary = Secondary::default();
        assert_eq!(answer(&mut secondary, 2, Command::Enq), "R");
        assert_eq!(answer(&mut secondary, 2, data(0, b"x")), "A1");
        assert_eq!(answer(&mut secondary, 2, Command::Enq), "A1");
        assert_eq!(answer(&mut secondary, 2, data(1, b"y")), "B0");
        assert_eq!(secondary.last(), b'B');
        assert_eq!(answer(&mut secondary, 2, Command::Enq), "none");
        assert_eq!(answer(&mut secondary, 2, data(0, b"z")), "none");
        assert_eq!((secondary.last(), secondary.held()), (b'B', 2));
        assert_eq!(answer(&mut secondary, 8, Command::Enq), "B6");
        assert_eq!(answer(&mut secondary, 8, data(1, b"y")), "B5");
        assert_eq!(taken(&mut secondary), (0, b"x".to_vec()));
        assert_eq!(answer(&mut secondary, 8, Command::Enq), "B5");
        secondary.free_out();
        assert_eq!(answer(&mut secondary, 8, Command::Enq), "B6");
        assert_eq!(taken(&mut secondary), (1, b"y".to_vec()));
        secondary.free_out();
        assert_eq!(taken(&mut secondary), (2, b"y".to_vec()));
    }

    #[test]
    fn buffers_go_round() {
        for limit in 1..=8 {
            let mut secondary = Secondary::default();
            for number in 0..30 {
                let message = [b'0' + number];
                secondary.hear(limit, data(0, &message)).unwrap();
                assert_eq!(taken(&mut secondary), (number % 8, message.to_vec()));
                secondary.free_out();
                assert_eq!(secondary.out(), None);
            }
        }
    }

    #[test]
    fn refused_takes() {
        let mut secondary = Secondary::default();
        let number = |taken: Result<(usize, u8), Refusal>| taken.unwrap_err().number();
        assert_eq!(number(secondary.take(&mut [0; 95])), 21);
        assert_eq!(number(secondary.take(&mut [0; 96])), 23);
        secondary.hear(8, data(0, b"x")).unwrap();
        assert_eq!(number(secondary.take(&mut [0; 95])), 21);
        assert_eq!(secondary.out(), None);
        assert_eq!(secondary.take(&mut [0; 96]), Ok((1, 0)));
        assert_eq!(number(secondary.take(&mut [0; 95])), 21);
        assert_eq!(number(secondary.take(&mut [0; 96])), 22);
    }
}
