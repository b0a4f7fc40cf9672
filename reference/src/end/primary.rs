//! The primary station (PROTOCOL.md, "Primary station").
//!
//! Its state is not kept but follows from a record: whether the other side was
//! heard, whether a message has no outcome yet, and whether the last command was
//! ENQ. What happens is made of a few small steps on that record.

use super::{Done, Packet, Timer};
use crate::refusal::{judge, Refusal};
use crate::settings::Settings;
use std::collections::VecDeque;

/// The number of send buffers.
const BUFFERS: usize = 8;

/// What became of a message.
#[derive(Clone, Copy, Debug, PartialEq, Eq)]
pub enum Outcome {
    Arrived = 1,
    GivenUp = 2,
    NoConnection = 3,
}

/// An answer from the other side.
#[derive(Clone, Copy, Debug, PartialEq, Eq)]
pub enum Answer {
    Reset,
    Ack { number: u8, credit: u8 },
}

/// A message in a send buffer.
#[derive(Clone, Debug)]
struct Message {
    bytes: Vec<u8>,
    outcome: Option<Outcome>,
}

/// A primary station.
#[derive(Clone, Debug)]
pub struct Primary {
    /// The other side was heard since the opening or since a message was given up.
    joined: bool,
    /// The last command was ENQ.
    asked: bool,
    number: u8,
    attempts: u8,
    credit: Option<u8>,
    /// The send buffers in use, the oldest message first. Those with an outcome
    /// come before those without.
    messages: VecDeque<Message>,
}

impl Primary {
    pub fn open(settings: &Settings) -> (Self, Done) {
        let mut primary = Primary {
            joined: false,
            asked: true,
            number: 1,
            attempts: 1,
            credit: None,
            messages: VecDeque::new(),
        };
        let mut done = Done::default();
        primary.ask(settings, &mut done);
        (primary, done)
    }

    pub fn submit(&mut self, settings: &Settings, message: &[u8]) -> Result<Done, Refusal> {
        let wrong = |byte: &u8| !(0x20..=0x7E).contains(byte);
        judge([
            (Refusal::BuffersInUse, self.messages.len() == BUFFERS),
            (Refusal::Off, !self.joined),
            (Refusal::MessageByte, message.iter().any(wrong)),
            (Refusal::MessageLength, !(1..=96).contains(&message.len())),
        ])?;
        let mut done = Done::default();
        self.messages.push_back(Message {
            bytes: message.to_vec(),
            outcome: None,
        });
        if self.sending() == 1 {
            self.next(settings, &mut done);
        }
        Ok(done)
    }

    pub fn hear(&mut self, settings: &Settings, answer: Answer) -> Done {
        let mut done = Done::default();
        if let Answer::Ack { credit, .. } = answer {
            self.credit = Some(credit);
        }
        let told = match answer {
            Answer::Ack { number, .. } => Some(number),
            Answer::Reset => None,
        };
        if !self.joined {
            self.joined = true;
            self.number = told.unwrap_or(self.number);
        } else if self.sending() == 0 {
            // Nothing is asked of the other side.
        } else if told == Some(self.number) {
            self.settle(Outcome::Arrived, &mut done);
            self.attempts = 0;
            if self.sending() > 0 {
                self.next(settings, &mut done);
            }
        } else if self.asked {
            // The other side does not have the current message.
            self.tell(settings, &mut done);
            self.one_attempt_more();
        }
        done
    }

    pub fn timeout(&mut self, settings: &Settings) -> Done {
        let mut done = Done::default();
        if self.joined && self.sending() == 0 {
            return done;
        }
        if self.joined && self.attempts >= settings.attempts {
            self.settle(Outcome::GivenUp, &mut done);
            while self.sending() > 0 {
                self.settle(Outcome::NoConnection, &mut done);
            }
            self.joined = false;
            self.attempts = 0;
        }
        self.ask(settings, &mut done);
        self.one_attempt_more();
        done
    }

    pub fn collect(&mut self) -> Result<Outcome, Refusal> {
        let oldest = self.messages.front().and_then(|message| message.outcome);
        let outcome = oldest.ok_or(Refusal::NoOutcome)?;
        self.messages.pop_front();
        Ok(outcome)
    }

    /// Sends ENQ.
    fn ask(&mut self, settings: &Settings, done: &mut Done) {
        self.asked = true;
        done.timer = Some(Timer::Enq(settings.enq));
        done.sent = Some(Packet {
            letter: b'E',
            field: Vec::new(),
        });
    }

    /// Sends the current message under the number.
    fn tell(&mut self, settings: &Settings, done: &mut Done) {
        self.asked = false;
        done.timer = Some(Timer::Data(settings.data));
        let current = self
            .messages
            .iter()
            .find(|message| message.outcome.is_none());
        done.sent = current.map(|message| Packet {
            letter: b'0' + self.number,
            field: message.bytes.clone(),
        });
    }

    /// The oldest message without an outcome is sent for the first time.
    fn next(&mut self, settings: &Settings, done: &mut Done) {
        self.number = 1 - self.number;
        self.attempts = 0;
        self.tell(settings, done);
    }

    /// The oldest message without an outcome gets this one.
    fn settle(&mut self, outcome: Outcome, done: &mut Done) {
        let current = self
            .messages
            .iter_mut()
            .find(|message| message.outcome.is_none());
        if let Some(message) = current {
            message.outcome = Some(outcome);
            done.outcomes[outcome as usize - 1] += 1;
        }
    }

    fn one_attempt_more(&mut self) {
        self.attempts = self.attempts.saturating_add(1);
    }

    /// The state's name, as it follows from the record.
    pub fn state(&self) -> &'static str {
        match (self.joined, self.sending() > 0, self.asked) {
            (false, _, _) => "Off",
            (true, false, _) => "Ready",
            (true, true, false) => "Waiting",
            (true, true, true) => "Asking",
        }
    }

    /// Whether it waits for an answer to DATA or to the ENQ after it.
    pub fn is_busy(&self) -> bool {
        self.joined && self.sending() > 0
    }

    pub fn number(&self) -> u8 {
        self.number
    }

    pub fn attempts(&self) -> u8 {
        self.attempts
    }

    pub fn credit(&self) -> Option<u8> {
        self.credit
    }

    /// The messages without an outcome.
    pub fn sending(&self) -> usize {
        self.messages.len() - self.outcomes()
    }

    /// The outcomes not collected.
    pub fn outcomes(&self) -> usize {
        let settled = |message: &&Message| message.outcome.is_some();
        self.messages.iter().filter(settled).count()
    }
}

#[cfg(test)]
mod tests {
    use super::*;

    const SETTINGS: Settings = Settings {
        enq: 200,
        data: 300,
        attempts: 3,
        receive: 8,
    };

    fn ack(number: u8) -> Answer {
        Answer::Ack { number, credit: 5 }
    }

    /// What was done, in short: letter, text and timer of what was sent, and the
    /// outcomes.
    fn short(done: Done) -> String {
        let sent = match done.sent {
            Some(packet) => {
                let field = String::from_utf8(packet.field).unwrap();
                format!("{}{field}", char::from(packet.letter))
            }
            None => "-".to_string(),
        };
        let timer = match done.timer {
            Some(Timer::Enq(period)) => format!("enq{period}"),
            Some(Timer::Data(period)) => format!("data{period}"),
            None => "-".to_string(),
        };
        let [arrived, given_up, none] = done.outcomes;
        format!("{sent} {timer} {arrived}{given_up}{none}")
    }

    fn record(primary: &Primary) -> String {
        let Primary {
            number, attempts, ..
        } = primary;
        let credit = primary.credit.unwrap_or(9);
        let (state, sending) = (primary.state(), primary.sending());
        let outcomes = primary.outcomes();
        format!("{state} {number} {attempts} {credit} {sending} {outcomes}")
    }

    /// A station in the state, under the number 0, with a message behind the
    /// current one where there is one.
    fn station(state: &str) -> Primary {
        let (mut primary, done) = Primary::open(&SETTINGS);
        assert_eq!(short(done), "E enq200 000");
        assert_eq!(record(&primary), "Off 1 1 9 0 0");
        if state == "Off" {
            return primary;
        }
        if state == "Ready" {
            primary.hear(&SETTINGS, ack(0));
            return primary;
        }
        primary.hear(&SETTINGS, ack(1));
        primary.submit(&SETTINGS, b"x").unwrap();
        primary.submit(&SETTINGS, b"y").unwrap();
        if state == "Asking" {
            primary.timeout(&SETTINGS);
        }
        primary
    }

    /// The page's table, cell by cell: what is done and what is then kept.
    #[test]
    fn every_cell_of_the_table() {
        let cells = [
            ("Off", "submit", "refused 18", "Off 1 1 9 0 0"),
            ("Off", "reset", "- - 000", "Ready 1 1 9 0 0"),
            ("Off", "ack 0", "- - 000", "Ready 0 1 5 0 0"),
            ("Off", "ack 1", "- - 000", "Ready 1 1 5 0 0"),
            ("Off", "timeout", "E enq200 000", "Off 1 2 9 0 0"),
            ("Ready", "submit", "1z data300 000", "Waiting 1 0 5 1 0"),
            ("Ready", "reset", "- - 000", "Ready 0 1 5 0 0"),
            ("Ready", "ack 0", "- - 000", "Ready 0 1 5 0 0"),
            ("Ready", "ack 1", "- - 000", "Ready 0 1 5 0 0"),
            ("Ready", "timeout", "- - 000", "Ready 0 1 5 0 0"),
            ("Waiting", "submit", "- - 000", "Waiting 0 0 5 3 0"),
            ("Waiting", "reset", "- - 000", "Waiting 0 0 5 2 0"),
            ("Waiting", "ack 0", "1y data300 100", "Waiting 1 0 5 1 1"),
            ("Waiting", "ack 1", "- - 000", "Waiting 0 0 5 2 0"),
            ("Waiting", "timeout", "E enq200 000", "Asking 0 1 5 2 0"),
            ("Asking", "submit", "- - 000", "Asking 0 1 5 3 0"),
            ("Asking", "reset", "0x data300 000", "Waiting 0 2 5 2 0"),
            ("Asking", "ack 0", "1y data300 100", "Waiting 1 0 5 1 1"),
            ("Asking", "ack 1", "0x data300 000", "Waiting 0 2 5 2 0"),
            ("Asking", "timeout", "E enq200 000", "Asking 0 2 5 2 0"),
        ];
        for (state, event, done, after) in cells {
            let mut primary = station(state);
            assert_eq!(primary.state(), state);
            let told = match event {
                "submit" => match primary.submit(&SETTINGS, b"z") {
                    Ok(done) => short(done),
                    Err(refusal) => format!("refused {}", refusal.number()),
                },
                "reset" => short(primary.hear(&SETTINGS, Answer::Reset)),
                "ack 0" => short(primary.hear(&SETTINGS, ack(0))),
                "ack 1" => short(primary.hear(&SETTINGS, ack(1))),
                _ => short(primary.timeout(&SETTINGS)),
            };
            assert_eq!(told, done, "{state}, {event}");
            assert_eq!(record(&primary), after, "{state}, {event}");
        }
    }

    #[test]
    fn a_message_is_given_up_at_the_limit() {
        for state in ["Waiting", "Asking"] {
            let mut primary = station(state);
            while primary.attempts < 3 {
                assert_eq!(short(primary.timeout(&SETTINGS)), "E enq200 000");
                assert_eq!(primary.state(), "Asking");
            }
            assert_eq!(short(primary.timeout(&SETTINGS)), "E enq200 011");
            assert_eq!(record(&primary), "Off 0 1 5 0 2");
            assert_eq!(primary.collect(), Ok(Outcome::GivenUp));
            assert_eq!(primary.collect(), Ok(Outcome::NoConnection));
            assert_eq!(primary.collect(), Err(Refusal::NoOutcome));
        }
        // One attempt over the limit, by a repetition.
        let mut primary = station("Asking");
        primary.timeout(&SETTINGS);
        primary.timeout(&SETTINGS);
        assert_eq!(record(&primary), "Asking 0 3 5 2 0");
        primary.hear(&SETTINGS, Answer::Reset);
        assert_eq!(record(&primary), "Waiting 0 4 5 2 0");
        assert_eq!(short(primary.timeout(&SETTINGS)), "E enq200 011");
    }

    #[test]
    fn attempts_stay_at_255() {
        let mut primary = station("Off");
        for _ in 0..300 {
            assert_eq!(short(primary.timeout(&SETTINGS)), "E enq200 000");
        }
        assert_eq!(record(&primary), "Off 1 255 9 0 0");
        primary.hear(&SETTINGS, Answer::Reset);
        assert_eq!(record(&primary), "Ready 1 255 9 0 0");
        primary.submit(&SETTINGS, b"x").unwrap();
        assert_eq!(record(&primary), "Waiting 0 0 9 1 0");
    }

    #[test]
    fn there_are_eight_send_buffers() {
        let mut primary = station("Ready");
        for _ in 0..8 {
            primary.submit(&SETTINGS, b"x").unwrap();
        }
        let refused = Some(Refusal::BuffersInUse);
        assert_eq!(primary.submit(&SETTINGS, b"x").err(), refused);
        let longest = [b'x'; 97];
        assert_eq!(
            primary.submit(&SETTINGS, &longest).err().unwrap().number(),
            16
        );
        assert_eq!(
            primary.submit(&SETTINGS, b"\x7F").err().unwrap().number(),
            17
        );
        primary.hear(&SETTINGS, ack(1));
        assert_eq!(record(&primary), "Waiting 0 0 5 7 1");
        assert_eq!(primary.submit(&SETTINGS, b"x").err(), refused);
        assert_eq!(primary.collect(), Ok(Outcome::Arrived));
        assert_eq!(primary.collect(), Err(Refusal::NoOutcome));
        primary.submit(&SETTINGS, b"x").unwrap();
        assert_eq!(primary.submit(&SETTINGS, b"x").err(), refused);
    }
}
