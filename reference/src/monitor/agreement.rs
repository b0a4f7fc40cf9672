//! What the two sides of a line agree on, read from a transcript alone: the
//! opening, then each call with its answer. With either side as the near one:
//!
//! - What the far station stored is exactly the near one's accepted messages
//!   that are to be stored, in order, none twice.
//! - A message is to be stored exactly when its outcome is arrived, or the far
//!   station's last answer bears its number: the present answer while it has no
//!   outcome, the one then standing where it was given up. One that got no
//!   connection is not to be stored.
//! - An accepted message behind k others without outcome has its own by the
//!   (k + 1)(M + 1)th timeout that its station takes after accepting it, M being
//!   the attempt limit at its acceptance.

use crate::end::Outcome;
use crate::line::call::{Action, Answer, Call};
use crate::line::{Line, LineReport};
use crate::packet::{ETX, PLACE};
use crate::refusal::Refusal;

/// More read-outs than any station can hold deliveries for.
const MANY: usize = 100;

/// A message that was accepted.
struct Accepted {
    bytes: Vec<u8>,
    /// That of its DATA, none before that was sent.
    number: Option<u8>,
    outcome: Option<Outcome>,
    /// The far station's last answer when it was given up.
    given_up_at: u8,
    /// The timeouts that its station may take before it has its outcome.
    timeouts: usize,
}

impl Accepted {
    /// Whether the far station should have stored it, by its last answer of now.
    fn is_to_be_stored(&self, last: u8) -> bool {
        let acknowledged = |last| self.number.is_some_and(|number| last == b'A' + number);
        match self.outcome {
            None => acknowledged(last),
            Some(Outcome::Arrived) => true,
            Some(Outcome::GivenUp) => acknowledged(self.given_up_at),
            Some(Outcome::NoConnection) => false,
        }
    }
}

/// What one side's calls told.
struct Side {
    accepted: Vec<Accepted>,
    /// The letter of its last answer, RESET before any.
    last: u8,
    read: Vec<Vec<u8>>,
    /// M.
    limit: u8,
}

impl Side {
    fn open(frame: &[u8]) -> Self {
        Side {
            accepted: Vec::new(),
            last: b'R',
            read: Vec::new(),
            limit: frame[7],
        }
    }

    /// The messages without outcome, oldest first.
    fn pending(&mut self) -> impl Iterator<Item = &mut Accepted> {
        let pending = |message: &&mut Accepted| message.outcome.is_none();
        self.accepted.iter_mut().filter(pending)
    }

    fn accept(&mut self, bytes: &[u8]) {
        let behind = self.pending().count();
        self.accepted.push(Accepted {
            bytes: bytes.to_vec(),
            number: None,
            outcome: None,
            given_up_at: 0,
            timeouts: (behind + 1) * (usize::from(self.limit) + 1),
        });
    }

    /// Each of these has at least one left, or the last report had failed.
    fn take_timeout(&mut self) {
        self.pending().for_each(|message| message.timeouts -= 1);
    }

    /// Outcomes go to the oldest messages without one; then DATA is that of the
    /// oldest one that still has none.
    fn report(&mut self, report: &LineReport, far_last: u8) -> Result<(), String> {
        let outcomes = [Outcome::Arrived, Outcome::GivenUp, Outcome::NoConnection];
        for (outcome, count) in outcomes.into_iter().zip(report.report.outcomes) {
            for _ in 0..count {
                let oldest = self.pending().next();
                let oldest = oldest.ok_or("an outcome without an accepted message")?;
                oldest.outcome = Some(outcome);
                oldest.given_up_at = far_last;
            }
        }
        match report.sent() {
            Some((letter @ (b'0' | b'1'), burst)) => {
                let oldest = self.pending().next();
                let oldest = oldest.ok_or("DATA without an accepted message")?;
                let field = [&oldest.bytes[..], &[ETX]].concat();
                if !burst[PLACE..].starts_with(&field) {
                    return Err("DATA with another message".to_string());
                }
                let number = letter - b'0';
                if *oldest.number.get_or_insert(number) != number {
                    return Err("a message has two numbers".to_string());
                }
            }
            Some((letter @ (b'A' | b'B' | b'R'), _)) => self.last = letter,
            _ => {}
        }
        match self.pending().find(|message| message.timeouts == 0) {
            Some(_) => Err("a message has no outcome in its time".to_string()),
            None => Ok(()),
        }
    }
}

/// The state of a transcript.
pub struct Agreement {
    sides: [Side; 2],
}

impl Agreement {
    pub fn open(frames: &[Vec<u8>; 2], reports: &[LineReport; 2]) -> Result<Self, String> {
        let mut sides = [Side::open(&frames[0]), Side::open(&frames[1])];
        for (side, report) in sides.iter_mut().zip(reports) {
            side.report(report, b'R')?;
        }
        Ok(Agreement { sides })
    }

    /// Takes in a call and its answer.
    pub fn call(&mut self, call: &Call, answer: &Result<Answer, Refusal>) -> Result<(), String> {
        let Ok(answer) = answer else {
            return Ok(());
        };
        let near = usize::from(call.side);
        let far_last = self.sides[1 - near].last;
        let side = &mut self.sides[near];
        match &call.action {
            Action::Submit(message) => side.accept(message),
            Action::Timeout => side.take_timeout(),
            Action::Settings(frame) => side.limit = frame[7],
            _ => {}
        }
        match answer {
            Answer::Report(report) => side.report(report, far_last),
            Answer::Message(message) => {
                side.read.push(message.clone());
                self.read_is_a_beginning(near)
            }
            _ => Ok(()),
        }
    }

    /// The near side's messages that the far one should have stored.
    fn to_be_stored(&self, near: usize) -> impl Iterator<Item = &Vec<u8>> {
        let last = self.sides[1 - near].last;
        let accepted = self.sides[near].accepted.iter();
        let stored = accepted.filter(move |message| message.is_to_be_stored(last));
        stored.map(|message| &message.bytes)
    }

    /// What a side read out is a beginning of what it should have stored.
    fn read_is_a_beginning(&self, side: usize) -> Result<(), String> {
        let read = &self.sides[side].read;
        if !self.to_be_stored(1 - side).take(read.len()).eq(read) {
            return Err("a message was read out that should not be".to_string());
        }
        Ok(())
    }

    /// Each side stored what the other's messages and its own answers say.
    pub fn check(&self, line: &Line) -> Result<(), String> {
        self.check_stored(&[rest(line, 0)?, rest(line, 1)?])
    }

    /// The same, with what further read-outs alone would give at each side.
    fn check_stored(&self, rests: &[Vec<Vec<u8>>; 2]) -> Result<(), String> {
        for near in [0, 1] {
            let far = 1 - near;
            let stored = self.sides[far].read.iter().chain(&rests[far]);
            if !self.to_be_stored(near).eq(stored) {
                let far = ["west", "east"][far];
                return Err(format!("{far} stored other messages than it should"));
            }
        }
        Ok(())
    }
}

/// What further read-outs alone would give, until one answers that no delivery
/// waits.
fn rest(line: &Line, side: u8) -> Result<Vec<Vec<u8>>, String> {
    let mut line = line.clone();
    let mut rest = Vec::new();
    let action = Action::Read(96);
    let call = Call { side, action };
    while rest.len() < MANY {
        match line.call(&call) {
            Ok(Answer::Message(message)) => rest.push(message),
            Err(Refusal::NoDelivery) => return Ok(rest),
            other => return Err(format!("a read-out answers {other:?}")),
        }
    }
    Err("read-outs go on and on".to_string())
}

#[cfg(test)]
mod tests {
    use super::*;
    use crate::end::Report;
    use crate::packet::{write, Kind};

    /// A call, the packet that was sent, and how many messages got each outcome.
    type Row<'a> = (&'a str, &'a str, [usize; 3]);

    const NONE: [usize; 3] = [0, 0, 0];
    const ARRIVED: [usize; 3] = [1, 0, 0];
    const GIVEN_UP: [usize; 3] = [0, 1, 0];

    const SUBMITTED: Row = ("submit x", "0x", NONE);
    const ANSWERED: Row = ("answer", "A7", NONE);
    const TIMEOUT: Row = ("timeout", "E", NONE);

    const STORED: &str = "east stored other messages than it should";
    const READ: &str = "a message was read out that should not be";
    const LATE: &str = "a message has no outcome in its time";

    fn report(sent: &str, outcomes: [usize; 3]) -> LineReport {
        let mut place = [0xEE; crate::end::PLACE];
        let sent = sent.as_bytes().split_first().map(|(&letter, field)| {
            let length = write(Kind::Sum, letter, field, &mut place);
            (letter, length.unwrap())
        });
        let timer = None;
        LineReport {
            report: Report {
                sent,
                timer,
                outcomes,
            },
            place,
            offer: None,
        }
    }

    /// What is found in a transcript made by hand: west submits and takes
    /// timeouts and arrivals, M being 2; east answers what arrives and is read
    /// out. `rest` is what further read-outs at east would give.
    fn found(rows: &[Row], rest: &[&str]) -> Result<(), String> {
        let frames = [(); 2].map(|()| vec![1, 0, 6, 0, 200, 1, 44, 2, 8]);
        let reports = [report("E", NONE), report("E", NONE)];
        let mut agreement = Agreement::open(&frames, &reports)?;
        for &(call, sent, outcomes) in rows {
            let (call, message) = call.split_once(' ').unwrap_or((call, ""));
            let message = message.as_bytes().to_vec();
            let mut answer = Answer::Report(report(sent, outcomes));
            let (side, action) = match call {
                "submit" => (0, Action::Submit(message)),
                "timeout" => (0, Action::Timeout),
                "arrive" => (0, Action::Arrive),
                "answer" => (1, Action::Arrive),
                "read" => {
                    answer = Answer::Message(message);
                    (1, Action::Read(96))
                }
                other => panic!("{other}"),
            };
            agreement.call(&Call { side, action }, &Ok(answer))?;
        }
        let rest = rest.iter().map(|message| message.as_bytes().to_vec());
        agreement.check_stored(&[Vec::new(), rest.collect()])
    }

    fn fails(rows: &[Row], rest: &[&str], promise: &str) {
        assert_eq!(found(rows, rest), Err(promise.to_string()));
    }

    /// "x" arrives and is answered, then "y" under the other number.
    const BOTH: [Row; 5] = [
        SUBMITTED,
        ("submit y", "", NONE),
        ANSWERED,
        ("arrive", "1y", ARRIVED),
        ("answer", "B6", NONE),
    ];

    /// "x" is stored and given up, as no answer reaches west.
    const ABANDONED: [Row; 5] = [
        SUBMITTED,
        ANSWERED,
        TIMEOUT,
        TIMEOUT,
        ("timeout", "E", GIVEN_UP),
    ];

    #[test]
    fn a_right_transcript_holds() {
        assert_eq!(found(&BOTH, &["x", "y"]), Ok(()));
        let read = ("read x", "", NONE);
        let abandoned = [TIMEOUT, read, TIMEOUT, ABANDONED[4]];
        assert_eq!(found(&[&BOTH[..], &abandoned].concat(), &["y"]), Ok(()));
        assert_eq!(found(&ABANDONED, &["x"]), Ok(()));
    }

    #[test]
    fn a_message_stored_twice_is_found() {
        let read = ("read x", "", NONE);
        fails(&[SUBMITTED, ANSWERED], &["x", "x"], STORED);
        fails(&[SUBMITTED, ANSWERED, read], &["x"], STORED);
        fails(&[SUBMITTED, ANSWERED, read, read], &[], READ);
    }

    #[test]
    fn messages_stored_out_of_order_are_found() {
        fails(&BOTH, &["y", "x"], STORED);
        let read = [("read y", "", NONE), ("read x", "", NONE)];
        fails(&[&BOTH[..], &read].concat(), &[], READ);
    }

    #[test]
    fn an_answered_message_that_is_not_stored_is_found() {
        fails(&ABANDONED, &[], STORED);
        fails(&[SUBMITTED, ANSWERED], &[], STORED);
    }

    #[test]
    fn a_stored_message_that_no_answer_bears_is_found() {
        let abandoned = [&[SUBMITTED], &ABANDONED[2..]].concat();
        assert_eq!(found(&abandoned, &[]), Ok(()));
        fails(&abandoned, &["x"], STORED);
        fails(&[SUBMITTED], &["x"], STORED);
    }

    /// Alone it has three timeouts, behind another one six.
    #[test]
    fn a_message_without_outcome_in_its_time_is_found() {
        let alone = [SUBMITTED, TIMEOUT, TIMEOUT, TIMEOUT];
        assert_eq!(found(&alone[..3], &[]), Ok(()));
        fails(&alone, &[], LATE);
        let behind = [&BOTH[..2], &[TIMEOUT; 2], &BOTH[2..4], &[TIMEOUT; 4]].concat();
        assert_eq!(found(&behind[..behind.len() - 1], &["x"]), Ok(()));
        fails(&behind, &["x"], LATE);
    }
}
