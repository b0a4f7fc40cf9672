//! An opened line: two ends over two media (PROTOCOL.md, "A line").

pub mod call;
pub mod command;

use crate::end::{End, Report, State, PLACE};
use crate::medium::{Medium, Offer, LONGEST};
use crate::packet::Kind;
use crate::refusal::{judge, Refusal};
use call::{Action, Answer, Call};

/// The number of sides.
const SIDES: usize = 2;

/// An opened line. West is side 0, east side 1.
#[derive(Clone, Debug)]
pub struct Line {
    ends: [End; SIDES],
    /// The outgoing medium of each side, which is the other's incoming one.
    media: [Medium; SIDES],
}

/// What a call tells, with the place that its packet was written to.
#[derive(Debug)]
pub struct LineReport {
    pub report: Report,
    pub place: [u8; PLACE],
    /// What the outgoing medium answered, where a packet was sent.
    pub offer: Option<Offer>,
}

impl LineReport {
    /// The packet that was sent: its letter and its burst.
    pub fn sent(&self) -> Option<(u8, &[u8])> {
        let (letter, length) = self.report.sent?;
        Some((letter, &self.place[..length]))
    }
}

/// The side of a number, as an index.
fn index(side: u8) -> Result<usize, Refusal> {
    judge([(Refusal::Side, usize::from(side) >= SIDES)])?;
    Ok(usize::from(side))
}

impl Line {
    /// Opens a line with a settings frame for each side, over the medium
    /// eastward and the one westward.
    pub fn open(
        kind: Kind,
        [west, east]: [&[u8]; SIDES],
        media: [Medium; SIDES],
    ) -> Result<(Line, [LineReport; SIDES]), Refusal> {
        let mut places = [[0xEE; PLACE]; SIDES];
        let (west, west_told) = End::open(0, kind, west, &mut places[0])?;
        let (east, east_told) = End::open(1, kind, east, &mut places[1])?;
        let in_use = media.iter().any(|medium| medium.count() > 0);
        judge([(Refusal::MediumInUse, in_use)])?;

        let ends = [west, east];
        let mut line = Line { ends, media };
        let west = line.offer(0, west_told, places[0]);
        let east = line.offer(1, east_told, places[1]);
        Ok((line, [west, east]))
    }

    /// Offers what an end sent to its outgoing medium.
    fn offer(&mut self, side: usize, report: Report, place: [u8; PLACE]) -> LineReport {
        let medium = &mut self.media[side];
        let offer = report
            .sent
            .map(|(_, length)| medium.offer(&place[..length]));
        LineReport {
            report,
            place,
            offer,
        }
    }

    /// Carries out a call.
    pub fn call(&mut self, call: &Call) -> Result<Answer, Refusal> {
        let side = index(call.side)?;
        match &call.action {
            Action::Submit(message) => self.at(side, |end, place| end.submit(message, place)),
            Action::Timeout => self.timeout(side),
            Action::Arrive => self.arrive(side),
            Action::Read(size) => self.read(side, *size),
            Action::Collect => self.ends[side].collect().map(Answer::Outcome),
            Action::Settings(frame) => self.ends[side].set(frame).map(|()| Answer::Set),
        }
    }

    /// A call on a side's end that may send.
    fn at(
        &mut self,
        side: usize,
        call: impl FnOnce(&mut End, &mut [u8; PLACE]) -> Result<Report, Refusal>,
    ) -> Result<Answer, Refusal> {
        let mut place = [0xEE; PLACE];
        let report = call(&mut self.ends[side], &mut place)?;
        Ok(Answer::Report(self.offer(side, report, place)))
    }

    fn timeout(&mut self, side: usize) -> Result<Answer, Refusal> {
        let command = self.media[side].holds_commands();
        let answer = self.media[1 - side].holds_answers();
        judge([(Refusal::StillUnderWay, command || answer)])?;
        self.at(side, |end, place| Ok(end.timeout(place)))
    }

    /// The oldest burst toward a side arrives. It is used up, also where the end
    /// refuses it.
    fn arrive(&mut self, side: usize) -> Result<Answer, Refusal> {
        let incoming = &mut self.media[1 - side];
        judge([(Refusal::NothingUnderWay, incoming.count() == 0)])?;
        let mut burst = [0xEE; LONGEST];
        let length = incoming.take(&mut burst);
        self.at(side, |end, place| end.arrive(&burst[..length], place))
    }

    /// Takes the oldest delivery into a place of a size and gives it back.
    fn read(&mut self, side: usize, size: usize) -> Result<Answer, Refusal> {
        let mut place = vec![0xEE; size];
        let (length, slip) = self.ends[side].take(&mut place)?;
        let given = self.ends[side].give(slip);
        given.expect("an end takes back what it gave");
        place.truncate(length);
        Ok(Answer::Message(place))
    }

    pub fn state(&self, side: u8) -> Result<State, Refusal> {
        Ok(self.ends[index(side)?].state())
    }

    /// The oldest burst under way toward a side.
    pub fn toward(&self, side: u8) -> Option<&[u8]> {
        let side = index(side).ok()?;
        self.media[1 - side].first()
    }
}

#[cfg(test)]
mod tests {
    use super::*;
    use crate::medium::{Room, Spec};

    const FRAME: [u8; 9] = [0x01, 0x00, 0x06, 0x00, 0xC8, 0x01, 0x2C, 0x03, 0x08];

    fn medium() -> Medium {
        Medium::new(Spec {
            room: Room::Places(4),
            noise: None,
            loss: None,
        })
    }

    /// A line's answers to the same call at this side.
    fn told(line: &mut Line, side: u8, action: Action) -> String {
        match line.call(&Call { side, action }) {
            Ok(answer) => answer.to_string(),
            Err(refusal) => format!("refused {}", refusal.number()),
        }
    }

    #[test]
    fn an_opening_judges_west_then_east_then_the_media() {
        let refused = |west: &[u8], east: &[u8], used: [bool; 2]| {
            let media = used.map(|used| {
                let mut medium = medium();
                if used {
                    medium.offer(&[0]);
                }
                medium
            });
            let opened = Line::open(Kind::Sum, [west, east], media);
            opened.err().map(Refusal::number)
        };
        let version = [&[0], &FRAME[1..]].concat();
        assert_eq!(refused(&version, b"", [true; 2]), Some(9));
        assert_eq!(refused(&FRAME, b"", [true; 2]), Some(8));
        assert_eq!(refused(&FRAME, &FRAME, [true, false]), Some(28));
        assert_eq!(refused(&FRAME, &FRAME, [false, true]), Some(28));
        assert_eq!(refused(&FRAME, &FRAME, [false; 2]), None);
    }

    #[test]
    fn a_timeout_waits_for_commands_out_and_answers_back() {
        let frames = [&FRAME[..]; 2];
        let (mut line, _) = Line::open(Kind::Sum, frames, [medium(), medium()]).unwrap();
        // West's ENQ is under way, then the answer to it.
        assert_eq!(told(&mut line, 0, Action::Timeout), "refused 27");
        told(&mut line, 1, Action::Arrive);
        assert_eq!(told(&mut line, 0, Action::Timeout), "refused 27");
        told(&mut line, 0, Action::Arrive);
        assert_eq!(told(&mut line, 0, Action::Timeout), "refused 27");
        told(&mut line, 0, Action::Arrive);
        let nothing = "sent=none burst=- offer=none timer=none outcomes=0,0,0";
        assert_eq!(told(&mut line, 0, Action::Timeout), nothing);
        assert_eq!(told(&mut line, 0, Action::Arrive), "refused 26");
        assert_eq!(told(&mut line, 2, Action::Arrive), "refused 25");
    }
}
