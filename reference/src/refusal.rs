//! The refusal numbers (PROTOCOL.md, "Refusal numbers") that this program gives.

/// Why a call refused. Refusals are ordered by their numbers.
#[derive(Clone, Copy, Debug, PartialEq, Eq, PartialOrd, Ord)]
pub enum Refusal {
    BurstLength = 1,
    FirstByte = 2,
    Letter = 3,
    FieldLength = 4,
    FieldByte = 5,
    EndByte = 6,
    Check = 7,
    FrameLength = 8,
    Version = 9,
    LengthField = 10,
    Period = 11,
    AttemptLimit = 12,
    ReceiveLimit = 13,
    Busy = 14,
    BelowHeld = 15,
    MessageLength = 16,
    MessageByte = 17,
    Off = 18,
    BuffersInUse = 19,
    NoOutcome = 20,
    SmallPlace = 21,
    StillOut = 22,
    NoDelivery = 23,
    Slip = 24,
    Side = 25,
    NothingUnderWay = 26,
    StillUnderWay = 27,
    MediumInUse = 28,
    Room = 29,
}

impl Refusal {
    pub fn number(self) -> u8 {
        self as u8
    }
}

/// A refusal and whether its condition holds.
pub type Condition = (Refusal, bool);

/// Refuses with the smallest number whose condition holds, in whatever order
/// the conditions come.
pub fn judge(conditions: impl IntoIterator<Item = Condition>) -> Result<(), Refusal> {
    let holding = conditions.into_iter().filter(|&(_, holds)| holds);
    match holding.map(|(refusal, _)| refusal).min() {
        Some(smallest) => Err(smallest),
        None => Ok(()),
    }
}

#[cfg(test)]
mod tests {
    use super::*;

    #[test]
    fn the_smallest_number_is_given() {
        let conditions = [
            (Refusal::Room, true),
            (Refusal::FieldByte, true),
            (Refusal::Letter, false),
            (Refusal::Check, true),
        ];
        assert_eq!(judge(conditions), Err(Refusal::FieldByte));
        assert_eq!(judge([(Refusal::Room, false)]), Ok(()));
        assert_eq!(Refusal::FrameLength.number(), 8);
        assert_eq!(Refusal::MessageLength.number(), 16);
        assert_eq!(Refusal::Slip.number(), 24);
        assert_eq!(Refusal::Room.number(), 29);
    }
}
