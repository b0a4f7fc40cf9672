//! The six calls on a line and their answers, in the words of the workbench.

use super::LineReport;
use crate::end::command::{Rest, Sent};
use crate::end::Outcome;
use crate::script::Hexadecimal;
use std::fmt;

/// A call at the side of a number.
#[derive(Clone, Debug)]
pub struct Call {
    pub side: u8,
    pub action: Action,
}

#[derive(Clone, Debug)]
pub enum Action {
    /// A message.
    Submit(Vec<u8>),
    Timeout,
    Arrive,
    /// A read-out into a place of a size.
    Read(usize),
    Collect,
    /// A settings frame.
    Settings(Vec<u8>),
}

/// What a call answers that was not refused.
#[derive(Debug)]
pub enum Answer {
    Report(LineReport),
    Message(Vec<u8>),
    Outcome(Outcome),
    Set,
}

/// How a side is written.
pub fn side_name(side: u8) -> String {
    match side {
        0 => "west".to_string(),
        1 => "east".to_string(),
        other => other.to_string(),
    }
}

/// A line of a script.
impl fmt::Display for Call {
    fn fmt(&self, out: &mut fmt::Formatter) -> fmt::Result {
        let side = side_name(self.side);
        match &self.action {
            Action::Submit(message) => write!(out, "line submit {side} {}", Hexadecimal(message)),
            Action::Timeout => write!(out, "line timeout {side}"),
            Action::Arrive => write!(out, "line arrive {side}"),
            Action::Read(96) => write!(out, "line read {side}"),
            Action::Read(size) => write!(out, "line read {side} {size}"),
            Action::Collect => write!(out, "line collect {side}"),
            Action::Settings(frame) => write!(out, "line settings {side} {}", Hexadecimal(frame)),
        }
    }
}

/// What the line prints.
impl fmt::Display for Answer {
    fn fmt(&self, out: &mut fmt::Formatter) -> fmt::Result {
        match self {
            Answer::Report(report) => report.fmt(out),
            Answer::Message(message) => {
                let (length, message) = (message.len(), Hexadecimal(message));
                write!(out, "length={length} message={message}")
            }
            Answer::Outcome(outcome) => write!(out, "outcome={}", *outcome as u8),
            Answer::Set => write!(out, "set"),
        }
    }
}

/// LINEREPORT.
impl fmt::Display for LineReport {
    fn fmt(&self, out: &mut fmt::Formatter) -> fmt::Result {
        let offer = match self.offer {
            Some(offer) => offer.to_string(),
            None => "none".to_string(),
        };
        let sent = Sent(&self.report, &self.place);
        write!(out, "{sent} offer={offer} {}", Rest(&self.report))
    }
}
