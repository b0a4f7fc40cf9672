//! The cells of the two stations' tables that calls on a line meet.

use crate::end::State;
use crate::line::call::{Action, Call};
use crate::line::Line;

/// The cells that a line reaches, in the order of their names.
///
/// It cannot reach the other seven. Five come of this: at most one burst of a
/// channel is under way unaltered, the last command or the answer to it. For a
/// timeout is refused with 27 while one is, and every other command is sent when
/// the answer to the one before was heard.
///
/// - RESET, and an ACK of either number, in Ready: the last command was answered
///   and the answer heard, so nothing is under way.
/// - RESET, and an ACK of the other number, in Waiting: only the DATA of its
///   number is under way or the answer to that, an ACK of its number.
/// - ENQ and DATA with none free while the last answer is RESET: nothing was
///   stored, and the receive limit is at least 1.
pub const REACHED: [&str; 31] = [
    "Asking: ACK of its number, the message's end, more wait",
    "Asking: ACK of its number, the message's end, none waits",
    "Asking: ACK of the other number",
    "Asking: RESET",
    "Asking: submission",
    "Asking: timeout",
    "Asking: timeout, the message's end, more wait",
    "Asking: timeout, the message's end, none waits",
    "Off: ACK of its number",
    "Off: ACK of the other number",
    "Off: RESET",
    "Off: submission",
    "Off: timeout",
    "Ready: submission",
    "Ready: timeout",
    "Waiting: ACK of its number, the message's end, more wait",
    "Waiting: ACK of its number, the message's end, none waits",
    "Waiting: submission",
    "Waiting: timeout",
    "Waiting: timeout, the message's end, more wait",
    "Waiting: timeout, the message's end, none waits",
    "last answer A: DATA, none free",
    "last answer A: DATA, some free",
    "last answer A: ENQ, none free",
    "last answer A: ENQ, some free",
    "last answer B: DATA, none free",
    "last answer B: DATA, some free",
    "last answer B: ENQ, none free",
    "last answer B: ENQ, some free",
    "last answer R: DATA, some free",
    "last answer R: ENQ, some free",
];

/// The cell that a call on a line would meet.
pub fn cell(line: &Line, call: &Call) -> Option<String> {
    let state = line.state(call.side).ok()?;
    let event = match &call.action {
        Action::Submit(_) => "submission",
        Action::Timeout => "timeout",
        Action::Arrive => match *line.toward(call.side)?.get(1)? {
            b'R' => "RESET",
            letter @ (b'A' | b'B') if letter - b'A' == state.number => "ACK of its number",
            b'A' | b'B' => "ACK of the other number",
            b'E' => return Some(secondary(&state, "ENQ")),
            _ => return Some(secondary(&state, "DATA")),
        },
        _ => return None,
    };
    Some(format!("{}: {event}{}", state.name, case(&state, event)))
}

/// Where a message may have its outcome: whether it has, and whether more wait.
fn case(state: &State, event: &str) -> &'static str {
    let busy = ["Waiting", "Asking"].contains(&state.name);
    let ends = match event {
        "timeout" => state.attempts >= state.settings.attempts,
        event => event == "ACK of its number",
    };
    match (busy && ends, state.sending > 1) {
        (false, _) => "",
        (true, true) => ", the message's end, more wait",
        (true, false) => ", the message's end, none waits",
    }
}

/// A cell of the secondary station's.
fn secondary(state: &State, command: &str) -> String {
    let last = char::from(state.last);
    let room = match usize::from(state.settings.receive) > state.held {
        true => "some free",
        false => "none free",
    };
    format!("last answer {last}: {command}, {room}")
}
