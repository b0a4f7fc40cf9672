//! The script of line commands.

use super::{words, Script};
use crate::line::call::Call;
use crate::line::Line;
use crate::play::{Player, SPECS};
use crate::random::Random;

/// How many random calls there are at least.
const RANDOM_CALLS: usize = 13_450;

const FRAME: &str = "01000600C8012C0308";

/// A command of each kind with right words, opened over the usual media.
const COMMANDS: [&str; 8] = [
    "open xor 01000600C8012C0308 01000600C8012C0201 queue:2 lossy:8/noisy:2:40",
    "submit west 4F4B",
    "timeout east",
    "arrive west",
    "read east 96",
    "collect west",
    "settings east 01000600C8012C0308",
    "state west",
];

/// It comes first: once a line was opened there may be one.
pub const BEFORE_OPENING: [fn(&mut Script); 1] = [before_opening];

pub const SECTIONS: [fn(&mut Script); 7] = [
    wrong_words,
    too_few_and_too_many_words,
    random_lines,
    refused_openings,
    wrong_sides,
    first_calls,
    random_calls,
];

/// The last line.
pub const LAST: &str = "line state east";

/// The whole script. Its last line has no line end.
pub fn line() -> Vec<u8> {
    Script::of(&[&BEFORE_OPENING[..], &SECTIONS].concat(), LAST)
}

/// Lines that several sections need.
impl Script {
    fn on_line(&mut self, command: impl AsRef<str>) {
        self.line(format!("line {}", command.as_ref()));
    }

    fn both_states(&mut self) {
        self.on_line("state west");
        self.on_line("state east");
    }
}

fn before_opening(script: &mut Script) {
    script.section("commands before a line is opened, right and wrong");
    for command in &COMMANDS[1..] {
        script.on_line(command);
        script.on_line(command.replace("west", "2").replace("east", "255"));
        script.on_line(command.replace("west", "North").replace("east", "256"));
        script.on_line(format!("{command} x"));
    }
}

fn wrong_words(script: &mut Script) {
    script.section("wrong words on a line that is open");
    script.on_line(COMMANDS[0]);
    for word in "Open opens submits time-out arrived reads collec set states west - '".split(' ') {
        script.on_line(format!("{word} west"));
    }
    for side in words::SIDE.split(' ') {
        script.joined(&[b"line state ", side.as_bytes()]);
    }
    for kind in words::KIND.split(' ').step_by(3) {
        script.on_line(format!("open {kind} {FRAME} {FRAME} queue:1 queue:1"));
    }
    for bytes in words::BYTES.split(' ').step_by(3).chain(["'OK"]) {
        script.on_line(format!("open sum {FRAME} {bytes} queue:1 queue:1"));
        script.on_line(format!("submit west {bytes}"));
        script.on_line(format!("settings west {bytes}"));
    }
    for size in words::SIZE.split(' ').step_by(2) {
        script.on_line(format!("read west {size}"));
    }
    for spec in [
        "queue:4097",
        "packed:65537",
        "noisy:1",
        "lossy:1/lossy:1/queue:1",
        "queue",
    ] {
        script.on_line(format!("open sum {FRAME} {FRAME} queue:1 {spec}"));
        script.on_line(format!("open sum {FRAME} {FRAME} {spec} queue"));
    }
    script.both_states();
}

fn too_few_and_too_many_words(script: &mut Script) {
    script.section("too few words and too many");
    script.line("line");
    for command in COMMANDS {
        let words: Vec<&str> = command.split(' ').collect();
        for count in 1..words.len() {
            script.on_line(words[..count].join(" "));
        }
        script.on_line(format!("{command} x"));
        script.on_line(format!("  {}  ", words.join("   ")));
    }
}

fn random_lines(script: &mut Script) {
    script.section("lines of likely words");
    let likely: Vec<&str> = words::LINE_LIKELY.split(' ').collect();
    for _ in 0..200 {
        let count = script.random.below(7);
        let chosen: Vec<&[u8]> = (0..count)
            .map(|_| script.random.pick(&likely).as_bytes())
            .collect();
        script.spaced(&[&[&b"line"[..]], &chosen[..]].concat());
    }
}

fn refused_openings(script: &mut Script) {
    script.section("a refused opening leaves no line; west's frame is judged first");
    let frames = [
        FRAME,
        "-",
        "00000600C8012C0308",
        "01000700C8012C0308",
        "0100060009012C0308",
        "01000600C8012C1508",
        "01000600C8012C0309",
    ];
    for west in frames {
        for east in frames {
            script.on_line(format!("open sum {west} {east} noisy:4096:8 packed:65536"));
            script.on_line("state east");
        }
    }
}

fn wrong_sides(script: &mut Script) {
    script.section("a wrong side is refused before all else");
    script.on_line(COMMANDS[0]);
    for side in [2, 3, 9, 64, 99, 100, 127, 128, 200, 254, 255] {
        for call in [
            "state",
            "timeout",
            "arrive",
            "collect",
            "read",
            "read SIDE 95",
            "submit SIDE -",
            "submit SIDE 4F4B",
            "settings SIDE -",
        ] {
            let (call, rest) = call.split_once(" SIDE").unwrap_or((call, ""));
            script.on_line(format!("{call} {side}{rest}"));
        }
    }
}

fn first_calls(script: &mut Script) {
    script.section("first calls over media of each kind");
    for number in 0..SPECS * SPECS {
        let mut player = Player::new(Random::seeded(number as u64));
        let opening = player.opening([number / SPECS, number % SPECS]);
        script.line(opening.to_string());
        for call in ["arrive", "timeout", "submit", "collect", "read"] {
            let message = if call == "submit" { " '~ }" } else { "" };
            for side in ["west", "1"] {
                script.on_line(format!("{call} {side}{message}"));
            }
        }
    }
}

fn random_calls(script: &mut Script) {
    script.section("random calls over media of each kind");
    let mut player = Player::new(Random::new());
    let mut made = 0;
    for pair in (0..SPECS * SPECS).cycle() {
        if made > RANDOM_CALLS {
            break;
        }
        let opening = player.opening([pair / SPECS, pair % SPECS]);
        script.line(opening.to_string());
        for _ in 0..*player.random.pick(&[20, 60, 80, 160]) {
            let Some(line) = script.bench.line() else {
                break;
            };
            let call = sensible(&mut player, line);
            script.line(call.to_string());
            made += 1;
            if player.one_in(40) {
                script.on_line(format!("state {}", call.side));
            }
        }
    }
}

/// A call that is often one that the line does not refuse.
fn sensible(player: &mut Player, line: &Line) -> Call {
    let mut call = player.call();
    for _ in 0..2 {
        if line.clone().call(&call).is_ok() {
            break;
        }
        call = player.call();
    }
    call
}

#[cfg(test)]
mod tests {
    use super::*;
    use crate::cells::REACHED;
    use crate::counts::Counts;

    #[test]
    fn every_refusal_error_and_cell_of_a_line_occurs() {
        let counts = Counts::of(&line());
        let refused: Vec<u8> = counts.refusals.keys().copied().collect();
        let given = (8..=21).chain([23]).chain(25..=27);
        let garbled = [2, 3, 5, 6, 7];
        assert_eq!(
            refused,
            garbled.into_iter().chain(given).collect::<Vec<_>>()
        );
        assert_eq!(counts.errors.len(), 9);
        assert_eq!(counts.cells.into_keys().collect::<Vec<_>>(), REACHED);
    }
}
