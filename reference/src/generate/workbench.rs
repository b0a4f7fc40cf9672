//! The script that the program is held to: packets, media, lines and stations. The program may print
//! less than a mebibyte, so each section of the other subjects' scripts is thinned to what it may print.

use super::{line, media, packets, stations, Script};
use crate::run::Bench;

/// How many bytes a section may print, by subject.
const PACKETS: usize = 400;
const MEDIA: usize = 350;
const STATIONS: usize = 700;
const BEFORE: usize = 4700;

/// The same for sections that lead to a limit far away or through all cells, by what
/// stands in their titles.
const LONG: [(&str, usize); 13] = [
    ("a queue of 4096 places, filled", 27_000),
    ("a packed memory of 65536 bytes, filled", 5_000),
    ("stay at 255", 16_000),
    ("7 behind: submission, RESET, ACKs, timeout", 3_000),
    ("submission, RESET, ACKs, timeout", 8_000),
    ("is reached while Waiting, none behind", 2_000),
    ("18 while Off, 19 when Ready", 3_500),
    ("slips exchanged", 2_500),
    ("now a has a delivery out and no slip", 1_400),
    ("a name is not opened again while its slip is kept", 1_400),
    ("the slip of b is kept, and the end a is to have it", 1_800),
    ("with another M, in every state", 5_000),
    ("R = 1 and 2, all numbers held", 10_000),
];

/// What stands in the titles of sections that have each state under both numbers:
/// half of them has each state.
const HALVED: &str = " in every state";

/// The scripts of examples/. The first makes and opens nothing.
const PACKETS_EXAMPLE: &[u8] = include_bytes!("../../../examples/packets.txt");
const NOISE_EXAMPLE: &[u8] = include_bytes!("../../../examples/noise.txt");
const STATION_EXAMPLE: &[u8] = include_bytes!("../../../examples/station.txt");
const LINE_EXAMPLE: &[u8] = include_bytes!("../../../examples/line.txt");

/// The examples, with what comes before any making or opening between them; then
/// packets, media, lines and stations; the last, because a slip is kept at their end.
/// The last line has no line end.
pub fn workbench() -> Vec<u8> {
    let before = [
        &media::BEFORE_MAKING[..],
        &stations::BEFORE_OPENING,
        &line::BEFORE_OPENING,
    ]
    .concat();
    let mut thinned = Thinned::default();
    thinned.example(PACKETS_EXAMPLE);
    thinned.script(&Script::of(&before, stations::LAST), BEFORE);
    thinned.example(NOISE_EXAMPLE);
    thinned.example(STATION_EXAMPLE);
    thinned.example(LINE_EXAMPLE);
    thinned.script(&packets(), PACKETS);
    thinned.script(&Script::of(&media::SECTIONS, media::LAST), MEDIA);
    thinned.script(&Script::of(&line::SECTIONS, line::LAST), usize::MAX);
    thinned.script(&Script::of(&stations::sections(), stations::LAST), STATIONS);
    thinned.text.pop();
    thinned.text
}

/// A line and what it prints in the whole script.
struct Line<'a> {
    text: &'a [u8],
    printed: usize,
    is_error: bool,
}

/// A comment and the lines up to the next one, in cases: lines that stay together.
struct Section<'a> {
    title: &'a [u8],
    cases: Vec<Vec<Line<'a>>>,
}

impl Section<'_> {
    fn printed(&self) -> usize {
        self.cases.iter().map(|case| printed(case)).sum()
    }

    /// Where it is one case of mostly wrong lines, each line stands for itself.
    fn part(&mut self) {
        let [case] = &mut self.cases[..] else {
            return;
        };
        let errors = case.iter().filter(|line| line.is_error).count();
        if errors > case.len() / 2 {
            let lines = std::mem::take(case);
            self.cases = lines.into_iter().map(|line| vec![line]).collect();
        }
    }

    /// How many bytes it may print: `most`, or more for a long one.
    fn most(&self, most: usize) -> usize {
        let title = String::from_utf8_lossy(self.title);
        let long = LONG.iter().find(|(part, _)| title.contains(part));
        let least = match long {
            Some((_, long)) => *long,
            None if title.contains(HALVED) => self.printed() / 2,
            None => 0,
        };
        most.max(least)
    }
}

fn printed(case: &[Line]) -> usize {
    case.iter().map(|line| line.printed).sum()
}

fn sections(script: &[u8]) -> Vec<Section<'_>> {
    let mut sections: Vec<Section> = Vec::new();
    let mut bench = Bench::default();
    let mut starts = Starts::default();
    for text in script.split(|&byte| byte == b'\n') {
        if text.starts_with(b"#") {
            sections.push(Section {
                title: text,
                cases: Vec::new(),
            });
            continue;
        }
        let free = !bench.keeps_a_slip();
        let answer = answer(&mut bench, text);
        let line = Line {
            text,
            printed: answer.len(),
            is_error: answer.starts_with(b"error: "),
        };
        let section = sections.last_mut().expect("a script begins with a comment");
        let cases = &mut section.cases;
        if starts.starts(text, &answer) && free || cases.is_empty() {
            cases.push(Vec::new());
        }
        cases.last_mut().expect("there is one").push(line);
    }
    for section in &mut sections {
        section.part();
    }
    sections
}

fn answer(bench: &mut Bench, line: &[u8]) -> Vec<u8> {
    let mut answer = Vec::new();
    let done = bench.run(line, &mut answer);
    done.expect("memory takes what is printed");
    answer
}

/// Finds the lines that start a case.
#[derive(Default)]
struct Starts {
    /// Since the last start something was opened or made, and nothing else done.
    opening: bool,
}

impl Starts {
    /// A case starts with a line that needs nothing from before, or with an
    /// opening or making. Both ends opened, or both media made, start one case.
    fn starts(&mut self, line: &[u8], answer: &[u8]) -> bool {
        let needless = [&b"packet"[..], b"settings"];
        let alone = needless.iter().any(|word| line.starts_with(word));
        let opened = answer.starts_with(b"opened") || answer.starts_with(b"made");
        let starts = alone || opened && !self.opening;
        self.opening = opened || self.opening && answer.starts_with(b"state=");
        starts
    }
}

/// The script in the making.
#[derive(Default)]
struct Thinned {
    text: Vec<u8>,
    bench: Bench,
}

impl Thinned {
    /// Adds an example as it is.
    fn example(&mut self, script: &[u8]) {
        let lines = script
            .strip_suffix(b"\n")
            .expect("an example ends with a line end");
        for line in lines.split(|&byte| byte == b'\n') {
            self.line(line);
        }
        self.give_back();
    }

    /// Adds a script in sections of about `most` printed bytes.
    fn script(&mut self, script: &[u8], most: usize) {
        for section in sections(script) {
            self.section(&section, most);
        }
    }

    /// Adds a section that prints about `most` bytes: cases from all over it,
    /// cut short where they are too long.
    fn section(&mut self, section: &Section, most: usize) {
        let most = section.most(most);
        let whole = section.printed();
        self.line(section.title);
        let mut passed = 0;
        let mut kept = 0;
        for case in &section.cases {
            passed += printed(case);
            if whole > most && kept * whole >= most * passed {
                continue;
            }
            for line in case {
                if whole <= most || kept < most {
                    self.line(line.text);
                    kept += line.printed;
                }
            }
        }
        if whole > most {
            self.give_back();
        }
    }

    fn line(&mut self, line: &[u8]) {
        self.text.extend_from_slice(line);
        self.text.push(b'\n');
        answer(&mut self.bench, line);
    }

    /// Gives back the slips that a thinned section left, so that the next one can
    /// open what it wants.
    fn give_back(&mut self) {
        for line in ["end a give", "end b give", "end a give b", "end b give a"] {
            if self.bench.keeps_a_slip() {
                self.line(line.as_bytes());
            }
        }
    }
}

#[cfg(test)]
mod tests {
    use super::*;
    use crate::generate::stations::tests as stations;
    use crate::generate::tests::answers;
    use crate::run::run;
    use std::collections::BTreeSet;

    #[test]
    fn every_subject_has_its_lines() {
        let script = workbench();
        assert_eq!(script, workbench());
        assert!(script.ends_with(b"\nend b state"));
        let answers = answers(&script);
        let count = |words: &[&[u8]]| {
            let first = |line: &[u8]| {
                let mut parts = line.split(|&byte| byte == b' ');
                parts.find(|part| !part.is_empty()).map(<[u8]>::to_vec)
            };
            let lines = answers.iter().filter_map(|(line, _)| first(line));
            lines.filter(|word| words.contains(&&word[..])).count()
        };
        assert!(count(&[b"packet"]) >= 1_200);
        assert!(count(&[b"medium"]) >= 5_000);
        assert!(count(&[b"settings", b"end"]) >= 4_000);
        assert!(count(&[b"line"]) >= 15_000);
        let printed: usize = answers.iter().map(|(_, answer)| answer.len() + 1).sum();
        assert!(printed < 1_000_000, "{printed}");
    }

    /// The gate runs the program on the whole sections too, of which the script has a part.
    #[test]
    fn whole_sections_have_their_thousands_of_lines() {
        let begins = |line: &[u8], words: &[&[u8]]| {
            let mut parts = line.split(|&byte| byte == b' ');
            let first = parts.find(|part| !part.is_empty());
            first.is_some_and(|first| words.contains(&first))
        };
        let count = |script: &[u8], words: &[&[u8]]| {
            let answers = answers(script);
            let lines = answers.iter().filter(|(line, _)| begins(line, words));
            let errors = lines
                .clone()
                .filter(|(_, said)| said.starts_with("error: "));
            (lines.count(), errors.count())
        };
        assert!(count(&packets(), &[b"packet"]).0 >= 2_000);
        assert!(count(&media(), &[b"medium"]).0 >= 5_000);
        let (lines, errors) = count(&stations(), &[b"settings", b"end"]);
        assert!(lines - errors >= 10_000, "{lines} lines, {errors} errors");
        let calls = stations::calls(&stations());
        assert!(stations::refused_and_unchanged(&calls) > 500);
    }

    #[test]
    fn the_examples_are_run_and_print_what_they_should() {
        let script = workbench();
        assert!(script.starts_with(PACKETS_EXAMPLE));
        let mut output = Vec::new();
        run(&script[..], &mut output).unwrap();
        let occurs =
            |text: &[u8], part: &[u8]| text.windows(part.len()).any(|window| window == part);
        for (example, answers) in [
            (
                PACKETS_EXAMPLE,
                &include_bytes!("../../../examples/packets.out")[..],
            ),
            (NOISE_EXAMPLE, include_bytes!("../../../examples/noise.out")),
            (
                STATION_EXAMPLE,
                include_bytes!("../../../examples/station.out"),
            ),
            (LINE_EXAMPLE, include_bytes!("../../../examples/line.out")),
        ] {
            assert!(occurs(&script, example));
            assert!(occurs(&output, answers));
        }
    }

    #[test]
    fn settings_and_ends_have_thousands_of_lines_without_an_error() {
        let carried_out = |(line, answer): &&(Vec<u8>, String)| {
            let first = line
                .split(|&byte| byte == b' ')
                .find(|word| !word.is_empty());
            !answer.starts_with("error: ") && (first == Some(b"settings") || first == Some(b"end"))
        };
        let count = answers(&workbench()).iter().filter(carried_out).count();
        assert!(count >= 3_500, "{count}");
    }

    #[test]
    fn a_message_is_given_up_from_waiting_with_none_behind() {
        let calls = stations::calls(&workbench());
        for limit in ["2", "4"] {
            let given_up = |call: &&stations::Call| {
                call.call == "timeout"
                    && call.before("state") == "Waiting"
                    && call.before("M") == limit
                    && call.before("attempts") == limit
                    && call.before("sending") == "1"
                    && call.answer.ends_with(" outcomes=0,1,0")
                    && call.after.starts_with("state=Off ")
            };
            assert!(calls.iter().any(|call| given_up(&call)), "{limit}");
        }
    }

    #[test]
    fn every_name_is_used_before_it_is_made_or_opened() {
        let answers = answers(&workbench());
        for (line, error) in [
            ("medium m take", "error: no medium of that name is made"),
            ("medium n take", "error: no medium of that name is made"),
            ("end a take", "error: no end of that name is open"),
            ("end b take", "error: no end of that name is open"),
            ("line arrive west", "error: no line is open"),
        ] {
            let told = |(command, answer): &(Vec<u8>, String)| {
                command == line.as_bytes() && answer == error
            };
            assert!(answers.iter().any(told), "{line}");
        }
    }

    #[test]
    fn limits_far_away_are_reached() {
        let answers = answers(&workbench());
        let occurs = |wanted: &str| answers.iter().any(|(_, answer)| answer.starts_with(wanted));
        assert!(occurs("4096"));
        assert!(occurs("state=Off number=1 attempts=255 "));
        assert!(occurs("state=Ready number=1 attempts=255 "));
    }

    #[test]
    fn every_refusal_is_answered() {
        let answers = answers(&workbench());
        let told: BTreeSet<&str> = answers.iter().map(|(_, answer)| &answer[..]).collect();
        for number in (1..=27).chain([29]) {
            assert!(told.contains(&format!("refused {number}")[..]), "{number}");
        }
    }

    #[test]
    fn every_error_but_want_of_memory_is_answered() {
        let answers = answers(&workbench());
        let texts = answers.iter().map(|(_, answer)| &answer[..]);
        let errors: BTreeSet<&str> = texts.filter(|text| text.starts_with("error: ")).collect();
        assert_eq!(errors.len(), 17, "{errors:?}");
    }

    #[test]
    fn every_cell_of_both_stations_occurs() {
        let calls = stations::calls(&workbench());
        stations::primary_cells(&calls, 1);
        stations::timeouts_around_the_limit(&calls, 1);
        stations::refused_in_every_state(&calls);
        assert!(stations::refused_and_unchanged(&calls) > 300);

        let cells = stations::secondary_cells(&calls);
        for last in ["R", "A", "B"] {
            for letter in *b"E01" {
                for [is_free, is_out] in
                    [[true, false], [true, true], [false, false], [false, true]]
                {
                    let cell = |key: &&(String, u8, usize, bool)| {
                        let (before, command, free, out) = key;
                        before == last
                            && *command == letter
                            && (*free > 0) == is_free
                            && *out == is_out
                    };
                    // After RESET nothing is held, and R is at least 1.
                    let possible = last != "R" || is_free && !is_out;
                    assert_eq!(cells.keys().any(|key| cell(&key)), possible);
                }
            }
        }
    }

    #[test]
    fn a_period_out_of_range_keeps_the_attempt_limit_in_every_state() {
        let calls = stations::calls(&workbench());
        let mut states = BTreeSet::new();
        for call in calls.iter().filter(|call| call.call == "settings") {
            let frame = Some(&call.argument[..]).filter(|frame| frame.len() == 18);
            let number = |digits| u16::from_str_radix(frame?.get(digits)?, 16).ok();
            let limit = number(14..16).map(|limit| limit.to_string());
            if number(6..10) == Some(200)
                && number(10..14) == Some(6001)
                && limit.is_some_and(|limit| limit != call.before("M"))
            {
                assert_eq!(call.answer, "refused 11");
                assert_eq!(call.before, call.after);
                states.insert(call.before("state"));
            }
        }
        assert_eq!(states.len(), 4);
    }
}
