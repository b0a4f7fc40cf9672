//! Generated scripts. The same bytes come out on every run and every machine.

mod line;
mod media;
mod packets;
mod stations;
mod words;
mod workbench;

use crate::packet::{assemble, Kind};
use crate::random::Random;
use crate::run::Bench;

pub use line::line;
pub use media::media;
pub use packets::packets;
pub use stations::stations;
pub use workbench::workbench;

const LETTERS: [u8; 6] = *b"E01ABR";

/// Every byte that may stand in a line.
fn line_bytes() -> impl Iterator<Item = u8> {
    (0..=0xFF).filter(|&byte| byte != b'\n')
}

/// How a generated line writes hexadecimal digits.
#[derive(Clone, Copy)]
enum Case {
    Upper,
    Lower,
    Mixed,
}

/// A script in the making. Each of its lines is carried out at once, so that the
/// next ones can go by its answer.
struct Script {
    text: Vec<u8>,
    random: Random,
    bench: Bench,
    /// The answer to the last line that has one, without its line end.
    answer: String,
}

impl Script {
    fn new() -> Self {
        Script {
            text: Vec::new(),
            random: Random::new(),
            bench: Bench::default(),
            answer: String::new(),
        }
    }

    /// The text of all sections, and the line after them without a line end.
    fn of(sections: &[fn(&mut Script)], last: &str) -> Vec<u8> {
        let mut script = Script::new();
        for section in sections {
            section(&mut script);
        }
        script.section("a last line without a line end");
        script.line(last);
        script.text.pop();
        script.text
    }

    /// Begins a section with a comment on what follows.
    fn section(&mut self, what_follows: &str) {
        self.line(format!("# {what_follows}"));
    }

    fn line(&mut self, line: impl AsRef<[u8]>) {
        let line = line.as_ref();
        assert!(!line.contains(&b'\n'), "a line ends at its first 0A");
        self.text.extend_from_slice(line);
        self.text.push(b'\n');
        let mut answer = Vec::new();
        let done = self.bench.run(line, &mut answer);
        done.expect("memory takes what is printed");
        let answer = String::from_utf8(answer).expect("answers are text");
        if let Some(answer) = answer.strip_suffix('\n') {
            self.answer = answer.to_string();
        }
    }

    /// A line of these parts, one after the other.
    fn joined(&mut self, parts: &[&[u8]]) {
        self.line(parts.concat());
    }

    /// A line of these words, parted by single spaces.
    fn words(&mut self, words: &[&[u8]]) {
        self.line(words.join(&b' '));
    }

    /// A line of these words with a random number of spaces around each.
    fn spaced(&mut self, words: &[&[u8]]) {
        let mut line = self.spaces(0);
        for (index, word) in words.iter().enumerate() {
            if index > 0 {
                line.extend(self.spaces(1));
            }
            line.extend_from_slice(word);
        }
        line.extend(self.spaces(0));
        self.line(line);
    }

    fn spaces(&mut self, least: usize) -> Vec<u8> {
        let more = *self.random.pick(&[0, 0, 0, 1, 1, 2, 3, 9]);
        vec![b' '; least + more]
    }

    /// BYTES in hexadecimal.
    fn bytes(&mut self, case: Case, bytes: &[u8]) -> Vec<u8> {
        if bytes.is_empty() {
            return b"-".to_vec();
        }
        let mut digits = bytes
            .iter()
            .flat_map(|byte| format!("{byte:02X}").into_bytes())
            .collect::<Vec<u8>>();
        for digit in &mut digits {
            let lower = match case {
                Case::Upper => false,
                Case::Lower => true,
                Case::Mixed => self.random.below(2) == 0,
            };
            if lower {
                digit.make_ascii_lowercase();
            }
        }
        digits
    }

    fn kind(&mut self) -> Kind {
        *self.random.pick(&Kind::ALL)
    }

    fn byte(&mut self) -> u8 {
        self.random.below(256) as u8
    }

    /// Random bytes from `low` to `high`.
    fn run_of(&mut self, length: usize, low: u8, high: u8) -> Vec<u8> {
        let choices = usize::from(high - low) + 1;
        (0..length)
            .map(|_| low + self.random.below(choices) as u8)
            .collect()
    }

    fn message(&mut self, length: usize) -> Vec<u8> {
        self.run_of(length, 0x20, 0x7E)
    }

    /// A right field of the letter, of at most `longest` bytes.
    fn field(&mut self, letter: u8, longest: usize) -> Vec<u8> {
        match letter {
            b'0' | b'1' => {
                let length = 1 + self.random.below(longest);
                self.message(length)
            }
            b'A' | b'B' => self.run_of(1, 0x30, 0x38),
            _ => Vec::new(),
        }
    }

    /// A random packet with a field of at most `longest` bytes.
    fn packet(&mut self, kind: Kind, longest: usize) -> Vec<u8> {
        let letter = *self.random.pick(&LETTERS);
        let field = self.field(letter, longest);
        assemble(kind, letter, &field)
    }

    /// Another byte than this one.
    fn other(&mut self, byte: u8) -> u8 {
        byte.wrapping_add(1 + self.random.below(255) as u8)
    }
}

#[cfg(test)]
mod tests {
    use crate::run::run;

    /// The command lines of a script, each with its answer.
    pub fn answers(script: &[u8]) -> Vec<(Vec<u8>, String)> {
        let answered =
            |line: &&[u8]| !line.starts_with(b"#") && line.iter().any(|&byte| byte != b' ');
        let lines = script.split(|&byte| byte == b'\n').filter(answered);
        let commands: Vec<&[u8]> = lines.collect();
        let mut output = Vec::new();
        run(script, &mut output).unwrap();
        let output = String::from_utf8(output).unwrap();
        assert!(output.ends_with('\n'));
        assert_eq!(commands.len(), output.lines().count());
        commands
            .into_iter()
            .zip(output.lines())
            .map(|(command, answer)| (command.to_vec(), answer.to_string()))
            .collect()
    }
}
