//! Runs a script: one answer for each command line.

use crate::end::command::{end, Ends};
use crate::line::command::line;
use crate::line::Line;
use crate::medium::command::{medium, Media};
use crate::packet::command::packet;
use crate::script::{Error, Lines, Stop, Words};
use crate::settings::command::settings;
use std::io::{self, BufRead, Write};

/// Answers every line of the input.
pub fn run(input: impl BufRead, output: impl Write) -> io::Result<()> {
    let mut bench = Bench::default();
    let done = bench.run(input, output);
    bench.ends.close();
    done
}

/// What is kept from line to line.
#[derive(Default)]
pub struct Bench {
    ends: Ends,
    media: Media,
    line: Option<Line>,
}

impl Bench {
    /// Whether a slip is kept for one of the ends.
    pub fn keeps_a_slip(&self) -> bool {
        self.ends.keep_a_slip()
    }

    /// The line that is open.
    pub fn line(&self) -> Option<&Line> {
        self.line.as_ref()
    }

    /// Answers every line of the input, as they follow on those before.
    pub fn run(&mut self, input: impl BufRead, mut output: impl Write) -> io::Result<()> {
        let mut lines = Lines::new(input);
        while let Some(line) = lines.next_line()? {
            let done = line
                .map_err(Stop::from)
                .and_then(|line| self.command(line, &mut output));
            match done {
                Ok(()) => {}
                Err(Stop::Refused(refusal)) => writeln!(output, "refused {}", refusal.number())?,
                Err(Stop::Error(error)) => writeln!(output, "error: {error}")?,
                Err(Stop::Output(error)) => return Err(error),
            }
        }
        output.flush()
    }

    /// Carries out one line and prints its answer.
    fn command(&mut self, text: &[u8], output: &mut impl Write) -> Result<(), Stop> {
        let mut words = Words::new(text);
        match words.due()? {
            b"packet" => packet(&mut words, output),
            b"settings" => settings(&mut words, output),
            b"end" => end(&mut self.ends, &mut words, output),
            b"medium" => medium(&mut self.media, &mut words, output),
            b"line" => line(&mut self.line, &mut words, output),
            _ => Err(Error::UnknownCommand.into()),
        }
    }
}

#[cfg(test)]
mod tests {
    use super::*;

    /// The answers to a script.
    fn answer(script: &[u8]) -> String {
        let mut output = Vec::new();
        run(script, &mut output).unwrap();
        String::from_utf8(output).unwrap()
    }

    /// Scripts with their answers, line by line.
    fn session(lines: &[(&str, &str)]) {
        let script: String = lines.iter().map(|(line, _)| format!("{line}\n")).collect();
        let answers = answer(script.as_bytes());
        assert_eq!(answers.lines().count(), lines.len());
        for ((line, expected), answer) in lines.iter().zip(answers.lines()) {
            assert_eq!(answer, *expected, "{line}");
        }
    }

    #[test]
    fn packets_are_read_and_written() {
        let enq = "letter=E place=2 length=0 field=-\n";
        assert_eq!(answer(b"packet read sum 024503C8"), enq);
        assert_eq!(answer(b" packet  read xor   024503c6  \n"), enq);
        assert_eq!(answer(b"packet read sum '\x02E\x03\xC8"), enq);
        let ok = "letter=0 place=2 length=2 field=4F4B\n";
        assert_eq!(answer(b"packet read sum 02304F4B03CD"), ok);
        let ok = "length=6 burst=02304F4B03CD\n";
        assert_eq!(answer(b"packet write sum 30 4f4B"), ok);
        assert_eq!(answer(b"packet write sum 30 'OK"), ok);
        assert_eq!(answer(b"packet write sum 30 4f4B 6"), ok);
        assert_eq!(answer(b"packet write sum 30 4f4B 5"), "refused 29\n");
        for size in ["65536", "65537", "18446744073709551616", &"9".repeat(100)] {
            let line = format!("packet write sum 30 4f4B {size}");
            assert_eq!(answer(line.as_bytes()), ok);
        }
        let spaces = "length=6 burst=02304B2003";
        assert!(answer(b"packet write sum 30 'K ").starts_with(spaces));
        assert_eq!(
            answer(b"packet write xor 45 '"),
            "length=4 burst=024503C6\n"
        );
        assert_eq!(answer(b"packet write xor 45 ' 4"), "refused 4\n");
    }

    #[test]
    fn the_first_wrong_word_decides() {
        let cases: [(&[u8], &str); 16] = [
            (b"pack", "unknown command"),
            (b"packet", "too few words"),
            (b"packet reed", "unknown command"),
            (b"packet read ", "too few words"),
            (b"packet read crc x y", "KIND is sum or xor"),
            (b"packet read sum", "too few words"),
            (
                b"packet read sum 0 x",
                "BYTES are pairs of hexadecimal digits",
            ),
            (b"packet read sum 00 x", "too many words"),
            (b"packet write sum", "too few words"),
            (
                b"packet write sum E x y z",
                "LETTER is one byte in hexadecimal",
            ),
            (b"packet write sum 45", "too few words"),
            (
                b"packet write sum 45 x",
                "BYTES are pairs of hexadecimal digits",
            ),
            (
                b"packet write sum 45 - 65537x x",
                "SIZE is a decimal number",
            ),
            (b"packet write sum 45 - 'OK x", "SIZE is a decimal number"),
            (b"packet write sum 45 - 104 x", "too many words"),
            (b"packet write sum 45 - 65537 x", "too many words"),
        ];
        for (line, text) in cases {
            assert_eq!(answer(line), format!("error: {text}\n"));
        }
    }

    #[test]
    fn media_carry_bursts() {
        session(&[
            ("medium m count", "error: no medium of that name is made"),
            ("medium m make queue:2", "made"),
            ("medium n take", "error: no medium of that name is made"),
            ("medium m take", "length=0 burst=-"),
            ("medium m holds", "commands=false answers=false"),
            ("medium m offer 024503c8", "whole"),
            ("medium m offer '\u{2}R", "whole"),
            ("medium m offer 00", "spoilt"),
            ("medium m offer -", "spoilt"),
            ("medium m count", "2"),
            ("medium m holds", "commands=true answers=true"),
            ("medium m take", "length=4 burst=024503C8"),
            ("medium m holds", "commands=false answers=true"),
            ("medium n make lossy:1/noisy:4:1", "made"),
            ("medium n offer 0045", "spoilt"),
            ("medium n count", "0"),
            ("medium n offer 0045", "spoilt"),
            ("medium n offer 0045", "whole"),
            ("medium n take", "length=2 burst=0145"),
            ("medium m count", "1"),
            ("medium m make packed:5", "made"),
            ("medium m count", "0"),
            ("medium m offer 00000000", "spoilt"),
            ("medium m offer 000000", "whole"),
        ]);
    }

    #[test]
    fn the_first_wrong_word_after_medium_decides() {
        let bytes = "error: BYTES are pairs of hexadecimal digits";
        let spec = "error: SPEC is queue:PLACES, packed:BYTES or noisy:PLACES:PATTERN, \
                    or one of these after lossy:PATTERN/";
        session(&[
            ("medium", "error: too few words"),
            ("medium x", "error: NAME is m or n"),
            ("medium x make", "error: NAME is m or n"),
            ("medium m", "error: too few words"),
            ("medium m mend x", "error: unknown command"),
            ("medium m make", "error: too few words"),
            ("medium m make queue:1 x", "error: too many words"),
            ("medium m make queue x", spec),
            ("medium m offer", "error: too few words"),
            ("medium m offer 0", bytes),
            ("medium m offer 00 x", "error: too many words"),
            ("medium m offer 00", "error: no medium of that name is made"),
            ("medium m take x", "error: too many words"),
            ("medium m count x", "error: too many words"),
            ("medium m holds x", "error: too many words"),
            ("medium m holds", "error: no medium of that name is made"),
        ]);
    }

    #[test]
    fn settings_are_read() {
        let frame = "01000600C8012C0308";
        let bytes = "error: BYTES are pairs of hexadecimal digits";
        session(&[
            (
                &format!("settings read {frame}"),
                "enq=200 data=300 M=3 R=8",
            ),
            ("settings read -", "refused 8"),
            ("settings read '123456789", "refused 9"),
            ("settings read 01000600C817710308", "refused 11"),
            ("settings", "error: too few words"),
            ("settings write", "error: unknown command"),
            ("settings read", "error: too few words"),
            ("settings read 0", bytes),
            (&format!("settings read {frame} x"), "error: too many words"),
        ]);
    }

    #[test]
    fn an_end_sends_and_receives() {
        let opened = "opened sent=E burst=024503C8 timer=enq:200 outcomes=0,0,0";
        let nothing = "sent=none burst=- timer=none outcomes=0,0,0";
        session(&[
            ("end a state", "error: no end of that name is open"),
            (
                "end a open 5 sum 01000600C8012C030",
                "error: BYTES are pairs of hexadecimal digits",
            ),
            ("end a open 5 sum 01000600C8012C0309", "refused 13"),
            ("end a state", "error: no end of that name is open"),
            ("end a open 005 sum 01000600C8012C0308", opened),
            (
                "end a state",
                "state=Off number=1 attempts=1 credit=9 enq=200 data=300 M=3 R=8 last=R held=0 \
                 out=none sending=0 outcomes=0",
            ),
            ("end a submit 'OK", "refused 18"),
            ("end a arrive 025203D5", nothing),
            (
                "end a submit 'OK",
                "sent=0 burst=02304F4B03CD timer=data:300 outcomes=0,0,0",
            ),
            ("end a settings 01000600C8012C0308", "refused 14"),
            (
                "end a timeout",
                "sent=E burst=024503C8 timer=enq:200 outcomes=0,0,0",
            ),
            (
                "end a arrive 02413703FB",
                "sent=none burst=- timer=none outcomes=1,0,0",
            ),
            (
                "end a state",
                "state=Ready number=0 attempts=0 credit=7 enq=200 data=300 M=3 R=8 last=R held=0 \
                 out=none sending=0 outcomes=1",
            ),
            ("end a collect", "outcome=1"),
            ("end a collect", "refused 20"),
            (
                "end a arrive 02304F4B03CD",
                "sent=A burst=02413703FB timer=none outcomes=0,0,0",
            ),
            ("end a take 95", "refused 21"),
            ("end a take", "length=2 message=4F4B slip=5,0"),
            ("end a take 096", "refused 22"),
            ("end a open 5 sum 00", "error: a slip is kept"),
            ("end b give a", "error: no end of that name is open"),
            (
                "end a settings 010006000A1770140",
                "error: BYTES are pairs of hexadecimal digits",
            ),
            ("end a settings 010006000A17701401", "set"),
            (
                "end a state",
                "state=Ready number=0 attempts=0 credit=7 enq=10 data=6000 M=20 R=1 last=A \
                 held=1 out=0 sending=0 outcomes=0",
            ),
            ("end a arrive 024503C8", nothing),
            ("end a give b", "error: no slip is kept"),
            ("end a give", "given back"),
            ("end a give", "error: no slip is kept"),
            ("end a take", "refused 23"),
            (
                "end a arrive 024503C8",
                "sent=A burst=02413103F5 timer=none outcomes=0,0,0",
            ),
            ("end a arrive 024503C9", "refused 7"),
        ]);
    }

    #[test]
    fn slips_go_by_line_and_buffer() {
        let frame = "01000600C8012C0308";
        let opened = "opened sent=E burst=024503C8 timer=enq:200 outcomes=0,0,0";
        let stored = "sent=A burst=02413703FB timer=none outcomes=0,0,0";
        session(&[
            (&format!("end a open 5 sum {frame}"), opened),
            (&format!("end b open 6 sum {frame}"), opened),
            ("end a arrive 02304F4B03CD", stored),
            ("end a take", "length=2 message=4F4B slip=5,0"),
            ("end b give a", "refused 24"),
            (&format!("end b open 5 sum {frame}"), opened),
            ("end b give a", "refused 24"),
            ("end b arrive 02304F4B03CD", stored),
            ("end b give a", "refused 24"),
            ("end b take", "length=2 message=4F4B slip=5,0"),
            ("end b give a", "given back"),
            ("end a take", "refused 22"),
            ("end a take 0", "refused 21"),
            ("end a take 4294967296", "refused 22"),
            ("end a give", "error: no slip is kept"),
            ("end a open 5 sum -", "error: a slip is kept"),
            ("end b take", "error: a slip is kept"),
            ("end b take 0", "error: a slip is kept"),
            ("end b open 5 sum -", "error: a slip is kept"),
            ("end b give", "refused 24"),
            ("end a give b", "given back"),
            ("end a take", "refused 23"),
            ("end b take", "refused 23"),
            (&format!("end a open 6 sum {frame}"), opened),
        ]);
    }

    #[test]
    fn the_first_wrong_word_after_end_decides() {
        let no_end = "error: no end of that name is open";
        session(&[
            ("end", "error: too few words"),
            ("end m", "error: NAME is a or b"),
            ("end m state", "error: NAME is a or b"),
            ("end a", "error: too few words"),
            ("end a status", "error: unknown command"),
            ("end a open", "error: too few words"),
            (
                "end a open 256 crc",
                "error: LINE is a number from 0 to 255",
            ),
            ("end a open 255", "error: too few words"),
            ("end a open 255 crc", "error: KIND is sum or xor"),
            ("end a open 255 xor", "error: too few words"),
            ("end a open 255 xor - x", "error: too many words"),
            ("end a open 255 xor -", "refused 8"),
            ("end a submit", "error: too few words"),
            (
                "end a submit OK",
                "error: BYTES are pairs of hexadecimal digits",
            ),
            ("end a submit '", no_end),
            ("end a timeout x", "error: too many words"),
            ("end a timeout", no_end),
            ("end a arrive - -", "error: too many words"),
            ("end a take 65537x", "error: SIZE is a decimal number"),
            ("end a take 96 x", "error: too many words"),
            ("end a take", no_end),
            ("end a give c", "error: NAME is a or b"),
            ("end a give b x", "error: too many words"),
            ("end a give b", no_end),
            ("end a collect x", "error: too many words"),
            ("end a settings", "error: too few words"),
            ("end a settings -", no_end),
            ("end a state x", "error: too many words"),
        ]);
    }

    #[test]
    fn a_line_carries_a_message() {
        let frame = "01000600C8012C0308";
        let enq = "sent=E burst=024503C8 offer=whole timer=enq:200 outcomes=0,0,0";
        let reset = "sent=R burst=025203D5 offer=whole timer=none outcomes=0,0,0";
        let nothing = "sent=none burst=- offer=none timer=none outcomes=0,0,0";
        let open = format!("line open sum {frame} {frame} queue:2 lossy:0/packed:40");
        session(&[
            ("line state west", "error: no line is open"),
            (&open, &format!("opened west {enq} east {enq}")),
            ("line arrive 1", reset),
            ("line arrive west", reset),
            ("line timeout west", "refused 27"),
            ("line arrive west", nothing),
            ("line arrive east", nothing),
            ("line arrive east", "refused 26"),
            (
                "line submit west 'OK",
                "sent=0 burst=02304F4B03CD offer=whole timer=data:300 outcomes=0,0,0",
            ),
            (
                "line arrive east",
                "sent=A burst=02413703FB offer=whole timer=none outcomes=0,0,0",
            ),
            (
                "line arrive west",
                "sent=none burst=- offer=none timer=none outcomes=1,0,0",
            ),
            ("line collect west", "outcome=1"),
            ("line collect west", "refused 20"),
            ("line read east 95", "refused 21"),
            ("line read east", "length=2 message=4F4B"),
            ("line read east", "refused 23"),
            ("line settings west 01000600C8012C0309", "refused 13"),
            ("line settings west 01000600C8012C0108", "set"),
            (
                "line state 0",
                "state=Ready number=0 attempts=0 credit=7 enq=200 data=300 M=1 R=8 last=R held=0 \
                 out=none sending=0 outcomes=0",
            ),
            ("line read 2 7", "refused 25"),
            (
                "line open sum x",
                "error: BYTES are pairs of hexadecimal digits",
            ),
            ("line collect west", "refused 20"),
            (&open.replace("0308 0100", "0308 0200"), "refused 9"),
            ("line collect 2", "error: no line is open"),
        ]);
    }

    #[test]
    fn the_first_wrong_word_after_line_decides() {
        let side = "error: a side is west, east or a number from 0 to 255";
        let bytes = "error: BYTES are pairs of hexadecimal digits";
        session(&[
            ("line", "error: too few words"),
            ("line west", "error: unknown command"),
            ("line open", "error: too few words"),
            ("line open crc -", "error: KIND is sum or xor"),
            ("line open sum 'OK - queue:1 queue:1", bytes),
            ("line open sum - - queue:1", "error: too few words"),
            (
                "line open sum - - queue:1 queue:1 x",
                "error: too many words",
            ),
            ("line open sum - - queue:1 queue:1", "refused 8"),
            ("line submit", "error: too few words"),
            ("line submit North x", side),
            ("line submit 256", side),
            ("line submit 255", "error: too few words"),
            ("line submit west 0 x", bytes),
            ("line read west x x", "error: SIZE is a decimal number"),
            ("line read west 96 x", "error: too many words"),
            ("line timeout west x", "error: too many words"),
            ("line timeout 2", "error: no line is open"),
            ("line state", "error: too few words"),
            ("line state east x", "error: too many words"),
        ]);
    }
}
