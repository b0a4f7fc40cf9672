//! Scripts: lines, words, arguments and errors (WORKBENCH.md).

use crate::medium::{Room, Spec};
use crate::packet::Kind;
use crate::refusal::Refusal;
use std::borrow::Cow;
use std::fmt;
use std::io::{self, BufRead};

/// Why a line is no command.
#[derive(Clone, Copy, Debug, PartialEq, Eq)]
pub enum Error {
    UnknownCommand,
    TooFewWords,
    Kind,
    Letter,
    Bytes,
    Size,
    EndName,
    Line,
    MediumName,
    Spec,
    TooManyWords,
    NoEnd,
    NoSlip,
    SlipKept,
    NoMedium,
    Side,
    NoLine,
    OutOfMemory,
}

impl fmt::Display for Error {
    fn fmt(&self, out: &mut fmt::Formatter) -> fmt::Result {
        out.write_str(match self {
            Error::UnknownCommand => "unknown command",
            Error::TooFewWords => "too few words",
            Error::Kind => "KIND is sum or xor",
            Error::Letter => "LETTER is one byte in hexadecimal",
            Error::Bytes => "BYTES are pairs of hexadecimal digits",
            Error::Size => "SIZE is a decimal number",
            Error::EndName => "NAME is a or b",
            Error::Line => "LINE is a number from 0 to 255",
            Error::MediumName => "NAME is m or n",
            Error::Spec => {
                "SPEC is queue:PLACES, packed:BYTES or noisy:PLACES:PATTERN, \
                 or one of these after lossy:PATTERN/"
            }
            Error::TooManyWords => "too many words",
            Error::NoEnd => "no end of that name is open",
            Error::NoSlip => "no slip is kept",
            Error::SlipKept => "a slip is kept",
            Error::NoMedium => "no medium of that name is made",
            Error::Side => "a side is west, east or a number from 0 to 255",
            Error::NoLine => "no line is open",
            Error::OutOfMemory => "out of memory",
        })
    }
}

/// What keeps a line from its answer.
#[derive(Debug)]
pub enum Stop {
    Refused(Refusal),
    Error(Error),
    Output(io::Error),
}

impl From<Refusal> for Stop {
    fn from(refusal: Refusal) -> Self {
        Stop::Refused(refusal)
    }
}

impl From<Error> for Stop {
    fn from(error: Error) -> Self {
        Stop::Error(error)
    }
}

impl From<io::Error> for Stop {
    fn from(error: io::Error) -> Self {
        Stop::Output(error)
    }
}

/// The lines of a script that are answered.
pub struct Lines<R> {
    input: R,
    line: Vec<u8>,
}

impl<R: BufRead> Lines<R> {
    pub fn new(input: R) -> Self {
        Lines {
            input,
            line: Vec::new(),
        }
    }

    /// The next line that is neither blank nor a comment, without the spaces
    /// before its first word; `None` at the input's end.
    pub fn next_line(&mut self) -> io::Result<Option<Result<&[u8], Error>>> {
        loop {
            let Some(kept) = self.take_line()? else {
                return Ok(None);
            };
            if kept.is_err() {
                return Ok(Some(Err(Error::OutOfMemory)));
            }
            if !self.line.is_empty() {
                return Ok(Some(Ok(&self.line)));
            }
        }
    }

    /// Takes a line off the input, `None` at its end, and keeps what is
    /// answered of it: of blank lines and comments nothing.
    fn take_line(&mut self) -> io::Result<Option<Result<(), Error>>> {
        self.line.clear();
        let mut kept = Ok(());
        let mut first = None;
        loop {
            let chunk = match self.input.fill_buf() {
                Err(error) if error.kind() == io::ErrorKind::Interrupted => continue,
                chunk => chunk?,
            };
            let Some(&byte) = chunk.first() else {
                return Ok(first.map(|_| kept));
            };
            let comment = *first.get_or_insert(byte) == b'#';
            let end = chunk.iter().position(|&byte| byte == b'\n');
            let part = &chunk[..end.unwrap_or(chunk.len())];
            let taken = part.len() + usize::from(end.is_some());
            if !comment && kept.is_ok() {
                let part = if self.line.is_empty() {
                    skip_spaces(part)
                } else {
                    part
                };
                kept = append(&mut self.line, part);
            }
            self.input.consume(taken);
            if end.is_some() {
                return Ok(Some(kept));
            }
        }
    }
}

/// Appends the bytes, or empties the vector where there is no memory for them.
fn append(bytes: &mut Vec<u8>, more: &[u8]) -> Result<(), Error> {
    if bytes.try_reserve(more.len()).is_err() {
        *bytes = Vec::new();
        return Err(Error::OutOfMemory);
    }
    bytes.extend_from_slice(more);
    Ok(())
}

fn skip_spaces(line: &[u8]) -> &[u8] {
    let spaces = line.iter().take_while(|&&byte| byte == b' ').count();
    &line[spaces..]
}

/// The words of a line that are still to be judged.
pub struct Words<'a> {
    rest: &'a [u8],
}

impl<'a> Words<'a> {
    pub fn new(line: &'a [u8]) -> Self {
        Words {
            rest: skip_spaces(line),
        }
    }

    fn next_word(&mut self) -> Option<&'a [u8]> {
        let end = self.rest.iter().position(|&byte| byte == b' ');
        let (word, rest) = self.rest.split_at(end.unwrap_or(self.rest.len()));
        self.rest = skip_spaces(rest);
        Some(word).filter(|word| !word.is_empty())
    }

    /// The next word, which must be there.
    pub fn due(&mut self) -> Result<&'a [u8], Error> {
        self.next_word().ok_or(Error::TooFewWords)
    }

    /// KIND.
    pub fn kind(&mut self) -> Result<Kind, Error> {
        let word = self.due()?;
        let mut kinds = Kind::ALL.into_iter();
        kinds
            .find(|kind| kind.name().as_bytes() == word)
            .ok_or(Error::Kind)
    }

    /// LETTER.
    pub fn letter(&mut self) -> Result<u8, Error> {
        match self.due()? {
            &[high, low] => pair(high, low).ok_or(Error::Letter),
            _ => Err(Error::Letter),
        }
    }

    /// BYTES that another argument follows: always hexadecimal.
    pub fn bytes(&mut self) -> Result<Vec<u8>, Error> {
        bytes(self.due()?)
    }

    /// BYTES as a last argument: text after an apostrophe takes the whole line.
    pub fn last_bytes(&mut self) -> Result<Cow<'a, [u8]>, Error> {
        if let Some(text) = self.rest.strip_prefix(b"'") {
            self.rest = &[];
            return Ok(Cow::Borrowed(text));
        }
        bytes(self.due()?).map(Cow::Owned)
    }

    /// SIZE, which may be left out. A larger one than 65536 counts as 65536.
    pub fn size(&mut self) -> Result<Option<usize>, Error> {
        let size = |word| number_up_to(word, 65536).ok_or(Error::Size);
        self.next_word().map(size).transpose()
    }

    /// The NAME of an end, as a number from 0.
    pub fn end_name(&mut self) -> Result<usize, Error> {
        end_name(self.due()?)
    }

    /// FROM, which may be left out.
    pub fn from(&mut self) -> Result<Option<usize>, Error> {
        self.next_word().map(end_name).transpose()
    }

    /// LINE.
    pub fn line(&mut self) -> Result<u8, Error> {
        byte(self.due()?).ok_or(Error::Line)
    }

    /// SIDE, as its number.
    pub fn side(&mut self) -> Result<u8, Error> {
        match self.due()? {
            b"west" => Ok(0),
            b"east" => Ok(1),
            word => byte(word).ok_or(Error::Side),
        }
    }

    /// The NAME of a medium, as a number from 0.
    pub fn medium_name(&mut self) -> Result<usize, Error> {
        match self.due()? {
            b"m" => Ok(0),
            b"n" => Ok(1),
            _ => Err(Error::MediumName),
        }
    }

    /// SPEC.
    pub fn spec(&mut self) -> Result<Spec, Error> {
        spec(self.due()?).ok_or(Error::Spec)
    }

    /// Makes sure that no word is left over.
    pub fn end(&mut self) -> Result<(), Error> {
        match self.next_word() {
            Some(_) => Err(Error::TooManyWords),
            None => Ok(()),
        }
    }
}

fn bytes(word: &[u8]) -> Result<Vec<u8>, Error> {
    if word == b"-" {
        return Ok(Vec::new());
    }
    // Digits are judged before memory is asked for.
    let pairs = word.chunks_exact(2);
    if !pairs.remainder().is_empty() || !word.iter().all(u8::is_ascii_hexdigit) {
        return Err(Error::Bytes);
    }
    let mut bytes = Vec::new();
    bytes
        .try_reserve_exact(pairs.len())
        .map_err(|_| Error::OutOfMemory)?;
    bytes.extend(pairs.filter_map(|digits| pair(digits[0], digits[1])));
    Ok(bytes)
}

/// The byte of a pair of hexadecimal digits.
fn pair(high: u8, low: u8) -> Option<u8> {
    let digit = |digit| char::from(digit).to_digit(16);
    u8::try_from(digit(high)? * 16 + digit(low)?).ok()
}

fn end_name(word: &[u8]) -> Result<usize, Error> {
    match word {
        b"a" => Ok(0),
        b"b" => Ok(1),
        _ => Err(Error::EndName),
    }
}

/// One or more decimal digits, of a number from 0 to `most`.
fn number(word: &[u8], most: usize) -> Option<usize> {
    number_up_to(word, most + 1).filter(|&number| number <= most)
}

/// One or more decimal digits, of a number from 0 to 255.
fn byte(word: &[u8]) -> Option<u8> {
    number(word, 255).and_then(|number| u8::try_from(number).ok())
}

/// One or more decimal digits: their number, or `most` where it is larger.
fn number_up_to(word: &[u8], most: usize) -> Option<usize> {
    if word.is_empty() || !word.iter().all(u8::is_ascii_digit) {
        return None;
    }
    // A number that grows too large stays so, however many digits follow.
    let digits = word.iter().map(|digit| usize::from(digit - b'0'));
    Some(digits.fold(0, |number, digit| (number * 10 + digit).min(most)))
}

/// PATTERN: one to eight hexadecimal digits.
fn pattern(word: &[u8]) -> Option<u32> {
    if word.is_empty() || word.len() > 8 {
        return None;
    }
    word.iter().try_fold(0, |pattern, &digit| {
        Some(pattern << 4 | char::from(digit).to_digit(16)?)
    })
}

fn spec(word: &[u8]) -> Option<Spec> {
    let (loss, word) = match word.strip_prefix(b"lossy:") {
        Some(rest) => {
            let slash = rest.iter().position(|&byte| byte == b'/')?;
            (Some(pattern(&rest[..slash])?), &rest[slash + 1..])
        }
        None => (None, word),
    };
    let places = |word| number(word, 4096).map(Room::Places);
    let parts: Vec<&[u8]> = word.split(|&byte| byte == b':').collect();
    let (room, noise) = match parts[..] {
        [b"queue", count] => (places(count)?, None),
        [b"packed", count] => (Room::Bytes(number(count, 65536)?), None),
        [b"noisy", count, bits] => (places(count)?, Some(pattern(bits)?)),
        _ => return None,
    };
    Some(Spec { room, noise, loss })
}

/// A place to lend to a call, filled with EE.
pub fn place(size: usize) -> Result<Vec<u8>, Error> {
    let mut place = Vec::new();
    place
        .try_reserve_exact(size)
        .map_err(|_| Error::OutOfMemory)?;
    place.resize(size, 0xEE);
    Ok(place)
}

/// Bytes as they are printed.
pub struct Hexadecimal<'a>(pub &'a [u8]);

impl fmt::Display for Hexadecimal<'_> {
    fn fmt(&self, out: &mut fmt::Formatter) -> fmt::Result {
        if self.0.is_empty() {
            return out.write_str("-");
        }
        self.0.iter().try_for_each(|byte| write!(out, "{byte:02X}"))
    }
}

#[cfg(test)]
mod tests {
    use super::*;

    /// The answered lines of a script, read in chunks of any size.
    fn lines(script: &[u8], chunk: usize) -> Vec<Vec<u8>> {
        let mut lines = Lines::new(io::BufReader::with_capacity(chunk, script));
        let mut all = Vec::new();
        while let Some(line) = lines.next_line().unwrap() {
            all.push(line.unwrap().to_vec());
        }
        all
    }

    #[test]
    fn blank_lines_and_comments_are_left_out() {
        let script = b"\n   \na b \n# c\n#\n  #d\n\r\n   e\0\n\n f";
        for chunk in 1..20 {
            assert_eq!(
                lines(script, chunk),
                [&b"a b "[..], b"#d", b"\r", b"e\0", b"f"]
            );
        }
        assert!(lines(b"", 8).is_empty());
        assert!(lines(b"   ", 2).is_empty());
        assert!(lines(b"a\n#", 2).len() == 1);
    }

    #[test]
    fn only_spaces_part_words() {
        let mut words = Words::new(b"  a\tb   c\r  ");
        assert_eq!(words.next_word(), Some(&b"a\tb"[..]));
        assert_eq!(words.next_word(), Some(&b"c\r"[..]));
        assert_eq!(words.next_word(), None);
        assert_eq!(words.due(), Err(Error::TooFewWords));
        assert_eq!(words.end(), Ok(()));
    }

    #[test]
    fn bytes_are_pairs_or_text() {
        let last = |line: &'static [u8]| Words::new(line).last_bytes();
        assert_eq!(last(b"00fFaB").unwrap(), &b"\x00\xFF\xAB"[..]);
        assert_eq!(last(b"-").unwrap(), &b""[..]);
        assert_eq!(last(b"  '  a 'b  ").unwrap(), &b"  a 'b  "[..]);
        assert_eq!(last(b"'").unwrap(), &b""[..]);
        assert_eq!(last(b"").unwrap_err(), Error::TooFewWords);
        for wrong in [
            &b"0"[..],
            b"0g",
            b"--",
            b"000",
            b"+1",
            b"00'",
            b"0-",
            b"\xFF\xFF",
            b"00\r",
        ] {
            assert_eq!(last(wrong).unwrap_err(), Error::Bytes);
        }
    }

    #[test]
    fn a_letter_is_one_pair() {
        assert_eq!(Words::new(b"4a").letter(), Ok(0x4A));
        for wrong in [&b"4"[..], b"045", b"-", b"'E", b"4G", b"+4", b"45\r"] {
            assert_eq!(Words::new(wrong).letter(), Err(Error::Letter));
        }
    }

    #[test]
    fn a_size_is_a_decimal_number_and_65536_is_enough() {
        assert_eq!(Words::new(b"").size(), Ok(None));
        let sizes = [
            (&b"0"[..], 0),
            (b"007", 7),
            (b"65535", 65535),
            (b"65536", 65536),
            (b"00000065536", 65536),
            (b"65537", 65536),
            (b"4294967296", 65536),
            (b"18446744073709551616", 65536),
            (b"18446744073709551620", 65536),
            (&[b'9'; 100], 65536),
        ];
        for (word, number) in sizes {
            assert_eq!(Words::new(word).size(), Ok(Some(number)));
        }
        let wrong: [&[u8]; 6] = [
            b"65537x",
            b"x65537",
            b"1844674407370955162O",
            b"+1",
            b"-1",
            b"1\t",
        ];
        for word in wrong {
            assert_eq!(Words::new(word).size(), Err(Error::Size));
        }
    }

    #[test]
    fn an_end_has_one_of_two_names() {
        assert_eq!(Words::new(b"a").end_name(), Ok(0));
        assert_eq!(Words::new(b"b").end_name(), Ok(1));
        assert_eq!(Words::new(b"b").from(), Ok(Some(1)));
        assert_eq!(Words::new(b" ").from(), Ok(None));
        for wrong in [&b"A"[..], b"m", b"ab", b"a\r", b"0", b"-", b"'a"] {
            assert_eq!(Words::new(wrong).end_name(), Err(Error::EndName));
            assert_eq!(Words::new(wrong).from(), Err(Error::EndName));
        }
    }

    #[test]
    fn a_line_is_a_number_up_to_255() {
        let lines: [(&[u8], u8); 4] = [(b"0", 0), (b"255", 255), (b"007", 7), (b"000255", 255)];
        for (word, line) in lines {
            assert_eq!(Words::new(word).line(), Ok(line));
        }
        for wrong in [
            &b"256"[..],
            b"1000",
            b"+1",
            b"-1",
            b"-",
            b"1\r",
            b"FF",
            b"'1",
        ] {
            assert_eq!(Words::new(wrong).line(), Err(Error::Line));
        }
        assert_eq!(Words::new(b"").line(), Err(Error::TooFewWords));
    }

    #[test]
    fn a_side_has_a_name_or_a_number() {
        let sides: [(&[u8], u8); 5] = [
            (b"west", 0),
            (b"east", 1),
            (b"1", 1),
            (b"002", 2),
            (b"255", 255),
        ];
        for (word, side) in sides {
            assert_eq!(Words::new(word).side(), Ok(side));
        }
        for wrong in [&b"West"[..], b"wes", b"eastt", b"256", b"-1", b"'west"] {
            assert_eq!(Words::new(wrong).side(), Err(Error::Side));
        }
        assert_eq!(Words::new(b"").side(), Err(Error::TooFewWords));
    }

    #[test]
    fn a_medium_has_one_of_two_names() {
        assert_eq!(Words::new(b"m").medium_name(), Ok(0));
        assert_eq!(Words::new(b"n").medium_name(), Ok(1));
        for wrong in [&b"M"[..], b"a", b"mn", b"m\r", b"0", b"-"] {
            assert_eq!(Words::new(wrong).medium_name(), Err(Error::MediumName));
        }
    }

    #[test]
    fn a_spec_is_one_of_three_kinds_or_lossy_over_one() {
        let plain = |room| Spec {
            room,
            noise: None,
            loss: None,
        };
        let noisy = |places, bits| Spec {
            noise: Some(bits),
            ..plain(Room::Places(places))
        };
        let lossy = |bits, below| Spec {
            loss: Some(bits),
            ..below
        };
        let specs: [(&[u8], Spec); 8] = [
            (b"queue:0", plain(Room::Places(0))),
            (b"queue:004096", plain(Room::Places(4096))),
            (b"packed:65536", plain(Room::Bytes(65536))),
            (b"noisy:2:1", noisy(2, 1)),
            (b"noisy:4096:fFfFfFfF", noisy(4096, !0)),
            (b"lossy:0/queue:1", lossy(0, plain(Room::Places(1)))),
            (b"lossy:0000000a/packed:3", lossy(10, plain(Room::Bytes(3)))),
            (b"lossy:80000001/noisy:4:2", lossy(0x8000_0001, noisy(4, 2))),
        ];
        for (word, spec) in specs {
            assert_eq!(Words::new(word).spec(), Ok(spec));
        }
        for wrong in [
            &b"queue"[..],
            b"queue:",
            b"queue:4097",
            b"queue:+1",
            b"queue:1:",
            b"queue:1:1",
            b":1",
            b"Queue:1",
            b"packed:65537",
            b"packed:1:0",
            b"noisy:1",
            b"noisy:1:",
            b"noisy::1",
            b"noisy:4097:1",
            b"noisy:1:000000001",
            b"noisy:1:G",
            b"noisy:1:+1",
            b"noisy:1:1:1",
            b"lossy:1",
            b"lossy:1/",
            b"lossy:/queue:1",
            b"lossy:100000000/queue:1",
            b"lossy:1/lossy:1/queue:1",
            b"lossy:1/queue:1/",
            b"lossy:1//queue:1",
            b"lossy/queue:1",
            b"'queue:1",
            b"queue:1\r",
        ] {
            assert_eq!(Words::new(wrong).spec(), Err(Error::Spec));
        }
    }

    #[test]
    fn printed_bytes() {
        assert_eq!(Hexadecimal(b"").to_string(), "-");
        assert_eq!(Hexadecimal(b"\x02\xC8").to_string(), "02C8");
    }
}
