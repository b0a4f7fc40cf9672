//! Sections on words and lines: what is no command.

use super::{Frame, Script, Seat, NAMES};
use crate::generate::{line_bytes, words};
use crate::packet::Kind;

/// They come first: once a name was opened, it stays so.
pub const BEFORE_OPENING: [fn(&mut Script); 1] = [before_opening];

pub const SECTIONS: [fn(&mut Script); 7] = [
    unknown_commands,
    wrong_arguments,
    too_few_and_too_many_words,
    first_wrong_word,
    foreign_bytes,
    random_lines,
    a_slip_at_the_end,
];

/// Calls with right words.
const CALLS: [&str; 17] = [
    "submit 4F4B",
    "submit 'OK",
    "submit -",
    "timeout",
    "arrive 024503C8",
    "arrive -",
    "take",
    "take 95",
    "take 65536",
    "take 18446744073709551616",
    "give",
    "give a",
    "give b",
    "collect",
    "settings 01000600C8012C0308",
    "settings -",
    "state",
];

fn before_opening(script: &mut Script) {
    script.section("calls before an end is opened");
    for call in CALLS {
        for name in NAMES {
            script.end(name, call);
        }
    }
    script.section("wrong words come before that");
    for call in [
        "submit",
        "submit 0",
        "submit 00 x",
        "timeout x",
        "arrive",
        "arrive x",
        "take x",
        "take 65537x",
        "take 96 x",
        "give x",
        "give a b",
        "collect x",
        "settings",
        "settings 0",
        "settings 00 x",
        "state x",
        "status",
        "open",
        "open x",
    ] {
        script.call("a", call);
    }
    script.section("a refused opening opens nothing");
    for frame in [
        "-",
        "01",
        "02000600C8012C0308",
        "01000700C8012C0308",
        "0100060009012C0308",
        "01000600C817710308",
        "01000600C8012C0008",
        "01000600C8012C0309",
    ] {
        script.call("a", format!("open 1 sum {frame}"));
        script.call("b", format!("open 1 xor {frame}"));
    }
    script.section("the one end open, the other not");
    script.open(Seat::turn(0), Frame::USUAL);
    for call in CALLS {
        script.call("b", call);
        script.call("a", call);
    }
    script.call("a", "arrive 02304F4B03CD");
    script.call("a", "take");
    script.section("a slip is kept for a; the end b is still not open");
    for call in ["give a", "give b", "give", "take", "state"] {
        script.end("b", call);
    }
    script.call("a", "give b");
    script.call("a", "give a");
    script.open(Seat::turn(1), Frame::USUAL);
}

fn unknown_commands(script: &mut Script) {
    script.section("both ends are opened and hold a delivery");
    for name in NAMES {
        let seat = Seat::new(name, 7, Kind::Sum);
        script.open(seat, Frame::USUAL);
        script.hear(seat, b'0', b"HELD");
    }
    script.section("first words that are neither end nor settings");
    for word in "End END en nd ends end, end: 'end end\ta end\r \tend enda a b open state \
                 Settings SETTINGS setting settings, 'settings settings\r setings set"
        .split(' ')
    {
        script.words(&[word.as_bytes(), b"a state"]);
        script.words(&[word.as_bytes(), b"read 01000600C8012C0308"]);
        script.words(&[word.as_bytes()]);
    }
    script.section("second words after settings that are not read");
    for word in words::SECOND
        .split(' ')
        .chain(["write", "readframe", "set", "a"])
    {
        script.words(&[b"settings", word.as_bytes()]);
        script.words(&[b"settings", word.as_bytes(), b"01000600C8012C0308"]);
    }
    script.section("wrong words for NAME");
    for word in words::END_NAME.split(' ') {
        let word = word.as_bytes();
        script.words(&[b"end", word]);
        script.words(&[b"end", word, b"state"]);
        script.words(&[b"end", word, b"status"]);
        script.words(&[b"end", word, b"take 65537x"]);
        script.spaced(&[b"end", word, b"open", b"x", b"y", b"z"]);
    }
    script.section("unknown third words");
    for (number, word) in words::END_THIRD.split(' ').enumerate() {
        let (name, word) = (NAMES[number % 2].as_bytes(), word.as_bytes());
        script.words(&[b"end", name, word]);
        script.words(&[b"end", name, word, b"4F4B"]);
        script.spaced(&[b"end", name, word, b"0", b"x"]);
        if number % 8 == 0 {
            script.state(NAMES[number % 2]);
        }
    }
}

fn wrong_arguments(script: &mut Script) {
    let frame: &[u8] = b"01000600C8012C0308";
    script.section("words for LINE, right and wrong");
    for word in words::LINE.split(' ') {
        script.words(&[b"end a open", word.as_bytes()]);
        script.words(&[b"end a open", word.as_bytes(), b"crc 0 x"]);
        script.words(&[b"end a open", word.as_bytes(), b"sum", frame]);
        if script.answer.starts_with("opened") {
            script.end("a", "arrive 02304F4B03CD");
            script.end("a", "take");
            script.end("a", "give");
        }
        script.state("a");
    }
    script.section("wrong words for KIND");
    for word in words::KIND.split(' ') {
        script.words(&[b"end b open 1", word.as_bytes(), frame]);
        script.words(&[b"end b open 1", word.as_bytes()]);
        script.spaced(&[b"end", b"b", b"open", b"1", word.as_bytes(), b"0", b"x"]);
    }
    script.state("b");
    script.section("wrong words for BYTES");
    for (number, word) in words::BYTES.split(' ').enumerate() {
        let (name, word) = (NAMES[number % 2].as_bytes(), word.as_bytes());
        for call in [&b"submit"[..], b"arrive", b"settings", b"open 1 sum"] {
            script.words(&[b"end", name, call, word]);
        }
        script.spaced(&[b"end", name, b"arrive", word, b"x"]);
        script.words(&[b"settings read", word]);
        script.spaced(&[b"settings", b"read", word, b"x"]);
    }
    for name in NAMES {
        script.state(name);
    }
    script.section("words for SIZE, right and wrong");
    for (number, word) in words::SIZE.split(' ').enumerate() {
        let name = NAMES[number % 2];
        script.words(&[b"end", name.as_bytes(), b"take", word.as_bytes()]);
        let taken = script.answer.starts_with("length=");
        script.spaced(&[b"end", name.as_bytes(), b"take", word.as_bytes(), b"x"]);
        if taken {
            script.call(name, "give");
            script.call(name, "arrive 02304F4B03CD");
        }
    }
    script.section("wrong words for FROM");
    for word in words::END_NAME.split(' ') {
        script.words(&[b"end a give", word.as_bytes()]);
        script.spaced(&[b"end", b"b", b"give", word.as_bytes(), b"x"]);
    }
    script.section("text after an apostrophe where BYTES is not the last argument");
    for line in [
        "end a open 'sum 01000600C8012C0308",
        "end a open 1 'sum 01000600C8012C0308",
        "end a open 1 sum '",
        "end a open 1 sum ' ",
        "end a take '96",
        "end a take '",
        "end a give '",
        "end a give 'b",
        "end a state '",
        "end 'a state",
        "end a 'state",
        "end a timeout '",
        "end a collect '",
    ] {
        script.line(line);
        script.state("a");
    }
}

fn too_few_and_too_many_words(script: &mut Script) {
    script.section("too few words");
    for line in [
        "end",
        "end a",
        "end b",
        "end a open",
        "end a open 1",
        "end a open 1 sum",
        "end b submit",
        "end b arrive",
        "end a settings",
        "settings",
        "settings read",
    ] {
        script.line(line);
        script.line(format!("{line} "));
        script.line(format!("  {}   ", line.replace(' ', "    ")));
    }
    script.section("too many words");
    for (number, extra) in words::LEFT_OVER.split('|').enumerate() {
        let (name, extra) = (NAMES[number % 2].as_bytes(), extra.as_bytes());
        for call in [
            &b"open 1 sum 01000600C8012C0308"[..],
            b"submit 4F4B",
            b"submit -",
            b"timeout",
            b"arrive 024503C8",
            b"take 96",
            b"take 0",
            b"give a",
            b"collect",
            b"settings 01000600C8012C0308",
            b"state",
            // Here the word stands for SIZE and for FROM.
            b"take",
            b"give",
        ] {
            script.words(&[b"end", name, call, extra]);
        }
        script.words(&[b"settings read 01000600C8012C0308", extra]);
        script.state(NAMES[number % 2]);
        script.end(NAMES[number % 2], "give");
    }
    script.section("right lines with spaces before, between and after the words");
    for number in 0..40 {
        let call = *script.random.pick(&CALLS);
        let name = NAMES[number % 2].as_bytes();
        let words: Vec<&[u8]> = call.split(' ').map(str::as_bytes).collect();
        script.spaced(&[&[b"end", name], &words[..]].concat());
    }
    script.end("a", "give");
    script.end("b", "give");
}

fn first_wrong_word(script: &mut Script) {
    script.section("right and wrong words: the first wrong one decides");
    let open: [[&[u8]; 2]; 7] = [
        [b"end", b"ends"],
        [b"a", b"c"],
        [b"open", b"opens"],
        [b"5", b"256"],
        [b"sum", b"SUM"],
        [b"01000600C8012C0308", b"0"],
        [b"x", b"'"],
    ];
    let take: [[&[u8]; 2]; 5] = [
        [b"end", b"END"],
        [b"b", b"B"],
        [b"take", b"takes"],
        [b"96", b"x"],
        [b"0", b"-"],
    ];
    let give: [[&[u8]; 2]; 5] = [
        [b"end", b"'end"],
        [b"b", b"ab"],
        [b"give", b"gives"],
        [b"a", b"x"],
        [b"b", b"-"],
    ];
    let read: [[&[u8]; 2]; 4] = [
        [b"settings", b"setting"],
        [b"read", b"write"],
        [b"01000600C8012C0308", b"01000600C8012C030"],
        [b"0", b"\r"],
    ];
    for words in [&open[..], &take, &give, &read] {
        for count in 1..=words.len() {
            for set in 0..1usize << count {
                let line: Vec<&[u8]> = (0..count)
                    .map(|index| words[index][set >> index & 1])
                    .collect();
                script.words(&line);
            }
        }
    }
    script.end("a", "give");
    script.end("b", "give");
}

fn foreign_bytes(script: &mut Script) {
    script.section("every byte as NAME, as FROM, beside LINE and as a call");
    for byte in line_bytes() {
        let name = NAMES[usize::from(byte) % 2].as_bytes();
        script.joined(&[b"end ", &[byte], b" state"]);
        script.joined(&[b"end ", name, b" give ", &[byte]]);
        script.joined(&[b"end ", name, b" open 2", &[byte], b" crc"]);
        script.joined(&[b"end ", name, b" ", &[byte]]);
    }
    script.section("bytes set into the words of right lines");
    let lines: [&[u8]; 5] = [
        b"end a open 12 xor 01000600C8012C0308",
        b"end b submit 'fire in hall 2",
        b"end a arrive 024503C6",
        b"end b take 104",
        b"settings read 01000600C8012C0308",
    ];
    for line in lines {
        for byte in [0x00, 0x09, 0x0B, 0x0D, 0x1F, 0x7F, 0x80, 0x85, 0xA0, 0xFF] {
            for _ in 0..3 {
                let (head, tail) = line.split_at(script.random.below(line.len() + 1));
                script.joined(&[head, &[byte], tail]);
            }
        }
        script.joined(&[line, b"\r"]);
        for place in (0..line.len()).filter(|&place| line[place] == b' ') {
            let mut tab = line.to_vec();
            tab[place] = b'\t';
            script.line(&tab);
        }
        for name in NAMES {
            script.state(name);
            script.end(name, "give");
        }
    }
}

fn random_lines(script: &mut Script) {
    script.section("both ends are opened again");
    for name in NAMES {
        script.open(Seat::new(name, 7, Kind::Sum), Frame::USUAL);
    }
    script.section("lines of random words");
    let vocabulary: Vec<&str> = words::END_LIKELY.split(' ').collect();
    for number in 0..400usize {
        let right: &[&[u8]] = match number % 6 {
            0 => &[b"end", b"a"],
            1 => &[b"end", b"b", b"arrive"],
            2 => &[b"end"],
            3 => &[b"end", b"a", b"take"],
            4 => &[b"end", b"b"],
            _ => &[b"end", b"b", b"give"],
        };
        let mut words = right.to_vec();
        for _ in 0..script.random.below(4) {
            let word = *script.random.pick(&vocabulary);
            words.push(word.as_bytes());
        }
        script.spaced(&words);
        if number % 5 == 4 {
            script.state(NAMES[number % 2]);
        }
    }
    script.section("right lines with bytes altered, set in, left out and doubled");
    let lines: [&[u8]; 12] = [
        b"end a open 7 sum 01000600C8012C0308",
        b"end a arrive 025203D5",
        b"end b arrive 02413703FB",
        b"end a submit 4F4B",
        b"end b submit 'OK 1",
        b"end a timeout",
        b"end b arrive 02304F4B03CD",
        b"end b take 100",
        b"end a give b",
        b"end a collect",
        b"end a settings 01000600C8012C0308",
        b"end b give",
    ];
    let bytes = b" -'0123456789ABCDEFabcdefgG\t\r\0\x80\xFF";
    for number in 0..600 {
        let mut line = lines[number % lines.len()].to_vec();
        // Mostly beyond the first two words, and sometimes nothing.
        let first = [0, 6, 8][script.random.below(3)];
        let place = first + script.random.below(line.len() - first);
        let byte = *script.random.pick(bytes);
        match script.random.below(6) {
            0 => line[place] = byte,
            1 => line.insert(place, byte),
            2 => line.insert(place, line[place]),
            3 => drop(line.remove(place)),
            _ => {}
        }
        script.line(line);
        if number % 4 == 3 {
            script.state(NAMES[number % 2]);
        }
    }
}

fn a_slip_at_the_end(script: &mut Script) {
    script.section("at the script's end the slip of b is kept, and the end a is to have it");
    for call in ["give", "give a", "give b"] {
        for name in NAMES {
            script.end(name, call);
        }
    }
    for name in NAMES {
        let seat = Seat::new(name, 7, Kind::Sum);
        script.open(seat, Frame::USUAL);
        script.hear(seat, b'0', b"LAST");
        script.hear(seat, b'1', b"VERY LAST");
        script.call(name, "take");
    }
    script.call("b", "give a");
    script.call("b", "take");
    script.call("a", "take");
}
