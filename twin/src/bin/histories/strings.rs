//! Strings in quotes (02, #109): texts for DISPlay:TEXT, and quotes where they surprise.

use crate::dice::Dice;
use crate::lines::Lines;

/// Bytes that a text may hold, with the separators and both quotes among them.
const SHOWN: &[u8] = b"abcXYZ019 ;;,,''.-_#&()=+!$%@[]^`{}~";
/// The nine that source document 004 forbids, and bytes that are no text's.
const FORBIDDEN: &[u8] = b"\\/:*?\"<>|\0\t\r\x1F";

/// A parameter that is a good string.
pub fn good(dice: &mut Dice) -> String {
    let quote = dice.pick(&['"', '\'']);
    let length = match dice.below(6) {
        0 => 0,
        1 => dice.pick(&[31, 32]),
        _ => dice.below(20),
    };
    let mut string = String::from(quote);
    for _ in 0..length {
        let byte = dice.pick(SHOWN) as char;
        if byte == quote {
            string.push(quote);
        }
        string.push(byte);
    }
    string.push(quote);
    string
}

/// The bytes of a text that is made by hand: mostly good, at most 32.
pub fn hand_made(dice: &mut Dice) -> Vec<u8> {
    let length = dice.pick(&[0, 1, 1, 2, 5, 31, 32, 32]);
    let mut text: Vec<u8> = (0..length).map(|_| dice.pick(SHOWN)).collect();
    if length > 0 && dice.chance(40) {
        let odd = match dice.below(3) {
            0 => dice.below(256) as u8,
            1 => dice.pick(&[0, 31, 32, 126, 127, 255, b'"', b'\'']),
            _ => dice.pick(FORBIDDEN),
        };
        let place = match dice.below(3) {
            0 => 0,
            1 => length - 1,
            _ => dice.below(length),
        };
        text[place] = odd;
    }
    text
}

/// A line with quotes that may be open, doubled, or where no string belongs.
pub fn odd_line(dice: &mut Dice, lines: &Lines) -> Vec<u8> {
    let mut line = match dice.below(3) {
        0 => [&lines.good(dice)[..], b";:"].concat(),
        _ => Vec::new(),
    };
    match dice.below(6) {
        0..=2 => line.extend(text_unit(dice)),
        3 => line.extend(dice.pick(&QUOTES_ELSEWHERE).bytes()),
        4 => line.extend(quotes_anywhere(dice, lines)),
        _ => line.extend(b"DISP:TEXT?;TEXT?"),
    }
    if dice.chance(30) {
        line.push(b';');
        line.extend(lines.good(dice));
    }
    line
}

/// DISPlay:TEXT with a string that is good, too long, forbidden or broken, or with something else.
fn text_unit(dice: &mut Dice) -> Vec<u8> {
    let header = dice.pick(&[
        "DISP:TEXT ",
        "DISPlay:TEXT ",
        "disp:text\t",
        "DISP:TEXT",
        "DISP:TEXT? ",
    ]);
    let header = if dice.chance(80) {
        "DISP:TEXT "
    } else {
        header
    };
    let mut unit = header.as_bytes().to_vec();
    let mut string = good(dice).into_bytes();
    let quote = string[0];
    match dice.below(9) {
        0 => drop(string.pop()),
        1 => string.extend(
            dice.pick(&["x", " x", "'", "\"", "'a'", ",'b'", ",", " ", "\t\r"])
                .bytes(),
        ),
        2 => string.insert(1, dice.pick(FORBIDDEN)),
        3 => string.insert(1, dice.below(256) as u8),
        4 => string.insert(1, quote),
        5 => string = near_the_limit(dice, quote),
        6 => {
            string = dice
                .pick(&[
                    "", "TEXT", "5", "-1", "#H1", "#48192", "(1)", "_", "a'b'", "A%", "MAX",
                ])
                .into()
        }
        _ => {}
    }
    unit.extend(string);
    unit
}

/// As many bytes as a text may have, one less or more, doubled quotes among them.
fn near_the_limit(dice: &mut Dice, quote: u8) -> Vec<u8> {
    let length = dice.pick(&[31, 32, 32, 33, 33, 34, 64, 65, 300]);
    let mut string = vec![quote];
    for _ in 0..length {
        match dice.below(8) {
            0 => string.extend([quote, quote]),
            1 if dice.chance(3) => string.push(dice.pick(FORBIDDEN)),
            _ => string.push(dice.pick(b"abc ;,")),
        }
    }
    string.push(quote);
    string
}

/// Rows that take no string, headers with quotes in them, and quotes over a `;` or `,`.
static QUOTES_ELSEWHERE: [&str; 26] = [
    "VOLT \"5",
    "VOLT \"5\"",
    "VOLT '5;FREQ 60'",
    "VOLT \"5;FREQ 60",
    "VOLT 5 \"",
    "VOLT 5'",
    "VOLT 5,'6,7'",
    "VOLT '5,6'",
    "VOLT 5\";FREQ 60",
    "VO\"LT 5;FREQ 60",
    "VO\"L\"T 5;FREQ 60",
    "'VOLT 5';FREQ 60",
    "FOO 'a;b';FREQ 60",
    "FOO 'a,,b'",
    "FOO 'a',,'b'",
    "FOO '',''",
    "*ESE 'a;b'",
    "*IDN? ';'",
    "*SAV '1'",
    "OUTP 'ON'",
    "VOLT? 'MIN'",
    "VOLT:RANG \"R24V\"",
    "SYST:ERR? \"",
    "VOLT 3;'';FREQ 60",
    "VOLT 3;\"",
    "VOLT MAX';FREQ 60",
];

/// A good line with some quotes and separators put in anywhere.
fn quotes_anywhere(dice: &mut Dice, lines: &Lines) -> Vec<u8> {
    let mut line = lines.good(dice);
    for _ in 0..1 + dice.below(4) {
        let place = dice.below(line.len() + 1);
        line.insert(place, dice.pick(b"\"\"''';,"));
    }
    line
}
