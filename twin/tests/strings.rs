//! #109 of 02, quoted names: its own words and the examples of the settled readings.

mod bench;

use bench::*;
use twin::SetName;

/// The line stores this text, from power-up, and changes nothing else.
#[track_caller]
fn shows(line: impl AsRef<[u8]>, text: &str) {
    let bench = after(&line);
    let line = String::from_utf8_lossy(line.as_ref());
    assert_eq!(bench.errors(), [], "{line}");
    assert_eq!(bench.text(), text.as_bytes(), "{line}");
    assert_eq!(bench.settings(), Bench::power_up().settings(), "{line}");
    let rest = &bench.state.instrument.settings.text.bytes[text.len()..];
    assert!(rest.iter().all(|&byte| byte == 0), "{line}");
}

#[test]
fn both_quotes() {
    shows("DISP:TEXT \"abc\"", "abc");
    shows("DISP:TEXT 'abc'", "abc");
    shows("display:text\t 'abc' \r", "abc");
    shows("DISP:BRIG 50;TEXT 'abc'", "abc");
    shows("DISP:TEXT 'it''s'", "it's");
    shows("DISP:TEXT \"it's\"", "it's");
    shows("DISP:TEXT ''''", "'");
    shows("DISP:TEXT ''''''", "''");
    shows("DISP:TEXT \"''\"", "''");
    shows("DISP:TEXT ' a '", " a ");
    shows("DISP:TEXT 'a';TEXT ''", "");
    shows("DISP:TEXT 'a';TEXT \"\"", "");
    shows("DISP:TEXT 'a';*RST", "");
}

#[test]
fn query() {
    answers("DISP:TEXT?", "\"\"");
    answers("DISP:TEXT 'it''s';TEXT?", "\"it's\"");
    answers("DISP:TEXT 'a;b,c';TEXT?;:VOLT?", "\"a;b,c\";0.0");
    let full = "x".repeat(32);
    answers(&format!("DISP:TEXT '{full}';TEXT?"), &format!("\"{full}\""));
    refused("DISP:TEXT? 'a'", 108);
    refused("DISP:TEXT? MIN", 108);
    refused("DISP:TEXT? 'a','b'", 108);
    refused("DISP:TEXT? ,", 102);
}

#[test]
fn nothing_in_quotes_separates() {
    shows("DISP:TEXT 'a;b,c'", "a;b,c");
    shows("DISP:TEXT \"a;;b,,c\"", "a;;b,,c");
    shows("DISP:TEXT \"';\";TEXT \"',\"", "',");
    // On any row.
    refused("VOLT '5;FREQ 60'", 104);
    refused("VOLT '5,6'", 104);
    refused("VOLT 5,'6,7'", 108);
    refused("FOO 'a;b'", 113);
    refused("FOO 'a,,b'", 113);
    refused("FOO 'a',,'b'", 102);
    refused("*ESE \"1;2\"", 104);
    refused_after("VOLT 5", "FOO '1;2';VOLT 6", 113);
}

/// A quote byte opens a quote anywhere in a line, and an unclosed one takes the rest of it.
#[test]
fn quotes_where_no_string_belongs() {
    refused("VOLT \"5", 104);
    refused("VOLT \"5;FREQ 60", 104);
    refused("VOLT 5\";FREQ 60", 121);
    refused("VO\"LT 5;FREQ 60", 102);
    refused("VO\"L\"T 5;FREQ 60", 102);
    refused("'VOLT 5;FREQ 60", 102);
    refused_after("VOLT 5", "'';FREQ 60", 102);
    refused("VOLT MAX';FREQ 60", 141);
    refused("#'", 102);
    // White space ends a header even inside quotes.
    refused("VO\"L T\" 5", 102);
    refused("DISP:TEXT'a b'", 102);
    // What looks like a quote at a glance is none.
    refused_after("VOLT 5", "FOO #;FREQ 60", 113);
    refused_after("VOLT 5", "FOO &;FREQ 60", 113);
    refused("FOO #,#;FREQ 60", 113);
    refused("VOLT #,5", 108);
}

#[test]
fn the_other_quote_is_a_byte_like_others() {
    shows("DISP:TEXT \"a'b\"", "a'b");
    refused("DISP:TEXT 'a\"b'", 150);
    refused("DISP:TEXT \"a'", 151);
    refused("DISP:TEXT 'a\"", 151);
    refused_after("DISP:TEXT \"a';b\"", "FOO", 113);
}

#[test]
fn a_newline_ends_the_line_in_quotes_too() {
    let mut bench = Bench::power_up();
    assert_eq!(bench.piece(b"DISP:TEXT 'a\nb'\nDISP:TEXT 'c'\n"), Ok(3));
    assert_eq!(bench.errors(), [151, 102]);
    assert_eq!(bench.text(), b"c");
}

#[test]
fn unclosed_or_more_after_the_closing_one() {
    let strings = [
        "'",
        "\"",
        "'a",
        "\"a",
        "'a''",
        "'''",
        "'a' 'b'",
        "'a' b",
        "'a'b",
        "'a'\"b\"",
        "'a'.",
        "\"a\" \"b\"",
        "'' ''",
        "''a",
        "'a' 5",
        "\"a\"'",
    ];
    for string in strings {
        refused(format!("DISP:TEXT {string}"), 151);
    }
    shows("DISP:TEXT 'a'''", "a'");
}

#[test]
fn the_nine_and_what_is_not_printable() {
    for byte in (0..=126).filter(|&byte| byte != 10) {
        let line = [b"DISP:TEXT 'a", &[byte][..], b"b'"].concat();
        match byte {
            b'\\' | b'/' | b':' | b'*' | b'?' | b'"' | b'<' | b'>' | b'|' => refused(line, 150),
            0..=31 => refused(line, 150),
            // It closes the string.
            b'\'' => refused(line, 151),
            _ => shows(line, &format!("a{}b", byte as char)),
        }
    }
    for string in ["\"\"\"\"", "'\"'", "\"a\"\"b\"", "'a\rb'", "'\t'", "'a?'"] {
        refused(format!("DISP:TEXT {string}"), 150);
    }
    for byte in 127..=255 {
        refused([b"DISP:TEXT 'a", &[byte][..], b"'"].concat(), 101);
    }
}

#[test]
fn thirty_two_bytes_after_undoubling() {
    let thirty_two = "x".repeat(32);
    shows(format!("DISP:TEXT '{thirty_two}'"), &thirty_two);
    refused(format!("DISP:TEXT '{thirty_two}x'"), 223);
    refused(format!("DISP:TEXT '{}'", "x".repeat(4000)), 223);
    shows(format!("DISP:TEXT '{}'", "''".repeat(32)), &"'".repeat(32));
    refused(format!("DISP:TEXT '{}'", "''".repeat(33)), 223);
    shows(format!("DISP:TEXT \"{}\"", " ".repeat(32)), &" ".repeat(32));
}

#[test]
fn order_of_checks() {
    let long = "x".repeat(33);
    let lines = [
        ("DISP:TEXT 'a\u{7F}", 101),
        ("DISP:TEXT 'a',", 102),
        ("DISP:TEXT ,'a", 102),
        ("DISP::TEXT 'a", 102),
        ("DISP:TEX 'a", 113),
        ("DISP:TEXTS 'a", 113),
        ("TEXT 'a", 113),
        ("DISP:TEXT 'a','b", 108),
        ("DISP:TEXT 'a','b'", 108),
        ("DISP:TEXT", 109),
        ("DISP:TEXT ", 109),
        ("DISP:TEXT 'a:b", 151),
        ("DISP:TEXT 'a:b' c", 151),
    ];
    for (line, number) in lines {
        refused(line, number);
    }
    refused(format!("DISP:TEXT '{long}"), 151);
    refused(format!("DISP:TEXT '{long}:'"), 150);
    refused(format!("DISP:TEXT '{long}'"), 223);
}

#[test]
fn any_other_first_byte() {
    for parameter in [
        "abc", "MAX", "ON", "A%", "5", "-5", ".", "+x", "#H1", "_a", "(1)", "?", "%", "a'b'", "\\",
    ] {
        refused(format!("DISP:TEXT {parameter}"), 104);
    }
}

#[test]
fn under_lock() {
    let long = "x".repeat(33);
    let lines = [
        ("DISP:TEXT 'b'", 221),
        ("DISP:TEXT 'a'", 221),
        ("DISP:TEXT ''", 221),
        ("DISP:TEXT b", 104),
        ("DISP:TEXT 'b", 151),
        ("DISP:TEXT 'b:'", 150),
        (&format!("DISP:TEXT '{long}'"), 223),
    ];
    for (line, number) in lines {
        let mut bench = after("DISP:TEXT 'a'");
        bench.condition(SetName::Lock, 1).unwrap();
        bench.send(line);
        assert_eq!(bench.errors(), [number], "{line}");
        assert_eq!(bench.text(), b"a", "{line}");
        assert_eq!(bench.ask("DISP:TEXT?").as_deref(), Some("\"a\""));
    }
}

#[test]
fn in_exam_mode() {
    answers("SYST:EXAM 1;:DISP:TEXT '5.05';TEXT?", "\"5.05\"");
}

#[test]
fn the_answer_must_fit() {
    // 185 times *IDN? take 4,069 bytes; a separator, a text of 23 in its quotes and the newline
    // fill the rest.
    let filling = "*IDN?;".repeat(185);
    let bench = after(format!("DISP:TEXT '{}';{filling}TEXT?", "x".repeat(23)));
    assert_eq!(bench.errors(), []);
    assert_eq!(bench.state.instrument.answer.length, 4096);
    let bench = after(format!("DISP:TEXT '{}';{filling}TEXT?", "x".repeat(24)));
    assert_eq!(bench.errors(), [430]);
    assert_eq!(bench.text(), "x".repeat(24).as_bytes());
}

/// Demand 2: what the query answers, sent back, is accepted and changes nothing.
#[test]
fn the_round_trip() {
    let mut dice = Dice(9);
    let shown: Vec<u8> = (32..=126)
        .filter(|byte| !b"\\/:*?\"<>|".contains(byte))
        .collect();
    for _ in 0..2000 {
        let mut bench = Bench::power_up();
        for place in 0..dice.below(33) {
            bench.state.instrument.settings.text.bytes[place] = *dice.pick(&shown);
        }
        let before = bench.clone();
        let answer = bench.ask("DISP:TEXT?").unwrap();
        bench.send(format!("DISP:TEXT {answer}"));
        assert!(agree(&bench, &before));
    }
}
