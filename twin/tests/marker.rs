//! #114 of 02, the session marker: its own words and the examples of the settled readings.

use std::fs;
use std::io::Write;
use std::process::{Command, Stdio};

const MARKER: &str = env!("CARGO_BIN_EXE_marker");
const HISTORIES: &str = env!("CARGO_BIN_EXE_histories");

fn run(program: &str, arguments: &[&str], input: &[u8]) -> Vec<u8> {
    let mut command = Command::new(program);
    command.args(arguments);
    command.stdin(Stdio::piped()).stdout(Stdio::piped());
    let mut child = command.spawn().unwrap();
    let mut stdin = child.stdin.take().unwrap();
    let input = input.to_vec();
    // It may stop before it has read all.
    let writer = std::thread::spawn(move || drop(stdin.write_all(&input)));
    let output = child.wait_with_output().unwrap();
    writer.join().unwrap();
    assert!(output.status.success());
    output.stdout
}

fn mark(session: &[u8]) -> String {
    String::from_utf8_lossy(&run(MARKER, &[], session)).into_owned()
}

#[track_caller]
fn agrees(session: &str) {
    assert_eq!(mark(session.as_bytes()), "all agree\n", "{session:?}");
}

#[track_caller]
fn broken(session: &str, line: usize) {
    let expected = format!("line {line} is broken\n");
    assert_eq!(mark(session.as_bytes()), expected, "{session:?}");
}

/// The three texts with their marks, or `nothing`.
#[track_caller]
fn differs(session: &str, line: usize, sent: &str, recorded: &str, answered: &str) {
    let expected =
        format!("line {line} differs\nsent {sent}\nrecorded {recorded}\nanswered {answered}\n");
    assert_eq!(mark(session.as_bytes()), expected, "{session:?}");
}

#[test]
fn sessions_that_agree() {
    agrees("");
    agrees(">VOLT 5\n>VOLT?\n<5.0\n");
    agrees(">VOLT 5;FREQ 60;VOLT?;FREQ?\n<5.0;60.0\n>*IDN?\n<COURSE,BENCH24,0,4.00\n");
    agrees(">VOLT 30\n>SYST:ERR?\n<-222,\"Data out of range\"\n>*ESR?\n<144\n");
    agrees(">DISP:TEXT 'a>b'\n>DISP:TEXT '<a'\n>DISP:TEXT?\n<\"\"\n");
    // A last line without newline counts.
    agrees(">VOLT?\n<0.0");
    agrees(">VOLT 5");
    agrees(">VOLT?\n<0.0\n>");
    // A sent blank line.
    agrees(">\n>VOLT?\n<0.0\n> \n>\r\n");
}

#[test]
fn from_power_up_and_with_a_store_of_zeros() {
    agrees(">*ESR?\n<128\n>*RCL 3;VOLT?\n>SYST:ERR?\n<-314,\"Save/recall memory lost\"\n");
    agrees(">VOLT 5;*SAV 3;*RST\n>*RCL 3;VOLT?\n<5.0\n");
}

#[test]
fn the_first_line_whose_answer_differs() {
    differs(">VOLT?\n<5.0\n", 1, ">VOLT?", "<5.0", "<0.0");
    differs(
        ">VOLT 5\n>FREQ?\n<50.0\n>VOLT?\n<5\n>FREQ?\n<7\n",
        4,
        ">VOLT?",
        "<5",
        "<5.0",
    );
    // Exact bytes.
    differs(">VOLT?\n<0.0 \n", 1, ">VOLT?", "<0.0 ", "<0.0");
    differs(">VOLT?\n<0.0\r\n", 1, ">VOLT?", "<0.0\r", "<0.0");
    differs(">VOLT?\n< 0.0\n", 1, ">VOLT?", "< 0.0", "<0.0");
    agrees(">VOLT?\r\n<0.0\n");
}

#[test]
fn an_answer_on_one_side_only() {
    differs(">VOLT?\n", 1, ">VOLT?", "nothing", "<0.0");
    differs(">VOLT?", 1, ">VOLT?", "nothing", "<0.0");
    differs(">VOLT?\n>VOLT 5\n", 1, ">VOLT?", "nothing", "<0.0");
    differs(">VOLT 5\n<5.0\n", 1, ">VOLT 5", "<5.0", "nothing");
    differs(">\n<\n", 1, ">", "<", "nothing");
    differs(">VOLT 5\n>VOLT?\n<\n", 2, ">VOLT?", "<", "<5.0");
}

#[test]
fn two_answers_in_a_row() {
    differs(">VOLT?\n<0.0\n<0.0\n", 1, ">VOLT?", "<0.0", "nothing");
    differs(">VOLT 5\n>VOLT?\n<5.0\n<\n", 2, ">VOLT?", "<", "nothing");
    differs(">VOLT?\n<1.0\n<0.0\n", 1, ">VOLT?", "<1.0", "<0.0");
}

#[test]
fn an_answer_before_any_line() {
    differs("<0.0\n>VOLT?\n<0.0\n", 1, "nothing", "<0.0", "nothing");
    differs("<", 1, "nothing", "<", "nothing");
}

#[test]
fn broken_records() {
    broken("\n", 1);
    broken("VOLT?\n", 1);
    broken(" >VOLT?\n", 1);
    broken("\r\n", 1);
    broken(">VOLT 5\n\n>VOLT?\n", 2);
    broken(">VOLT?\n<0.0\n\n", 3);
    broken(">VOLT?\n<0.0\n0.0", 3);
    // Right behind an unanswered query.
    broken(">VOLT?\n\n", 2);
    broken(">VOLT?\nx", 2);
    // What differs before it is found first.
    differs(">VOLT?\n<5.0\n\n", 1, ">VOLT?", "<5.0", "<0.0");
    differs("<\n\n", 1, "nothing", "<", "nothing");
}

#[test]
fn long_lines() {
    let blanks = " ".repeat(4097);
    let session = format!(">{blanks}\n>SYST:ERR?\n<-363,\"Input buffer overrun\"\n");
    agrees(&session);
    let queries = "*IDN?;".repeat(185) + "*IDN?";
    let answers = "COURSE,BENCH24,0,4.00;".repeat(185) + "COURSE,BENCH24,0,4.00";
    agrees(&format!(">{queries}\n<{answers}\n"));
    broken(&format!(">{queries}\n<{answers}\n{blanks}"), 3);
}

#[test]
fn bytes_of_any_kind() {
    let report = run(MARKER, &[], b">VOLT\xFF?\n>SYST:ERR?\n<\xFF\x00\n");
    let expected = b"line 2 differs\nsent >SYST:ERR?\nrecorded <\xFF\x00\n\
                     answered <-101,\"Invalid character\"\n";
    assert_eq!(report, expected);
}

#[test]
fn files() {
    let folder = std::env::temp_dir().join(format!("marker-{}", std::process::id()));
    fs::create_dir_all(&folder).unwrap();
    let sessions = [
        ("right", ">VOLT?\n<0.0\n"),
        ("empty", ""),
        ("broken", ">\n\n"),
    ];
    let mut names = Vec::new();
    for (name, session) in sessions {
        let path = folder.join(name);
        fs::write(&path, session).unwrap();
        names.push(path.to_str().unwrap().to_string());
    }
    let arguments: Vec<&str> = names.iter().map(String::as_str).collect();
    let report = String::from_utf8(run(MARKER, &arguments, b"")).unwrap();
    fs::remove_dir_all(&folder).unwrap();
    let [right, empty, broken] = &names[..] else {
        unreachable!()
    };
    let expected = format!("{right}\nall agree\n{empty}\nall agree\n{broken}\nline 2 is broken\n");
    assert_eq!(report, expected);
}

#[test]
fn made_sessions() {
    let mut differ = 0;
    for seed in 1..=30 {
        let seed = seed.to_string();
        let session = |kind| run(HISTORIES, &[&seed, "60", kind], b"");
        let right = session("session");
        assert_eq!(right, session("session"));
        assert_eq!(run(MARKER, &[], &right), b"all agree\n");
        let sent = right.split(|&byte| byte == b'\n');
        assert_eq!(sent.filter(|line| line.starts_with(b">")).count(), 60);
        let spoiled = run(MARKER, &[], &session("spoiled"));
        differ += usize::from(spoiled.windows(7).any(|part| part == b"differs"));
        let broken = String::from_utf8(run(MARKER, &[], &session("broken"))).unwrap();
        // It is found where it stands.
        assert!(broken.ends_with(" is broken\n"), "{broken}");
    }
    assert!(differ > 15, "{differ}");
}
