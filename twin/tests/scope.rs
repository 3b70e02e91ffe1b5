//! The lines of 01: "Lines to try", its rules on registers and queue, and "Easy ways to get it
//! wrong".

mod bench;

use bench::*;
use twin::SetName;

#[test]
fn proved_lines_to_try() {
    let mut bench = Bench::power_up();
    let answer = bench.ask("VOLT 5;FREQ 60;VOLT?;FREQ?");
    assert_eq!(answer.as_deref(), Some("5.0;60.0"));
    assert_eq!(bench.errors(), []);

    refused("VOLTA 5", 113);
    sets("volt:level:imm 7.25", VOLTAGE, 73);
    sets("VOLT 12.04", VOLTAGE, 120);
    refused("VOLT 12.05", 222);
    sets("CURR:LIM:PEAK:LOW -0.45", LOW, -5);
    refused("CURR:LIM:PEAK:LOW -0.44", 222);

    refused_after("CURR:LIM:RMS 1.5", "MODE OFF", 113);
    sets("CURR:LIM:RMS 1.5", RMS, 15);

    refused_after("VOLT:RANG R24V;LEV 20", "RANG R12V", 221);
    let bench = after("VOLT:RANG R24V;LEV 20;RANG R12V");
    assert_eq!((bench.setting(VOLTAGE), bench.setting(RANGE)), (200, 1));

    let bench = after("VOLT 5;;FREQ 60");
    assert_eq!(bench.errors(), [102]);
    assert_eq!(
        (bench.setting(VOLTAGE), bench.setting(FREQUENCY)),
        (50, 500)
    );

    answers("VOLT?;*STB?", "0.0;16");
}

#[test]
fn other_lines_to_try() {
    let bench = after("CURR:LIM:RMS 1;PEAK:HIGH 3;LOW -3");
    assert_eq!(bench.errors(), []);
    let limits = (bench.setting(RMS), bench.setting(HIGH), bench.setting(LOW));
    assert_eq!(limits, (10, 30, -30));

    sets("VOLT 0.00001E6", VOLTAGE, 100);
    refused("VOLT 1E10", 123);
    sets("VOLT 5V", VOLTAGE, 50);
    refused("VOLT ON", 141);
    refused("VOLT 1,2", 108);
    refused("VOLT", 109);
}

#[test]
fn line_limit() {
    let line = format!("VOLT {}5", "0".repeat(4090));
    assert_eq!(line.len(), 4096);
    sets(&line, VOLTAGE, 50);
    refused(format!("VOLT {}5", "0".repeat(4091)), 363);
    refused("VOLT 5".to_string() + &" ".repeat(9000), 363);
}

#[test]
fn seventeenth_error() {
    let mut bench = Bench::power_up();
    for _ in 0..16 {
        bench.send("VOLTA 5");
    }
    assert_eq!(bench.errors(), [113; 16]);
    assert_eq!(bench.esr(), 128 + 32);
    bench.send("VOLT 30");
    let mut expected = [113; 16];
    expected[15] = 350;
    assert_eq!(bench.errors(), expected);
    assert_eq!(bench.esr(), 128 + 32 + 16 + 8);
    for _ in 0..15 {
        let answer = bench.ask("SYST:ERR?");
        assert_eq!(answer.as_deref(), Some("-113,\"Undefined header\""));
    }
    let answer = bench.ask("SYST:ERR?");
    assert_eq!(answer.as_deref(), Some("-350,\"Queue overflow\""));
    assert_eq!(bench.ask("SYST:ERR?").as_deref(), Some("0,\"No error\""));
}

#[test]
fn service_request() {
    let mut bench = after("*SRE 32;*ESE 16");
    bench.send("VOLT 30");
    assert_eq!(bench.ask("*STB?").as_deref(), Some("100"));
    assert_eq!(bench.look(), Ok(100));
}

#[test]
fn power_up_and_reset() {
    let mut bench = Bench::power_up();
    assert_eq!(bench.settings(), RESET);
    assert_eq!(bench.look(), Ok(0));
    let registers = bench.ask("*ESR?;*ESE?;*SRE?;STAT:OPER:COND?;EVEN?;ENAB?;NTR?;PTR?");
    assert_eq!(registers.as_deref(), Some("128;0;0;0;0;0;0;32767"));
    assert_eq!(bench.ask("SYST:ERR?").as_deref(), Some("0,\"No error\""));

    let mut bench =
        after("VOLT:RANG R24V;LEV 20;:FREQ 60;*ESE 3;*SRE 5;OUTP ON;SYST:KLOC 1;EXAM 1");
    bench.send("FOO");
    let before = bench.state.clone();
    bench.send("*RST");
    let mut expected = before;
    expected.instrument.settings.values = RESET;
    assert!(same(&bench.state, &expected));
}

#[test]
fn common_commands() {
    answers("*IDN?", "COURSE,BENCH24,0,4.00");
    answers("*tst?", "0");
    answers("*OPC?", "1");
    answers("*ESR?;*ESR?", "128;0");
    answers("*OPC;*ESR?", "129");
    answers("*ESE 255;*ESE?", "255");
    answers("*WAI;*OPC?", "1");
    let bench = after("*WAI");
    assert!(same(&bench.state, &Bench::power_up().state));
}

#[test]
fn clear() {
    let mut bench = after("*ESE 60;*SRE 255;STAT:OPER:ENAB 3;NTR 4;PTR 5;:VOLT 5");
    bench.condition(SetName::Operation, 5).unwrap();
    bench.send("FOO");
    let mut expected = bench.state.clone();
    bench.send("*CLS");
    expected.instrument.status.esr = 0;
    expected.instrument.status.set_mut(SetName::Operation).event = 0;
    expected.instrument.status.queued = 0;
    assert!(same(&bench.state, &expected));
}

#[test]
fn transitions() {
    let mut bench = after("STAT:OPER:PTR 6;NTR 12");
    bench.condition(SetName::Operation, 0b0011).unwrap();
    assert_eq!(
        bench.state.instrument.status.set(SetName::Operation).event,
        0b0010
    );
    bench.condition(SetName::Operation, 0b1100).unwrap();
    assert_eq!(
        bench.state.instrument.status.set(SetName::Operation).event,
        0b0110
    );
    bench.condition(SetName::Operation, 0).unwrap();
    let answer = bench.ask("STAT:OPER:COND?;EVEN?;EVEN?");
    assert_eq!(answer.as_deref(), Some("0;14;0"));
}

#[test]
fn status_byte_bits() {
    let mut bench = after("STAT:OPER:ENAB 1");
    bench.condition(SetName::Operation, 1).unwrap();
    assert_eq!(bench.look(), Ok(128));
    bench.send("*SRE 128");
    assert_eq!(bench.look(), Ok(128 + 64));
    bench.send("*SRE 64");
    assert_eq!(bench.look(), Ok(128));
    bench.send("*ESE 128");
    assert_eq!(bench.look(), Ok(128 + 32));
    bench.send("VOLT?");
    assert_eq!(bench.look(), Ok(128 + 32 + 16));
    bench.send("FOO");
    assert_eq!(bench.look(), Ok(128 + 32 + 4));
}

#[test]
fn easy_ways_to_get_it_wrong() {
    let mut bench = after("VOLT:RANG R24V");
    bench.send("LEV 5");
    assert_eq!(bench.errors(), [113]);
    let mut bench = after("CURR:LIM:RMS 1;FOO 1");
    bench.send("PEAK:HIGH 3");
    assert_eq!(bench.errors(), [113, 113]);
    refused_after("CURR:LIM:RMS 1", "MODE CONT", 113);
    sets("VOLT 12.049999", VOLTAGE, 120);
    sets("CURR:LIM:PEAK:LOW -0.45", LOW, -5);
    answers("*SRE 64;*SRE?", "0");
}

#[test]
fn answers_of_settings() {
    answers("OUTP?;OUTP:STAT?;PON?;REL?", "0;0;0;1");
    answers("OUTP:MON:MODE?", "VOLT");
    answers("VOLT:RANG?", "R12V");
    answers("CURR:LIM:RMS?;RMS:MODE?;TIME?", "1.0;OFF;1");
    answers("CURR:LIM:PEAK:MODE?;TIME?;HIGH?;LOW?", "OFF;1;4.0;-4.0");
    answers("DISP:BRIG?;:SYST:KLOC?;EXAM?", "50;0;0");
    answers("CURR:LIM:PEAK:LOW MAX;LOW?", "-0.5");
    answers("VOLT -0.04;VOLT?", "0.0");
    answers("OUTP:MON:MODE SCURRENT;MODE?", "SCUR");
    answers("curr:lim:rms:mode continuous;mode?", "CONT");
}

#[test]
fn limits_of_every_number_row() {
    let rows = [
        ("VOLT", "0.0", "12.0", "-0.05", "12.05"),
        ("FREQ", "40.0", "550.0", "39.94", "550.05"),
        ("CURR:LIM:RMS", "0.1", "2.0", "0.04", "2.05"),
        ("CURR:LIM:RMS:TIME", "1", "10", "0.49", "10.5"),
        ("CURR:LIM:PEAK:TIME", "1", "10", "0.49", "10.5"),
        ("CURR:LIM:PEAK:HIGH", "0.5", "8.0", "0.44", "8.05"),
        ("CURR:LIM:PEAK:LOW", "-8.0", "-0.5", "-8.05", "-0.44"),
        ("DISP:BRIG", "0", "99", "-0.5", "99.5"),
    ];
    for (header, lowest, highest, below, above) in rows {
        answers(&format!("{header}? MIN"), lowest);
        answers(&format!("{header}? maximum"), highest);
        answers(&format!("{header} MINIMUM;:{header}?"), lowest);
        answers(&format!("{header} max;:{header}?"), highest);
        answers(&format!("{header} {lowest};:{header}?"), lowest);
        answers(&format!("{header} {highest};:{header}?"), highest);
        refused(format!("{header} {below}"), 222);
        refused(format!("{header} {above}"), 222);
    }
    answers("VOLT:RANG R24V;LEV? MAX;LEV 24.04;LEV?", "24.0;24.0");
    refused_after("VOLT:RANG R24V", "LEV 24.05", 222);
}

#[test]
fn order_of_checks() {
    // Each line has faults of two neighbouring checks; the first one counts.
    refused(b"FOO::BAR \xFF", 101);
    refused("FOO 1,,2", 102);
    refused("FOO:BAR? 1,2", 113);
    refused("*RST? 1", 113);
    refused("VOLT #,5", 108);
    refused("VOLT:RANG 1E99V", 104);
    refused("VOLT 1234567890123E99A", 131);
    refused("DISP:BRIG 1234567890123E99V", 138);
    refused("VOLT 1234567890123E99_", 121);
    refused("VOLT 1234567890123E99", 124);
    refused("VOLT 30E99", 123);
    refused("VOLT 30", 222);
}
