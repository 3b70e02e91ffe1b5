//! Marks a saved session from standard input, or one in each file that is named. See the README
//! for what it writes.

use std::env;
use std::fs::File;
use std::io::{self, BufRead, BufReader, BufWriter, Write};
use std::process::ExitCode;

use twin::{Marker, Verdict};

fn mark(session: &mut dyn BufRead) -> io::Result<Verdict> {
    let mut marker = Marker::default();
    let mut line = Vec::new();
    // A last line without newline counts.
    while session.read_until(b'\n', &mut line)? > 0 {
        let text = line.strip_suffix(b"\n").unwrap_or(&line);
        if let Some(verdict) = marker.take(text) {
            return Ok(verdict);
        }
        line.clear();
    }
    Ok(marker.end())
}

fn write_verdict(output: &mut dyn Write, verdict: &Verdict) -> io::Result<()> {
    match verdict {
        Verdict::Agrees => writeln!(output, "all agree"),
        Verdict::Broken(line) => writeln!(output, "line {line} is broken"),
        Verdict::Differs(difference) => {
            writeln!(output, "line {} differs", difference.line)?;
            write_text(output, "sent", '>', &difference.sent)?;
            write_text(output, "recorded", '<', &difference.recorded)?;
            write_text(output, "answered", '<', &difference.answered)
        }
    }
}

/// The text after its mark, so that an empty one can be told from none.
fn write_text(
    output: &mut dyn Write,
    name: &str,
    mark: char,
    text: &Option<Vec<u8>>,
) -> io::Result<()> {
    match text {
        None => writeln!(output, "{name} nothing"),
        Some(text) => {
            write!(output, "{name} {mark}")?;
            output.write_all(text)?;
            writeln!(output)
        }
    }
}

fn run(files: &[String]) -> io::Result<()> {
    let mut output = BufWriter::new(io::stdout().lock());
    if files.is_empty() {
        let verdict = mark(&mut io::stdin().lock())?;
        write_verdict(&mut output, &verdict)?;
    }
    for file in files {
        let verdict = mark(&mut BufReader::new(File::open(file)?))?;
        writeln!(output, "{file}")?;
        write_verdict(&mut output, &verdict)?;
    }
    output.flush()
}

fn main() -> ExitCode {
    let files: Vec<String> = env::args().skip(1).collect();
    match run(&files) {
        Ok(()) => ExitCode::SUCCESS,
        Err(error) => {
            eprintln!("{error}");
            ExitCode::FAILURE
        }
    }
}
