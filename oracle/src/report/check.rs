//! Holds the program `replay` to the reports of what rdef.rs reads, and with the reader makes the
//! comparison of reading.

use super::stored::HEADING;
use super::{input_chunk, input_head, report};
use crate::check;
use crate::comparison::{hex, Comparison, Tally};
use crate::generate::rng::Rng;
use crate::generate::Generator;
use crate::port::Reader;
use std::io::{self, BufRead, BufReader, Read, Write};
use std::ops::Range;
use std::process::{Command, Stdio};

/// The port's program, as `rt run` in its folder builds it. It prints the reports after what it says of stored files.
pub fn program() -> Command {
    Command::new(concat!(env!("CARGO_MANIFEST_DIR"), "/../crates/replay/out/replay"))
}

/// What is compared: the reader, and the program that prints reports, if it is to be run.
pub struct Reading {
    reader: check::Checker,
    program: Option<Command>,
    reports: Tally,
}

impl Comparison for Reading {
    type Functions = (Reader, Option<Command>);
    const CASES: &'static str = "chunks";

    fn new((reader, program): Self::Functions) -> Reading {
        Reading { reader: check::Checker::new(reader), program, reports: Tally::default() }
    }

    fn tally(&self) -> &Tally {
        &self.reader.tally
    }

    fn report(&self) -> String {
        let reports = self.program.as_ref().map_or(String::new(), |_| format!("reports: {}\n", self.reports));
        self.reader.report_counts() + &reports + &self.reader.tally.to_string()
    }

    fn compare_fixed(&mut self, rng: &mut Rng) {
        self.reader.compare_fixed(rng);
    }

    /// So many chunks, and the reports of a tenth of that, of chunks that come after them.
    fn compare_fresh(&mut self, count: u64, seed: u64, rng: &mut Rng) {
        self.reader.compare_fresh(count, seed, rng);
        if let Some(program) = &mut self.program {
            self.reports = reports(program, &Generator::new(seed), count..count + count / 10);
            self.reader.tally.add(&self.reports);
        }
    }
}

/// Runs the program once on these chunks and compares each report.
pub fn reports(program: &mut Command, generator: &Generator, numbers: Range<u64>) -> Tally {
    let mut running = program
        .stdin(Stdio::piped())
        .stdout(Stdio::piped())
        .spawn()
        .unwrap_or_else(|error| panic!("{program:?} does not run: {error}"));
    let mut input = running.stdin.take().expect("it is piped");
    let mut output = BufReader::new(running.stdout.take().expect("it is piped"));
    let mut tally = Tally::default();
    std::thread::scope(|scope| {
        let chunks = numbers.clone();
        scope.spawn(move || {
            // A program that stops early shows in what it printed.
            let _ = put_chunks(&mut input, generator, chunks);
        });
        skip_to_reports(&mut output);
        for number in numbers {
            let (kind, chunk) = generator.chunk(number);
            let (expected, printed) = (report(&chunk), next_report(&mut output));
            tally.compared += 1;
            if printed != expected {
                tally.differs(|| {
                    format!(
                        "the report of chunk {number}, {kind:?}, printed:\n{printed}not:\n{expected}chunk of {} bytes:\n{}",
                        chunk.len(),
                        hex(&chunk)
                    )
                });
            }
        }
        let mut rest = String::new();
        let ended = output.read_to_string(&mut rest);
        if !rest.is_empty() || ended.is_err() {
            tally.differs(|| format!("after the last report it printed {rest}"));
        }
    });
    let status = running.wait();
    if !status.as_ref().is_ok_and(std::process::ExitStatus::success) {
        tally.differs(|| format!("the program ended with {status:?}"));
    }
    tally
}

fn put_chunks(input: &mut impl Write, generator: &Generator, numbers: Range<u64>) -> io::Result<()> {
    input.write_all(&input_head((numbers.end - numbers.start) as usize))?;
    for number in numbers {
        input.write_all(&input_chunk(&generator.chunk(number).1))?;
    }
    Ok(())
}

/// Reads the lines up to the heading of the reports, or to the end of the output.
fn skip_to_reports(output: &mut impl BufRead) {
    let mut line = String::new();
    while line != HEADING {
        line.clear();
        if matches!(output.read_line(&mut line), Ok(0) | Err(_)) {
            return;
        }
    }
}

/// The lines up to the empty one, or to the end of the output.
fn next_report(output: &mut impl BufRead) -> String {
    let mut report = String::new();
    loop {
        let before = report.len();
        let read = output.read_line(&mut report);
        if matches!(read, Ok(0) | Err(_)) {
            return report;
        }
        if &report[before..] == "\n" {
            report.truncate(before);
            return report;
        }
    }
}
