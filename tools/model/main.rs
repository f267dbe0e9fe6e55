//! Answers the events of a log by the rules written plainly: `hundzelo-model check LOG`.

mod log;
mod monitor;
mod records;
mod sha256;
mod verifier;
mod wire;

use log::Log;
use monitor::{Answer, Monitor, Stage};
use std::fs::{self, File};
use std::io::{self, BufReader, BufWriter, Read, Write};
use std::process::ExitCode;

const USAGE: &str = "\
usage: hundzelo-model check LOG [options]
  --key FILE       the secret key of the sums, 32 bytes (otherwise drawn afresh)
  --quiet          no answers, only the summary
  --entries CODES  the codes of the entries that are done, such as 0278 (all)";

struct Options {
    log: String,
    key: Option<String>,
    quiet: bool,
    stage: Stage,
}

fn parse(mut words: impl Iterator<Item = String>) -> Option<Options> {
    if words.next()? != "check" {
        return None;
    }
    let (mut log, mut key, mut quiet, mut stage) = (None, None, false, Stage::all());
    while let Some(word) = words.next() {
        match word.as_str() {
            "--key" => key = Some(words.next()?),
            "--quiet" => quiet = true,
            "--entries" => stage = Stage(words.next()?.chars().map(code).collect::<Option<_>>()?),
            _ if log.is_none() => log = Some(word),
            _ => return None,
        }
    }
    Some(Options { log: log?, key, quiet, stage })
}

fn code(digit: char) -> Option<u8> {
    digit.to_digit(9).map(|code| code as u8)
}

/// From its file, or drawn afresh.
fn secret_key(file: Option<&str>) -> Result<[u8; 32], String> {
    let Some(name) = file else {
        let mut key = [0; 32];
        let read = File::open("/dev/urandom").and_then(|mut source| source.read_exact(&mut key));
        return read.map(|()| key).map_err(|e| format!("/dev/urandom: {e}"));
    };
    let bytes = fs::read(name).map_err(|e| format!("{name}: {e}"))?;
    bytes.try_into().map_err(|_| format!("{name}: a key file has exactly 32 bytes"))
}

#[derive(Default)]
struct Summary {
    events: u64,
    /// With those that told how many epochs are certified.
    right: u64,
    refused: u64,
    wrong_at: Option<u64>,
    certified: u64,
}

impl Summary {
    fn count(&mut self, answer: Answer) {
        self.events += 1;
        match answer {
            Answer::Refused(_) => self.refused += 1,
            Answer::Wrong => self.wrong_at = Some(self.events),
            Answer::Right => self.right += 1,
            Answer::Certified(epochs) => {
                self.right += 1;
                self.certified = epochs;
            }
        }
    }

    fn text(&self) -> String {
        let Summary { events, right, refused, wrong_at, certified } = self;
        let wrong = match wrong_at {
            None => "not wrong".to_string(),
            Some(event) => format!("wrong at event {event}"),
        };
        format!("{events} events: {right} right, {refused} refused, {wrong}, {certified} epochs certified")
    }
}

fn check(options: &Options) -> Result<Summary, String> {
    let secret = secret_key(options.key.as_deref())?;
    let named = |e: io::Error| format!("{}: {e}", options.log);
    let file = File::open(&options.log).map_err(named)?;
    let mut log = Log::open(BufReader::new(file)).map_err(named)?;
    let mut monitor = Monitor::new(log.limits, options.stage.clone(), secret);
    let mut out = BufWriter::new(io::stdout().lock());
    let mut summary = Summary::default();
    while let Some(event) = log.next_event().map_err(named)? {
        let answer = monitor.answer(event);
        summary.count(answer);
        if !options.quiet {
            writeln!(out, "{answer}").map_err(|e| e.to_string())?;
        }
    }
    out.flush().map_err(|e| e.to_string())?;
    Ok(summary)
}

fn main() -> ExitCode {
    let Some(options) = parse(std::env::args().skip(1)) else {
        eprintln!("{USAGE}");
        return ExitCode::from(2);
    };
    match check(&options) {
        Ok(summary) => {
            eprintln!("{}", summary.text());
            ExitCode::SUCCESS
        }
        Err(message) => {
            eprintln!("hundzelo-model: {message}");
            ExitCode::FAILURE
        }
    }
}
