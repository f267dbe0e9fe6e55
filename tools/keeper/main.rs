//! Keeps a book of accounts and writes the log of its gets and sets: `hundzelo-keeper write [options] > LOG`.

mod book;
mod cheat;
mod keeper;
mod options;
mod path;
mod random;
#[path = "../model/sha256.rs"]
mod sha256;
mod writer;

use cheat::Deadline;
use keeper::Keeper;
use options::Options;
use std::io::{self, Write};
use std::process::ExitCode;

const BUFFER_BYTES: usize = 1 << 16;

fn write_log(keeper: &mut Keeper, out: &mut impl Write) -> io::Result<()> {
    let Options { verifiers, places, epochs, ops, .. } = keeper.options;
    writeln!(out, "{verifiers} {places} {epochs}")?;
    for op in 0..ops {
        keeper.op(op);
        if keeper.book.writer.bytes.len() >= BUFFER_BYTES {
            flush(keeper, out)?;
        }
    }
    keeper.finish();
    flush(keeper, out)?;
    out.flush()
}

fn flush(keeper: &mut Keeper, out: &mut impl Write) -> io::Result<()> {
    out.write_all(&keeper.book.writer.bytes)?;
    keeper.book.writer.bytes.clear();
    Ok(())
}

fn run() -> Result<(), String> {
    let options = Options::parse(std::env::args().skip(1)).map_err(|e| format!("{e}\n{}", options::USAGE))?;
    let cheat = options.cheat;
    if options.merkle_only && cheat.is_some_and(|cheat| !cheat.is_by_merkle()) {
        return Err("this cheat needs more than --merkle-only".to_string());
    }
    let mut keeper = Keeper::new(options)?;
    write_log(&mut keeper, &mut io::stdout().lock()).map_err(|e| e.to_string())?;
    match (cheat, keeper.deadline) {
        (None, _) => Ok(()),
        (Some(_), Some(Deadline::Event(event))) => {
            eprintln!("wrong by event {event}");
            Ok(())
        }
        (Some(_), _) => Err("there was no occasion for the lie: try more ops, keys or verifiers".to_string()),
    }
}

fn main() -> ExitCode {
    match run() {
        Ok(()) => ExitCode::SUCCESS,
        Err(message) => {
            eprintln!("hundzelo-keeper: {message}");
            ExitCode::FAILURE
        }
    }
}
