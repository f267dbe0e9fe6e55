//! The log file: its first line, and where its events begin and end.

use crate::monitor::Limits;
use crate::wire::{Event, Malformed, read_event};
use std::io::{self, BufRead, Read};

/// The longest event and a byte: what bytes are is decided by so many of them.
const DECIDING_BYTES: usize = 262_228;

const LENGTH_BYTES: usize = 4;

pub struct Log<R> {
    pub limits: Limits,
    source: R,
}

impl<R: BufRead> Log<R> {
    pub fn open(mut source: R) -> io::Result<Log<R>> {
        let mut line = Vec::new();
        source.by_ref().take(64).read_until(b'\n', &mut line)?;
        match limits(&line) {
            Some(limits) => Ok(Log { limits, source }),
            None => Err(io::Error::other("the first line is not 'VERIFIERS PLACES EPOCHS' in their ranges")),
        }
    }

    /// None at the file's end. What that end cuts short is malformed there.
    pub fn next_event(&mut self) -> io::Result<Option<Result<Event, Malformed>>> {
        let length = self.up_to(LENGTH_BYTES)?;
        if length.is_empty() {
            return Ok(None);
        }
        let Ok(length) = <[u8; LENGTH_BYTES]>::try_from(length) else {
            return Ok(Some(Err(Malformed { place: 0 })));
        };
        let length = u32::from_le_bytes(length) as usize;
        let kept = length.min(DECIDING_BYTES);
        let bytes = self.up_to(kept)?;
        if bytes.len() < kept {
            return Ok(Some(Err(Malformed { place: bytes.len() })));
        }
        io::copy(&mut self.source.by_ref().take((length - kept) as u64), &mut io::sink())?;
        Ok(Some(read_event(&bytes)))
    }

    fn up_to(&mut self, length: usize) -> io::Result<Vec<u8>> {
        let mut bytes = Vec::new();
        self.source.by_ref().take(length as u64).read_to_end(&mut bytes)?;
        Ok(bytes)
    }
}

/// Three numbers with single spaces between and a newline after them.
fn limits(line: &[u8]) -> Option<Limits> {
    let text = std::str::from_utf8(line).ok()?.strip_suffix('\n')?;
    let numbers: Vec<usize> = text.split(' ').map(number).collect::<Option<_>>()?;
    let [verifiers, places, epochs] = numbers[..] else {
        return None;
    };
    let in_range = (1..=64).contains(&verifiers) && (2..=32_768).contains(&places) && (2..=16).contains(&epochs);
    in_range.then_some(Limits { verifiers: verifiers as u64, places, epochs: epochs as u64 })
}

/// Decimal, without a sign or zeros in front.
fn number(word: &str) -> Option<usize> {
    let digits = word.bytes().all(|byte| byte.is_ascii_digit());
    if !digits || (word.starts_with('0') && word != "0") {
        return None;
    }
    word.parse().ok()
}

#[cfg(test)]
mod tests {
    use super::*;
    use crate::wire::Entry;

    #[test]
    fn first_lines() {
        assert_eq!(limits(b"4 1024 4\n"), Some(Limits { verifiers: 4, places: 1024, epochs: 4 }));
        let refused: [&[u8]; 9] = [
            b"4 1024 4",
            b"4  1024 4\n",
            b"4 1024\n",
            b"04 1024 4\n",
            b"+4 1024 4\n",
            b"0 1024 4\n",
            b"65 2 2\n",
            b"1 1 2\n",
            b"1 32769 2\n",
        ];
        for line in refused {
            assert_eq!(limits(line), None);
        }
    }

    fn events(bytes: &[u8]) -> Vec<Result<Event, Malformed>> {
        let file = [b"1 2 2\n", bytes].concat();
        let mut log = Log::open(&file[..]).unwrap();
        std::iter::from_fn(|| log.next_event().unwrap()).collect()
    }

    #[test]
    fn lengths() {
        let next = Ok(Event { verifier: 0, entry: Entry::NextEpoch });
        let whole = [9, 0, 0, 0, 0, 0, 0, 0, 0, 0, 0, 0, 5];
        assert_eq!(events(&whole), [next.clone()]);
        let too_long = [10, 0, 0, 0, 0, 0, 0, 0, 0, 0, 0, 0, 5, 7];
        assert_eq!(events(&[&too_long, &whole[..]].concat()), [Err(Malformed { place: 9 }), next]);
        assert_eq!(events(&whole[..12]), [Err(Malformed { place: 8 })]);
        assert_eq!(events(&whole[..3]), [Err(Malformed { place: 0 })]);
    }
}
