//! Events, and how they are read from bytes.

use crate::records::{Bytes, Path, Pointer, Record};
use crate::sha256::Hash;

/// An epoch and a counter in it; the epoch counts first.
#[derive(Clone, Copy, Debug, PartialEq, Eq, PartialOrd, Ord)]
pub struct Timestamp {
    pub epoch: u64,
    pub counter: u64,
}

#[derive(Clone, Debug, PartialEq)]
pub enum Entry {
    AddMerkle { record: Record, above: Path },
    AddBlum { record: Record, at: Timestamp, by: u64 },
    EvictMerkle { path: Path, above: Path },
    EvictBlum { path: Path, at: Timestamp },
    EvictBlumMerkle { path: Path, above: Path, at: Timestamp },
    NextEpoch,
    VerifyEpoch,
    Get { key: Bytes, value: Option<Bytes> },
    Set { key: Bytes, value: Bytes },
}

impl Entry {
    pub fn code(&self) -> u8 {
        match self {
            Entry::AddMerkle { .. } => 0,
            Entry::AddBlum { .. } => 1,
            Entry::EvictMerkle { .. } => 2,
            Entry::EvictBlum { .. } => 3,
            Entry::EvictBlumMerkle { .. } => 4,
            Entry::NextEpoch => 5,
            Entry::VerifyEpoch => 6,
            Entry::Get { .. } => 7,
            Entry::Set { .. } => 8,
        }
    }
}

#[derive(Clone, Debug, PartialEq)]
pub struct Event {
    pub verifier: u64,
    pub entry: Entry,
}

/// Bytes that are no event, and the place where they cease to be one.
#[derive(Clone, Copy, Debug, PartialEq)]
pub struct Malformed {
    pub place: usize,
}

pub fn read_event(bytes: &[u8]) -> Result<Event, Malformed> {
    let mut reader = Reader { bytes, place: 0 };
    let event = reader.event()?;
    match reader.place == bytes.len() {
        true => Ok(event),
        false => Err(Malformed { place: reader.place }),
    }
}

struct Reader<'a> {
    bytes: &'a [u8],
    place: usize,
}

impl Reader<'_> {
    fn event(&mut self) -> Result<Event, Malformed> {
        let verifier = self.number()?;
        let entry = match self.up_to(8)? {
            0 => Entry::AddMerkle { record: self.record()?, above: self.path()? },
            1 => Entry::AddBlum { record: self.record()?, at: self.timestamp()?, by: self.number()? },
            2 => Entry::EvictMerkle { path: self.path()?, above: self.path()? },
            3 => Entry::EvictBlum { path: self.path()?, at: self.timestamp()? },
            4 => Entry::EvictBlumMerkle { path: self.path()?, above: self.path()?, at: self.timestamp()? },
            5 => Entry::NextEpoch,
            6 => Entry::VerifyEpoch,
            7 => Entry::Get { key: self.text()?, value: self.value()? },
            _ => Entry::Set { key: self.text()?, value: self.text()? },
        };
        Ok(Event { verifier, entry })
    }

    /// The next bytes; if there are too few, the event is cut short, and malformed at its end.
    fn take(&mut self, length: usize) -> Result<&[u8], Malformed> {
        if self.bytes.len() - self.place < length {
            return Err(Malformed { place: self.bytes.len() });
        }
        let taken = &self.bytes[self.place..self.place + length];
        self.place += length;
        Ok(taken)
    }

    /// The next byte; one that is too high is malformed at the number of bytes before it.
    fn up_to(&mut self, highest: u8) -> Result<u8, Malformed> {
        let place = self.place;
        match self.take(1)?[0] {
            byte if byte <= highest => Ok(byte),
            _ => Err(Malformed { place }),
        }
    }

    fn flag(&mut self) -> Result<bool, Malformed> {
        Ok(self.up_to(1)? == 1)
    }

    fn number(&mut self) -> Result<u64, Malformed> {
        let mut low_first = [0; 8];
        low_first.copy_from_slice(self.take(8)?);
        Ok(u64::from_le_bytes(low_first))
    }

    fn text(&mut self) -> Result<Bytes, Malformed> {
        let length = self.take(2)?;
        let length = usize::from(u16::from_le_bytes([length[0], length[1]]));
        Ok(self.take(length)?.to_vec())
    }

    fn path(&mut self) -> Result<Path, Malformed> {
        Ok(Path(self.text()?))
    }

    fn value(&mut self) -> Result<Option<Bytes>, Malformed> {
        match self.flag()? {
            false => Ok(None),
            true => Ok(Some(self.text()?)),
        }
    }

    fn hash(&mut self) -> Result<Hash, Malformed> {
        let mut hash = [0; 32];
        hash.copy_from_slice(self.take(32)?);
        Ok(hash)
    }

    fn timestamp(&mut self) -> Result<Timestamp, Malformed> {
        Ok(Timestamp { epoch: self.number()?, counter: self.number()? })
    }

    fn pointer(&mut self) -> Result<Pointer, Malformed> {
        match self.flag()? {
            false => Ok(Pointer::Absent),
            true => Ok(Pointer::Present { in_blum: self.flag()?, path: self.path()?, hash: self.hash()? }),
        }
    }

    /// A record says twice which kind it is, before its key or path and after it.
    fn record(&mut self) -> Result<Record, Malformed> {
        let is_node = self.flag()?;
        let name = self.text()?;
        let place = self.place;
        if self.flag()? != is_node {
            return Err(Malformed { place });
        }
        match is_node {
            false => Ok(Record::Data { key: name, value: self.value()? }),
            true => {
                let children = [self.pointer()?, self.pointer()?];
                Ok(Record::Node { path: Path(name), children })
            }
        }
    }
}

#[cfg(test)]
mod tests {
    use super::*;

    fn bytes(hex: &str) -> Vec<u8> {
        hex.split_whitespace().map(|byte| u8::from_str_radix(byte, 16).unwrap()).collect()
    }

    fn one_to_32() -> Hash {
        std::array::from_fn(|i| i as u8 + 1)
    }

    const ADD_MERKLE: &str = "00 00 00 00 00 00 00 00 00 01 02 00 00 01 01 01 01 03 00 00 01 00
        01 02 03 04 05 06 07 08 09 0a 0b 0c 0d 0e 0f 10
        11 12 13 14 15 16 17 18 19 1a 1b 1c 1d 1e 1f 20 00 00 00";

    const ADD_BLUM: &str = "02 00 00 00 00 00 00 00 01 00 05 00 61 6c 69 63 65 00 01 03 00 31 30 30
        03 00 00 00 00 00 00 00 02 01 00 00 00 00 00 00 01 00 00 00 00 00 00 00";

    fn examples() -> Vec<(&'static str, u64, Entry)> {
        let at = |epoch, counter| Timestamp { epoch, counter };
        let path = |bits: &[u8]| Path(bits.to_vec());
        let left = Pointer::Present { path: path(&[0, 1, 0]), hash: one_to_32(), in_blum: true };
        let node = Record::Node { path: path(&[0, 1]), children: [left, Pointer::Absent] };
        let alice = Record::Data { key: b"alice".to_vec(), value: Some(b"100".to_vec()) };
        let (key, bob) = (b"alice".to_vec(), b"bob".to_vec());
        vec![
            (ADD_MERKLE, 0, Entry::AddMerkle { record: node, above: path(&[]) }),
            (ADD_BLUM, 2, Entry::AddBlum { record: alice, at: at(3, 258), by: 1 }),
            (
                "00 00 00 00 00 00 00 00 02 02 00 00 01 01 00 00",
                0,
                Entry::EvictMerkle { path: path(&[0, 1]), above: path(&[0]) },
            ),
            (
                "01 00 00 00 00 00 00 00 03 03 00 01 00 01 03 00 00 00 00 00 00 00 07 00 00 00 00 00 00 00",
                1,
                Entry::EvictBlum { path: path(&[1, 0, 1]), at: at(3, 7) },
            ),
            (
                "01 00 00 00 00 00 00 00 04 02 00 01 01 00 00 04 00 00 00 00 00 00 00 00 00 00 00 00 00 00 00",
                1,
                Entry::EvictBlumMerkle { path: path(&[1, 1]), above: path(&[]), at: at(4, 0) },
            ),
            ("02 00 00 00 00 00 00 00 05", 2, Entry::NextEpoch),
            ("02 01 00 00 00 00 00 00 06", 258, Entry::VerifyEpoch),
            (
                "01 00 00 00 00 00 00 00 07 05 00 61 6c 69 63 65 01 03 00 31 30 30",
                1,
                Entry::Get { key: key.clone(), value: Some(b"100".to_vec()) },
            ),
            ("01 00 00 00 00 00 00 00 07 03 00 62 6f 62 00", 1, Entry::Get { key: bob, value: None }),
            (
                "01 00 00 00 00 00 00 00 08 05 00 61 6c 69 63 65 02 00 39 30",
                1,
                Entry::Set { key, value: b"90".to_vec() },
            ),
        ]
    }

    #[test]
    fn one_event_of_each_kind() {
        for (hex, verifier, entry) in examples() {
            assert_eq!(read_event(&bytes(hex)), Ok(Event { verifier, entry }));
        }
    }

    #[test]
    fn cut_short_or_with_a_byte_after() {
        for (hex, ..) in examples() {
            let mut event = bytes(hex);
            for place in 0..event.len() {
                assert_eq!(read_event(&event[..place]), Err(Malformed { place }));
            }
            let place = event.len();
            event.push(0);
            assert_eq!(read_event(&event), Err(Malformed { place }));
        }
    }

    #[test]
    fn places_of_malformed_bytes() {
        let table = [
            ("", 0),
            ("02 00 00", 3),
            ("02 00 00 00 00 00 00 00", 8),
            ("02 00 00 00 00 00 00 00 09", 8),
            ("02 00 00 00 00 00 00 00 05 00", 9),
            ("00 00 00 00 00 00 00 00 02 02 00 00", 12),
            ("01 00 00 00 00 00 00 00 07 00 00 02", 11),
            ("00 00 00 00 00 00 00 00 00 01 00 00 00", 12),
        ];
        for (hex, place) in table {
            assert_eq!(read_event(&bytes(hex)), Err(Malformed { place }), "{hex}");
        }
    }

    #[test]
    fn hashed_bytes_are_parts_of_the_entry() {
        let event = bytes(ADD_BLUM);
        let Ok(Event { entry: Entry::AddBlum { record, .. }, .. }) = read_event(&event) else {
            panic!("no AddBlum");
        };
        assert_eq!(record.bytes(), &event[9..24]);
        assert_eq!(record.merkle_hash(), crate::sha256::sha256(&event[17..24]));
        let event = bytes(ADD_MERKLE);
        let Ok(Event { entry: Entry::AddMerkle { record, .. }, .. }) = read_event(&event) else {
            panic!("no AddMerkle");
        };
        assert_eq!(record.merkle_hash(), crate::sha256::sha256(&event[14..55]));
    }
}
