//! Events as bytes of the log.

use crate::path::Path;

#[derive(Clone, Copy, Debug, PartialEq, Eq, PartialOrd, Ord)]
pub struct Timestamp {
    pub epoch: u64,
    pub counter: u64,
}

/// Collects bytes, with a few words for the fields of an event.
#[derive(Default)]
pub struct Bytes(pub Vec<u8>);

impl Bytes {
    pub fn byte(&mut self, byte: u8) -> &mut Bytes {
        self.0.push(byte);
        self
    }

    pub fn raw(&mut self, bytes: &[u8]) -> &mut Bytes {
        self.0.extend_from_slice(bytes);
        self
    }

    fn number(&mut self, number: u64) -> &mut Bytes {
        self.raw(&number.to_le_bytes())
    }

    pub fn text(&mut self, text: &[u8]) -> &mut Bytes {
        self.raw(&(text.len() as u16).to_le_bytes()).raw(text)
    }

    pub fn path(&mut self, path: &Path) -> &mut Bytes {
        self.raw(&(path.length() as u16).to_le_bytes());
        self.0.extend((0..path.length()).map(|i| path.bit(i)));
        self
    }

    pub fn value(&mut self, value: Option<&[u8]>) -> &mut Bytes {
        match value {
            None => self.byte(0),
            Some(text) => self.byte(1).text(text),
        }
    }

    fn timestamp(&mut self, at: Timestamp) -> &mut Bytes {
        self.number(at.epoch).number(at.counter)
    }
}

/// The log so far that nobody has taken yet, and how many events it has in all.
#[derive(Default)]
pub struct Writer {
    pub bytes: Vec<u8>,
    pub events: u64,
}

impl Writer {
    fn event(&mut self, verifier: usize, code: u8, fields: impl FnOnce(&mut Bytes)) {
        let mut event = Bytes(Vec::with_capacity(1024));
        event.number(verifier as u64).byte(code);
        fields(&mut event);
        self.bytes.extend((event.0.len() as u32).to_le_bytes());
        self.bytes.extend(event.0);
        self.events += 1;
    }

    pub fn add_merkle(&mut self, verifier: usize, record: &[u8], above: &Path) {
        self.event(verifier, 0, |event| {
            event.raw(record).path(above);
        });
    }

    pub fn add_blum(&mut self, verifier: usize, record: &[u8], at: Timestamp, by: usize) {
        self.event(verifier, 1, |event| {
            event.raw(record).timestamp(at).number(by as u64);
        });
    }

    pub fn evict_merkle(&mut self, verifier: usize, path: &Path, above: &Path) {
        self.event(verifier, 2, |event| {
            event.path(path).path(above);
        });
    }

    pub fn evict_blum(&mut self, verifier: usize, path: &Path, at: Timestamp) {
        self.event(verifier, 3, |event| {
            event.path(path).timestamp(at);
        });
    }

    pub fn evict_blum_merkle(&mut self, verifier: usize, path: &Path, above: &Path, at: Timestamp) {
        self.event(verifier, 4, |event| {
            event.path(path).path(above).timestamp(at);
        });
    }

    pub fn next_epoch(&mut self, verifier: usize) {
        self.event(verifier, 5, |_| {});
    }

    pub fn verify_epoch(&mut self, verifier: usize) {
        self.event(verifier, 6, |_| {});
    }

    pub fn get(&mut self, verifier: usize, key: &[u8], value: Option<&[u8]>) {
        self.event(verifier, 7, |event| {
            event.text(key).value(value);
        });
    }

    pub fn set(&mut self, verifier: usize, key: &[u8], value: &[u8]) {
        self.event(verifier, 8, |event| {
            event.text(key).text(value);
        });
    }
}
