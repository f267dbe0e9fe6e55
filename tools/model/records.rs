//! Paths and records, and what of them is hashed.

use crate::sha256::{Hash, sha256};

pub type Bytes = Vec<u8>;

/// Bits from the tree's root, a byte each. Paths are ordered bit by bit, a beginning before what goes on.
#[derive(Clone, Debug, PartialEq, Eq, PartialOrd, Ord, Hash)]
pub struct Path(pub Bytes);

impl Path {
    pub fn root() -> Path {
        Path(Vec::new())
    }

    /// The 256 bits of the key's SHA-256, each byte's high bit first.
    pub fn of_key(key: &[u8]) -> Path {
        let hash = sha256(key);
        Path(hash.iter().flat_map(|byte| (0..8).rev().map(move |i| byte >> i & 1)).collect())
    }

    pub fn is_root(&self) -> bool {
        self.0.is_empty()
    }

    /// It begins with the other path and is longer.
    pub fn is_below(&self, other: &Path) -> bool {
        self.0.len() > other.0.len() && self.0.starts_with(&other.0)
    }

    /// On which side of a path above it is: the next bit, 0 left and 1 right.
    pub fn side_of(&self, above: &Path) -> usize {
        self.0[above.0.len()] as usize
    }
}

/// What a node knows of one side: nothing; or the next path there that is in use, the hash that its record
/// had when it was last evicted by Merkle, and whether it was evicted by Blum.
#[derive(Clone, Debug, PartialEq)]
pub enum Pointer {
    Absent,
    Present { path: Path, hash: Hash, in_blum: bool },
}

#[derive(Clone, Debug, PartialEq)]
pub enum Record {
    Data { key: Bytes, value: Option<Bytes> },
    Node { path: Path, children: [Pointer; 2] },
}

impl Record {
    pub fn path(&self) -> Path {
        match self {
            Record::Data { key, .. } => Path::of_key(key),
            Record::Node { path, .. } => path.clone(),
        }
    }

    /// As at first: a key without a value, a node that knows nothing.
    pub fn is_initial(&self) -> bool {
        match self {
            Record::Data { value, .. } => value.is_none(),
            Record::Node { children, .. } => *children == [Pointer::Absent, Pointer::Absent],
        }
    }

    /// The hash of all but the key or the path.
    pub fn merkle_hash(&self) -> Hash {
        sha256(&self.merkle_bytes())
    }

    fn merkle_bytes(&self) -> Bytes {
        match self {
            Record::Data { value: None, .. } => vec![0, 0],
            Record::Data { value: Some(value), .. } => [&[0, 1], &sized(value)[..]].concat(),
            Record::Node { children: [left, right], .. } => {
                [&[1], &pointer_bytes(left)[..], &pointer_bytes(right)[..]].concat()
            }
        }
    }

    /// With the key or the path.
    pub fn bytes(&self) -> Bytes {
        let (kind, name) = match self {
            Record::Data { key, .. } => (0, sized(key)),
            Record::Node { path, .. } => (1, sized(&path.0)),
        };
        [&[kind], &name[..], &self.merkle_bytes()[..]].concat()
    }
}

fn sized(bytes: &[u8]) -> Bytes {
    let length = bytes.len() as u16;
    [&length.to_le_bytes(), bytes].concat()
}

fn pointer_bytes(pointer: &Pointer) -> Bytes {
    match pointer {
        Pointer::Absent => vec![0],
        Pointer::Present { path, hash, in_blum } => [&[1, u8::from(*in_blum)], &sized(&path.0)[..], hash].concat(),
    }
}
