//! Paths of the tree, packed.

use crate::sha256::sha256;

/// Bits after the last are 0, so that the derived order is bit by bit, a beginning before what goes on.
#[derive(Clone, Copy, Debug, PartialEq, Eq, PartialOrd, Ord)]
pub struct Path {
    bits: [u8; 32],
    length: usize,
}

impl Path {
    pub const ROOT: Path = Path { bits: [0; 32], length: 0 };

    pub fn of_key(key: &[u8]) -> Path {
        Path { bits: sha256(key), length: 256 }
    }

    pub fn length(&self) -> usize {
        self.length
    }

    pub fn bit(&self, i: usize) -> u8 {
        self.bits[i / 8] >> (7 - i % 8) & 1
    }

    /// On which side of a path above it is.
    pub fn side_of(&self, above: &Path) -> usize {
        usize::from(self.bit(above.length))
    }

    pub fn begins_with(&self, other: &Path) -> bool {
        self.length >= other.length && self.common(other).length == other.length
    }

    /// The longest path that both begin with.
    pub fn common(&self, other: &Path) -> Path {
        let shorter = self.length.min(other.length);
        let differing = self.bits.iter().zip(other.bits).map(|(a, b)| (a ^ b).leading_zeros() as usize);
        let same = differing.enumerate().find(|(_, zeros)| *zeros < 8).map_or(256, |(i, zeros)| 8 * i + zeros);
        self.first(same.min(shorter))
    }

    fn first(&self, length: usize) -> Path {
        let mut bits = [0; 32];
        bits[..length / 8].copy_from_slice(&self.bits[..length / 8]);
        if length % 8 > 0 {
            bits[length / 8] = self.bits[length / 8] & !(0xff >> (length % 8));
        }
        Path { bits, length }
    }
}

/// How many records the longest way from the root to one of these keys has, when all are in use.
pub fn deepest(mut paths: Vec<Path>) -> usize {
    paths.sort_unstable();
    1 + depth(&paths)
}

fn depth(sorted: &[Path]) -> usize {
    let ([first, .., last], true) = (sorted, sorted.len() > 1) else {
        return sorted.len();
    };
    let parting = first.common(last);
    let right = sorted.partition_point(|path| path.side_of(&parting) == 0);
    1 + depth(&sorted[..right]).max(depth(&sorted[right..]))
}

#[cfg(test)]
mod tests {
    use super::*;

    #[test]
    fn parts_of_paths() {
        let (d, b) = (Path::of_key(b"d"), Path::of_key(b"b"));
        let both = d.common(&b);
        assert_eq!((both.length(), both.bit(0), both.bit(1)), (2, 0, 0));
        assert_eq!((d.side_of(&both), b.side_of(&both)), (0, 1));
        assert!(d.begins_with(&both) && both.begins_with(&Path::ROOT) && !both.begins_with(&d));
        assert!(Path::ROOT < both && both < d && d < b);
        assert_eq!(d.common(&d), d);
    }

    #[test]
    fn depths() {
        assert_eq!(deepest(vec![Path::of_key(b"d")]), 2);
        assert_eq!(deepest(vec![Path::of_key(b"d"), Path::of_key(b"b")]), 3);
    }
}
