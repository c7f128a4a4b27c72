//! 01, section "Sizes".

use std::ops::RangeInclusive;

/// Boards in a chain: board 1 is the head, board n the tail.
pub const BOARDS: RangeInclusive<u8> = 2..=8;
/// Shard groups, numbered from 1.
pub const SHARDS: RangeInclusive<u8> = 1..=8;
/// Clients 0..15.
pub const CLIENTS: u8 = 16;
/// Keys 0..255.
pub const KEYS: usize = 256;
/// The largest write number.
pub const LAST_NUMBER: u16 = 65_534;
/// Most operations of a transaction.
pub const OPERATIONS: usize = 4;
/// Most entries of a log.
pub const LOG: usize = 256;
/// Numbers in a client's window.
pub const WINDOW: u16 = 8;
/// Least bytes of an out area: four shards, one operation each, 4 x 17 bytes.
pub const OUT_AREA: usize = 68;
/// The largest length a frame can state: a ShardAppend of four operations.
pub const LONGEST: usize = 36;

/// The shard that key `key` belongs to among `m`.
pub fn shard_of(key: u8, m: u8) -> u8 {
    key % m + 1
}

/// A set of shards within 1..8, as a mask.
#[derive(Clone, Copy, Debug, Default, PartialEq, Eq)]
pub struct Shards(u8);

impl Shards {
    /// Adds a shard.
    pub fn add(&mut self, shard: u8) {
        self.0 |= 1 << (shard - 1);
    }

    /// Strikes a shard.
    pub fn strike(&mut self, shard: u8) {
        self.0 &= !(1 << (shard - 1));
    }

    /// Whether the shard is in the set.
    pub fn contains(self, shard: u8) -> bool {
        SHARDS.contains(&shard) && self.0 & (1 << (shard - 1)) != 0
    }

    /// Whether no shard is in the set.
    pub fn is_empty(self) -> bool {
        self.0 == 0
    }

    /// The shards, rising.
    pub fn iter(self) -> impl Iterator<Item = u8> {
        SHARDS.filter(move |&shard| self.contains(shard))
    }
}

impl FromIterator<u8> for Shards {
    fn from_iter<I: IntoIterator<Item = u8>>(shards: I) -> Self {
        let mut set = Shards::default();
        for shard in shards {
            set.add(shard);
        }
        set
    }
}

#[cfg(test)]
mod tests {
    use super::*;

    #[test]
    fn keys_belong_to_shards() {
        assert_eq!(shard_of(5, 3), 3);
        assert_eq!(shard_of(255, 8), 8);
        assert_eq!(shard_of(255, 1), 1);
        assert_eq!(shard_of(0, 8), 1);
    }

    #[test]
    fn a_set_of_shards() {
        let mut set: Shards = [8, 1, 3].into_iter().collect();
        assert!(set.iter().eq([1, 3, 8]));
        set.strike(3);
        set.strike(4);
        assert!(set.iter().eq([1, 8]));
        assert!(!set.contains(0) && !set.contains(9) && !set.contains(3));
        set.strike(1);
        set.strike(8);
        assert!(set.is_empty());
    }
}
