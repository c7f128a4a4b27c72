//! Operations, placed operations and reads, and the lists of up to four of them.

use std::fmt;
use std::ops::{Deref, DerefMut};

use crate::sizes::{shard_of, Shards, OPERATIONS};

/// A get or a put, as it stands in a frame.
///
/// The fields are plain bytes, since an invoked list may break the rules.
#[derive(Clone, Copy, Debug, Default, PartialEq, Eq)]
pub struct Operation {
    /// 0 get or 1 put.
    pub action: u8,
    /// The key.
    pub key: u8,
    /// The value put; 0 for get.
    pub value: u32,
}

impl Operation {
    /// The action of a get.
    pub const GET: u8 = 0;
    /// The action of a put.
    pub const PUT: u8 = 1;

    /// A get of `key`.
    pub const fn get(key: u8) -> Self {
        Operation {
            action: Self::GET,
            key,
            value: 0,
        }
    }

    /// A put of `value` at `key`.
    pub const fn put(key: u8, value: u32) -> Self {
        Operation {
            action: Self::PUT,
            key,
            value,
        }
    }

    /// Whether this is a get.
    pub fn is_get(self) -> bool {
        self.action == Self::GET
    }

    /// Get or put, and value 0 for get.
    pub fn keeps_rules(self) -> bool {
        match self.action {
            Self::GET => self.value == 0,
            Self::PUT => true,
            _ => false,
        }
    }
}

/// An operation with its place in the transaction's whole list.
#[derive(Clone, Copy, Debug, Default, PartialEq, Eq)]
pub struct Placed {
    /// The place, 0..3.
    pub place: u8,
    /// The operation.
    pub operation: Operation,
}

/// What a get found.
#[derive(Clone, Copy, Debug, Default, PartialEq, Eq)]
pub struct Read {
    /// The get's place, 0..3.
    pub place: u8,
    /// The value, or none where the key is absent.
    pub value: Option<u32>,
}

/// A list of at most four items.
#[derive(Clone, Copy, Default)]
pub struct List<T> {
    items: [T; OPERATIONS],
    len: u8,
}

/// A transaction's operations.
pub type Operations = List<Operation>;
/// A shard's part of a transaction.
pub type PlacedOperations = List<Placed>;
/// What the gets of a transaction, or of a shard's part, found.
pub type Reads = List<Read>;

impl<T: Copy> List<T> {
    /// Appends an item; a fifth one is a fault of the caller.
    pub fn push(&mut self, item: T) {
        self.items[usize::from(self.len)] = item;
        self.len += 1;
    }
}

impl<T> Deref for List<T> {
    type Target = [T];

    fn deref(&self) -> &[T] {
        &self.items[..usize::from(self.len)]
    }
}

impl<T> DerefMut for List<T> {
    fn deref_mut(&mut self) -> &mut [T] {
        &mut self.items[..usize::from(self.len)]
    }
}

impl<T: Copy + Default> FromIterator<T> for List<T> {
    fn from_iter<I: IntoIterator<Item = T>>(items: I) -> Self {
        let mut list = List::default();
        for item in items {
            list.push(item);
        }
        list
    }
}

impl<T: PartialEq> PartialEq for List<T> {
    fn eq(&self, other: &Self) -> bool {
        **self == **other
    }
}

impl<T: Eq> Eq for List<T> {}

impl<T: fmt::Debug> fmt::Debug for List<T> {
    fn fmt(&self, f: &mut fmt::Formatter<'_>) -> fmt::Result {
        f.debug_list().entries(self.iter()).finish()
    }
}

impl Operations {
    /// The list an invocation hands over, if it keeps the rules: 1..4 operations, each a get
    /// without a value or a put.
    pub fn invoked(operations: &[Operation]) -> Option<Self> {
        let fits = (1..=OPERATIONS).contains(&operations.len())
            && operations.iter().all(|operation| operation.keeps_rules());
        fits.then(|| operations.iter().copied().collect())
    }

    /// The operations with their places.
    pub fn placed(&self) -> impl Iterator<Item = Placed> + '_ {
        (0..)
            .zip(self.iter())
            .map(|(place, &operation)| Placed { place, operation })
    }

    /// The part of the list that belongs to `shard`.
    pub fn on_shard(&self, shard: u8, m: u8) -> impl Iterator<Item = Placed> + '_ {
        self.placed()
            .filter(move |placed| shard_of(placed.operation.key, m) == shard)
    }

    /// The shards that the keys touch, by puts and gets alike.
    pub fn touched(&self, m: u8) -> Shards {
        self.iter()
            .map(|operation| shard_of(operation.key, m))
            .collect()
    }
}

impl Reads {
    /// Whether the read places are exactly those of the gets among `operations`.
    pub fn answer(&self, operations: impl Iterator<Item = Placed>) -> bool {
        let gets = operations.filter(|placed| placed.operation.is_get());
        self.iter()
            .map(|read| read.place)
            .eq(gets.map(|placed| placed.place))
    }

    /// Adds another shard's reads; all are kept by rising place, not by arrival.
    pub fn merge(&mut self, reads: &Reads) {
        for &read in reads.iter() {
            self.push(read);
        }
        self.sort_unstable_by_key(|read| read.place);
    }
}
