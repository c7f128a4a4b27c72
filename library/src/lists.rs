//! Operations, reads and sets of shards, as the records have them.

use crate::ffi::{Asked, Item, Operations, OPERATIONS};

/// A get or a put.
#[derive(Clone, Copy, Debug, PartialEq, Eq)]
pub enum Operation {
    /// A get of a key.
    Get(u8),
    /// A put of a value at a key.
    Put(u8, u32),
}

/// What a get found.
#[derive(Clone, Copy, Debug, PartialEq, Eq)]
pub struct Read {
    /// The get's place in its transaction.
    pub place: u8,
    /// The value, or none where the key is absent.
    pub value: Option<u32>,
}

impl From<Item> for Operation {
    fn from(item: Item) -> Self {
        match item.code {
            0 => Operation::Get(item.key),
            _ => Operation::Put(item.key, item.value),
        }
    }
}

impl From<Item> for Read {
    fn from(item: Item) -> Self {
        Read {
            place: item.place,
            value: (item.code != 0).then_some(item.value),
        }
    }
}

impl From<Operation> for Asked {
    fn from(operation: Operation) -> Self {
        let (code, key, value) = match operation {
            Operation::Get(key) => (0, key, 0),
            Operation::Put(key, value) => (1, key, value),
        };
        Asked { code, key, value }
    }
}

impl Operations {
    /// The list of these operations. One of more than four has no room for all, and its count,
    /// which says so, is refused.
    pub fn of(operations: impl IntoIterator<Item = impl Into<Asked>>) -> Self {
        let mut list = Operations::default();
        for operation in operations {
            if let Some(slot) = list.items.get_mut(usize::from(list.count)) {
                *slot = operation.into();
            }
            list.count = list.count.saturating_add(1);
        }
        list
    }
}

/// The first `count` items.
pub(crate) fn first(count: u8, items: &[Item; OPERATIONS]) -> &[Item] {
    &items[..usize::from(count).min(OPERATIONS)]
}

/// The shards of a mask, rising: shard j is in it where bit j - 1 is set.
pub fn shards(mask: u8) -> impl Iterator<Item = u8> {
    (1..=8).filter(move |shard| mask >> (shard - 1) & 1 == 1)
}

impl From<Asked> for Operation {
    fn from(asked: Asked) -> Self {
        match asked.code {
            0 => Operation::Get(asked.key),
            _ => Operation::Put(asked.key, asked.value),
        }
    }
}
