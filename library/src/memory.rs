//! Memory that a record of the library lies in, and what a record is made of.

#![allow(unsafe_code)]

use std::fmt;
use std::marker::PhantomData;
use std::mem::{align_of, size_of};
use std::slice;

/// A number or a bool of a record: what lies between leaves is padding.
#[derive(Clone, Copy, Debug)]
pub struct Leaf<'a> {
    /// Its name from the record on, as `log[3].reads[1].value`.
    pub name: &'a str,
    /// Where it lies in the record.
    pub at: usize,
    /// How many bytes it has.
    pub size: usize,
    /// Whether it is a bool, and so 0 or 1.
    pub is_bool: bool,
}

/// Numbers, bools, and arrays and records of them.
///
/// # Safety
///
/// `leaves` names every bool. Bytes in which each bool is 0 or 1 are a value of the type.
pub unsafe trait Plain: Copy {
    /// Calls `each` with every leaf, rising; `at` and `name` are those of the whole.
    fn leaves(at: usize, name: &str, each: &mut dyn FnMut(Leaf));
}

macro_rules! plain {
    ($($type:ty, $is_bool:literal;)*) => {$(
        // SAFETY: a single leaf, said to be a bool where it is one.
        unsafe impl Plain for $type {
            fn leaves(at: usize, name: &str, each: &mut dyn FnMut(Leaf)) {
                each(Leaf { name, at, size: size_of::<$type>(), is_bool: $is_bool });
            }
        }
    )*};
}

plain! {
    u8, false;
    u16, false;
    u32, false;
    usize, false;
    bool, true;
}

// SAFETY: the leaves of every element.
unsafe impl<T: Plain, const N: usize> Plain for [T; N] {
    fn leaves(at: usize, name: &str, each: &mut dyn FnMut(Leaf)) {
        for index in 0..N {
            T::leaves(
                at + index * size_of::<T>(),
                &format!("{name}[{index}]"),
                each,
            );
        }
    }
}

/// A field of a record, as C's `offsetof` and `sizeof` would say it.
#[derive(Clone, Copy, Debug, PartialEq, Eq)]
pub struct Field {
    /// Its name.
    pub name: &'static str,
    /// Where it lies in the record.
    pub at: usize,
    /// How many bytes it has.
    pub size: usize,
}

/// A record of include/register.h.
pub trait Record: Plain {
    /// Its name there.
    const NAME: &'static str;
    /// Its fields, in their order.
    const FIELDS: &'static [Field];

    /// Where its leaves and bools lie.
    fn shape() -> &'static Shape;
}

/// Where the leaves and bools of a record lie.
#[derive(Clone, Debug)]
pub struct Shape {
    /// The record's bytes as words: ones where a leaf lies, zeros where there is padding.
    mask: Box<[u64]>,
    /// Where each bool lies.
    bools: Vec<usize>,
}

impl Shape {
    /// The shape of a record, made from its leaves.
    pub fn of<R: Plain>() -> Self {
        let mut mask = words::<R>();
        let mut bools = Vec::new();
        R::leaves(0, "", &mut |leaf| {
            for at in leaf.at..leaf.at + leaf.size {
                mask[at / WORD] |= 0xFF << (8 * (at % WORD));
            }
            if leaf.is_bool {
                bools.push(leaf.at);
            }
        });
        Shape { mask, bools }
    }
}

const WORD: usize = size_of::<u64>();

/// Words that have room for a record, all of them 0.
fn words<R: Plain>() -> Box<[u64]> {
    assert!(align_of::<R>() <= align_of::<u64>());
    vec![0; size_of::<R>().div_ceil(WORD)].into()
}

/// Defines a record and says what it is made of.
macro_rules! record {
    ($(#[$about:meta])* pub struct $name:ident { $($(#[$what:meta])* pub $field:ident: $type:ty,)* }) => {
        $(#[$about])*
        #[repr(C)]
        #[derive(Clone, Copy, Debug, PartialEq, Eq)]
        pub struct $name {
            $($(#[$what])* pub $field: $type,)*
        }

        // SAFETY: the leaves of every field.
        unsafe impl $crate::memory::Plain for $name {
            fn leaves(at: usize, name: &str, each: &mut dyn FnMut($crate::memory::Leaf)) {
                let dot = if name.is_empty() { "" } else { "." };
                $(<$type as $crate::memory::Plain>::leaves(
                    at + std::mem::offset_of!($name, $field),
                    &format!("{name}{dot}{}", stringify!($field)),
                    each,
                );)*
            }
        }

        impl $crate::memory::Record for $name {
            const NAME: &'static str = stringify!($name);
            const FIELDS: &'static [$crate::memory::Field] = &[$($crate::memory::Field {
                name: stringify!($field),
                at: std::mem::offset_of!($name, $field),
                size: std::mem::size_of::<$type>(),
            },)*];

            fn shape() -> &'static $crate::memory::Shape {
                static SHAPE: std::sync::OnceLock<$crate::memory::Shape> = std::sync::OnceLock::new();
                SHAPE.get_or_init($crate::memory::Shape::of::<$name>)
            }
        }
    };
}
pub(crate) use record;

/// Memory of a record's size that holds any bytes, also bools that are neither 0 nor 1: no record
/// lies in it until one is started there.
pub struct Raw<R> {
    words: Box<[u64]>,
    record: PhantomData<R>,
}

impl<R: Record> Raw<R> {
    /// Memory that holds `bytes`, as many as the record has, as they are.
    pub fn holding(bytes: &[u8]) -> Self {
        let mut memory = Memory::<R>::zeroed();
        memory.bytes_mut().copy_from_slice(bytes);
        memory.into()
    }

    /// Lends the memory to a start, and gives the record that it left, and its answer.
    ///
    /// # Safety
    ///
    /// `start` stores every field.
    pub(crate) unsafe fn started(mut self, start: impl FnOnce(*mut R) -> u8) -> (Memory<R>, u8) {
        let answer = start(self.words.as_mut_ptr().cast());
        let memory = Memory {
            words: self.words,
            record: PhantomData,
        };
        (memory, answer)
    }
}

impl<R> From<Memory<R>> for Raw<R> {
    fn from(memory: Memory<R>) -> Self {
        Raw {
            words: memory.words,
            record: PhantomData,
        }
    }
}

/// Memory of a record's size, in which each bool is 0 or 1.
///
/// The record in it is never moved as a value, so that its padding, too, stays as the library
/// left it.
pub struct Memory<R> {
    words: Box<[u64]>,
    record: PhantomData<R>,
}

impl<R: Record> Memory<R> {
    /// Memory in which every byte is 0.
    pub fn zeroed() -> Self {
        Memory {
            words: words::<R>(),
            record: PhantomData,
        }
    }

    /// Memory that holds `bytes`, as many as the record has. Of a bool's byte only the last bit
    /// is taken over.
    pub fn holding(bytes: &[u8]) -> Self {
        let mut memory = Self::zeroed();
        let held = memory.bytes_mut();
        held.copy_from_slice(bytes);
        for &at in &R::shape().bools {
            held[at] &= 1;
        }
        memory
    }

    /// Every byte, padding included.
    pub fn bytes(&self) -> &[u8] {
        // SAFETY: the words have at least so many bytes, all of them set: no record is ever
        // moved in as a value, which would leave its padding unset.
        unsafe { slice::from_raw_parts(self.words.as_ptr().cast(), size_of::<R>()) }
    }

    fn bytes_mut(&mut self) -> &mut [u8] {
        // SAFETY: as above, and any bytes are words.
        unsafe { slice::from_raw_parts_mut(self.words.as_mut_ptr().cast(), size_of::<R>()) }
    }

    /// The record.
    pub fn record(&self) -> &R {
        // SAFETY: aligned and large enough, and each bool is 0 or 1: `zeroed` and `holding` see
        // to it, and the library and safe Rust only store bools.
        unsafe { &*self.words.as_ptr().cast() }
    }

    /// The record, to be lent, or to be set number by number: that leaves its padding alone.
    pub(crate) fn record_mut(&mut self) -> &mut R {
        // SAFETY: as above.
        unsafe { &mut *self.words.as_mut_ptr().cast() }
    }

    /// Whether every field is the same in both; padding isn't looked at.
    pub fn has_fields_of(&self, other: &Self) -> bool {
        let pairs = self
            .words
            .iter()
            .zip(&other.words[..])
            .zip(&R::shape().mask[..]);
        pairs.fold(0, |differing, ((mine, others), mask)| {
            differing | ((mine ^ others) & mask)
        }) == 0
    }

    /// The first leaf that differs, with both its values.
    pub fn difference(&self, other: &Self) -> Option<String> {
        if self.has_fields_of(other) {
            return None;
        }
        let mut found = None;
        R::leaves(0, "", &mut |leaf| {
            let value = |memory: &Self| {
                let bytes = &memory.bytes()[leaf.at..leaf.at + leaf.size];
                bytes
                    .iter()
                    .rev()
                    .fold(0u64, |value, &byte| value << 8 | u64::from(byte))
            };
            let (mine, others) = (value(self), value(other));
            if mine != others && found.is_none() {
                found = Some(format!("{}.{} is {mine}, not {others}", R::NAME, leaf.name));
            }
        });
        found
    }
}

impl<R: Record + fmt::Debug> fmt::Debug for Memory<R> {
    fn fmt(&self, f: &mut fmt::Formatter<'_>) -> fmt::Result {
        self.record().fmt(f)
    }
}
