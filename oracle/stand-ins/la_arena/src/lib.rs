//! Stands in for la_arena: numbered lists, and lists kept beside them.
//!
//! As the real one it numbers from 0 in the order of allocation and never takes a number back. It leaves out all that
//! lang_ast does not call, and its `Debug` forms are plainer.

mod map;

pub use map::ArenaMap;

use std::{
    cmp::Ordering,
    fmt,
    hash::{Hash, Hasher},
    iter::Enumerate,
    marker::PhantomData,
    ops::{Index, IndexMut},
    slice,
};

/// The number of an index without its sort.
#[derive(Debug, Clone, Copy, PartialEq, Eq, Hash, PartialOrd, Ord)]
pub struct RawIdx(u32);

impl RawIdx {
    pub const fn from_u32(number: u32) -> Self {
        RawIdx(number)
    }

    pub const fn into_u32(self) -> u32 {
        self.0
    }
}

/// The number of a `T` in its arena. The traits are written out because they hold whatever `T` is.
pub struct Idx<T> {
    raw: RawIdx,
    sort: PhantomData<fn() -> T>,
}

impl<T> Idx<T> {
    pub const fn from_raw(raw: RawIdx) -> Self {
        Idx { raw, sort: PhantomData }
    }

    pub const fn into_raw(self) -> RawIdx {
        self.raw
    }

    fn place(self) -> usize {
        self.raw.0 as usize
    }

    fn of_place(place: usize) -> Self {
        Self::from_raw(RawIdx(u32::try_from(place).expect("an arena holds fewer than 2^32 items")))
    }
}

impl<T> Clone for Idx<T> {
    fn clone(&self) -> Self {
        *self
    }
}

impl<T> Copy for Idx<T> {}

impl<T> PartialEq for Idx<T> {
    fn eq(&self, other: &Self) -> bool {
        self.raw == other.raw
    }
}

impl<T> Eq for Idx<T> {}

impl<T> PartialOrd for Idx<T> {
    fn partial_cmp(&self, other: &Self) -> Option<Ordering> {
        Some(self.cmp(other))
    }
}

impl<T> Ord for Idx<T> {
    fn cmp(&self, other: &Self) -> Ordering {
        self.raw.cmp(&other.raw)
    }
}

impl<T> Hash for Idx<T> {
    fn hash<H: Hasher>(&self, state: &mut H) {
        self.raw.hash(state);
    }
}

impl<T> fmt::Debug for Idx<T> {
    fn fmt(&self, f: &mut fmt::Formatter<'_>) -> fmt::Result {
        write!(f, "Idx({})", self.raw.0)
    }
}

/// A list that only grows.
#[derive(Debug, Clone, PartialEq, Eq, Hash)]
pub struct Arena<T> {
    items: Vec<T>,
}

impl<T> Default for Arena<T> {
    fn default() -> Self {
        Self::new()
    }
}

impl<T> Arena<T> {
    pub const fn new() -> Self {
        Arena { items: Vec::new() }
    }

    pub fn len(&self) -> usize {
        self.items.len()
    }

    pub fn is_empty(&self) -> bool {
        self.items.is_empty()
    }

    pub fn alloc(&mut self, item: T) -> Idx<T> {
        let index = Idx::of_place(self.items.len());
        self.items.push(item);
        index
    }

    pub fn iter(&self) -> Iter<'_, T> {
        Iter(self.items.iter().enumerate())
    }
}

impl<T> Index<Idx<T>> for Arena<T> {
    type Output = T;
    fn index(&self, index: Idx<T>) -> &T {
        &self.items[index.place()]
    }
}

impl<T> IndexMut<Idx<T>> for Arena<T> {
    fn index_mut(&mut self, index: Idx<T>) -> &mut T {
        &mut self.items[index.place()]
    }
}

/// The items with their numbers, ascending.
pub struct Iter<'a, T>(Enumerate<slice::Iter<'a, T>>);

impl<'a, T> Iterator for Iter<'a, T> {
    type Item = (Idx<T>, &'a T);

    fn next(&mut self) -> Option<Self::Item> {
        self.0.next().map(|(place, item)| (Idx::of_place(place), item))
    }

    fn size_hint(&self) -> (usize, Option<usize>) {
        self.0.size_hint()
    }
}

impl<T> ExactSizeIterator for Iter<'_, T> {}
