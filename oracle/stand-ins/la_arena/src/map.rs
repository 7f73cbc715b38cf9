//! A value for some of the numbers of an arena.

use std::marker::PhantomData;

use crate::Idx;

#[derive(Debug, Clone, PartialEq, Eq, Hash)]
pub struct ArenaMap<I, V> {
    values: Vec<Option<V>>,
    sort: PhantomData<I>,
}

impl<I, V> Default for ArenaMap<I, V> {
    fn default() -> Self {
        ArenaMap { values: Vec::new(), sort: PhantomData }
    }
}

impl<T, V> ArenaMap<Idx<T>, V> {
    pub fn with_capacity(capacity: usize) -> Self {
        ArenaMap { values: Vec::with_capacity(capacity), sort: PhantomData }
    }

    /// Sets the value of a number and hands back the one before.
    pub fn insert(&mut self, index: Idx<T>, value: V) -> Option<V> {
        let place = index.place();
        if self.values.len() <= place {
            self.values.resize_with(place + 1, || None);
        }
        self.values[place].replace(value)
    }

    pub fn get(&self, index: Idx<T>) -> Option<&V> {
        self.values.get(index.place())?.as_ref()
    }

    /// The values with their numbers, ascending.
    pub fn iter(&self) -> impl Iterator<Item = (Idx<T>, &V)> {
        let numbered = self.values.iter().enumerate();
        numbered.filter_map(|(place, value)| Some((Idx::of_place(place), value.as_ref()?)))
    }

    pub fn values(&self) -> impl Iterator<Item = &V> {
        self.values.iter().flatten()
    }

    pub fn shrink_to_fit(&mut self) {
        self.values.shrink_to_fit();
    }
}

impl<T, V> FromIterator<(Idx<T>, V)> for ArenaMap<Idx<T>, V> {
    fn from_iter<S: IntoIterator<Item = (Idx<T>, V)>>(pairs: S) -> Self {
        let mut map = Self::default();
        for (index, value) in pairs {
            map.insert(index, value);
        }
        map
    }
}
