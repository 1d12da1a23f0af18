//! A stand-in for the part of the crate id-arena that souper-ir uses: rows kept in a list, and their places as identities.
use std::{fmt, hash, marker::PhantomData, ops::Index};

/// The place of a row in an arena.
pub struct Id<T> {
    index: usize,
    of: PhantomData<fn() -> T>,
}

impl<T> Copy for Id<T> {}
impl<T> Clone for Id<T> {
    fn clone(&self) -> Self {
        *self
    }
}
impl<T> Eq for Id<T> {}
impl<T> PartialEq for Id<T> {
    fn eq(&self, other: &Self) -> bool {
        self.index == other.index
    }
}
impl<T> hash::Hash for Id<T> {
    fn hash<H: hash::Hasher>(&self, state: &mut H) {
        self.index.hash(state)
    }
}
impl<T> fmt::Debug for Id<T> {
    fn fmt(&self, f: &mut fmt::Formatter) -> fmt::Result {
        write!(f, "Id({})", self.index)
    }
}

/// A list of rows that only grows.
#[derive(Clone, Debug)]
pub struct Arena<T> {
    rows: Vec<T>,
}

impl<T> Arena<T> {
    pub fn new() -> Self {
        Arena { rows: vec![] }
    }

    pub fn alloc(&mut self, row: T) -> Id<T> {
        self.rows.push(row);
        Id { index: self.rows.len() - 1, of: PhantomData }
    }

    pub fn len(&self) -> usize {
        self.rows.len()
    }

    pub fn iter(&self) -> impl Iterator<Item = (Id<T>, &T)> {
        self.rows.iter().enumerate().map(|(index, row)| (Id { index, of: PhantomData }, row))
    }
}

impl<T> Default for Arena<T> {
    fn default() -> Self {
        Arena::new()
    }
}

impl<T> Index<Id<T>> for Arena<T> {
    type Output = T;
    fn index(&self, id: Id<T>) -> &T {
        &self.rows[id.index]
    }
}
