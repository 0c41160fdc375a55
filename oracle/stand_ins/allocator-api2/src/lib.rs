//! Stands in for the crate allocator-api2: the vectors with an allocator that the solver uses.
//! The allocator is carried along and the memory comes from the standard library's vector.

pub mod alloc {
    pub trait Allocator {}

    #[derive(Clone, Copy, Debug, Default)]
    pub struct Global;

    impl Allocator for Global {}
}

pub mod vec {
    use crate::alloc::{Allocator, Global};
    use std::{
        hash::{Hash, Hasher},
        ops::{Deref, DerefMut, Range},
        slice, vec,
    };

    #[derive(Clone, Debug)]
    pub struct Vec<T, A: Allocator = Global> {
        items: vec::Vec<T>,
        allocator: A,
    }

    impl<T> Vec<T, Global> {
        pub const fn new() -> Self {
            Self::new_in(Global)
        }
    }

    impl<T> Default for Vec<T, Global> {
        fn default() -> Self {
            Self::new()
        }
    }

    impl<T, A: Allocator> Vec<T, A> {
        pub const fn new_in(allocator: A) -> Self {
            Self {
                items: vec::Vec::new(),
                allocator,
            }
        }

        pub fn with_capacity_in(capacity: usize, allocator: A) -> Self {
            Self {
                items: vec::Vec::with_capacity(capacity),
                allocator,
            }
        }

        pub fn allocator(&self) -> &A {
            &self.allocator
        }

        pub fn push(&mut self, item: T) {
            self.items.push(item)
        }

        pub fn insert(&mut self, index: usize, item: T) {
            self.items.insert(index, item)
        }

        pub fn drain(&mut self, range: Range<usize>) -> vec::Drain<'_, T> {
            self.items.drain(range)
        }
    }

    impl<T, A: Allocator> Deref for Vec<T, A> {
        type Target = [T];

        fn deref(&self) -> &[T] {
            &self.items
        }
    }

    impl<T, A: Allocator> DerefMut for Vec<T, A> {
        fn deref_mut(&mut self) -> &mut [T] {
            &mut self.items
        }
    }

    impl<T, A: Allocator> Extend<T> for Vec<T, A> {
        fn extend<I: IntoIterator<Item = T>>(&mut self, items: I) {
            self.items.extend(items)
        }
    }

    impl<T> FromIterator<T> for Vec<T, Global> {
        fn from_iter<I: IntoIterator<Item = T>>(items: I) -> Self {
            Self {
                items: items.into_iter().collect(),
                allocator: Global,
            }
        }
    }

    impl<'a, T, A: Allocator> IntoIterator for &'a Vec<T, A> {
        type Item = &'a T;
        type IntoIter = slice::Iter<'a, T>;

        fn into_iter(self) -> slice::Iter<'a, T> {
            self.items.iter()
        }
    }

    impl<T: Hash, A: Allocator> Hash for Vec<T, A> {
        fn hash<H: Hasher>(&self, hasher: &mut H) {
            self.items.hash(hasher)
        }
    }
}
