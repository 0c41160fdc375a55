//! Stands in for the crate itertools: the four adaptors that the solver uses, with their order of items.

use std::{collections::HashSet, hash::Hash, vec};

pub trait Itertools: Iterator + Sized {
    /// The items without those that came before.
    fn unique(self) -> vec::IntoIter<Self::Item>
    where
        Self::Item: Clone + Eq + Hash,
    {
        self.unique_by(|item| item.clone())
    }

    /// The first item of each key.
    fn unique_by<K: Eq + Hash>(
        self,
        mut key: impl FnMut(&Self::Item) -> K,
    ) -> vec::IntoIter<Self::Item> {
        let mut keys = HashSet::new();

        self.filter(|item| keys.insert(key(item)))
            .collect::<Vec<_>>()
            .into_iter()
    }

    /// Every choice of two items in the order of their positions. The solver takes no other size.
    fn combinations(self, size: usize) -> vec::IntoIter<Vec<Self::Item>>
    where
        Self::Item: Clone,
    {
        assert_eq!(size, 2);

        let items = self.collect::<Vec<_>>();
        let mut pairs = vec![];

        for (index, one) in items.iter().enumerate() {
            for other in &items[index + 1..] {
                pairs.push(vec![one.clone(), other.clone()]);
            }
        }

        pairs.into_iter()
    }

    /// Every pair of an item of each of the two, the second varying fastest.
    fn cartesian_product<I: IntoIterator>(self, others: I) -> vec::IntoIter<(Self::Item, I::Item)>
    where
        Self::Item: Clone,
        I::IntoIter: Clone,
    {
        let others = others.into_iter();

        self.flat_map(|one| others.clone().map(move |other| (one.clone(), other)))
            .collect::<Vec<_>>()
            .into_iter()
    }
}

impl<I: Iterator> Itertools for I {}
