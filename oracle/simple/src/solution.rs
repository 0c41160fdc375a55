use allocator_api2::{
    alloc::{Allocator, Global},
    vec::Vec,
};
use core::BasicSolution;
use std::{
    hash::{Hash, Hasher},
    ops::Range,
    rc::Rc,
};

// TODO Use persistent data structure.
// TODO Make it more compact.
#[derive(Clone, Debug)]
pub struct Solution<A: Allocator = Global> {
    routes: Vec<Rc<Vec<usize, A>>, A>,
}

impl<A: Allocator> Solution<A> {
    pub fn new(routes: Vec<Rc<Vec<usize, A>>, A>) -> Self {
        Self { routes }
    }

    pub fn routes(&self) -> &[Rc<Vec<usize, A>>] {
        &self.routes
    }

    pub fn has_stop(&self, stop_index: usize) -> bool {
        self.routes
            .iter()
            .any(|stop_indexes| stop_indexes.contains(&stop_index))
    }

    #[must_use]
    pub fn add_stop(&self, vehicle_index: usize, stop_index: usize) -> Self
    where
        A: Clone,
    {
        let mut route = self.clone_route(vehicle_index);
        route.push(stop_index);

        let mut routes = self.routes.clone();
        routes[vehicle_index] = route.into();

        Self::new(routes)
    }

    #[must_use]
    pub fn insert_stop(
        &self,
        vehicle_index: usize,
        insertion_index: usize,
        stop_index: usize,
    ) -> Self
    where
        A: Clone,
    {
        let mut route = self.clone_route(vehicle_index);
        route.insert(insertion_index, stop_index);

        let mut routes = self.routes.clone();
        routes[vehicle_index] = route.into();

        Self::new(routes)
    }

    #[must_use]
    pub fn extend_route(
        &self,
        vehicle_index: usize,
        stop_indexes: impl IntoIterator<Item = usize>,
    ) -> Self
    where
        A: Clone,
    {
        let mut route = self.clone_route(vehicle_index);
        route.extend(stop_indexes);

        let mut routes = self.routes.clone();
        routes[vehicle_index] = route.into();

        Self::new(routes)
    }

    #[must_use]
    pub fn drain_route(&self, vehicle_index: usize, stop_range: Range<usize>) -> Self
    where
        A: Clone,
    {
        let mut route = self.clone_route(vehicle_index);
        route.drain(stop_range);

        let mut routes = self.routes.clone();
        routes[vehicle_index] = route.into();

        Self::new(routes)
    }

    pub fn clone_in<B: Allocator + Clone>(&self, allocator: B) -> Solution<B> {
        Solution::new({
            let mut routes = Vec::with_capacity_in(self.routes.len(), allocator.clone());
            routes.extend(self.routes().iter().map(|original| {
                let mut route = Vec::with_capacity_in(original.len(), allocator.clone());
                route.extend(original.iter().copied());
                route.into()
            }));
            routes
        })
    }

    #[must_use]
    pub fn reverse_route(&self, vehicle_index: usize) -> Self
    where
        A: Clone,
    {
        let mut route = self.clone_route(vehicle_index);
        route.reverse();

        let mut routes = self.routes.clone();
        routes[vehicle_index] = route.into();

        Self::new(routes)
    }

    fn clone_route(&self, vehicle_index: usize) -> Vec<usize, A>
    where
        A: Clone,
    {
        self.routes[vehicle_index].as_ref().clone()
    }
}

impl Solution<Global> {
    pub fn from_routes(routes: impl IntoIterator<Item = impl IntoIterator<Item = usize>>) -> Self {
        Self::new(
            routes
                .into_iter()
                .map(|route| Rc::new(route.into_iter().collect()))
                .collect(),
        )
    }
}

impl<A: Allocator> BasicSolution for Solution<A> {
    fn routes(&self) -> impl Iterator<Item = impl Iterator<Item = usize>> {
        self.routes.iter().map(|indexes| indexes.iter().copied())
    }
}

impl<A: Allocator> Eq for Solution<A> {}

impl<A: Allocator> PartialEq for Solution<A> {
    fn eq(&self, other: &Self) -> bool {
        self.routes.len() == other.routes.len()
            && self.routes.iter().zip(&other.routes).all(|(one, other)| {
                one.len() == other.len()
                    && one
                        .as_ref()
                        .iter()
                        .zip(other.as_ref())
                        .all(|(one, other)| one == other)
            })
    }
}

impl<A: Allocator> Hash for Solution<A> {
    fn hash<H: Hasher>(&self, hasher: &mut H) {
        self.routes.hash(hasher)
    }
}
