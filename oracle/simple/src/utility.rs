use crate::Solution;
use allocator_api2::alloc::Allocator;
use itertools::Itertools;
use ordered_float::OrderedFloat;
use std::cmp::Ordering;

pub fn permutations<T: Clone>(
    xs: impl IntoIterator<Item = T, IntoIter = impl Iterator<Item = T> + Clone>,
) -> impl Iterator<Item = [T; 2]> {
    let xs = xs.into_iter();
    let ys = xs.clone();

    xs.cartesian_product(ys).map(|(x, y)| [x, y])
}

/// The choice among solutions with their costs: least cost, then most stops placed, then the lower number at the first
/// place where the plans differ. A plan is its routes' lengths and then their stops.
pub fn compare_solutions<A: Allocator>(
    (one, one_cost): (&Solution<A>, f64),
    (other, other_cost): (&Solution<A>, f64),
) -> Ordering {
    let stop_count = |solution: &Solution<A>| {
        solution
            .routes()
            .iter()
            .map(|route| route.len())
            .sum::<usize>()
    };

    OrderedFloat(one_cost)
        .cmp(&OrderedFloat(other_cost))
        .then_with(|| stop_count(other).cmp(&stop_count(one)))
        .then_with(|| {
            let lengths = other.routes().iter().map(|route| route.len());

            one.routes().iter().map(|route| route.len()).cmp(lengths)
        })
        .then_with(|| {
            let stops = other.routes().iter().flat_map(|route| route.iter());

            one.routes()
                .iter()
                .flat_map(|route| route.iter())
                .cmp(stops)
        })
}
