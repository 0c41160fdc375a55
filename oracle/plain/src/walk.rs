//! The walk of a rebuild in the request's words: it fills the first pick's region before the second's, and counts. Nothing is
//! weighed here, as the choice is by rule and not by the order of finding; `arrange.rs` makes it, in an order of its own.

use crate::rebuild::Region;
use sheet::Routes;

/// How many fillings of the first region a walk begins, and how many arrangements it completes.
#[derive(Clone, Copy, Debug, Default, Eq, PartialEq)]
pub struct Counts {
    pub begun: u64,
    pub completed: u64,
}

/// Walks over the arrangements of the stops of the regions, which are in the order of their picks, and shows each to `meet`.
/// Where no pick is placed there is no region, and nothing is walked.
pub fn count(routes: &Routes, regions: &[Region], meet: impl FnMut(&Routes)) -> Counts {
    let mut walk = Walk {
        routes: routes.clone(),
        ends: vec![],
        left: vec![],
        counts: Counts::default(),
        meet,
    };

    for (vehicle, range) in regions {
        walk.ends.push((*vehicle, range.start));
        walk.left.extend(walk.routes[*vehicle].drain(range.clone()));
    }

    if !regions.is_empty() {
        walk.fill(0);
    }

    walk.counts
}

struct Walk<F> {
    /// The plan with the regions as far as they are filled.
    routes: Routes,
    /// Each region's vehicle, and where the next stop goes there.
    ends: Vec<(usize, usize)>,
    /// The drained stops that are in no region.
    left: Vec<usize>,
    counts: Counts,
    meet: F,
}

impl<F: FnMut(&Routes)> Walk<F> {
    /// Takes a region as it is filled now, with every filling of the later ones; then with each stop that is left behind.
    fn fill(&mut self, region: usize) {
        if region == self.ends.len() {
            self.counts.completed += 1;
            (self.meet)(&self.routes);
            return;
        }

        if region == 0 {
            self.counts.begun += 1;
        }

        self.fill(region + 1);

        let (vehicle, end) = self.ends[region];

        for index in 0..self.left.len() {
            let stop = self.left.remove(index);

            self.routes[vehicle].insert(end, stop);
            self.ends[region].1 += 1;
            self.fill(region);
            self.ends[region].1 -= 1;
            self.routes[vehicle].remove(end);
            self.left.insert(index, stop);
        }
    }
}

#[cfg(test)]
mod tests {
    use super::*;
    use crate::Plain;
    use sheet::{encode, Job, Planner, Rebuilt};
    use std::{cmp::Reverse, collections::BTreeSet};

    /// What a walk over regions counts, and what it meets.
    fn walked(routes: &Routes, regions: &[Region]) -> (Counts, Vec<Routes>) {
        let mut met = vec![];
        let counts = count(routes, regions, |routes| met.push(routes.clone()));

        (counts, met)
    }

    /// What a region of an arrangement is filled with, where so many stops of its route are behind it.
    fn filling(routes: &Routes, (vehicle, range): &Region, behind: usize) -> Vec<usize> {
        let route = &routes[*vehicle];

        route[range.start..route.len() - behind].to_vec()
    }

    /// Routes of so many stops, and one stop before and two behind them.
    fn surrounded(counts: &[usize]) -> (Routes, Vec<Region>) {
        let mut stops = 0..;
        let routes = counts
            .iter()
            .map(|count| stops.by_ref().take(count + 3).collect())
            .collect();
        let regions = counts.iter().map(|count| 1..count + 1).enumerate();

        (routes, regions.collect())
    }

    /// The number of sequences of some of so many stops.
    fn sequences(count: u64) -> u64 {
        (1..=count).fold(1, |number, count| 1 + count * number)
    }

    /// The same for two sequences without a common stop.
    fn pairs_of_sequences(count: u64) -> u64 {
        (1..=count).fold(1, |number, stops| sequences(stops) + stops * number)
    }

    #[test]
    fn has_the_figures_of_the_request() {
        for (stops, begun, completed) in [
            (&[3, 3][..], 1_957, 11_743),
            (&[7], 13_700, 13_700),
            (&[6], 1_957, 1_957),
            (&[1], 2, 2),
            (&[1, 1], 5, 11),
            (&[], 0, 0),
        ] {
            let (routes, regions) = surrounded(stops);

            assert_eq!(walked(&routes, &regions).0, Counts { begun, completed });
        }
    }

    #[test]
    fn counts_each_different_one_once() {
        let one = (1..=7).map(|stops| vec![stops]);
        let two = (1..=3).flat_map(|stops| (1..=3).map(move |others| vec![stops, others]));

        for stops in one.chain(two) {
            let (routes, regions) = surrounded(&stops);
            let (Counts { begun, completed }, met) = walked(&routes, &regions);
            let first = met.iter().map(|routes| filling(routes, &regions[0], 2));
            let mut first = first.collect::<Vec<_>>();
            let different = met.iter().collect::<BTreeSet<_>>().len() as u64;
            let different_first = first.iter().collect::<BTreeSet<_>>().len() as u64;
            let drained = stops.iter().sum::<usize>() as u64;

            // Route by route: no filling of the first region comes again after another.
            first.dedup();

            assert_eq!(completed, met.len() as u64);
            assert_eq!(completed, different);
            assert_eq!(begun, first.len() as u64);
            assert_eq!(begun, different_first);
            assert_eq!(begun, sequences(drained));
            assert_eq!(
                completed,
                match stops.len() {
                    1 => sequences(drained),
                    _ => pairs_of_sequences(drained),
                }
            );
        }
    }

    #[test]
    fn meets_arrangements_alone() {
        let (routes, regions) = surrounded(&[2, 1]);
        let (_, met) = walked(&routes, &regions);
        let mut fillings = BTreeSet::new();

        for arrangement in &met {
            let both = [0, 1].map(|region| filling(arrangement, &regions[region], 2));
            let all = both.concat();

            // Each of the drained stops, once at most, and the others where they were.
            assert!(all.iter().all(|stop| [1, 2, 6].contains(stop)));
            assert_eq!(all.iter().collect::<BTreeSet<_>>().len(), all.len());

            let mut filled = routes.clone();

            filled[0].splice(1..3, both[0].iter().copied());
            filled[1].splice(1..2, both[1].iter().copied());
            assert_eq!(filled, *arrangement);
            fillings.insert(both);
        }

        assert!(met.contains(&routes));
        assert!(fillings.contains(&[vec![], vec![]]));
        assert!(fillings.contains(&[vec![6, 2], vec![1]]));
        assert!(fillings.contains(&[vec![], vec![2, 1, 6]]));
    }

    /// A job of three vehicles and eight stops, of which the first route has four, the second three, and the third none.
    fn job(missed: u64) -> (Job, Routes) {
        let distances = (0..9)
            .map(|from| (0..9).map(|to| (from * 5 + to * to * 3) % 11).collect())
            .collect();
        let job = Job {
            vehicles: vec![[8, 8], [7, 8], [8, 7]],
            stops: (0..8).collect(),
            distances,
            linear: 1,
            quadratic: 1,
            missed,
            ..Job::default()
        };

        (job, vec![vec![0, 1, 2, 3], vec![4, 5, 6], vec![]])
    }

    #[test]
    fn begins_with_the_first_pick_that_is_kept() {
        let (job, routes) = job(9);

        for (picks, begun, completed) in [
            (&[0][..], 65, 65),
            (&[1, 4], 1_957, 11_743),
            (&[4, 1], 1_957, 11_743),
            (&[3, 4], 326, 1_631),
            (&[4, 3], 326, 1_631),
            (&[4, 6], 16, 16),
            (&[7, 4], 16, 16),
            (&[4, 7], 16, 16),
            (&[7], 0, 0),
        ] {
            let rebuilt = Plain::rebuild(&job, &routes, picks);

            assert_eq!((rebuilt.begun, rebuilt.completed), (begun, completed));
        }
    }

    #[test]
    fn meets_what_is_kept() {
        for missed in [0, 20, 60, 200, 10_000] {
            let (job, routes) = job(missed);

            for picks in [&[0][..], &[1, 4], &[5, 2], &[6, 0], &[4, 6], &[7, 3]] {
                let Rebuilt { routes: kept, .. } = Plain::rebuild(&job, &routes, picks);
                let day = crate::Day::new(&job);
                let plan = crate::Plan::from_routes(&day, &routes);
                let regions = crate::rebuild::regions(&plan, picks);
                let (_, met) = walked(&routes, &regions);
                let best = met.iter().min_by_key(|routes| {
                    let placed = routes.iter().map(Vec::len).sum::<usize>();

                    (
                        Plain::weigh(&job, routes),
                        Reverse(placed),
                        encode(routes, job.stops.len()),
                    )
                });

                assert_eq!(best, Some(&kept));
            }
        }
    }
}
