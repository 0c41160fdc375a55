//! Arguments of rebuilds.

use crate::{
    sheet::{given, plan, some_sheet},
    Random,
};
use sheet::{decode, encode, Call, Job, Routes, Sheet};

/// A sheet of a rebuild, one in ten of them refused. It depends on the seed and its number alone.
pub fn walk(seed: u64, index: u64) -> Sheet {
    some_sheet(&mut Random::new(seed, index), Call::Rebuild)
}

/// A sheet of a job that is accepted where the job has as many stops as are given.
pub fn walk_sheet(random: &mut Random, job: Job) -> Sheet {
    let routes = some_routes(random, job.vehicles.len(), job.stops.len());
    let given = match some_picks(random, &routes, job.stops.len()) {
        Some(picks) => picks.iter().map(|&pick| pick as u32).collect(),
        None => given(random, Call::Rebuild, &job),
    };

    Sheet {
        call: Call::Rebuild,
        given,
        plan: encode(&routes, job.stops.len()),
        job,
    }
}

/// The routes of any plan, or of one with few stops on each route, so that regions of all sizes come up.
fn some_routes(random: &mut Random, vehicle_count: usize, stop_count: usize) -> Routes {
    if random.once_in(4) {
        let plan = plan(random, vehicle_count, stop_count);

        return decode(&plan, vehicle_count, stop_count).expect("a plan");
    }

    let mut stops = (0..stop_count).collect::<Vec<_>>();

    random.shuffle(&mut stops);

    (0..vehicle_count)
        .map(|_| {
            let count = random.choose(&[0, 1, 1, 1, 2, 2, 3, 4, 5, 7, 8]);

            stops.split_off(stops.len().saturating_sub(count))
        })
        .collect()
}

/// Stops to rebuild around, where there are such: mostly on two routes, else two on one, one of two on none, or one alone.
fn some_picks(random: &mut Random, routes: &Routes, stop_count: usize) -> Option<Vec<usize>> {
    let mut used = routes
        .iter()
        .filter(|route| !route.is_empty())
        .collect::<Vec<_>>();

    random.shuffle(&mut used);

    let first = random.choose(used.first()?);

    match random.below(18) {
        0 => None,
        1 => Some(vec![first]),
        2 | 3 => {
            let others = used[0].iter().filter(|&&other| other != first);
            let others = others.copied().collect::<Vec<_>>();

            with_one_of(random, first, &others)
        }
        4 | 5 => {
            let unplaced = (0..stop_count)
                .filter(|stop| !routes.iter().any(|route| route.contains(stop)))
                .collect::<Vec<_>>();

            with_one_of(random, first, &unplaced)
        }
        _ => with_one_of(random, first, used.get(1)?),
    }
}

/// A stop and one of some others, in either order.
fn with_one_of(random: &mut Random, stop: usize, others: &[usize]) -> Option<Vec<usize>> {
    if others.is_empty() {
        return None;
    }

    let mut picks = vec![stop, random.choose(others)];

    random.shuffle(&mut picks);
    Some(picks)
}

/// The stops that a rebuild drains, of each region, in the order of the picks that it keeps.
pub fn drained(routes: &Routes, picks: &[u32]) -> Vec<Vec<usize>> {
    let mut kept = vec![];

    for &pick in picks {
        let has = |route: &Vec<usize>| route.contains(&(pick as usize));

        if let Some(route) = routes.iter().find(|route| has(route)) {
            // A route that a pick before is on has its region already.
            if !kept.iter().any(|(other, _)| *other == route) {
                kept.push((route, pick as usize));
            }
        }
    }

    let count = kept.len();

    kept.into_iter()
        .map(|(route, pick)| {
            let size = (8 - picks.len()) / count;
            let before = route.iter().take_while(|&&stop| stop != pick).count();
            let region = route.iter().skip(before.saturating_sub(size / 2));

            region.take(size).copied().collect()
        })
        .collect()
}

#[cfg(test)]
mod tests {
    use super::*;
    use crate::job::walk_job;
    use sheet::refusal;
    use std::collections::BTreeMap;

    #[test]
    fn refuses_no_rebuild_of_stops() {
        for index in 0..300 {
            let random = &mut Random::new(1, index);
            let job = walk_job(random);
            let stop_count = job.stops.len();
            let sheet = walk_sheet(random, job);
            let is_possible = sheet.given.len() <= stop_count;

            assert_eq!(refusal(&sheet).is_none(), is_possible, "{index}");
        }
    }

    #[test]
    fn drains_what_the_scope_says() {
        let routes = vec![
            (0..10).collect::<Vec<_>>(),
            vec![],
            (10..14).collect(),
            vec![14],
        ];

        for (picks, regions) in [
            // Seven stops round one. The region begins with the route, and ends with it.
            (&[1][..], &[(0, 7)][..]),
            (&[5], &[(2, 9)]),
            (&[9], &[(6, 10)]),
            (&[12], &[(10, 14)]),
            (&[14], &[(14, 15)]),
            // Three round each of two, also where the first comes later.
            (&[5, 11], &[(4, 7), (10, 13)]),
            (&[13, 0], &[(12, 14), (0, 3)]),
            (&[14, 9], &[(14, 15), (8, 10)]),
            // Six round the one that is kept.
            (&[5, 9], &[(2, 8)]),
            (&[9, 5], &[(6, 10)]),
            (&[15, 10], &[(10, 14)]),
            (&[10, 15], &[(10, 14)]),
            (&[15], &[]),
            (&[15, 16], &[]),
        ] {
            let regions = regions.iter().map(|&(start, end)| (start..end).collect());

            assert_eq!(
                drained(&routes, picks),
                regions.collect::<Vec<Vec<_>>>(),
                "{picks:?}"
            );
        }
    }

    #[test]
    fn makes_regions_of_every_size() {
        let sheets = (0..3_000)
            .map(|index| walk(1, index))
            .filter(|sheet| refusal(sheet).is_none())
            .collect::<Vec<_>>();
        let mut counts = BTreeMap::<_, usize>::new();

        for Sheet {
            given, plan, job, ..
        } in &sheets
        {
            let routes = decode(plan, job.vehicles.len(), job.stops.len()).expect("a plan");

            let regions = drained(&routes, given);
            let sizes = regions.iter().map(Vec::len).collect::<Vec<_>>();

            *counts.entry(sizes).or_default() += 1;
        }

        let two = (1..=3).flat_map(|first| (1..=3).map(move |second| vec![first, second]));
        let one = (1..=7).map(|count| vec![count]);
        let on_two = counts
            .iter()
            .filter(|(regions, _)| regions.len() == 2)
            .map(|(_, count)| count)
            .sum::<usize>();

        assert!(sheets.len() > 2_500, "{}", sheets.len());
        assert!(5 * on_two > 2 * sheets.len(), "{on_two}");

        for regions in two.chain(one).chain([vec![]]) {
            assert!(counts.get(&regions) > Some(&50), "{regions:?}");
        }

        assert_eq!(counts.len(), 9 + 7 + 1);
    }
}
