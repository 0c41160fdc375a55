//! Arguments of roadworks.

use crate::{
    job::MAX_DISTANCE,
    sheet::{plan, some_sheet},
    Random,
};
use sheet::{decode, Call, Job, Road, Routes, Sheet};

/// A sheet of roadworks, one in ten of them refused. It depends on the seed and its number alone.
pub fn road(seed: u64, index: u64) -> Sheet {
    some_sheet(&mut Random::new(seed, index), Call::Roadworks)
}

/// A sheet of a job that is accepted where the job has a location.
pub fn road_sheet(random: &mut Random, job: Job) -> Sheet {
    let (vehicle_count, stop_count) = (job.vehicles.len(), job.stops.len());
    let plan = plan(random, vehicle_count, stop_count);
    let routes = decode(&plan, vehicle_count, stop_count).expect("a plan");
    let [from, to] = some_leg(random, &job, &routes);
    let more = match job.distances.get(from as usize) {
        Some(row) => longer(random, MAX_DISTANCE - row[to as usize]),
        None => 0,
    };

    Sheet {
        call: Call::Roadworks,
        given: Road { from, to, more }.given(),
        plan,
        job,
    }
}

/// Two locations, most often of a leg of the plan, and where there are such of one that the plan has several times; else of
/// such a leg the other way round, one location twice, or any.
fn some_leg(random: &mut Random, job: &Job, routes: &Routes) -> [u32; 2] {
    let location_count = job.distances.len();

    if location_count == 0 {
        return [0, 0];
    }

    let legs = (0..routes.len())
        .flat_map(|vehicle| legs(job, vehicle, &routes[vehicle]))
        .collect::<Vec<_>>();
    let several = legs
        .iter()
        .copied()
        .filter(|leg| legs.iter().filter(|other| *other == leg).count() > 1)
        .collect::<Vec<_>>();
    let any = [0; 2].map(|_| random.below(location_count) as u32);

    match random.below(16) {
        0 => any,
        1 => [any[0]; 2],
        2 if !legs.is_empty() => {
            let [from, to] = random.choose(&legs);

            [to, from]
        }
        3..=9 if !several.is_empty() => random.choose(&several),
        _ if !legs.is_empty() => random.choose(&legs),
        _ => any,
    }
}

/// How many legs are a road, of each route that has such.
pub fn uses(job: &Job, routes: &Routes, road: Road) -> Vec<usize> {
    (0..routes.len())
        .map(|vehicle| {
            legs(job, vehicle, &routes[vehicle])
                .into_iter()
                .filter(|&leg| leg == [road.from, road.to])
                .count()
        })
        .filter(|&count| count > 0)
        .collect()
}

/// The locations of each leg of a route, of start and end where it has no stop.
fn legs(job: &Job, vehicle: usize, stops: &[usize]) -> Vec<[u32; 2]> {
    let [mut from, end] = job.vehicles[vehicle];
    let mut legs = vec![];

    for to in stops.iter().map(|&stop| job.stops[stop]).chain([end]) {
        legs.push([from, to]);
        from = to;
    }

    legs
}

/// Metres up to the most that a road has room for: none, one, few, all of them or any.
fn longer(random: &mut Random, room: u32) -> u32 {
    let any = random.small(0..=room);

    match random.below(12) {
        0 => 0,
        1 => 1,
        2..=4 => random.small(1..=20),
        5 | 6 => room,
        _ => any,
    }
    .min(room)
}

#[cfg(test)]
mod tests {
    use super::*;
    use crate::job::road_job;
    use sheet::refusal;

    #[test]
    fn refuses_no_road_in_the_table() {
        for index in 0..300 {
            let random = &mut Random::new(1, index);
            let job = road_job(random);
            let is_possible = !job.distances.is_empty();
            let sheet = road_sheet(random, job);

            assert_eq!(refusal(&sheet).is_none(), is_possible, "{index}");
        }
    }

    #[test]
    fn makes_roads_of_every_use() {
        let sheets = (0..1_000)
            .map(|index| road(1, index))
            .filter(|sheet| refusal(sheet).is_none())
            .collect::<Vec<_>>();
        let mut counts = [0; 8];

        for sheet in &sheets {
            let Job {
                vehicles,
                stops,
                distances,
                ..
            } = &sheet.job;
            let routes = decode(&sheet.plan, vehicles.len(), stops.len()).expect("a plan");
            let Road { from, to, more } = sheet.road();
            let uses = uses(&sheet.job, &routes, sheet.road());
            let longer = distances[from as usize][to as usize] + more;

            for (count, is_such) in counts.iter_mut().zip([
                uses.is_empty(),
                uses == [1],
                uses.len() == 1 && uses != [1],
                uses.len() > 1,
                from == to,
                more == 0,
                more == 1,
                longer == MAX_DISTANCE,
            ]) {
                *count += is_such as usize;
            }
        }

        assert!(sheets.len() > 850, "{}", sheets.len());
        assert!(counts.iter().all(|&count| count > 50), "{counts:?}");
    }
}
