use sheet::{
    decode, encode, given_live, holds, read_job, read_sheet, write_job, write_sheet, Call, Job,
    Sheet,
};
use std::io;

/// The smallest input found for which `differ` still holds.
pub fn shrink(
    input: &[u8],
    is_job: bool,
    mut differ: impl FnMut(&[u8]) -> io::Result<bool>,
) -> io::Result<Vec<u8>> {
    match read(input, is_job) {
        Some(sheet) => {
            let write = |sheet: &Sheet| write(sheet, is_job).into_bytes();
            let sheet = descend(sheet, candidates, |sheet| differ(&write(sheet)))?;

            Ok(write(&sheet))
        }
        None => descend(
            input.to_vec(),
            |text| shorter_texts(text),
            |text| differ(text),
        ),
    }
}

fn read(input: &[u8], is_job: bool) -> Option<Sheet> {
    if is_job {
        let (job, []) = read_job(input).ok()? else {
            return None;
        };

        Some(Sheet {
            call: Call::Solve,
            given: vec![],
            plan: vec![],
            job,
        })
    } else {
        let (sheet, []) = read_sheet(input).ok()? else {
            return None;
        };

        Some(sheet)
    }
}

fn write(sheet: &Sheet, is_job: bool) -> String {
    if is_job {
        write_job(&sheet.job)
    } else {
        write_sheet(sheet)
    }
}

/// Goes on to the first smaller item that still differs, until there is none.
fn descend<T: Clone>(
    mut item: T,
    candidates: impl Fn(&T) -> Vec<Box<dyn Fn(&T) -> Option<T>>>,
    mut differ: impl FnMut(&T) -> io::Result<bool>,
) -> io::Result<T> {
    loop {
        let mut changed = false;

        // A change that helped is tried again, then the list goes on; indexes may have gone, which is no change.
        for change in candidates(&item) {
            while let Some(smaller) = change(&item) {
                if !differ(&smaller)? {
                    break;
                }

                item = smaller;
                changed = true;
            }
        }

        if !changed {
            return Ok(item);
        }
    }
}

type Change<T> = Box<dyn Fn(&T) -> Option<T>>;

fn candidates(sheet: &Sheet) -> Vec<Change<Sheet>> {
    let mut changes: Vec<Change<Sheet>> = vec![];
    let job = &sheet.job;

    for stop in (0..job.stops.len()).rev() {
        changes.push(Box::new(move |sheet| without_stop(sheet, stop)));
    }

    for vehicle in (0..job.vehicles.len()).rev() {
        changes.push(Box::new(move |sheet| without_vehicle(sheet, vehicle)));
    }

    for location in (0..job.distances.len()).rev() {
        changes.push(Box::new(move |sheet| without_location(sheet, location)));
    }

    for stop in 0..job.stops.len() {
        changes.push(Box::new(move |sheet| not_live(sheet, stop)));
        changes.push(Box::new(move |sheet| unplaced(sheet, stop)));
    }

    for van in 0..job.vehicles.len() {
        changes.push(Box::new(move |sheet| not_held(sheet, van)));
    }

    changes.push(Box::new(|sheet| {
        changed(sheet, |sheet| {
            let count = sheet.job.draws.len();

            sheet.job.draws.truncate(count.div_ceil(2))
        })
    }));
    changes.push(Box::new(|sheet| {
        changed(sheet, |sheet| {
            if sheet.job.draws.len() > 1 {
                sheet.job.draws.pop();
            }
        })
    }));

    for index in 0..sheet.given.len() {
        for less in LESSER {
            changes.push(number(move |sheet| sheet.given.get_mut(index), less));
        }
    }

    for index in 0..job.draws.len() {
        for less in LESSER {
            changes.push(number(move |sheet| sheet.job.draws.get_mut(index), less));
        }
    }

    for less in LESSER {
        changes.push(number(|sheet| Some(&mut sheet.job.limit), less));
        changes.push(number(|sheet| Some(&mut sheet.job.smoothing), less));
        changes.push(number(|sheet| Some(&mut sheet.job.linear), less));
        changes.push(number(|sheet| Some(&mut sheet.job.quadratic), less));
        changes.push(Box::new(move |sheet| {
            changed(sheet, |sheet| sheet.job.missed = less(sheet.job.missed))
        }));
    }

    for index in 0..job.stops.len() {
        for less in LESSER {
            changes.push(number(move |sheet| sheet.job.stops.get_mut(index), less));
        }
    }

    for index in 0..job.vehicles.len() {
        for end in 0..2 {
            for less in LESSER {
                changes.push(number(
                    move |sheet| sheet.job.vehicles.get_mut(index)?.get_mut(end),
                    less,
                ));
            }
        }
    }

    for index in 0..job.distances.len() {
        for other in 0..job.distances.len() {
            for less in LESSER {
                changes.push(number(
                    move |sheet| sheet.job.distances.get_mut(index)?.get_mut(other),
                    less,
                ));
            }
        }
    }

    // Where the number of stops before another counts, only two together can go.
    for stop in (1..job.stops.len()).rev() {
        for other in (0..stop).rev() {
            changes.push(Box::new(move |sheet| {
                without_stop(&without_stop(sheet, stop)?, other)
            }));
        }
    }

    changes
}

/// Ways to a smaller number, the boldest first.
const LESSER: [fn(u64) -> u64; 4] = [
    |_| 0,
    |number| number.min(1),
    |number| number / 2,
    |number| number.saturating_sub(1),
];

fn changed(sheet: &Sheet, change: impl Fn(&mut Sheet)) -> Option<Sheet> {
    let mut new = sheet.clone();

    change(&mut new);

    (new != *sheet).then_some(new)
}

fn number(
    place: impl Fn(&mut Sheet) -> Option<&mut u32> + 'static,
    less: fn(u64) -> u64,
) -> Change<Sheet> {
    Box::new(move |sheet| {
        changed(sheet, |sheet| {
            if let Some(number) = place(sheet) {
                *number = less(*number as u64) as u32;
            }
        })
    })
}

/// The sheet with its plan's routes changed, where it has a plan in form.
fn with_routes(
    sheet: &Sheet,
    job: Job,
    given: Vec<u32>,
    change: impl Fn(&mut Vec<Vec<usize>>),
) -> Option<Sheet> {
    let mut plan = vec![];

    if sheet.call.has_plan() {
        let mut routes = decode(&sheet.plan, sheet.job.vehicles.len(), sheet.job.stops.len())?;

        change(&mut routes);
        plan = encode(&routes, job.stops.len());
    }

    Some(Sheet {
        call: sheet.call,
        given,
        plan,
        job,
    })
}

fn without_stop(sheet: &Sheet, stop: usize) -> Option<Sheet> {
    let given_stops = match sheet.call {
        Call::Arrive | Call::Cancel => &sheet.given[..1],
        Call::View | Call::Roadworks => &[],
        Call::MoveStop => &sheet.given[1..2],
        _ => &sheet.given,
    };

    if stop >= sheet.job.stops.len() || given_stops.contains(&(stop as u32)) {
        return None;
    }

    let mut job = sheet.job.clone();
    let mut given = given_stops
        .iter()
        .map(|&other| other - (other as usize > stop) as u32)
        .collect::<Vec<_>>();

    if sheet.call.has_live_stops() {
        let below = sheet.live() & ((1 << stop) - 1);
        let above = sheet.live() >> stop >> 1 << stop;

        given = given_live(given[0], below | above);
    }

    if sheet.call.has_vans() {
        let mut same = sheet.given.clone();

        same[1..]
            .iter_mut()
            .zip(given)
            .for_each(|(old, new)| *old = new);
        given = same;
    }

    if sheet.call.has_road() {
        given = sheet.given.clone();
    }

    job.stops.remove(stop);
    with_routes(sheet, job, given, |routes| {
        for route in routes {
            route.retain(|&other| other != stop);

            for other in route {
                *other -= (*other > stop) as usize;
            }
        }
    })
}

fn without_vehicle(sheet: &Sheet, vehicle: usize) -> Option<Sheet> {
    if vehicle >= sheet.job.vehicles.len() {
        return None;
    }

    let mut job = sheet.job.clone();
    let mut given = sheet.given.clone();

    if sheet.call.has_vans() {
        let below = sheet.vans() & ((1 << vehicle) - 1);

        given[0] = below | sheet.vans() >> vehicle >> 1 << vehicle;
    }

    if sheet.call == Call::MoveStop {
        if sheet.van() as usize == vehicle {
            return None;
        }

        given[2] -= (sheet.van() as usize > vehicle) as u32;
    }

    job.vehicles.remove(vehicle);
    with_routes(sheet, job, given, |routes| {
        routes.remove(vehicle);
    })
}

fn unplaced(sheet: &Sheet, stop: usize) -> Option<Sheet> {
    if !sheet.call.has_plan() {
        return None;
    }

    let new = with_routes(sheet, sheet.job.clone(), sheet.given.clone(), |routes| {
        for route in routes {
            route.retain(|&other| other != stop);
        }
    })?;

    (new != *sheet).then_some(new)
}

/// The sheet with a stop that is neither live nor placed.
fn not_live(sheet: &Sheet, stop: usize) -> Option<Sheet> {
    if !sheet.call.has_live_stops() {
        return None;
    }

    let given = given_live(sheet.stop(), sheet.live() & !(1 << stop));
    let new = with_routes(sheet, sheet.job.clone(), given, |routes| {
        for route in routes {
            route.retain(|&other| other != stop);
        }
    })?;

    (new != *sheet).then_some(new)
}

/// The sheet with a van that the caller does not hold.
fn not_held(sheet: &Sheet, van: usize) -> Option<Sheet> {
    if !sheet.call.has_vans() || !holds(sheet.vans(), van) {
        return None;
    }

    changed(sheet, |sheet| sheet.given[0] &= !(1 << van))
}

/// The job without a location. What was there moves to location 0.
fn without_location(sheet: &Sheet, location: usize) -> Option<Sheet> {
    if location >= sheet.job.distances.len() {
        return None;
    }

    let mut new = sheet.clone();
    let Sheet { given, job, .. } = &mut new;
    let road = if sheet.call.has_road() { 2 } else { 0 };

    job.distances.remove(location);

    for row in &mut job.distances {
        row.remove(location);
    }

    for place in job
        .vehicles
        .iter_mut()
        .flatten()
        .chain(&mut job.stops)
        .chain(&mut given[..road])
    {
        if *place as usize == location {
            *place = 0;
        } else if *place as usize > location {
            *place -= 1;
        }
    }

    Some(new)
}

/// Texts without some of their lines or bytes.
fn shorter_texts(text: &[u8]) -> Vec<Change<Vec<u8>>> {
    let mut changes: Vec<Change<Vec<u8>>> = vec![];
    let mut length = text.len() / 2;

    while length > 0 {
        for start in (0..text.len()).step_by(length) {
            changes.push(Box::new(move |text| {
                if start >= text.len() {
                    return None;
                }

                let end = (start + length).min(text.len());

                Some([&text[..start], &text[end..]].concat())
            }));
        }

        length /= 2;
    }

    changes
}
